"""Long lines of proofs and clauses are broken, and nothing else of a file is."""

import unittest

import support  # noqa: F401

import break_lines

LONG = "holds x → " * 30 + "done"


class BreakLines(unittest.TestCase):
    def test_a_proof_is_broken_before_its_arrows(self):
        lines = break_lines.laid_out("lemma : " + LONG).split("\n")
        self.assertGreater(len(lines), 1)
        self.assertTrue(all(len(it) <= break_lines.WIDEST for it in lines))
        self.assertTrue(all(it.startswith("    →") for it in lines[1:]))

    def test_a_clause_is_broken_and_code_is_not(self):
        clause, code = f"    ensures {{ {LONG} }}", "    let text = " + '"' + "a " * 150 + '";'
        lines = break_lines.laid_out(f"{clause}\n{code}", is_code=True).split("\n")
        self.assertEqual(lines[-1], code)
        self.assertEqual(len(lines), 3)
        self.assertTrue(all(len(it) <= break_lines.WIDEST_CLAUSE for it in lines[:2]))

    def test_a_line_without_another_place_is_broken_before_an_argument(self):
        lines = break_lines.laid_out("    let k = lemma " + "c.args.some.long.name " * 10 + "in").split("\n")
        self.assertEqual(len(lines), 2)
        self.assertTrue(all(len(it) <= break_lines.WIDEST for it in lines))
        self.assertTrue(lines[1].strip().startswith("c.args"))

    def test_text_between_quotes_stays_whole(self):
        text = '"' + "one word and (one more) " * 6 + '"'
        lines = break_lines.laid_out(f"    lemma {text} ++ {text}").split("\n")
        self.assertTrue(all(it.count('"') % 2 == 0 for it in lines))

    def test_a_ghost_member_is_broken_as_a_clause_is(self):
        member = "    ghost invariant = { λ s. " + "IsSo s.field × " * 20 + "IsLast s };"
        lines = break_lines.laid_out(member, is_code=True).split("\n")
        self.assertGreater(len(lines), 1)
        self.assertTrue(all(len(it) <= break_lines.WIDEST_CLAUSE for it in lines))

    def test_short_lines_and_imports_stay(self):
        text = "use " + "a" * 300 + "\n\nshort : line\n"
        self.assertEqual(break_lines.laid_out(text), text)


if __name__ == "__main__":
    unittest.main()
