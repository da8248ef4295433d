"""Which clauses of a file are the same, and how long the longest chain of crates is."""

import unittest

import support

import count_repeats

CODE = """\
pub fn one(x: u8) -> u8
    requires small { x.now < 9 }
    ensures next { result ≡
        x.now + 1 }
{
    x + 1 // ensures nothing {
}

fn two(x: u8) -> u8
    requires  small {  x.now < 9 }
    ensures same { result ≡ x.now }
{
"""


class Repeats(unittest.TestCase):
    def test_a_clause_goes_on_until_its_braces_close(self):
        self.assertEqual(
            list(count_repeats.clauses_of(CODE)),
            [
                "requires small { x.now < 9 }",
                "ensures next { result ≡ x.now + 1 }",
                "requires small { x.now < 9 }",
                "ensures same { result ≡ x.now }",
            ],
        )

    def test_the_longest_chain_goes_from_the_top_down(self):
        layers = [
            ("base", [("low", ["kit"]), ("mid", ["low"])]),
            ("top", [("app", ["low", "mid"]), ("lone", [])]),
        ]
        self.assertEqual(count_repeats.longest_chain(layers), ["app", "mid", "low"])

    def test_the_repository_is_within_its_numbers(self):
        count = count_repeats.all_clauses(support.ROOT)
        self.assertGreater(count.total(), 1000)
        self.assertLessEqual(sum(it - 1 for it in count.values()), count_repeats.MOST_REPEATS)


if __name__ == "__main__":
    unittest.main()
