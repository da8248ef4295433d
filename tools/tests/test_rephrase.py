"""A line that is offered in place of a faulty one selects the same packets, or none is offered."""

import pathlib
import random
import tempfile
import unittest

from support import confluo, needs_program, tool

from confluo_report.expressions import Attribute, parse_expression
from confluo_report.conditions import SERVICES
from confluo_report.rephrase import rephrased
from confluo_report.setups import SetupFault, faults_of, parse_setup

HALVES = "src6==0x20010db800000000 && src6_low==0x0000000000000001"
# The schema, a faulty line, and the line that is offered.
LINES = (
    ("packet6", "ask q list src6==2001:db8::1", f"ask q list {HALVES}"),
    ("packet6", "ask q list src6==2001:db8::/64", "ask q list src6==0x20010db800000000"),
    ("packet6", "ask q list src6==::", ""),
    ("packet", "ask q list src6==2001:db8::1", ""),
    ("packet", "ask q list flags==2 and dport==80", "ask q list flags==2 && dport==80"),
    ("packet", "filter f not tcp", ""),
    ("packet", "filter f not dport==80", "filter f dport!=80"),
    ("packet", "ask q list (flags==2)", "ask q list flags==2"),
    (
        "packet",
        "ask q list (sport==53 or dport==53) && len>99",
        "ask q list sport==53 && len>99 || dport==53 && len>99",
    ),
    ("packet", "ask q list not (flags==2 or flags==18)", "ask q list flags!=2 && flags!=18"),
    ("packet", "ask q list (flags==2) and flags==18", ""),
    ("packet", "ask q list dport==http", "ask q list dport==80"),
    ("packet", "ask q list len==http", ""),
    ("packet", "ask q list dport=80", "ask q list dport==80"),
    ("packet", "ask q list src==10.0.0.0/8", "ask q list src in 10.0.0.0/8"),
    ("packet", "ask q list smac==02:00:00:00:00:01", "ask q list smac==0x020000000001"),
    ("packet", "ask q list dport==65536", ""),
    ("packet", "ask q list len in 9..5", ""),
    ("packet", "ask q list dprot==80", ""),
    ("packet", "ask q list flags & 2", ""),
    ("packet", "ask q list len>", ""),
    ("packet", "ask q list\tlen>5", "ask q list len>5"),
    ("packet", "\x7fELF\x02\x01\x01", ""),
    ("packet", "index i nosuch", ""),
    ("packet", "filtre f dport==80", "filter f dport==80"),
    ("packet", "foo x", ""),
    ("packet", "ask q between f x 3", ""),
)
ATTRIBUTES = [Attribute(it, "u8") for it in "abc"]


def drawn(draw: random.Random, depth: int) -> str:
    """An expression in Python's words."""
    kind = draw.randrange(5) if depth else 4
    if kind == 0:
        return f"not {drawn(draw, depth - 1)}"
    if kind < 4:
        inner = f" {'and' if kind == 1 else 'or'} ".join(drawn(draw, depth - 1) for _ in range(2))
        return f"({inner})"
    return f"{draw.choice('abc')}{draw.choice(['==', '!=', '<', '<=', '>', '>='])}{draw.randrange(4)}"


class Rephrases(unittest.TestCase):
    def test_what_is_offered(self) -> None:
        for schema, line, right in LINES:
            with self.subTest(line=line), self.assertRaises(SetupFault) as caught:
                parse_setup(f"schema {schema}\n{line}\n".encode("latin-1"))
            self.assertEqual(caught.exception.fault.right, right, line)

    def test_python_finds_the_same(self) -> None:
        draw, found = random.Random(3), 0
        for _ in range(2000):
            text = drawn(draw, 3)
            right = rephrased(ATTRIBUTES, text)
            if not right:
                continue
            found += 1
            expression = parse_expression(ATTRIBUTES, right)
            for _ in range(20):
                row = [draw.randrange(4) for _ in "abc"]
                wanted = eval(text, {}, dict(zip("abc", row)))
                self.assertEqual(expression.holds(row), wanted, (text, right, row))
        self.assertGreater(found, 1000)

    def test_services_are_those_of_the_system(self) -> None:
        path = pathlib.Path("/etc/services")
        if not path.exists():
            self.skipTest("/etc/services is missing: apt-get install netbase")
        known: dict[str, set[str]] = {}
        for line in path.read_text().splitlines():
            words = line.partition("#")[0].split()
            for name in (words[0], *words[2:]) if words else ():
                known.setdefault(name, set()).add(words[1].partition("/")[0])
        for name, port in SERVICES.items():
            if name in known:
                self.assertEqual(known[name], {str(port)}, name)

    def test_src6_names_the_option(self) -> None:
        for line in ("index i src6", "ask q list dst6_low==1", "tally t src6 len *", "ask q list payload>0"):
            (fault,) = faults_of(f"schema packet\n{line}\n".encode())
            self.assertIn("only `schema packet6` has", fault.fault.why)

    @needs_program
    def test_the_program_takes_each_offered_line(self) -> None:
        with tempfile.TemporaryDirectory() as folder:
            path = pathlib.Path(folder, "s")
            for schema, line, right in LINES:
                if right:
                    path.write_text(f"schema {schema}\n{right}\n")
                    self.assertEqual(confluo("run", "--setup", path, "/no/such/capture").status, 9, right)


class Checks(unittest.TestCase):
    def test_all_faults_are_listed(self) -> None:
        setup = (
            "schema packet\nfilter resets flags==4\nask resets list *\ntally protos proto len *\n"
            "ask protos top protos sum 3\naggregate a resets lenn\ntrigger t a most > 5\nask x fired t\n"
            "index i\nask y find i 1 2\nask z list dport==http\nask z2 find nosuch 1 2\n"
        )
        found = [(it.line, it.fault.code) for it in faults_of(setup.encode())]
        self.assertEqual(found, [(3, 5), (5, 5), (6, 6), (7, 3), (9, 3), (11, 10), (12, 6)])
        with tempfile.TemporaryDirectory() as folder:
            path = pathlib.Path(folder, "s")
            path.write_text(setup)
            ended = tool("check", path)
            self.assertEqual((ended.status, ended.err), (1, ""))
            self.assertIn(f"{path}, line 3: the setup is refused, code 5.", ended.out)
            self.assertIn("the name `resets` is that of a filter on a line above", ended.out)
            self.assertIn(f"{path}, line 12: a further fault, code 6.", ended.out)
            self.assertEqual(ended.out.count("Why: "), 7)
            said = tool("explain", "--setup", path, stdin="setup: line 3 code 5\n").out
            self.assertIn(f"There are 6 further faults: `confluo-report check {path}` shows all.", said)

    def test_parentheses_are_for_ask(self) -> None:
        with tempfile.TemporaryDirectory() as folder:
            path = pathlib.Path(folder, "s")
            path.write_text("schema packet\nask q list not (len>5 or ttl==1)\nask r list dport==http\n")
            said = tool("check", path).out
            words = (
                "`confluo-report ask` takes parentheses, `and`, `or` and `not`; a setup doesn't. Write:\n\n"
            )
            self.assertIn(f"{words}    ask q list len<=5 && ttl!=1\n", said)
            self.assertIn("A line that is right and means the same:\n\n    ask r list dport==80\n", said)
            parts = [f"({name}==1 or {name}==9)" for name in ("len", "ttl", "win", "tos")]
            path.write_text(f"schema packet\nask q list {' and '.join(parts)}\n")
            said = tool("check", path).out
            self.assertIn("; without parentheses and `not` it has 64 comparisons, and 32 are the most.", said)
            self.assertNotIn("Write:", said)

    def test_all_faults_of_a_line_are_listed(self) -> None:
        text = b"schema packet\nindex x src\nindex x nosuch\nask x top scr count 9999\nask y find x 1 2\n"
        found = [(it.line, it.fault.code) for it in faults_of(text)]
        self.assertEqual(found, [(3, 5), (3, 6), (4, 5), (4, 6), (4, 7)])

    def test_behind_a_faulty_schema_nothing_is_judged(self) -> None:
        self.assertEqual(len(faults_of(b"schema foo\nask q\nask r\n")), 1)
        self.assertEqual(len(faults_of(b"schema packet\n" + b"#" * 65536)), 1)


if __name__ == "__main__":
    unittest.main()
