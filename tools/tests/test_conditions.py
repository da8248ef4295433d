"""The conditions of `ask`, and the program's form of them."""

import ipaddress
import random
import unittest
from typing import Callable, Sequence

from support import GUIDE, ROOT, tool

from confluo_report import questions
from confluo_report.conditions import ConditionFault, TooLong, program_form
from confluo_report.expressions import Attribute, Value, parse_expression
from confluo_report.setups import PACKETS

SCHEMA = PACKETS["packet6"]
PRIVATE = ("10.0.0.0/8", "172.16.0.0/12", "192.168.0.0/16")
FORMS = (
    ("flags==2 and dport==80", "flags==2 && dport==80"),
    ("kind==2 && flags==20", "kind==2 && flags==20"),
    ("not (dport==80 or dport==443)", "dport!=80 && dport!=443"),
    ("!(len>=60)", "len<=59"),
    ("len not in 60..99", "len not in 60..99"),
    ("not (len  not   in 60..99)", "len in 60..99"),
    ("not (len in 60..99 or len==5)", "len!=5 && len not in 60..99"),
    ("not src in 10.0.0.0/8 and len>5", "src not in 10.0.0.0/8 && len>5"),
    ("src!=10.0.0.0/8 or NOT len>5", "src not in 10.0.0.0/8 || len<=5"),
    ("dport==https OR dport = dns", "dport==443 || dport==53"),
    ("(kind==3 or kind==2) and not dport==0", "kind==3 && dport!=0 || kind==2 && dport!=0"),
    ("flags==2 or (flags==2 and len>60)", "flags==2"),
    ("len>=60 and (len<100)", "len in 60..99"),
    ("src6==2001:db8::1", "src6==0x20010db800000000 && src6_low==0x0000000000000001"),
    ("src6 in 2001:db8::/32", "src6 in 0x20010db800000000..0x20010db8ffffffff"),
    ("src6 not in 2001:db8::/32", "src6 not in 0x20010db800000000..0x20010db8ffffffff"),
    ("dst6!=2001:db8::/64", "dst6!=0x20010db800000000"),
    (
        "not (smac==02-00-00-00-00-01 or smac==02:00:00:00:00:02)",
        "smac!=0x020000000001 && smac!=0x020000000002",
    ),
    ("(smac==0x020000000001) and smac!=0x020000000002", "smac==0x020000000001"),
    ("(dport==80) and dport==443", "ts<0"),
    ("not len<0", "*"),
    ("not (len>=0)", "ts<0"),
    ("* ", "*"),
    ("(" * 99 + "not len>5" + ")" * 99, "len<=5"),
)
# Where the fault is, and why.
FAULTS = (
    ("flags==2 and", 12, "expected a comparison like `dport==443` here, not the end"),
    ("(flags==2", 9, "or the `)` of the `(` at place 1 here, not the end"),
    ("flags==2)", 8, "no parenthesis is open that this one closes"),
    ("(len==5) ttl==1", 9, "expected `and`, `or` or the end here, not `ttl`"),
    ("not", 3, "a comparison"),
    ("and len==5", 0, "a comparison"),
    ("(nope==1)", 1, "no attribute is called `nope`"),
    ("not tcp", 4, "there is no attribute `tcp`: write `proto==6`"),
    ("port 80", 0, "write `(sport==80 or dport==80)`"),
    ("not port==http", 4, "write `(sport==http or dport==http)`"),
    ("port != 20..69", 0, "write `(sport not in 20..69 and dport not in 20..69)`"),
    ("host fd77::5 and len>5", 0, "write `(src==fd77::5 or dst==fd77::5)`"),
    ("net 10.77.0.0/16", 0, "write `(src in 10.77.0.0/16 or dst in 10.77.0.0/16)`"),
    ("port", 0, "write, for example, `(sport==53 or dport==53)`"),
    ("host or len>5", 0, "write, for example, `(src==10.0.0.1 or dst==10.0.0.1)`"),
    ("not len", 7, "expected one of == != < <= > >= in here, not the end"),
    ("(len==)", 6, "expected a value here, not `)`"),
    ("len not 5", 8, "expected `in` here, not `5`"),
    ("len in 9..5", 7, "the range begins at 9, above its end 5"),
    ("len in http", 7, "expected a range like 60..99 or 10.0.0.0/8 here"),
    ("(dport==65536)", 8, "`65536` is not a value of `dport`"),
    ("(len==http)", 6, "expected a value here, not `http`"),
    ("src==10.0.0.0/33", 5, "a network has 0 to 32 bits"),
    ("dmac<0x020000000001", 4, "which compare only by == and !="),
    ("src6==::", 6, "every packet has that is not IPv6"),
    ("src6==2001:db8:::1", 6, "is not an address or a network of IPv6"),
    ("src6>2001:db8::1", 5, "compare only by ==, != and in"),
    ("flags & 2", 6, "`&` is not part of a condition: there are no masks; single flags are `is_syn==1`,"),
    ("* and len>5", 0, "`*` means every packet, and nothing may follow it"),
    ("(" * 5000, 100, "are nested at most 100 deep"),
    ("not " * 5000, 400, "are nested at most 100 deep"),
)
NUMBERS = [Attribute(it, "u8") for it in "abc"]
MOST = 255


def drawn(draw: random.Random, depth: int) -> tuple[str, Callable[[dict[str, int]], bool]]:
    """A condition over NUMBERS, and what it means."""
    kind = draw.randrange(5) if depth else 4
    if kind == 0:
        text, means = drawn(draw, depth - 1)
        return f"{draw.choice(['not ', '!'])}({text})", lambda row: not means(row)
    if kind < 4:
        (a, first), (b, second) = drawn(draw, depth - 1), drawn(draw, depth - 1)
        join = draw.choice((["and", "&&"], ["or", "||"])[kind % 2])
        both = (lambda row: first(row) and second(row), lambda row: first(row) or second(row))[kind % 2]
        return f"({a} {join} {b})", both
    name, low, high = draw.choice("abc"), *sorted(draw.choice((0, 1, 2, 3, 254, MOST)) for _ in range(2))
    if draw.randrange(2):
        no = draw.choice(["", "not "])
        return f"{name} {no}in {low}..{high}", lambda row: (low <= row[name] <= high) != bool(no)
    sign = draw.choice(["==", "!=", "<", "<=", ">", ">="])
    return f"{name}{sign}{low}", lambda row: bool(eval(f"{row[name]}{sign}{low}"))


class Conditions(unittest.TestCase):
    def test_the_program_s_form(self) -> None:
        for text, form in FORMS:
            self.assertEqual(program_form(SCHEMA, text), form, text)

    def test_faults(self) -> None:
        for text, place, why in FAULTS:
            with self.subTest(text=text), self.assertRaises(ConditionFault) as caught:
                program_form(SCHEMA, text)
            self.assertIn(why, caught.exception.why)
            self.assertEqual(caught.exception.place, place)

    def test_the_same_rows_are_meant(self) -> None:
        draw, count = random.Random(5), 0
        for _ in range(700):
            text, means = drawn(draw, 4)
            try:
                form = parse_expression(NUMBERS, program_form(NUMBERS, text))
            except TooLong as fault:
                self.assertGreater(fault.count, 32)
                continue
            count += 1
            for _ in range(20):
                row = [draw.choice((0, 1, 2, 3, 4, 100, 253, 254, MOST)) for _ in "abc"]
                self.assertEqual(form.holds(row), means(dict(zip("abc", row))), (text, form.text, row))
        self.assertGreater(count, 550)

    def test_byte_strings(self) -> None:
        draw, schema = random.Random(6), [Attribute("a", "b1"), Attribute("b", "b2"), Attribute("ts", "u64")]
        for _ in range(200):
            parts = [
                f"{draw.choice(['', 'not '])}{name}{draw.choice(['==', '!='])}0x{value:0{size}x}"
                for name, size, value in (
                    draw.choice([("a", 2, 0), ("a", 2, 255), ("b", 4, 1), ("b", 4, 2)]) for _ in "xyz"
                )
            ]
            text = f"not ({parts[0]} or {parts[1]}) and {parts[2]}"
            form = parse_expression(schema, program_form(schema, text))
            for row in ((b"\0", b"\0\1", 5), (b"\xff", b"\0\2", 5), (b"\1", b"\0\0", 5)):
                values = {"a": f"0x{row[0].hex()}", "b": f"0x{row[1].hex()}"}
                meant = [eval(_quoted(it, values)) for it in parts]
                self.assertEqual(
                    form.holds(row), not (meant[0] or meant[1]) and meant[2], (text, form.text, row)
                )

    def test_networks_of_ipv6(self) -> None:
        draw = random.Random(4)
        place = {it.name: at for at, it in enumerate(SCHEMA)}
        for _ in range(100):
            network = ipaddress.IPv6Network((draw.getrandbits(128) | 1 << 127, draw.randrange(1, 129)), False)
            inside = int(network[0]) + draw.randrange(network.num_addresses)
            for address in (inside, draw.getrandbits(128), (int(network[-1]) + 1) % 2**128):
                row: list[Value] = [0] * len(SCHEMA)
                row[place["src6"]], row[place["src6_low"]] = divmod(address, 2**64)
                is_in = ipaddress.IPv6Address(address) in network
                for text, wanted in ((f"src6 in {network}", is_in), (f"src6 not in {network}", not is_in)):
                    holds = parse_expression(SCHEMA, program_form(SCHEMA, text)).holds(row)
                    self.assertEqual(holds, wanted, (text, address))

    def test_what_is_too_long(self) -> None:
        def all_but(names: Sequence[str], networks: Sequence[str]) -> str:
            return " and ".join(
                f"not ({' or '.join(f'{name} in {it}' for it in networks)})" for name in names
            )

        self.assertEqual(program_form(SCHEMA, all_but(("src", "dst"), PRIVATE)).count("src not in"), 3)
        for text, count in (
            (all_but(("src", "dst"), [f"{it}.0.0.0/8" for it in range(10, 44, 2)]), 34),
            (" and ".join(f"({name}==1 or {name}==2)" for name in ("len", "ttl", "win", "tos")), 64),
            (" or ".join(f"len=={it}" for it in range(33)), 33),
            (" and ".join(f"not len=={it}" for it in range(5000)), 5000),
            (
                " and ".join(f"({name}==1 or {name}==9)" for name in [it.name for it in SCHEMA[5:18]]),
                13 * 2**13,
            ),
        ):
            with self.assertRaises(TooLong) as caught:
                program_form(SCHEMA, text)
            self.assertEqual(caught.exception.count, count)

    def test_a_refusal_says_where_and_how_long(self) -> None:
        ended = tool("ask", "--setup-only", "top src by bytes where (dport==http and len>60")
        self.assertEqual((ended.status, ended.out), (2, ""))
        place = "    top src by bytes where (dport==http and len>60\n" + " " * 50 + "^\n"
        self.assertTrue(ended.err.endswith(place), ended.err)
        ended = tool("ask", "--setup-only", "find dport 65536")
        self.assertIn("    find dport 65536\n               ^", ended.err)
        ended = tool("ask", "--setup-only", "find src6 2001:db8::..2001:db8::5")
        self.assertIn("    find src6 2001:db8::..2001:db8::5\n              ^", ended.err)
        words = " and ".join(f"({name}==1 or {name}==9)" for name in ("len", "ttl", "win", "tos"))
        ended = tool("ask", "--setup-only", f"count {words}")
        self.assertIn("its condition has 64 comparisons, and the program takes 32", ended.err)

    def test_the_guide_has_the_grammar_of_help(self) -> None:
        grammar = (questions.__doc__ or "").split("\n", 2)[2].rstrip("\n")
        self.assertTrue(
            f"\n{grammar}\n" in GUIDE.read_text(), f"docs/GUIDE.md does not have this:\n{grammar}"
        )
        self.assertIn(grammar, tool("ask", "--help").out)
        page = (ROOT / "tools/confluo-report.1").read_text()
        self.assertIn("\n".join(line[4:] for line in grammar.split("\n")), page)


def _quoted(text: str, values: dict[str, str]) -> str:
    """The comparison in Python, with the row's values."""
    for name, value in values.items():
        text = text.replace(f"{name}==", f"'{value}'=='").replace(f"{name}!=", f"'{value}'!='")
    return text + "'"


if __name__ == "__main__":
    unittest.main()
