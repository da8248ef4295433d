"""Setups are judged as the program judges them, with the place of the fault."""

import pathlib
import tempfile
import unittest

from cases import SETUPS
from support import EXAMPLES, SMALL, confluo, needs_program, tool

from confluo_report.expressions import parse_expression
from confluo_report.setups import PACKET, SetupFault, parse_setup

EVERY = """\
# packets to watch
schema packet
width 1000
index n len
filter f caplen<2 || len==60
aggregate a f len
tally y src len *
trigger t a sum > 70
ask q find n 60 99
ask b between f 2 2
ask m measure a 1 3
ask g fired t
ask l list *
ask h top y sum 2
ask s groups a
ask o total len len<=70
live g
live q
"""


class Setups(unittest.TestCase):
    def test_each_code_with_its_line_and_place(self) -> None:
        self.assertEqual({code for _, _, code, _ in SETUPS}, set(range(1, 15)))
        for text, line, code, place in SETUPS:
            with self.subTest(text=text[-60:]), self.assertRaises(SetupFault) as caught:
                parse_setup(text.encode())
            fault = caught.exception
            self.assertEqual(
                (fault.line, fault.fault.code, fault.fault.place), (line, code, place), text[-60:]
            )

    def test_a_valid_setup(self) -> None:
        for end in ("\n", "\r\n"):
            setup = parse_setup(EVERY.replace("\n", end).encode())
            self.assertEqual((setup.width, len(setup.lanes), len(setup.asks)), (1000, 4, 8))
            self.assertEqual(setup.lives, ["g", "q"])
        for path in EXAMPLES.rglob("*.setup"):
            self.assertTrue(parse_setup(path.read_bytes()).asks, path)

    def test_expressions(self) -> None:
        row = (
            5,
            60,
            60,
            b"\2\0\0\0\0\1",
            bytes(6),
            2048,
            2,
            0,
            46,
            64,
            6,
            0x0A000001,
            0x0A000002,
            1,
            53,
            0,
            0,
            2,
            0,
            0,
        )
        for text, holds in (
            ("*", True),
            ("dport==53 && len>=60", True),
            ("dport==80||src in 10.0.0.0/24", True),
            ("src in 10.0.1.0/24", False),
            ("len in 0x3c..99 && dmac==0x020000000001", True),
            ("dmac!=0x020000000001 || flags==18", False),
            ("src!=10.0.0.1 || dst>10.0.0.1", True),
        ):
            self.assertEqual(parse_expression(PACKET, text).holds(row), holds, text)

    def test_check(self) -> None:
        with tempfile.TemporaryDirectory() as folder:
            good, bad = pathlib.Path(folder, "good"), pathlib.Path(folder, "bad")
            good.write_text(EVERY)
            bad.write_text("schema packet\nask a list dport==65536\n")
            ended = tool("check", good)
            self.assertEqual((ended.status, ended.err), (0, ""))
            self.assertIn(
                "valid: packets, by the microsecond; 1 index, 1 filter, 1 aggregate, 1 tally", ended.out
            )
            ended = tool("check", good, bad)
            self.assertEqual(ended.status, 1)
            self.assertIn("bad, line 2: the setup is refused, code 13.", ended.out)
            self.assertIn("    ask a list dport==65536\n                      ^\n", ended.out)
            self.assertEqual(tool("check", pathlib.Path(folder, "none")).status, 2)
        self.assertEqual(tool("check", "-", stdin=EVERY).status, 0)

    @needs_program
    def test_the_program_says_the_same(self) -> None:
        with tempfile.TemporaryDirectory() as folder:
            path = pathlib.Path(folder, "s")
            for text, line, code, _ in (*SETUPS, (EVERY, 0, 0, 0)):
                path.write_text(text)
                ended = confluo("synth", "--setup", path, "--seed", "1", "--count", "0", *SMALL)
                wanted = f"setup: line {line} code {code}\n" if code else ended.out
                self.assertEqual(ended.out, wanted, text[-60:])


if __name__ == "__main__":
    unittest.main()
