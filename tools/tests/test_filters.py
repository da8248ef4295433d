"""The filters of docs/FILTERS.md find as many packets as tcpdump does."""

import re
import shutil
import subprocess
import unittest

from support import EXAMPLES, ROOT, needs_words, tool

from confluo_report.expressions import parse_expression
from confluo_report.setups import PACKETS

MIXED, TAGGED = EXAMPLES / "dual_stack/dual_stack.pcap", EXAMPLES / "formats/tagged.pcap"
ROW = re.compile(r"(?m)^\| `([^`]+)` \| `([^`]+)` \|$")


def rows() -> tuple[list[tuple[str, str]], list[tuple[str, str]]]:
    """tcpdump's filters and what the page has for them: for setups, and only for `ask`."""
    page = (ROOT / "docs/FILTERS.md").read_text()
    tables = page.split("Only in `ask`")
    both = [[(a, b.replace("\\|", "|")) for a, b in ROW.findall(it)] for it in tables]
    return both[0], both[1]


class Filters(unittest.TestCase):
    def test_there_are_enough(self) -> None:
        for_setups, for_ask = rows()
        self.assertGreaterEqual(len(for_setups), 25)
        self.assertGreaterEqual(len(for_ask), 4)

    def test_those_for_setups_need_nothing_of_ask(self) -> None:
        for _, expression in rows()[0]:
            parse_expression(PACKETS["packet6"], expression)

    @needs_words("--schema", "packet6")
    @unittest.skipUnless(shutil.which("tcpdump"), "tcpdump is missing: apt-get install tcpdump")
    def test_tcpdump_finds_as_many(self) -> None:
        both = [it for its in rows() for it in its]
        for capture, is_tagged in ((MIXED, False), (TAGGED, True)):
            meant = [it for it in both if it[0].startswith("vlan") == is_tagged]
            ended = tool("ask", "--report", capture, *(f"count {it}" for _, it in meant))
            self.assertEqual((ended.status, ended.err), (0, ""))
            every = int(ended.out.split()[1])
            counts = re.findall(r"(?m)^ask q\d+ total count (\d+)", ended.out)
            self.assertEqual(len(counts), len(meant))
            for (name, expression), count in zip(meant, counts):
                self.assertEqual(int(count), self.dumped(capture, name), (name, expression))
                self.assertTrue(0 < int(count) < every, name)

    def dumped(self, capture: object, name: str) -> int:
        with open(str(capture), "rb") as file:
            words = ["tcpdump", "-nn", "-q", "-t", "-r", "-", name]
            ran = subprocess.run(words, stdin=file, capture_output=True, check=True)
        return len(ran.stdout.splitlines())


if __name__ == "__main__":
    unittest.main()
