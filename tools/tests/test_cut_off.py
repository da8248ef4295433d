"""Captures that are cut off: what the tool says of them, and what the program answers."""

import pathlib
import tempfile
import unittest

from support import CUT_REPORT, CUT_SNAPSHOT, confluo, frame, needs_truncated, pcap, tool

from confluo_report.reports import parse_report

C2 = bytes.fromhex(
    "d4c3b2a1 0200 0400 00000000 00000000 ffff0000 01000000"
    "01000000 20a10700 02000000 3c000000 aabb 02000000 00000000 01000000 64000000 cc"
)


class Texts(unittest.TestCase):
    def setUp(self) -> None:
        self.place = tempfile.TemporaryDirectory()
        self.addCleanup(self.place.cleanup)

    def file(self, name: str, data: bytes | str) -> str:
        path = pathlib.Path(self.place.name, name)
        path.write_bytes(data.encode() if isinstance(data, str) else data)
        return str(path)

    def test_that_a_capture_is_cut_off_is_shown(self) -> None:
        self.assertIn("4 packets; the capture is cut off: what came", tool("show", stdin=CUT_REPORT).out)
        out = tool("show", stdin=CUT_SNAPSHOT).out
        self.assertIn("Host 0: the first 1 packets; the capture is cut off after 7: what came", out)
        self.assertIn("Host 1: the first 1 packets; the capture is cut off: what came", out)
        setup = self.file("s", "schema records ts:u64\nask q total ts *\n".replace("total ts", "list"))
        ended = tool("show", "--setup", setup, stdin="records 1\nask q list 1: 0\ntruncated: record 1\n")
        self.assertIn("a CSV file is never read as cut off", ended.err)

    def test_merged_reports_say_which_is_cut_off(self) -> None:
        paths = [self.file("a", "records 1\ntruncated: record 1\n"), self.file("b", "records 2\norder 0*2\n")]
        out = tool("merge", *paths).out
        self.assertEqual(out, f"records 3\ntruncated: record 1 ({paths[0]})\n")
        both = self.file("c", "records 1\ntruncated: record 1\nrecords 2\n")
        self.assertEqual(tool("merge", both).out, f"records 3\ntruncated: record 1 ({both}:1)\n")

    def test_packets_of_a_capture_that_is_cut_off(self) -> None:
        whole = pcap([(1, frame(1)), (2, frame(2)), (3, frame(3))])
        cut, out = self.file("c", whole[:-1]), pathlib.Path(self.place.name, "out")
        report = "records 2\nask a list 1: 1\n"
        words = ("packets", "--ask", "a", "--out", out, "-")
        self.assertIn("faulty, code 5", tool(*words, cut, stdin=report).err)
        self.assertEqual(tool(*words, cut, stdin=report + "truncated: record 2\n").status, 0)
        self.assertEqual(out.read_bytes(), pcap([(2, frame(2))]))
        two = self.file("two", whole[: 24 + 2 * 70])
        self.assertIn("is not cut off", tool(*words, two, stdin=report + "truncated: record 2\n").err)

    def test_refusals(self) -> None:
        cut = self.file("c", pcap([(1, frame(1)), (2, frame(2))])[:-1])
        out = tool("explain", "--capture", cut, stdin="capture: record 1 code 5\n").out
        self.assertIn(f"confluo run --setup questions.setup --truncated {cut}", out)
        words = ("--command", f"confluo dump --truncated {cut}")
        self.assertIn(
            "nothing is wrong with it", tool("explain", *words, stdin="capture: record 1 code 5\n").err
        )

    def test_sizes_of_a_capture_that_is_cut_off(self) -> None:
        cut = self.file("c", pcap([(at, frame(at)) for at in range(9)])[:-1])
        setup = self.file("s", "schema packet\nask q list *\n")
        out = tool("explain", "--setup", setup, "--capture", cut, stdin="full: more than 4 records\n").out
        self.assertIn("It has 8 records.", out)
        self.assertIn(f"confluo run --setup {setup} --long --truncated {cut}\n", out)


class OfTheProgram(unittest.TestCase):
    def setUp(self) -> None:
        self.place = tempfile.TemporaryDirectory()
        self.addCleanup(self.place.cleanup)

    def file(self, name: str, data: bytes) -> pathlib.Path:
        path = pathlib.Path(self.place.name, name)
        path.write_bytes(data)
        return path

    @needs_truncated
    def test_truncated(self) -> None:
        setup = self.file("s", b"schema packet\nask big list len>=100\n")
        words = ("run", "--truncated", "--setup", setup, "--writers", "1")
        ended = confluo(*words, self.file("c", C2[:-1]))
        wanted = "records 1\nask big list 0:\norder 0*1\ntruncated: record 1\n"
        self.assertEqual((ended.status, ended.out), (0, wanted))
        self.assertEqual(parse_report(ended.out).truncated, 1)
        whole = confluo(*words, self.file("c", C2))
        self.assertEqual(whole.out, "records 2\nask big list 1: 1\norder 0*2\n")
        ended = confluo(*words, self.file("c", C2[:23]))
        self.assertEqual((ended.status, ended.out), (3, "capture: record 0 code 5\n"))
        cut = self.file("c", pcap([(1, frame(1)), (2, frame(2))])[:-1])
        out = tool("ask", "--truncated", cut, "list dport==80").out
        self.assertIn("is cut off after 1 packets", out)
        self.assertIn("TCP 10.0.0.1:40001 > 10.0.1.10:80", out)
        self.assertIn("ends within a packet", tool("ask", cut, "count").err)


if __name__ == "__main__":
    unittest.main()
