"""Reports as tables: times, addresses, units, conditions and marks."""

import io
import pathlib
import tempfile
import unittest
from unittest import mock

from support import INCIDENTS, REPORT, frame, frame6, needs_program, pcap, tool

from confluo_report.progress import shown
from confluo_report.reports import Pair
from confluo_report.setups import parse_setup
from confluo_report.show import bucket_marks
from confluo_report.tables import Style, marks, style_for, table
from confluo_report.values import clock, flags_text, key_text, unit, units, value_text

STORED = sorted(INCIDENTS.glob("*.report"))


class Terminal(io.StringIO):
    def isatty(self) -> bool:
        return True


class Shows(unittest.TestCase):
    def test_every_stored_report_with_its_setup(self) -> None:
        for path in STORED:
            ended = tool("show", "--setup", path.with_suffix(".setup"), path)
            self.assertEqual((ended.status, ended.err), (0, ""), path)

    def test_times_addresses_units_and_conditions(self) -> None:
        out = tool("show", "--setup", INCIDENTS / "full_link.setup", INCIDENTS / "full_link.report").out
        for line in (
            "225 packets",
            "load  seconds with sum of len > 0, of src in 192.0.2.0/24: 12",
            "  2023-11-20 13:00:00         822",
            "  2023-11-20 13:00:04      32,616",
            "most  src by sum of len, of src in 192.0.2.0/24: the first 3",
            "  1.  192.0.2.31     154,428",
            "all_up  of src in 192.0.2.0/24",
            "      138     164,292        274         1,514",
            "who  packets of src in 192.0.2.0/24, in the second 2023-11-20 13:00:06: 24",
            "below  packets with src 192.0.2.0 to 192.0.2.30: 12",
            "  full     2023-11-20 13:00:04  32,616  sum of len > 28,800, of src in 192.0.2.0/24",
        ):
            self.assertIn(line, out.splitlines())
        out = tool("show", "--setup", INCIDENTS / "microburst.setup", INCIDENTS / "microburst.report").out
        self.assertIn("when  milliseconds with sum of len > 12,500, of dst==192.0.2.90: 1", out)
        self.assertIn("  2023-11-18 13:00:01.234      36,336\n", out)

    def test_without_a_setup_nothing_is_guessed(self) -> None:
        out = tool("show", stdin=REPORT).out
        self.assertIn("  1.  167772161    120\n", out)
        self.assertIn("With --setup FILE", out)
        self.assertIn("Loaded by 2 writers in 3 stretches (writer 0: 2, writer 1: 2)", out)
        self.assertIn("  g, first 2 packets: fired: 1", out)

    def test_a_report_of_another_setup_is_refused(self) -> None:
        for setup, report in (("full_link", "resolver"), ("port_scan", "port_scan_stranger")):
            ended = tool("show", "--setup", INCIDENTS / f"{setup}.setup", INCIDENTS / f"{report}.report")
            self.assertEqual((ended.status, ended.out), (2, ""))
            self.assertIn("is not a report of this setup", ended.err)
        cut = (INCIDENTS / "full_link.report").read_text().rpartition("alert")[0]
        ended = tool("show", "--setup", INCIDENTS / "full_link.setup", stdin=cut)
        self.assertEqual((ended.status, ended.out), (2, ""))
        self.assertIn("cut off", ended.err)

    def test_snapshots(self) -> None:
        out = tool("show", "--setup", INCIDENTS / "lost.setup", INCIDENTS / "lost.report").out
        self.assertTrue(out.startswith("230 packets of 2 hosts at the cut\n"))
        self.assertIn("Host 1: the first 110 packets\n", out)
        self.assertIn("  3.  198.51.100.90                 20  fewest\n", out)

    def test_most_and_fewest_need_all_buckets(self) -> None:
        near, far = [Pair(1, 5), Pair(2, 9), Pair(3, 7)], [Pair(1, 5), Pair(2, 9), Pair(5, 7)]
        for pairs, condition, wanted in (
            (near, (">=", 0), ["fewest", "most", ""]),
            (near, (">", 4), ["", "most", ""]),
            (near, ("<", 10), ["fewest", "", ""]),
            (far, (">=", 0), ["", "most", ""]),
            (far, ("<", 10), ["", "", ""]),
            (near, ("!=", 3), ["", "", ""]),
            (near, None, ["", "", ""]),
        ):
            self.assertEqual(bucket_marks(pairs, condition), wanted, (pairs, condition))

    def test_what_is_not_parsed_is_said(self) -> None:
        setup = "schema packet\nask all total len *\n"
        report = "records 3\nask all total count 3 sum 182 least 54 greatest 74\norder 0*3\n"
        with tempfile.TemporaryDirectory() as folder:
            paths = [pathlib.Path(folder, it) for it in ("s", "c", "t")]
            paths[0].write_text(setup)
            paths[1].write_bytes(pcap([(1, frame()), (1, frame6()), (1, frame())]))
            paths[2].write_text(setup.replace("packet", "packet6"))
            said = "1 of 3 packets is IPv6 and was not parsed (addresses and ports are 0): write `schema packet6`"
            out = tool("show", "--setup", paths[0], "--capture", paths[1], stdin=report).out
            self.assertEqual(out.splitlines()[:2], ["3 packets", said])
            self.assertIn(f"{paths[1]}: {said}\n", tool("check", "--capture", paths[1], paths[0]).out)
            self.assertIn("--capture FILE says how many", tool("show", "--setup", paths[0], stdin=report).out)
            where = "`confluo-report check --capture FILE` says how many these are.\n"
            listed = "ask all list 2: 0 1\n"
            reports = [pathlib.Path(folder, it) for it in ("a.report", "b.report")]
            for it in reports:
                it.write_text(f"records 3\n{listed}order 0*3\n")
            for path, has_it in ((paths[0], True), (paths[2], False)):
                path.write_text(path.read_text().replace("total len", "list"))
                merged = tool("merge", "--setup", path, *reports).out
                for text in (merged, f"cut 3\nhost 0 @3\n{listed}"):
                    self.assertEqual(where in tool("show", "--setup", path, stdin=text).out, has_it, text)
            self.assertIn("--capture FILE says how many", tool("check", paths[0]).out)
            self.assertNotIn("FILE", tool("show", "--setup", paths[2], stdin=report).out)
            paths[0].write_text(setup + "ask six total len etype==0x86dd\n")
            known = report.replace("order", "ask six total count 1 sum 74 least 74 greatest 74\norder")
            self.assertIn(said, tool("show", "--setup", paths[0], stdin=known).out)

    @needs_program
    def test_packets_of_the_capture(self) -> None:
        words = (
            "show",
            "--setup",
            INCIDENTS / "port_scan_stranger.setup",
            INCIDENTS / "port_scan_stranger.report",
        )
        out = tool(*words, "--capture", INCIDENTS / "port_scan.pcap").out
        self.assertRegex(
            out, r"     166  2023-11-16 .* TCP 192\.0\.2\.10:80 > 203\.0\.113\.77:\d+  \d+ bytes  SYN\+ACK"
        )
        ended = tool(*words, "--capture", INCIDENTS / "full_link.pcap")
        self.assertEqual((ended.status, ended.out), (2, ""))
        self.assertIn("it has 225 records, and the report 184", ended.err)
        other = (INCIDENTS / "port_scan.pcap").read_bytes()
        with tempfile.TemporaryDirectory() as folder:
            path = pathlib.Path(folder, "c")
            path.write_bytes(other.replace(bytes((203, 0, 113, 77)), bytes((203, 0, 113, 78))))
            ended = tool(*words, "--capture", path)
        self.assertEqual((ended.status, ended.out), (2, ""))
        self.assertIn("is not the capture of the report: `open` found record 33", ended.err)

    def test_colours_on_a_terminal_and_never_with_no_color(self) -> None:
        with mock.patch.dict("os.environ", {"TERM": "xterm"}, clear=True):
            self.assertTrue(style_for(Terminal()).colours)
            self.assertFalse(style_for(io.StringIO()).colours)
            with mock.patch.dict("os.environ", {"NO_COLOR": "1"}):
                self.assertFalse(style_for(Terminal()).colours)
            with mock.patch.dict("os.environ", {"TERM": "dumb"}):
                self.assertFalse(style_for(Terminal()).colours)
        rows = [["a", "5", "most"], ["b", "1", "fewest"]]
        self.assertEqual(
            table(["", "n", ""], rows, Style(), "lr"), ["     n", "  a  5  most", "  b  1  fewest"]
        )
        self.assertIn("\x1b[31m  a  5  most\x1b[0m", table(["", "n", ""], rows, Style(True), "lr"))

    def test_values(self) -> None:
        self.assertEqual(marks([3, 1, 4, 2]), ["", "fewest", "most", ""])
        self.assertEqual(marks([3, 1, 3, 2]), ["", "fewest", "", ""])
        self.assertEqual(marks([3, 1, 4], has_fewest=False), ["", "", "most"])
        self.assertEqual(marks([3, 1]), ["", ""])
        self.assertEqual(clock(1700000000_000100000), "2023-11-14 22:13:20.000100")
        self.assertEqual(clock(2**63 * 10**9), f"{2**63 * 10**9} ns")
        self.assertEqual((unit(10**6), units(60 * 10**9)), ("millisecond", "minutes"))
        self.assertEqual(
            (unit(5 * 10**9), units(1500)), ("bucket of 5 seconds", "buckets of 1500 nanoseconds")
        )
        self.assertEqual(flags_text(18), "SYN+ACK")
        setup = parse_setup(b"schema packet\n")
        texts = [value_text(setup, setup.schema[5], it) for it in (0x0800, 0x86DD, 0x1234, 0)]
        self.assertEqual(texts, ["0x0800 (IPv4)", "0x86dd (IPv6)", "0x1234", "0"])

    def test_addresses_are_whole_where_both_halves_are_known(self) -> None:
        for lines, wanted in (
            ("src6_low len src6==0x20010db800000042", "2001:db8:0:42::1"),
            ("src6 len src6_low==0x42", "::1:0:0:0:42"),
            ("src6_low len src6==1 || src6==2", "0x0000000000000001"),
            ("src6_low len *", "0x0000000000000001"),
            ("src6 len *", "0:0:0:1::/64"),
        ):
            setup = parse_setup(f"schema packet6\ntally t {lines}\n".encode())
            self.assertEqual(key_text(setup, setup.lanes[0], 1), wanted)

    def test_progress_is_shown_on_a_terminal_only(self) -> None:
        for out, wanted in ((Terminal(), True), (io.StringIO(), False)):
            with mock.patch("confluo_report.progress.REST", 0):
                self.assertEqual(sum(shown(range(20000), "reading", out)), 199990000)
            self.assertEqual("reading: 8,192" in out.getvalue(), wanted)
            self.assertEqual(out.getvalue().endswith("\r\x1b[K"), wanted)


if __name__ == "__main__":
    unittest.main()
