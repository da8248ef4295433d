"""Packets that a question found are copied, and reports are drawn."""

import io
import os
import pathlib
import random
import resource
import stat
import tempfile
import threading
import unittest
from unittest import mock

from cases import BLOCKS, CAPTURES
from support import EXAMPLES, INCIDENTS, enhanced, frame, pcap, tool

from confluo_report.captures import CaptureFault, Reading, frames
from confluo_report.packets import copy_found

REPORT = INCIDENTS / "port_scan_stranger.report"
CAPTURE = INCIDENTS / "port_scan.pcap"


def frames_in(data: bytes) -> list[bytes]:
    return [it.data for it in frames(io.BytesIO(data))]


class Packets(unittest.TestCase):
    def setUp(self) -> None:
        self.place = tempfile.TemporaryDirectory()
        self.addCleanup(self.place.cleanup)
        self.out = pathlib.Path(self.place.name, "found.pcap")

    def test_classic(self) -> None:
        ended = tool("packets", "--ask", "open", "--out", self.out, REPORT, CAPTURE)
        self.assertEqual((ended.status, ended.out), (0, f"{self.out}: 2 of 184 packets\n"))
        whole = CAPTURE.read_bytes()
        self.assertEqual(frames_in(self.out.read_bytes()), [frames_in(whole)[it] for it in (33, 166)])
        self.assertEqual(self.out.read_bytes()[:24], whole[:24])

    def test_blocks(self) -> None:
        capture = pathlib.Path(self.place.name, "c.pcapng")
        capture.write_bytes(BLOCKS + b"".join(enhanced(frame(at)) for at in range(4)))
        text = "records 4\nask a find 2: 1 3\n"
        self.assertEqual(tool("packets", "--ask", "a", "--out", self.out, "-", capture, stdin=text).status, 0)
        self.assertEqual(self.out.read_bytes(), BLOCKS + enhanced(frame(1)) + enhanced(frame(3)))

    def test_a_classic_file_is_copied_by_its_lengths(self) -> None:
        path, draw = pathlib.Path(self.place.name, "c"), random.Random(2)
        faulty = [data for data, *_ in CAPTURES if data[:2] != b"\x1f\x8b"]
        whole = pcap([(it, frame(it) + bytes(draw.randrange(90))) for it in range(60)])
        big = whole.replace(b"\xd4\xc3\xb2\xa1", b"\xa1\xb2\xc3\xd4")
        long = pcap([(1, frame()), (2, bytes(2**18 + 1)), (3, frame())])
        for data in (whole, long, whole[:24], whole[:-1], whole[:30], whole[:3], big, *faulty):
            path.write_bytes(data)
            for wanted, to_end in (
                ({0, 5, 17}, True),
                (set(range(99)), True),
                ({0, 5, 17}, False),
                (set(), True),
            ):
                with mock.patch("confluo_report.packets.CHUNK", draw.choice((1, 50, 1000, 10**6))):
                    found = self.copied(path, wanted, to_end)
                with mock.patch("confluo_report.packets._copy_quickly", lambda *_: None):
                    self.assertEqual(found, self.copied(path, wanted, to_end), (data[:40], wanted))

    def copied(self, path: pathlib.Path, wanted: "set[int]", to_end: bool) -> object:
        """What is written, and how many of how many packets; or the fault."""
        out, reading = io.BytesIO(), Reading(True, "packet6")
        try:
            copied = copy_found(str(path), wanted, out, reading, to_end)
        except CaptureFault as fault:
            return fault.code, fault.record
        return out.getvalue(), copied.packets, copied.records, reading.cut

    def test_several(self) -> None:
        words = ["packets", "--ask", "open", "--into", self.place.name, REPORT, CAPTURE]
        second = pathlib.Path(self.place.name, "r")
        second.write_text("records 225\nask open list 1: 7\n")
        ended = tool(*words, second, INCIDENTS / "full_link.pcap")
        self.assertEqual(ended.status, 0, ended.err)
        self.assertIn("full_link.pcap: 1 of 225 packets\n", ended.out)
        self.assertEqual(len(frames_in((self.out.parent / "port_scan.pcap").read_bytes())), 2)

    def test_what_does_not_fit_leaves_no_file(self) -> None:
        self.out.write_text("before")
        for words, why in (
            (("--ask", "tried", "--out", self.out, REPORT, CAPTURE), "finds no packets"),
            (("--ask", "nosuch", "--out", self.out, REPORT, CAPTURE), "has no line of `nosuch`"),
            (("--ask", "open", "--out", self.out, REPORT, INCIDENTS / "full_link.pcap"), "not the capture"),
            (("--ask", "open", "--out", self.out, REPORT, EXAMPLES / "two_frames.setup"), "faulty, code 1"),
            (("--ask", "open", "--out", self.out, REPORT), "in pairs"),
            (("--ask", "open", "--out", self.out, REPORT, CAPTURE, REPORT, CAPTURE), "--into"),
            (("--ask", "open", "--out", self.out, REPORT, "/no/such/file"), "No such file"),
        ):
            ended = tool("packets", *words)
            self.assertEqual((ended.status, ended.out), (2, ""), why)
            self.assertIn(why, ended.err)
        self.assertEqual((self.out.read_text(), os.listdir(self.place.name)), ("before", ["found.pcap"]))

    def test_a_full_disk_is_named_and_keeps_nothing(self) -> None:
        self.out.write_text("before")
        most = resource.getrlimit(resource.RLIMIT_FSIZE)
        resource.setrlimit(resource.RLIMIT_FSIZE, (100, most[1]))
        try:
            ended = tool("packets", "--ask", "open", "--out", self.out, REPORT, CAPTURE)
        finally:
            resource.setrlimit(resource.RLIMIT_FSIZE, most)
        self.assertEqual((ended.status, ended.out), (2, ""))
        self.assertEqual(ended.err, f"confluo-report: {self.out} cannot be written: File too large\n")
        self.assertEqual((self.out.read_text(), os.listdir(self.place.name)), ("before", ["found.pcap"]))

    def test_a_pipe_or_device_is_written_to(self) -> None:
        words = ("packets", "--ask", "open", "--out")
        self.assertEqual(tool(*words, self.out, REPORT, CAPTURE).status, 0)
        pipe = pathlib.Path(self.place.name, "pipe")
        os.mkfifo(pipe)
        report = ("prometheus", "--textfile", pipe, REPORT)
        for asked, wanted in (
            ((*words, pipe, REPORT, CAPTURE), self.out.read_bytes()),
            (report, tool("prometheus", REPORT).out.encode()),
        ):
            read: "list[bytes]" = []
            reader = threading.Thread(target=lambda: read.append(pipe.read_bytes()), daemon=True)
            reader.start()
            self.assertEqual(tool(*asked).status, 0)
            reader.join(60)
            self.assertEqual(read, [wanted])
            self.assertTrue(stat.S_ISFIFO(pipe.stat().st_mode))

    def test_what_a_link_leads_to_is_replaced(self) -> None:
        link = pathlib.Path(self.place.name, "link")
        link.symlink_to("found.pcap")
        for _ in range(2):
            self.assertEqual(tool("packets", "--ask", "open", "--out", link, REPORT, CAPTURE).status, 0)
            self.assertEqual(len(frames_in(self.out.read_bytes())), 2)
            self.assertTrue(link.is_symlink())
        self.assertIn(
            "Is a directory", tool(*("packets", "--ask", "open", "--out", "/", REPORT, CAPTURE)).err
        )

    def plotted(self, *words: object) -> str:
        try:
            import matplotlib  # noqa: F401
        except ImportError:
            self.skipTest("matplotlib is missing: apt-get install python3-matplotlib")
        out = pathlib.Path(self.place.name, "p.svg")
        ended = tool("plot", "--out", out, *words)
        self.assertEqual((ended.status, ended.err), (0, ""))
        return out.read_text()

    def test_a_picture(self) -> None:
        report = INCIDENTS / "full_link.report"
        by_setup = self.plotted("--setup", INCIDENTS / "full_link.setup", report)
        axes = ("bytes in each second", ">bytes<", "seconds from 2023-11-20 13:00:00 UTC")
        for text in ("load", "when", "alerts", "192.0.2.31", *axes):
            self.assertIn(text, by_setup)
        self.assertEqual(by_setup, self.plotted("--setup", INCIDENTS / "full_link.setup", report))
        self.assertIn("192.0.2.31", self.plotted("--dotted", report))
        self.assertNotIn("192.0.2.31", self.plotted(report))

    def test_at_most_forty_keys_unless_asked(self) -> None:
        report = pathlib.Path(self.place.name, "r")
        pairs = " ".join(f"{at}={2000 - at}" for at in range(100, 300))
        report.write_text(f"records 9\nask h top 200: {pairs}\n")
        few, all_ = self.plotted(report), self.plotted("--most", "0", report)
        self.assertIn("the first 40 of 200", few)
        for text, last in ((few, 139), (all_, 299)):
            self.assertIn(f">{last}<", text)
            self.assertNotIn(f">{last + 1}<", text)
        self.assertIn(">120<", self.plotted("--most", "21", report))

    def test_png(self) -> None:
        self.plotted("--dotted", INCIDENTS / "full_link.report")
        out = self.out.with_suffix(".png")
        self.assertEqual(tool("plot", "--out", out, INCIDENTS / "full_link.report").status, 0)
        self.assertEqual(out.read_bytes()[:8], b"\x89PNG\r\n\x1a\n")

    def test_a_picture_of_several(self) -> None:
        report = INCIDENTS / "full_link.report"
        other = pathlib.Path(self.place.name, "other.report")
        other.write_text(report.read_text())
        self.assertIn("other.report", self.plotted("--setup", INCIDENTS / "full_link.setup", report, other))

    def test_nothing_to_draw(self) -> None:
        ended = tool("plot", "--out", self.out.with_suffix(".svg"), REPORT)
        self.assertEqual(ended.status, 2)
        self.assertIn("nothing to draw", ended.err)
        ended = tool("plot", "--out", self.out, INCIDENTS / "full_link.report")
        self.assertIn("neither with .png nor with .svg", ended.err)


if __name__ == "__main__":
    unittest.main()
