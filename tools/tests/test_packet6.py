"""Captures of IPv6, by the schema packet6."""

import pathlib
import struct
import tempfile
import unittest

from support import INCIDENTS, confluo, frame, needs_words, pcap, tool

from confluo_report.details import Packet
from confluo_report.rows import rows_of
from confluo_report.setups import PACKETS, parse_setup
from confluo_report.values import value_text

SETUP = """\
schema packet6
index s src6
tally t src6 len *
ask a find s 0x20010db800000042 0x20010db800000042
ask h top t count 2
"""
REPORT = "records 2\nask a find 1: 1\nask h top 2: 0=1 2306139568115548226=1\norder 0*2\n"
NETWORK = 0x20010DB800000042
needs_packet6 = needs_words("--schema", "packet6")


def frame6(source: int = 1) -> bytes:
    """A SYN from 2001:db8:0:42::`source` port 40000 to 2001:db8::2 port 443, without a link header."""
    ip = struct.pack(">IHBBQQQQ", 6 << 28, 20, 6, 64, NETWORK, source, 0x20010DB800000000, 2)
    return ip + struct.pack(">HHIIBBHI", 40000, 443, 0, 0, 0x50, 2, 1024, 0)


RAW = pcap([(1, frame()[14:]), (2, frame6())], link=101)


class Packet6(unittest.TestCase):
    def setUp(self) -> None:
        self.place = tempfile.TemporaryDirectory()
        self.addCleanup(self.place.cleanup)

    def file(self, name: str, data: bytes | str) -> str:
        path = pathlib.Path(self.place.name, name)
        path.write_bytes(data.encode() if isinstance(data, str) else data)
        return str(path)

    def test_setups(self) -> None:
        for name, count in (("packet", 20), ("packet6", 32)):
            setup = parse_setup(f"schema {name}\nask q list *\n".encode())
            self.assertEqual((setup.source, len(setup.schema), setup.is_packet), (name, count, True))
        self.assertIn("packets with IPv6", tool("check", self.file("s", SETUP)).out)

    def test_texts(self) -> None:
        setup = parse_setup(SETUP.encode())
        texts = [value_text(setup, setup.schema[at], value) for at, value in ((20, NETWORK), (21, 1), (6, 1))]
        self.assertEqual(texts, ["2001:db8:0:42::/64", "0x0000000000000001", "1 (other IP)"])

    def test_rows(self) -> None:
        rows = list(rows_of(parse_setup(SETUP.encode()), self.file("c", RAW)))
        self.assertEqual([it[11] for it in rows], [0x0A000001, 0])
        self.assertEqual([it[20:24] for it in rows], [(0, 0, 0, 0), (NETWORK, 1, 0x20010DB800000000, 2)])
        self.assertEqual([it[24:31] for it in rows], [(0, 0, 0, 0, 0, 0, 1), (0, 0, 0, 0, 1, 0, 0)])

    def test_a_line_of_a_packet(self) -> None:
        values = dict.fromkeys((it.name for it in PACKETS["packet6"]), "0")
        values |= {
            "ts": "0",
            "etype": str(0x86DD),
            "kind": "2",
            "proto": "6",
            "sport": "40000",
            "dport": "443",
        }
        values |= {
            "src6": f"{NETWORK:#018x}",
            "src6_low": "0x1",
            "dst6": "0x0",
            "dst6_low": "0x1",
            "len": "60",
        }
        text = Packet(0, values, "packet6").text()
        self.assertIn("TCP [2001:db8:0:42::1]:40000 > [::1]:443  60 bytes", text)

    def test_copies(self) -> None:
        out = str(pathlib.Path(self.place.name, "out"))
        ended = tool("packets", "--ask", "a", "--out", out, self.file("r", REPORT), self.file("c", RAW))
        self.assertEqual((ended.status, ended.err), (0, ""))
        self.assertEqual(pathlib.Path(out).read_bytes(), pcap([(2, frame6())], link=101))

    def test_refusals(self) -> None:
        capture, setup = self.file("c", RAW), self.file("s", SETUP)
        said = tool("explain", "--capture", capture, stdin="capture: record 0 code 3\n").out
        self.assertIn("link type 101 (raw IP)", said)
        self.assertIn("`schema packet6` reads", said)
        other = self.file("d", pcap([], link=105))
        said = tool("explain", "--setup", setup, "--capture", other, stdin="capture: record 0 code 3\n").out
        self.assertIn("276 (Linux cooked v2)", said)
        self.assertNotIn("`schema packet6` reads", said)
        words = f"confluo synth --setup {setup} --seed 1 --count 1"
        said = tool("explain", "--command", words, stdin="setup: line 1 code 4\n").out
        self.assertIn("`synth` draws packets by `schema packet`", said)

    @needs_packet6
    def test_as_the_program_answers(self) -> None:
        capture, setup = self.file("c", RAW), self.file("s", SETUP)
        ran = confluo("run", "--setup", setup, "--writers", "1", capture)
        self.assertEqual((ran.status, ran.out), (0, REPORT))
        shown = tool("show", "--setup", setup, "--capture", capture, stdin=ran.out).out
        self.assertIn("[2001:db8:0:42::1]:40000 > [2001:db8::2]:443", shown)
        self.assertIn("2001:db8:0:42::/64", shown)
        self.assertEqual(confluo("synth", "--setup", setup, "--seed", "1", "--count", "1").status, 2)
        capture = str(INCIDENTS / "many_addresses.pcap")
        asked = tool("ask", "--schema", "packet6", capture, "top 1 src6/64 by packets where flags==2")
        self.assertIn("2001:db8:0:42::/64", asked.out)


if __name__ == "__main__":
    unittest.main()
