"""The plain reading of bench/ agrees with the tool's own, and with what is stored."""

import io
import itertools
import pathlib
import random
import struct
import sys
import unittest

from support import EXAMPLES, INCIDENTS, ROOT, frame

from confluo_report.captures import CaptureFault, Frame, Reading, frames
from confluo_report.frames import packet_row
from confluo_report.frames6 import packet6_row

sys.path.append(str(ROOT / "bench"))

import damage  # noqa: E402
import plain  # noqa: E402
import plain_answers  # noqa: E402

HOP = bytes([0]) + bytes(7)
LAST_HOP = bytes([6]) + bytes(7)
CUT = ("cut_off",)


def drawn_frame(draw: random.Random) -> tuple[bytes, int]:
    """A frame of any link, some of its bytes changed."""
    data = bytearray(damage.frame(draw))
    if data and draw.random() < 0.3:
        data[draw.randrange(len(data))] = draw.randrange(256)
    link = draw.choice(damage.WIDE)
    fronts = {
        113: bytes(14) + data[12:14],
        276: data[12:14] + bytes(18),
        0: bytes([0, 0, 0, draw.choice([2, 10, 24, 28, 30, 7])]),
        108: bytes([draw.choice([2, 30]), 0, 0, 0]),
    }
    return (bytes(data) if link == 1 else bytes(fronts.get(link, b"") + data[14:])), link


def frame6(behind: bytes = b"", following: int = 6, payload: int | None = None, vlan: bytes = b"") -> bytes:
    """An Ethernet frame of TCP over IPv6 from 2001:db8::1 port 40000 to 2001:db8:0:1::2 port 443, a SYN.

    `behind` are headers between IPv6 and TCP, the first of the type `following`.
    """
    tcp = struct.pack(">HHIIBBHI", 40000, 443, 0, 0, 0x50, 2, 1024, 0)
    data = behind + tcp
    ends = (0x20010DB800000000, 1, 0x20010DB800000001, 2)
    length = len(data) if payload is None else payload
    ip = struct.pack(">IHBBQQQQ", 6 << 28, length, following, 64, *ends)
    return bytes.fromhex("020000000001 020000000002") + vlan + b"\x86\xdd" + ip + data


def row(data: bytes, link: int = 1) -> dict[str, object]:
    found = plain.row(plain.Frame(10**9, len(data), data, link), "packet6")
    assert tuple(found.values()) == packet6_row(Frame(0, 10**9, len(data), data, link))
    return found


def fragment(offset: int, following: int = 6) -> bytes:
    return struct.pack(">BBHI", following, 0, offset << 3, 7)


class Plain(unittest.TestCase):
    def test_rows_of_drawn_frames(self) -> None:
        draw, kinds = random.Random(5), set()
        for _ in range(4000):
            data, link = drawn_frame(draw)
            wide = plain.row(plain.Frame(5, 99, data, link), "packet6")
            self.assertEqual(tuple(wide.values()), packet6_row(Frame(0, 5, 99, data, link)))
            if link not in plain.LINKS["packet"]:
                continue
            it = plain.Frame(5, 99, data, link)
            narrow = plain.row(it, "packet")
            kinds.add((narrow["kind"], wide["kind"]))
            self.assertEqual(tuple(narrow.values()), packet_row(Frame(0, 5, 99, data, link)))
            if narrow["kind"]:
                more = {it: wide[it] for it in plain.MORE}
                self.assertEqual(wide, narrow | dict.fromkeys(plain.HALVES, 0) | more)
        self.assertEqual(kinds, {(it, it) for it in range(4)} | {(0, it) for it in range(4)})

    def test_damaged_captures(self) -> None:
        codes = set()
        for seed in range(1500):
            draw = random.Random(seed)
            data = damage.damaged(draw, draw.choice([damage.pcap, damage.pcapng])(draw))
            for schema, may_be_cut in itertools.product(plain.LINKS, (False, True)):
                wanted = plain.read(data, plain.LINKS[schema], may_be_cut)
                reading, found, code = Reading(may_be_cut, schema), [], 0
                try:
                    for it in frames(io.BytesIO(data), reading):
                        found.append((it.ts, it.length, it.data, it.link))
                except CaptureFault as fault:
                    code = fault.code
                self.assertEqual((found, code), ([tuple(it) for it in wanted.frames], wanted.code))
                self.assertEqual(reading.cut is not None, wanted.is_cut)
                codes.add(code)
        self.assertEqual(codes, {0, 1, 2, 3, 4, 5, 21, 22, 23, 24, 25, 27, 28})

    def test_stored_dumps_and_reports(self) -> None:
        for dump in (EXAMPLES / "formats").glob("*.dump"):
            capture = next(it for it in dump.parent.glob(f"{dump.stem}.pcap*"))
            self.assertEqual(plain.dump(capture.read_bytes()), (0, dump.read_text()))
        for report in INCIDENTS.glob("*.report"):
            capture = INCIDENTS / f"{report.stem.removesuffix('_stranger')}.pcap"
            if capture.exists():
                setup = report.with_suffix(".setup").read_bytes()
                found = plain_answers.report(setup, capture.read_bytes(), report.stem in CUT)
                self.assertEqual(found, (0, report.read_text()), report.stem)

    def test_a_cut_without_the_option(self) -> None:
        for name in CUT:
            path = pathlib.Path(INCIDENTS / f"{name}.pcap")
            if path.exists():
                self.assertEqual(plain.dump(path.read_bytes()), (3, "capture: record 54 code 5\n"))


class Rows6(unittest.TestCase):
    """Rows of packet6, which bench/ compares with tshark's."""

    def test_a_header_that_is_passed_over(self) -> None:
        found = row(frame6(LAST_HOP, 0))
        wanted = {"kind": 2, "iplen": 68, "proto": 6, "sport": 40000, "dport": 443, "flags": 2, "ttl": 64}
        halves = {"src6": 0x20010DB800000000, "src6_low": 1, "dst6": 0x20010DB800000001, "dst6_low": 2}
        self.assertEqual(found, {**found, **wanted, **halves, "src": 0, "dst": 0, "etype": 0x86DD})

    def test_what_of_ipv6_is_read(self) -> None:
        for data, kind, proto, dport in (
            (frame6(LAST_HOP, 0, payload=27), 1, 6, 0),
            (frame6(LAST_HOP, 0, payload=0), 2, 6, 443),
            (frame6(fragment(1), 44), 1, 6, 0),
            (frame6(fragment(0), 44), 2, 6, 443),
            (frame6(fragment(1, 60) + LAST_HOP, 44), 1, 60, 0),
            (frame6(HOP * 7 + LAST_HOP, 0), 2, 6, 443),
            (frame6(HOP * 8 + LAST_HOP, 0), 1, 0, 0),
            (frame6(bytes([6, 1]) + bytes(14), 43), 2, 6, 443),
            (frame6(bytes([6, 1]) + bytes(10), 51), 2, 6, 443),
            (frame6(bytes([6, 9]) + bytes(6), 60), 1, 60, 0),
            (frame6(b"", 58), 1, 58, 0),
            (frame6(b"", 17), 3, 17, 443),
            (frame6()[:53], 0, 0, 0),
        ):
            found = row(data)
            self.assertEqual((found["kind"], found["proto"], found["dport"]), (kind, proto, dport))

    def test_tags(self) -> None:
        for tags, vlan, kind in (
            ("8100 a00a", 10, 2),
            ("88a8 0014", 20, 2),
            ("88a8 001e 8100 000a", 30, 2),
            ("8100 001e 8100 000a 8100 0001", 30, 0),
        ):
            found = row(frame6(vlan=bytes.fromhex(tags)))
            self.assertEqual((found["vlan"], found["kind"]), (vlan, kind), tags)
        self.assertEqual(row(frame6(vlan=bytes.fromhex("8100 000a"))[:16])["etype"], 0x8100)

    def test_links(self) -> None:
        whole = row(frame())
        bare = frame()[14:]
        no_macs = {"dmac": bytes(6), "smac": bytes(6)}
        for link, front in (
            (276, bytes.fromhex("0800") + bytes(18)),
            (113, bytes(14) + bytes.fromhex("0800")),
            (101, b""),
            (228, b""),
            (0, bytes.fromhex("02000000")),
            (108, bytes.fromhex("00000002")),
        ):
            found = row(front + bare, link)
            size = {"caplen": len(front + bare), "len": len(front + bare)}
            self.assertEqual(found, {**whole, **no_macs, **size}, link)
        six = row(frame6())
        for link, front in (
            (229, b""),
            *((link, bytes([0, 0, 0, it])) for link in (0, 108) for it in (10, 24, 28, 30)),
        ):
            found = row(front + frame6()[14:], link)
            self.assertEqual((found["src6_low"], found["dport"]), (six["src6_low"], six["dport"]))
        for link in damage.WIDE:
            for size in range(60):
                row(frame6()[14 : 14 + size], link)


if __name__ == "__main__":
    unittest.main()
