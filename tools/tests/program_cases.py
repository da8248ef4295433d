"""What the tests of the built program share: captures, and a run over files in a folder of its own."""

from __future__ import annotations

import pathlib
import struct
import subprocess
import tempfile
import unittest

from support import needs_program

from confluo_report import program

SETUP = b"schema packet\nask big list len>=100\n"
RUN = ("run", "--setup", "s", "--writers", "1", "c")
DUMP = ("dump", "c")
REPORT = "records 2\nask big list 1: 1\norder 0*2\n"
NONE = "records 0\nask big list 0:\norder\n"
ONE = "records 1\nask big list 0:\norder 0*1\n"
NO_COMMAND = (1, "words: not a command\n")
MISSING = (9, "file: none of that name\n")


def header(link: int = 1) -> bytes:
    """A file header of pcap, little-endian, in microseconds."""
    return struct.pack("<IHHiIII", 0xA1B2C3D4, 2, 4, 0, 0, 65535, link)


def record(data: bytes = b"", length: int = 0, second: int = 0, micro: int = 0) -> bytes:
    """A record of pcap."""
    return struct.pack("<IIII", second, micro, len(data), length) + data


HEADER = header()
# Two packets, of 2 bytes and of 1, that had 60 and 100: bytes 24 to 42, and to 59.
TWO = HEADER + record(b"\xaa\xbb", 60, 1, 500_000) + record(b"\xcc", 100, 2)
# The same in the other byte order, with nanoseconds.
BIG = struct.pack(">IHHiIII", 0xA1B23C4D, 2, 4, 0, 0, 65535, 1) + (
    struct.pack(">IIII", 1, 500_000_000, 2, 60) + b"\xaa\xbb" + struct.pack(">IIII", 2, 0, 1, 100) + b"\xcc"
)
# A section header, an interface, an enhanced and a simple packet in pcapng: bytes to 28, 48, 84 and 104.
BLOCKS = bytes.fromhex(
    "0a0d0d0a 1c000000 4d3c2b1a 0100 0000 ffffffffffffffff 1c000000"
    "01000000 14000000 0100 0000 00000000 14000000"
    "06000000 24000000 00000000 00000000 60e31600 02000000 3c000000 aabb0000 24000000"
    "03000000 14000000 64000000 cc000000 14000000"
)
# An interface in nanoseconds, and an enhanced packet of one byte at two seconds.
NANOSECONDS = bytes.fromhex("01000000 20000000 0100 0000 00000000 0900 0100 09000000 00000000 20000000")
ONE_BYTE = bytes.fromhex("06000000 24000000 00000000 00000000 80841e00 01000000 64000000 cc000000 24000000")
# A segment of TCP from 10.0.0.12:40219 to 10.0.1.10:80, behind addresses.
ADDRESSES = bytes.fromhex("020000000001 020000000002")
SEGMENT = bytes.fromhex(
    "0800 45000028 00000000 40060000 0a00000c 0a00010a 9d1b0050 00000000 00000000 50100400 00000000"
)
# A datagram from 2001:db8::1 port 40000 to 2001:db8:0:1::2 port 53, without a link's header.
DATAGRAM = bytes.fromhex(
    "6000000000081140 20010db8000000000000000000000001 20010db8000000010000000000000002 9c40003500080000"
)
RAW6 = header(101) + record(DATAGRAM, 48, 1)
ADDRESSES_SETUP = b"schema records ts:u64,src:u32\nindex s src\nask a find s 10.0.0.0 10.255.255.255\n"
ADDRESSES_CSV = b"ts,src\n0,9.255.255.255\n0,10.0.0.0\n0,10.255.255.255\n0,11.0.0.0\n"


def changed(data: bytes, place: int, byte: int, size: int | None = None) -> bytes:
    """The bytes with another one at a place, cut to a size."""
    return (data[:place] + bytes([byte]) + data[place + 1 :])[:size]


def sent(source: int, second: int, length: int = 60) -> bytes:
    """A record of the segment, from 10.0.0.SOURCE."""
    data = ADDRESSES + SEGMENT
    return record(data[:29] + bytes([source]) + data[30:], length, second)


def empty(count: int) -> bytes:
    """A capture of so many packets without bytes, that had 200."""
    return HEADER + record(b"", 200) * count


def line(
    number: int, ts: int, caplen: int, length: int, rest: str = "", etype: int = 0, vlan: int = 0
) -> str:
    """A line of a dump. Without the rest, of a packet whose headers were not captured."""
    bare = (
        "dmac=0x000000000000 smac=0x000000000000 etype=0 kind=0 tos=0 iplen=0 ttl=0 proto=0 src=0.0.0.0 dst=0.0.0.0 "
        "sport=0 dport=0 seq=0 ack=0 flags=0 win=0 vlan=0"
    )
    return f"{number} ts={ts} caplen={caplen} len={length} {rest or bare}\n"


def segment(macs: tuple[str, str], vlan: int = 0) -> str:
    """What a dump says of the segment."""
    return (
        f"dmac=0x{macs[0]} smac=0x{macs[1]} etype=2048 kind=2 tos=0 iplen=40 ttl=64 proto=6 src=10.0.0.12 dst=10.0.1.10 "
        f"sport=40219 dport=80 seq=0 ack=0 flags=16 win=1024 vlan={vlan}"
    )


PLACE = ("020000000001", "020000000002")


@needs_program
class Cases(unittest.TestCase):
    def setUp(self) -> None:
        place = tempfile.TemporaryDirectory()
        self.addCleanup(place.cleanup)
        self.folder = pathlib.Path(place.name)

    def put(self, **files: bytes) -> None:
        """Writes files of these names."""
        for name, data in files.items():
            (self.folder / name).write_bytes(data)

    def answer(self, words: tuple[str, ...]) -> tuple[int, str]:
        """The status and the text of the words."""
        ran = subprocess.run(
            [program.program(), *words],
            cwd=self.folder,
            stdin=subprocess.DEVNULL,
            capture_output=True,
            timeout=600,
        )
        self.assertEqual(ran.stderr, b"", words)
        return ran.returncode, ran.stdout.decode()

    def check(self, words: tuple[str, ...], status: int, text: str, **files: bytes) -> None:
        """Runs the words on the setup s, the capture c and others."""
        self.put(**files)
        self.assertEqual(self.answer(words), (status, text), (words, files.get("s")))
