"""Reads captures, classic pcap and pcapng, and finds a capture's first fault with its place.

The rules are those of docs/FORMATS.md, "Captures of packets". A file that gzip or zstd packed is read
through a pipe where a command says so.
"""

from __future__ import annotations

import contextlib
import pathlib
import struct
import subprocess
import sys
from dataclasses import dataclass, field
from typing import BinaryIO, Iterator

from .errors import Complaint

MOST_BYTES = 2**32
MOST_CAPTURED = 262144
MOST_BLOCK = 2**20
MOST_INTERFACES = 65536
SECTION, INTERFACE, SIMPLE, ENHANCED = 0x0A0D0D0A, 1, 3, 6
CUT = (5, 25)
LEAST = {SECTION: 28, INTERFACE: 20, SIMPLE: 16, ENHANCED: 32}
LINKS = {"packet": (1, 113), "packet6": (1, 113, 276, 101, 228, 229, 0, 108)}
MAGICS = {
    b"\xd4\xc3\xb2\xa1": ("<", 1000),
    b"\xa1\xb2\xc3\xd4": (">", 1000),
    b"\x4d\x3c\xb2\xa1": ("<", 1),
    b"\xa1\xb2\x3c\x4d": (">", 1),
}
PACKED = {b"\x1f\x8b": "gzip", b"\x28\xb5\x2f\xfd": "zstd"}
LINK_NAMES = {
    0: "BSD loopback",
    1: "Ethernet",
    101: "raw IP",
    105: "802.11",
    108: "OpenBSD loopback",
    113: "Linux cooked",
    127: "802.11 with radiotap",
    147: "user 0",
    228: "raw IPv4",
    229: "raw IPv6",
    276: "Linux cooked v2",
}


@dataclass(frozen=True)
class Frame:
    """A captured packet: its number, time in nanoseconds, original length, bytes and link type."""

    number: int
    ts: int
    length: int
    data: bytes
    link: int


@dataclass
class Reading:
    """How a capture is read: whether a file that is cut off may be, and by which schema of packets.

    Where it is `long`, as by watch, a pcapng section has at most 65,536 interfaces; where it is `bounded`, as by a run
    without --long, the file is below 4 GiB.
    `cut` is, once all is read, the number of whole records of a file that is cut off.
    """

    may_be_cut: bool = False
    schema: str = "packet"
    long: bool = False
    bounded: bool = False
    cut: int | None = None


@dataclass(frozen=True)
class Piece:
    """Consecutive bytes of a file: a header, a block, or a packet with its frame.

    A long block that is passed over has no bytes here.
    """

    raw: bytes
    frame: Frame | None = None


class CaptureFault(Exception):
    """The first fault: its code, the record, the byte where it is, what was expected and found."""

    def __init__(self, code: int, record: int, at: int, expected: str, found: str) -> None:
        super().__init__(f"code {code}")
        self.code, self.record, self.at = code, record, at
        self.expected, self.found = expected, found


class _Source:
    """Bytes one after another, with the number of those that were read."""

    def __init__(self, file: BinaryIO, is_bounded: bool) -> None:
        self.file, self.is_bounded, self.at = file, is_bounded, 0
        self.is_blocks = False

    def read(self, count: int) -> bytes:
        """The next bytes, fewer only at the end."""
        data = b""
        while len(data) < count:
            more = self.file.read(count - len(data))
            if not more:
                break
            data += more
        self.at += len(data)
        if self.is_bounded and self.at >= MOST_BYTES:
            code = 26 if self.is_blocks else 6
            raise CaptureFault(code, 0, MOST_BYTES, "fewer than 4294967296 bytes", "more")
        return data

    def pass_over(self, count: int) -> int:
        """Reads so many bytes and keeps none; the number of those that there were."""
        passed = 0
        while passed < count:
            got = len(self.read(min(count - passed, 1 << 20)))
            if not got:
                break
            passed += got
        return passed


def _links_text(schema: str) -> str:
    """The link types that are read."""
    names = [f"{it} ({LINK_NAMES[it]})" for it in LINKS[schema]]
    return f"link type {', '.join(names[:-1])} or {names[-1]}"


def _link_text(link: int) -> str:
    return f"link type {link}" + (f" ({LINK_NAMES[link]})" if link in LINK_NAMES else "")


def _classic(source: _Source, head: bytes, schema: str) -> Iterator[Piece]:
    """The header and the records of a classic file whose first four bytes were read."""
    if len(head) == 4 and head not in MAGICS:
        wanted = "one of the four magic numbers of pcap, as d4c3b2a1"
        raise CaptureFault(1, 0, 0, wanted, f"{head.hex()}{_kind_of(head)}")
    order, unit = MAGICS.get(head, ("<", 1000))
    head += source.read(4)
    version = struct.unpack(order + "HH", head[4:8]) if len(head) == 8 else (2, 4)
    if version != (2, 4):
        raise CaptureFault(2, 0, 4, "version 2.4", f"version {version[0]}.{version[1]}")
    head += source.read(16)
    if len(head) < 24:
        raise CaptureFault(5, 0, source.at, "a file header of 24 bytes", f"{len(head)} bytes in all")
    link = struct.unpack(order + "I", head[20:24])[0] & 0xFFFF
    if link not in LINKS[schema]:
        raise CaptureFault(3, 0, 20, _links_text(schema), _link_text(link))
    yield Piece(head)
    number = 0
    while True:
        at = source.at
        record = source.read(16)
        if not record:
            return
        if len(record) < 16:
            found = f"{len(record)} bytes of it and then the end of the file"
            raise CaptureFault(5, number, at, "a record header of 16 bytes", found)
        seconds, part, count, length = struct.unpack(order + "IIII", record)
        if count > MOST_CAPTURED:
            found = f"{count}"
            raise CaptureFault(4, number, at + 8, "a captured length of at most 262144", found)
        data = source.read(count)
        if len(data) < count:
            found = f"{len(data)} and then the end of the file"
            raise CaptureFault(5, number, at, f"a record with {count} captured bytes", found)
        ts = seconds * 10**9 + part * unit
        yield Piece(record + data, Frame(number, ts, length, data, link))
        number += 1


def _kind_of(head: bytes) -> str:
    for magic, name in PACKED.items():
        if head.startswith(magic):
            return f", a file packed by {name}"
    if head == b"\xa1\xb2\xcd\x34" or head == b"\x34\xcd\xb2\xa1":
        return ", the modified pcap of Kuznetzov"
    if all(32 <= it < 127 or it in (9, 10, 13) for it in head):
        return f", the text `{head.decode('ascii').strip()}`"
    return ""


@dataclass
class _Section:
    """A section of a pcapng file: its byte order, and link, snapshot length and unit of interfaces."""

    order: str
    interfaces: list[tuple[int, int, int]] = field(default_factory=list)


def _resolution(order: str, options: bytes) -> int:
    """The value of if_tsresol, 6 where there is none."""
    at, found = 0, 6
    while at + 4 <= len(options):
        code, size = struct.unpack_from(order + "HH", options, at)
        end = at + 4 + size
        if code == 0 or end > len(options):
            break
        if code == 9 and size == 1:
            found = options[at + 4]
        at = end + -size % 4
    return found


def _nanoseconds(ticks: int, resolution: int) -> int:
    if resolution < 128:
        return min(ticks * 10**9 // 10**resolution, 2**64 - 1)
    return min(ticks * 10**9 >> (resolution - 128), 2**64 - 1)


class _Blocks:
    """The blocks of a pcapng file one after another."""

    def __init__(self, source: _Source, head: bytes, reading: Reading) -> None:
        self.source, self.head, self.reading, self.number = source, head, reading, 0
        self.section = _Section("<")
        source.is_blocks = True

    def fail(self, code: int, at: int, expected: str, found: str) -> None:
        raise CaptureFault(code, self.number, at, expected, found)

    def pieces(self) -> Iterator[Piece]:
        while True:
            at = self.source.at - len(self.head)
            head = self.head + self.source.read(8 - len(self.head))
            self.head = b""
            if not head:
                return
            yield self.block(at, head)

    def cut(self, at: int, wanted: str) -> None:
        self.fail(25, at, wanted, f"{self.source.at - at} bytes of it and then the end of the file")

    def block(self, at: int, head: bytes) -> Piece:
        """The block that begins with the first eight bytes of `head`."""
        if len(head) < 8:
            self.cut(at, "a block header of 8 bytes")
        if head[:4] == b"\n\r\r\n":
            head += self.source.read(4)
            self.open_section(at, head)
        kind, size = struct.unpack(self.section.order + "II", head[:8])
        most = MOST_BLOCK if kind in LEAST else 2**32
        if size % 4 or size < LEAST.get(kind, 12) or size > most:
            wanted = f"a total length that is a multiple of 4, from {LEAST.get(kind, 12)} to {most}"
            self.fail(27, at + 4, wanted, f"{size}")
        body = self.rest(at, kind, size, head)
        frame = self.read_block(at, kind, head + body)
        self.number += frame is not None
        return Piece(head + body if len(head) + len(body) == size else b"", frame)

    def rest(self, at: int, kind: int, size: int, head: bytes) -> bytes:
        """The block's further bytes; of a long one that is passed over only the last four."""
        left = size - len(head)
        if kind not in LEAST and left > MOST_BLOCK:
            if self.source.pass_over(left - 4) < left - 4:
                self.cut(at, f"a block of {size} bytes")
            left = 4
        body = self.source.read(left)
        if len(body) < left:
            self.cut(at, f"a block of {size} bytes")
        again = struct.unpack(self.section.order + "I", body[-4:])[0]
        if again != size:
            self.fail(27, at + size - 4, f"the block's total length {size} again", f"{again}")
        return body

    def open_section(self, at: int, head: bytes) -> None:
        if len(head) < 12:
            self.cut(at, "a section header")
        orders = {b"\x4d\x3c\x2b\x1a": "<", b"\x1a\x2b\x3c\x4d": ">"}
        if head[8:12] not in orders:
            self.fail(21, at + 8, "the byte-order magic 1a2b3c4d or 4d3c2b1a", head[8:12].hex())
        self.section = _Section(orders[head[8:12]])

    def read_block(self, at: int, kind: int, block: bytes) -> Frame | None:
        order = self.section.order
        if kind == SECTION:
            major = struct.unpack_from(order + "H", block, 12)[0]
            if major != 1:
                self.fail(22, at + 12, "major version 1", f"{major}")
        if kind == INTERFACE:
            if self.reading.long and len(self.section.interfaces) == MOST_INTERFACES:
                self.fail(29, at, f"at most {MOST_INTERFACES} interfaces in a section", "one more")
            link, _, snap = struct.unpack_from(order + "HHI", block, 8)
            self.section.interfaces.append((link, snap, _resolution(order, block[16:-4])))
        if kind == ENHANCED:
            return self.enhanced(at, block)
        if kind == SIMPLE:
            return self.simple(at, block)
        return None

    def interface(self, at: int, number: int) -> tuple[int, int, int]:
        known = self.section.interfaces
        if number >= len(known):
            wanted = f"an interface that the section describes; it describes {len(known)}"
            self.fail(28, at + 8, wanted, f"interface {number}")
        if known[number][0] not in LINKS[self.reading.schema]:
            wanted = f"an interface of {_links_text(self.reading.schema)}"
            self.fail(23, at + 8, wanted, f"interface {number} of {_link_text(known[number][0])}")
        return known[number]

    def captured(self, at: int, count: int) -> None:
        if count > MOST_CAPTURED:
            self.fail(24, at, "a captured length of at most 262144", f"{count}")

    def enhanced(self, at: int, block: bytes) -> Frame:
        fields = struct.unpack_from(self.section.order + "IIIII", block, 8)
        number, high, low, count, length = fields
        link, _, resolution = self.interface(at, number)
        self.captured(at + 20, count)
        if count > len(block) - 32:
            wanted = f"at most {len(block) - 32} captured bytes, which fit in the block"
            self.fail(27, at + 20, wanted, f"{count}")
        ts = _nanoseconds((high << 32) + low, resolution)
        return Frame(self.number, ts, length, block[28 : 28 + count], link)

    def simple(self, at: int, block: bytes) -> Frame:
        length = struct.unpack_from(self.section.order + "I", block, 8)[0]
        link, snap, _ = self.interface(at, 0)
        count = min(length, snap or length, len(block) - 16)
        self.captured(at + 8, count)
        return Frame(self.number, 0, length, block[12 : 12 + count], link)


def pieces(file: BinaryIO, reading: Reading | None = None) -> Iterator[Piece]:
    """All bytes of a capture piece by piece; a CaptureFault where it breaks a rule."""
    reading = reading or Reading()
    source = _Source(file, reading.bounded)
    head = source.read(4)
    if head == b"\n\r\r\n":
        return _up_to_a_cut(_Blocks(source, head, reading).pieces(), reading)
    return _up_to_a_cut(_classic(source, head, reading.schema), reading)


def _up_to_a_cut(read: Iterator[Piece], reading: Reading) -> Iterator[Piece]:
    """The pieces; a file that is cut off behind its header ends there where it may be cut."""
    has_header = False
    try:
        for it in read:
            has_header = True
            yield it
    except CaptureFault as fault:
        if not (reading.may_be_cut and has_header and fault.code in CUT):
            raise
        reading.cut = fault.record


def frames(file: BinaryIO, reading: Reading | None = None) -> Iterator[Frame]:
    """The packets of a capture."""
    return (it.frame for it in pieces(file, reading) if it.frame is not None)


def packer_of(path: str) -> str | None:
    """`gzip` or `zstd` where the file is packed by it."""
    try:
        if not pathlib.Path(path).is_file():
            return None
        with open(path, "rb") as file:
            head = file.read(4)
    except OSError as error:
        raise Complaint(f"{path}: {error.strerror}") from error
    return next((name for magic, name in PACKED.items() if head.startswith(magic)), None)


@contextlib.contextmanager
def unpacking(path: str, packer: str) -> Iterator[BinaryIO]:
    """The bytes of a packed file by a pipe from its program."""
    child = start_packer(path, packer, subprocess.PIPE)
    assert child.stdout
    with child.stdout as pipe:
        yield pipe
    end_packer(child, path, packer)


def start_packer(path: str, packer: str, out: int | BinaryIO) -> subprocess.Popen[bytes]:
    """The program that unpacks the file."""
    try:
        return subprocess.Popen([packer, "-dc", path], stdout=out)
    except FileNotFoundError as error:
        raise Complaint(f"{path}: {packer} is needed to unpack it: apt-get install {packer}") from error


def end_packer(child: subprocess.Popen[bytes], path: str, packer: str) -> None:
    """Waits for it; that nobody read to the end is no fault."""
    if child.wait() not in (0, -13):
        raise Complaint(f"{path}: {packer} could not unpack it (status {child.returncode})")


@contextlib.contextmanager
def opened(path: str) -> Iterator[BinaryIO]:
    """The capture's bytes, unpacked where it is packed; `-` is standard input."""
    if path == "-":
        yield sys.stdin.buffer
        return
    packer = packer_of(path)
    if packer:
        with unpacking(path, packer) as pipe:
            yield pipe
        return
    try:
        file = open(path, "rb")
    except OSError as error:
        raise Complaint(f"{path}: {error.strerror}") from error
    with file:
        yield file
