"""What the tests share: where things are, and how the tool and the program are run."""

from __future__ import annotations

import contextlib
import io
import pathlib
import struct
import subprocess
import sys
import unittest
from dataclasses import dataclass
from typing import Callable, TypeVar
from unittest import mock

sys.dont_write_bytecode = True
TOOLS = pathlib.Path(__file__).resolve().parent.parent
ROOT = TOOLS.parent
if str(TOOLS) not in sys.path:
    sys.path.insert(0, str(TOOLS))

from confluo_report import cli, program  # noqa: E402

EXAMPLES = ROOT / "examples"
INCIDENTS = EXAMPLES / "incidents"
GUIDE = ROOT / "docs" / "GUIDE.md"
T = TypeVar("T")
SMALL = ("--writers", "1", "--capacity", "64", "--nodes", "64")
NO_PROGRAM = "the program confluo is not built: make run builds it, CONFLUO=FILE names another"
needs_program = unittest.skipUnless(program.find_program(), NO_PROGRAM)

EXAMPLE = EXAMPLES / "two_frames.pcap"


def needs_words(*words: str) -> Callable[[T], T]:
    """Skips where there is no program, or one that refuses these words of a dump."""
    found = program.find_program()
    if not found:
        return unittest.skip(NO_PROGRAM)
    ran = subprocess.run([found, "dump", *words, EXAMPLE], stdin=subprocess.DEVNULL, capture_output=True)
    return unittest.skipIf(ran.returncode == 1, f"this confluo refuses {' '.join(words)}")


needs_truncated = needs_words("--truncated")

REPORT = """\
records 4
ask all list 4: 0 1 2 3
ask none find 0:
ask then between 2: 1 3
ask g fired 2: 1=90 2=100
ask m measure count 3 sum 190 least 60 greatest 70
ask z measure count 0 sum 0 least - greatest -
ask o total count 1 sum 60 least 60 greatest 60
ask h top 2: 167772161=120 167772162=70
ask i groups 2: 1=1/60/60/60 2=2/130/60/70
alert t 1 90
alert t 2 100
live all @2 list 2: 1 0
live g @2 fired 1: 1=71
new g @2 fired 1: 1=71
live all @4 list 4: 1 0 2 3
live g @4 fired 2: 1=90 2=100
new g @4 fired 1: 2=100
order 1*1 0*2 1*1
"""
SNAPSHOT = "cut 2\nhost 0 @1\nask big list 0:\nhost 1 @1\nask big list 1: 0\n"
CUT_REPORT = REPORT + "truncated: record 4\n"
CUT_SNAPSHOT = SNAPSHOT.replace("host 1", "truncated: record 7\nhost 1") + "truncated: record 1\n"


@dataclass(frozen=True)
class Ended:
    """How a command ended: status, standard output and standard error."""

    status: int
    out: str
    err: str


class _Out(io.TextIOWrapper):
    """Standard output that is no terminal and keeps what is written."""

    def __init__(self) -> None:
        super().__init__(io.BytesIO(), encoding="utf-8", write_through=True)

    def text(self) -> str:
        self.flush()
        return self.buffer.getvalue().decode("utf-8", "surrogateescape")  # type: ignore[attr-defined]


def tool(*words: object, stdin: bytes | str = b"") -> Ended:
    """Runs confluo-report with the words, in this process."""
    data = stdin.encode() if isinstance(stdin, str) else stdin
    out, err = _Out(), io.StringIO()
    source = io.TextIOWrapper(io.BytesIO(data))
    with contextlib.redirect_stdout(out), contextlib.redirect_stderr(err), mock.patch("sys.stdin", source):
        try:
            status = cli.main([str(it) for it in words])
        except SystemExit as end:
            status = end.code if isinstance(end.code, int) else 1
    return Ended(status, out.text(), err.getvalue())


def confluo(*words: object, stdin: bytes = b"") -> Ended:
    """Runs the program with the words."""
    done = subprocess.run(
        [program.program(), *map(str, words)], input=stdin, capture_output=True, timeout=600
    )
    return Ended(
        done.returncode, done.stdout.decode("ascii", "replace"), done.stderr.decode("utf-8", "replace")
    )


def frame(src: int = 1, dport: int = 80, size: int = 54, flags: int = 16) -> bytes:
    """An Ethernet frame of TCP from 10.0.0.`src` to 10.0.1.10."""
    link = bytes.fromhex("020000000001 020000000002 0800")
    ip = struct.pack(">BBHIBBHII", 0x45, 0, size - 14, 0, 64, 6, 0, 0x0A000000 + src, 0x0A00010A)
    tcp = struct.pack(">HHIIBBHI", 40000 + src % 250, dport, 0, 0, 0x50, flags, 1024, 0)
    return link + ip + tcp


def frame6(flags: int = 2, dport: int = 443) -> bytes:
    """An Ethernet frame of TCP from 2001:db8::1 to 2001:db8::2."""
    ends = struct.pack(">QQQQ", 0x20010DB8 << 32, 1, 0x20010DB8 << 32, 2)
    tcp = struct.pack(">HHIIBBHI", 40000, dport, 0, 0, 0x50, flags, 1024, 0)
    ip = struct.pack(">IHBB", 6 << 28, len(tcp), 6, 64) + ends
    return bytes.fromhex("020000000001 020000000002 86dd") + ip + tcp


def tagged(tags: str = "8100000a81000014") -> bytes:
    """The frame of `frame` behind two VLAN tags."""
    data = frame()
    return data[:12] + bytes.fromhex(tags) + data[12:]


def pcap(frames: list[tuple[int, bytes]], link: int = 1, length: int | None = None) -> bytes:
    """A classic capture of frames with their seconds."""
    head = struct.pack("<IHHIIII", 0xA1B2C3D4, 2, 4, 0, 0, 65535, link)
    records = (struct.pack("<IIII", second, 0, len(it), length or len(it)) + it for second, it in frames)
    return head + b"".join(records)


def block(kind: int, body: bytes, order: str = "<") -> bytes:
    """A block of a pcapng file."""
    body += bytes(-len(body) % 4)
    return struct.pack(order + "II", kind, len(body) + 12) + body + struct.pack(order + "I", len(body) + 12)


def section(major: int = 1, order: str = "<") -> bytes:
    """A section header block."""
    return block(0x0A0D0D0A, struct.pack(order + "IHHq", 0x1A2B3C4D, major, 0, -1), order)


def interface(link: int = 1) -> bytes:
    """An interface description block."""
    return block(1, struct.pack("<HHI", link, 0, 0))


def enhanced(data: bytes, number: int = 0, captured: int | None = None) -> bytes:
    """An enhanced packet block."""
    count = len(data) if captured is None else captured
    return block(6, struct.pack("<IIIII", number, 0, 10**6, count, len(data)) + data)
