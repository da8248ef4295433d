"""A line on standard error, if that is a terminal, that says how far a long reading is."""

from __future__ import annotations

import contextlib
import os
import pathlib
import subprocess
import sys
import time
from typing import Iterable, Iterator, Sequence, TextIO, TypeVar

STEP = 8192
REST = 0.5
T = TypeVar("T")


def shown(things: Iterable[T], text: str, out: TextIO | None = None) -> Iterator[T]:
    """Hands on the things, and says their number after the text, at most twice a second; the line is cleared at the end."""
    out = out or sys.stderr
    if not out.isatty():
        yield from things
        return
    late, is_there = time.monotonic() + REST, False
    try:
        for count, it in enumerate(things):
            if count % STEP == 0 and time.monotonic() >= late:
                out.write(f"\r{text}: {count:,}")
                out.flush()
                late, is_there = time.monotonic() + REST, True
            yield it
    finally:
        if is_there:
            out.write("\r\x1b[K")
            out.flush()


def printed(process: subprocess.Popen[bytes], paths: Sequence[str], out: TextIO | None = None) -> bytes:
    """What the process prints until it ends; meanwhile how much of these files it has read, twice a second."""
    out = out or sys.stderr
    if not out.isatty():
        return process.communicate()[0]
    is_there = False
    try:
        while True:
            try:
                return process.communicate(timeout=REST)[0]
            except subprocess.TimeoutExpired:
                out.write(f"\r{part_read(process.pid, paths)}\x1b[K")
                out.flush()
                is_there = True
    finally:
        if is_there:
            out.write("\r\x1b[K")
            out.flush()


def part_read(pid: int, paths: Sequence[str]) -> str:
    """How much of the files, which are read one after another, the process has read, or a packer for it."""
    known = [os.path.realpath(it) for it in paths]
    sizes = [os.path.getsize(it) if os.path.isfile(it) else 0 for it in known]
    opened = [it for its in map(_open_files, (pid, *_children())) for it in its]
    places = [(known.index(file), place) for file, place in opened if file in known]
    if not places or not all(sizes):
        return "confluo runs"
    # (the packers of later files have begun already)
    at, place = min(places)
    read = sum(sizes[:at]) + place
    return f"confluo has read {100 * read // sum(sizes)}% of {sum(sizes) / 1e6:,.0f} MB"


def _children() -> Iterator[int]:
    """The processes that this one has started, packers among them."""
    for path in pathlib.Path("/proc/self/task").glob("*/children"):
        with contextlib.suppress(OSError):
            yield from map(int, path.read_text(encoding="ascii").split())


def _open_files(pid: int) -> Iterator[tuple[str, int]]:
    """The files that the process has open, and where it is in them, as Linux says it."""
    folder = f"/proc/{pid}"
    try:
        for fd in os.listdir(f"{folder}/fd"):
            with open(f"{folder}/fdinfo/{fd}", encoding="ascii") as info:
                place = next((it.split()[1] for it in info if it.startswith("pos:")), "0")
            yield os.readlink(f"{folder}/fd/{fd}"), int(place)
    except OSError:
        return


class Parts:
    """How many parts are done, with the bytes a second and the time that is left; `things` says what they are."""

    def __init__(self, things: str, size: int, out: TextIO | None = None) -> None:
        self.out = out or sys.stderr
        self.things, self.size = things, size
        self.ended = self.read = 0
        self.begun = self.said = time.monotonic()
        self.is_there = False

    def __enter__(self) -> Parts:
        return self

    def __exit__(self, *_: object) -> None:
        if self.is_there:
            self.out.write("\r\x1b[K")
            self.out.flush()

    def done(self, size: int) -> None:
        """One more part, of that size, is done."""
        self.ended += 1
        self.read += size
        now = time.monotonic()
        if not self.out.isatty() or now - self.said < REST:
            return
        self.said, self.is_there = now, True
        self.out.write(f"\r\x1b[K{self.text(now - self.begun)}")
        self.out.flush()

    def text(self, seconds: float) -> str:
        """What is said after so many seconds."""
        speed = self.read / seconds if seconds else 0
        left = f", {(self.size - self.read) / speed:,.0f} s left" if speed else ""
        return f"{self.ended:,} {self.things}, {speed / 1e6:,.1f} MB/s{left}"
