"""Cuts long captures at packets, so that several runs read one beside each other.

A classic capture is cut by its bytes where packets seem to begin. That is never believed: confluo takes a piece only if its records
end where it ends, and the first one begins behind the capture's header. So where all pieces are taken, all cuts are between records;
else the capture is walked from record to record, as a pcapng one always is.

Nothing is judged here: at the first length that cannot be, the rest of the file is one piece, and confluo says what is wrong with it.
"""

from __future__ import annotations

import mmap
import os
import struct
from dataclasses import dataclass
from typing import Callable, Iterator

from .captures import ENHANCED, INTERFACE, MAGICS, MOST_CAPTURED, SECTION, SIMPLE
from .over_part import Piece

# The packets of a piece of a capture that is walked: four segments of a log.
EACH = 2**18
ORDERS = {b"\x4d\x3c\x2b\x1a": "<", b"\x1a\x2b\x3c\x4d": ">"}
# The bytes of a piece of a capture that is not: at least so many, and at first this part of what a process has to read.
LEAST = 2**24
SHARE = 2
# Headers of records follow one another for so many bytes before a cut, and for so many behind it. Within one packet that holds a
# capture itself they do not get so far.
BEFORE = BEHIND = MOST_CAPTURED
# Of such headers: the most bytes that a packet had, and the most seconds between two.
MOST_LENGTH = 2**24
MOST_SECONDS = 2**20


@dataclass(frozen=True)
class Cut:
    """A piece of a capture, how many bytes it has, and whether it may end within a record."""

    piece: Piece
    size: int
    is_guess: bool = False


def whole(path: str) -> Cut:
    """All of a capture as one piece."""
    return Cut((path, 0, None, b""), size_of(path))


def size_of(path: str) -> int:
    """The bytes of a file, none where there is no such file."""
    return os.path.getsize(path) if os.path.exists(path) else 0


def guesses_of(path: str, others: int, jobs: int) -> Iterator[Cut] | None:
    """The pieces of a classic capture that so many processes read, with that many bytes of other captures; None where it must be walked.

    Pieces become smaller towards the end, so that the processes end together.
    """
    try:
        with open(path, "rb") as file:
            head, size = file.read(24), os.path.getsize(path)
    except OSError:
        # (the run says why)
        return iter([whole(path)])
    if head[:4] == b"\n\r\r\n":
        return None
    if head[:4] not in MAGICS or len(head) < 24:
        return iter([whole(path)])
    return _guesses(path, head, size, others, jobs)


def _guesses(path: str, head: bytes, size: int, others: int, jobs: int) -> Iterator[Cut]:
    def each(begin: int) -> int:
        return max(LEAST, (size - begin + others) // (SHARE * jobs))

    begin = end = 24
    with open(path, "rb") as file:
        while (end := end + each(begin)) + LEAST <= size:
            found = _begin_near(file.fileno(), head, size, end)
            if found is None:
                continue
            yield Cut((path, begin, found, head), found - begin, True)
            begin = end = found
    yield whole(path) if begin == 24 else Cut((path, begin, size, head), size - begin)


def _begin_near(file: int, head: bytes, size: int, at: int) -> int | None:
    """Where a record of a classic capture begins that is near a byte, as headers around it say, if they do."""
    order, unit = MAGICS[head[:4]]
    header_at = struct.Struct(f"{order}IIII").unpack_from
    data = os.pread(file, 2 * MOST_CAPTURED + BEFORE + BEHIND, at)
    is_end, parts = at + len(data) == size, 10**9 // unit
    for start in range(min(MOST_CAPTURED + 16, len(data) - 16)):
        place, cut, before = start, None, None
        while place + 16 <= len(data):
            seconds, part, captured, length = header_at(data, place)
            if not 0 < captured <= min(length, MOST_CAPTURED) or length > MOST_LENGTH or part >= parts:
                break
            if before is not None and abs(seconds - before) > MOST_SECONDS:
                break
            if cut is None and place >= start + BEFORE:
                cut = place
            if cut is not None and place >= cut + BEHIND:
                return at + cut
            place, before = place + 16 + captured, seconds
        if cut is not None and is_end and place == len(data):
            return at + cut
    return None


def walked(path: str, each: int) -> Iterator[Cut]:
    """The pieces of a capture, each with so many packets but the last; one that is packed or no capture is whole."""
    try:
        file = open(path, "rb")
    except OSError:
        # (the run says why)
        yield whole(path)
        return
    with file:
        head = file.read(24)
        is_classic, is_blocks = head[:4] in MAGICS and len(head) == 24, head[:4] == b"\n\r\r\n"
        if not (is_classic or is_blocks):
            yield whole(path)
            return
        with mmap.mmap(file.fileno(), 0, access=mmap.ACCESS_READ) as data:
            for begin, end, front in (_records if is_classic else _blocks)(data, each):
                yield Cut((path, begin, end, front), end - begin)


def _records(data: mmap.mmap, each: int) -> Iterator[tuple[int, int, bytes]]:
    """Begin and end of each piece of a classic capture, and what is before it."""
    head = data[:24]
    length_at = struct.Struct(MAGICS[data[:4]][0] + "I").unpack_from
    end = 24
    while True:
        begin, end = end, _behind(data, end, each, length_at)
        yield begin, end, head
        if end == len(data):
            return


def _behind(
    data: mmap.mmap, at: int, count: int, length_at: Callable[[mmap.mmap, int], tuple[int, ...]]
) -> int:
    """Where so many records end that begin there, or the end of the file if there are fewer."""
    # (this is one thread's work beside that of all others: each step counts)
    at += 8
    try:
        for _ in range(count):
            (length,) = length_at(data, at)
            if length > MOST_CAPTURED:
                return len(data)
            at += 16 + length
    except struct.error:
        # The file ends before the length.
        return len(data)
    return min(at - 8, len(data))


def _blocks(data: mmap.mmap, each: int) -> Iterator[tuple[int, int, bytes]]:
    """The same of a pcapng capture; before a piece are its section's header and the interfaces so far."""
    begin = at = count = 0
    front: list[bytes] = []
    order = "<"
    head = b""
    while at + 12 <= len(data):
        if data[at : at + 4] == b"\n\r\r\n":
            order = ORDERS.get(data[at + 8 : at + 12], order)
        kind, size = struct.unpack_from(f"{order}II", data, at)
        if size < 12 or size % 4 or at + size > len(data):
            break
        if kind in (SIMPLE, ENHANCED):
            if count == each:
                yield begin, at, head
                begin, count, head = at, 0, b"".join(front)
            count += 1
        elif kind == SECTION:
            front = [data[at : at + size]]
        elif kind == INTERFACE:
            front.append(data[at : at + size])
        at += size
    yield begin, len(data), head
