"""Copies the packets that a question found into captures of their own."""

from __future__ import annotations

import os
import struct
from dataclasses import dataclass
from typing import BinaryIO, Callable, Iterator, Sequence

from .captures import LINKS, MAGICS, MOST_CAPTURED, CaptureFault, Frame, Reading, frames, opened, pieces
from .errors import Complaint
from .places import written
from .progress import shown
from .reports import Found, Report
from .unparsed import Unparsed

CHUNK = 2**22


@dataclass(frozen=True)
class Copied:
    """How many packets were copied, and what is known of all."""

    packets: int
    all: Unparsed

    @property
    def records(self) -> int:
        return self.all.packets


def rows_found(report: Report, name: str, source: str) -> set[int]:
    """The numbers in the final line of the question."""
    for ask in report.asks:
        if ask.name == name:
            if not isinstance(ask.body, Found):
                raise Complaint(
                    f"{source}: `{name}` is a question that finds no packets: it is a {ask.body.kind}"
                )
            return set(ask.body.rows)
    names = ", ".join(it.name for it in report.asks) or "none"
    raise Complaint(f"{source} has no line of `{name}`; it has {names}")


def copy_found(
    capture: str, wanted: set[int], out: BinaryIO, reading: Reading, to_end: bool = True
) -> Copied:
    """Writes everything but packets, and the packets with these numbers; without `to_end` the last of these ends it."""
    quickly = _copy_quickly(capture, wanted, out, to_end) if reading.schema == "packet6" else None
    if quickly:
        return quickly
    packets, unparsed = 0, Unparsed()
    last = None if to_end else max(wanted, default=None)
    with opened(capture) as file:
        for piece in shown(pieces(file, reading), f"reading {capture}, packets"):
            if piece.frame is None:
                out.write(piece.raw)
                continue
            unparsed.add(piece.frame)
            if piece.frame.number in wanted:
                packets += 1
                out.write(piece.raw)
                if piece.frame.number == last:
                    break
    return Copied(packets, unparsed)


def _copy_quickly(capture: str, wanted: set[int], out: BinaryIO, to_end: bool) -> Copied | None:
    """The same of a classic file without a fault, only by the lengths of its packets; nothing if the file is another."""
    if not os.path.isfile(capture):
        return None
    with open(capture, "rb") as file:
        head = file.read(24)
        if len(head) < 24 or head[:4] not in MAGICS:
            return None
        order = MAGICS[head[:4]][0]
        *version, link = struct.unpack(order + "HH12xI", head[4:])
        if version != [2, 4] or link & 0xFFFF not in LINKS["packet6"]:
            return None
        out.write(head)
        last = None if to_end else max(wanted, default=None)
        copied = _copy_records(file, struct.Struct(order + "I").unpack_from, wanted, out, last)
    if copied is None:
        out.seek(0)
        out.truncate()
    return copied


def _copy_records(
    file: BinaryIO,
    length_at: Callable[[bytes, int], tuple[int]],
    wanted: set[int],
    out: BinaryIO,
    last: int | None,
) -> Copied | None:
    """Copies the packets with these numbers, up to the last; nothing at a fault."""
    count = packets = at = 0
    data = b""
    while count - 1 != last:
        length = length_at(data, at + 8)[0] if at + 16 <= len(data) else 0
        if length > MOST_CAPTURED:
            return None
        end = at + 16 + length
        if end <= len(data):
            if count in wanted:
                out.write(data[at:end])
                packets += 1
            at, count = end, count + 1
            continue
        more = file.read(CHUNK)
        if not more:
            return Copied(packets, Unparsed(packets=count)) if at == len(data) else None
        data, at = data[at:] + more, 0
    return Copied(packets, Unparsed(packets=count))


def frames_at(captures: Sequence[str], wanted: set[int], may_be_cut: bool) -> Iterator[Frame]:
    """The packets of these numbers of captures end to end."""
    first, last = 0, max(wanted, default=-1)
    for capture in captures if wanted else ():
        count = 0
        with opened(capture) as file:
            all_ = shown(frames(file, Reading(may_be_cut, "packet6")), f"reading {capture}, packets")
            for count, frame in enumerate(all_, 1):
                if first + frame.number in wanted:
                    yield frame
                if first + frame.number == last:
                    return
        first += count


def copy_packets(report: Report, name: str, capture: str, out: str, source: str) -> Copied:
    """The file `out` has the found packets, or is as before; `-` is standard output."""
    wanted = rows_found(report, name, source)
    # A report does not say its schema; packet6 reads each capture that packet reads.
    reading = Reading(report.truncated is not None, "packet6")
    with written(out) as file:
        try:
            copied = copy_found(capture, wanted, file, reading)
        except CaptureFault as fault:
            raise Complaint(f"{capture}: record {fault.record} is faulty, code {fault.code}") from fault
        if copied.records != report.records:
            raise Complaint(
                f"{capture} is not the capture of {source}: it has {copied.records} records, "
                f"and the report {report.records}"
            )
        if reading.cut != report.truncated:
            raise Complaint(f"{capture} is not the capture of {source}: it is not cut off")
    return copied
