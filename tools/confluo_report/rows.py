"""The rows of a capture or record file, by a setup's schema."""

from __future__ import annotations

from typing import Iterator

from .captures import Reading, frames, opened
from .expressions import Value
from .frames import packet_row
from .frames6 import packet6_row
from .recordfiles import record_rows
from .setups import Setup

Row = tuple[Value, ...]


def rows_of(setup: Setup, path: str, reading: Reading | None = None) -> Iterator[Row]:
    """The rows in order; a CaptureFault at the first fault."""
    with opened(path) as file:
        if setup.is_packet:
            reading = reading or Reading()
            reading.schema = setup.source
            row = packet_row if setup.source == "packet" else packet6_row
            yield from map(row, frames(file, reading))
        else:
            yield from record_rows(setup.schema, file.read())


def bucket_of(setup: Setup, row: Row) -> int:
    """The row's time bucket."""
    ts = row[setup.place_of("ts") or 0]
    assert isinstance(ts, int)
    return ts // setup.nanoseconds
