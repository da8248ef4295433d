"""Alerts and live answers of `confluo watch` as they come, to each output."""

from __future__ import annotations

import os
import select

from .alerting import GLANCE
from .incoming import Incoming
from .outputs import PIECE, Output, Stopper, report_trouble
from .tcpdump import Notes

# What `confluo watch` ends with where it writes such a line, and what the stream then ends with too.
STATUSES = {"words": 1, "setup": 2, "capture": 3, "full": 6, "nodes": 7, "file": 9}
# No status of confluo: the stream ended without a final part or a refusal; it has troubles of its own.
CUT_OFF, OWN_TROUBLE = 10, 11


def _pump(fd: int, incoming: Incoming, output: Output, stopper: Stopper, notes: Notes | None) -> bool:
    """Hands on all that comes; answers whether the text ended, rather than that it was stopped."""
    while not stopper.is_stopped:
        output.pause()
        rest = output.rest()
        fds = [fd, stopper.fd, *([notes.fd] if notes and notes.fd is not None else [])]
        ready, _, _ = select.select(fds, [], [], None if rest is None else max(rest, 0))
        if stopper.fd in ready:
            stopper.drain()
        if notes and notes.fd in ready:
            notes.read()
        if stopper.is_stopped:
            break
        if fd not in ready:
            output.idle()
            continue
        piece = os.read(fd, PIECE)
        if not piece:
            return True
        for told in incoming.feed(piece):
            output.told(told)
    return False


def _drain(output: Output, stopper: Stopper) -> None:
    """The commands of the alerts that wait are run too."""
    while not stopper.is_stopped and output.has_commands():
        ready, _, _ = select.select([stopper.fd], [], [], GLANCE)
        if ready:
            stopper.drain()
        output.pause()


def _read(fd: int, incoming: Incoming, output: Output, stopper: Stopper, notes: Notes | None) -> int:
    has_ended = _pump(fd, incoming, output, stopper, notes)
    if notes:
        notes.finish()
    if not has_ended:
        return 0
    ending = incoming.end()
    output.end(ending)
    output.pause()
    _drain(output, stopper)
    if ending.report:
        return 0
    report_trouble(f"{incoming.source}: the stream ended before its end: {ending.line or ending.why}")
    return STATUSES[ending.refusal.kind] if ending.refusal else CUT_OFF


def stream(fd: int, incoming: Incoming, output: Output, notes: Notes | None = None) -> int:
    """Reads to the end, or until SIGTERM. Answers 0, the status of a refusal, or CUT_OFF where there was neither it nor a final part."""
    with Stopper() as stopper:
        output.stop_at(stopper)
        try:
            return _read(fd, incoming, output, stopper, notes)
        finally:
            output.close()
