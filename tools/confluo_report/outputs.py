"""Where a stream goes: the calls that every output takes, and lines on standard output."""

from __future__ import annotations

import contextlib
import json
import os
import select
import signal
import sys
from collections import deque
from dataclasses import dataclass, replace
from types import FrameType
from typing import Any, Sequence, TextIO

from .explain import Case, explain
from .exports import FORMAT, report_object, told_object
from .incoming import Ending
from .reports import Alert, Refusal, RoundAlert, RoundBeat, RoundTotal, Told
from .setups import Setup
from .show import Viewer, alert_place, report_lines, told_lines
from .values import grouped

# So many alerts are known at the end as shown.
MOST_SHOWN = 10000
PIECE = 65536


@dataclass(frozen=True)
class Held:
    """Alerts of a trigger, and of one key if it has keys, that were held back, up to the last of them; `is_over`: none came for so long."""

    trigger: str
    count: int
    last: RoundAlert
    is_over: bool


@dataclass(frozen=True)
class Silent:
    """For so many seconds no packet came after the first `prefix`; `is_over`: now they come again."""

    prefix: int
    seconds: int
    is_over: bool


class Output:
    """Where what comes is shown."""

    def told(self, it: Told) -> None:
        """A line of a round."""

    def held(self, it: Held) -> None:
        """Alerts that were held back, or the end of a trigger's state."""

    def silent(self, it: Silent) -> None:
        """No packet has come for long, or they come again."""

    def idle(self) -> None:
        """Nothing waits to be read."""

    def pause(self) -> None:
        """All that has come was handed on; called again within the seconds of `rest`."""

    def rest(self) -> float | None:
        """In how many seconds `pause` must be called at the latest; None: once something has come."""
        return None

    def end(self, ending: Ending) -> None:
        """No more comes."""

    def close(self) -> None:
        """The last call, whatever came before."""

    def has_commands(self) -> bool:
        """Whether commands run that the end waits for."""
        return False

    def stop_at(self, stopper: Stopper) -> None:
        """What ends a wait for room."""


class Several(Output):
    """Hands all calls on to its outputs."""

    def __init__(self, outputs: Sequence[Output]) -> None:
        self.outputs = outputs

    def told(self, it: Told) -> None:
        for output in self.outputs:
            output.told(it)

    def held(self, it: Held) -> None:
        for output in self.outputs:
            output.held(it)

    def silent(self, it: Silent) -> None:
        for output in self.outputs:
            output.silent(it)

    def idle(self) -> None:
        for output in self.outputs:
            output.idle()

    def pause(self) -> None:
        for output in self.outputs:
            output.pause()

    def rest(self) -> float | None:
        return sooner(*(it.rest() for it in self.outputs))

    def end(self, ending: Ending) -> None:
        for output in self.outputs:
            output.end(ending)

    def close(self) -> None:
        for output in self.outputs:
            output.close()

    def has_commands(self) -> bool:
        return any(it.has_commands() for it in self.outputs)

    def stop_at(self, stopper: Stopper) -> None:
        for output in self.outputs:
            output.stop_at(stopper)


def sooner(*rests: float | None) -> float | None:
    """The least of the rests that are one."""
    return min((it for it in rests if it is not None), default=None)


class Stopper:
    """Turns SIGTERM, SIGINT and the end of a command into a byte that can be waited for."""

    # The one of the stream that is read.
    current: Stopper | None = None

    def __init__(self) -> None:
        self.fd, self._write = os.pipe()
        os.set_blocking(self._write, False)
        self.is_stopped = False
        self._before: dict[int, Any] = {}

    def __enter__(self) -> Stopper:
        for number in (signal.SIGTERM, signal.SIGINT):
            self._before[number] = signal.signal(number, self._stop)
        self._before[signal.SIGCHLD] = signal.signal(signal.SIGCHLD, self._wake)
        Stopper.current = self
        return self

    def _stop(self, number: int, frame: FrameType | None) -> None:
        self.is_stopped = True
        self._wake(number, frame)

    def _wake(self, number: int, frame: FrameType | None) -> None:
        try:
            os.write(self._write, b"!")
        except BlockingIOError:
            # There are bytes enough to wake whoever waits.
            pass

    def drain(self) -> None:
        """Takes the bytes that have come; after a stop there is one that stays."""
        if self.is_stopped:
            return
        os.read(self.fd, PIECE)
        if self.is_stopped:
            # It came meanwhile.
            os.write(self._write, b"!")

    def __exit__(self, *_: object) -> None:
        Stopper.current = None
        for number, handler in self._before.items():
            signal.signal(number, handler)
        os.close(self.fd)
        os.close(self._write)


class Writer:
    """Text on its way out: it waits for room in a full pipe, or for the stop, whichever comes first."""

    def __init__(self, out: TextIO) -> None:
        self.out, self.waiting = out, bytearray()

    def write(self, text: str) -> None:
        """The text goes out with the next `flush`."""
        self.waiting += text.encode(errors="surrogateescape")

    def flush(self, stopper: Stopper | None = None) -> None:
        """All that waits goes out. After a stop only what has room at once does."""
        try:
            fd = self.out.fileno()
        except OSError:
            self.out.write(self.waiting.decode(errors="surrogateescape"))
            self.out.flush()
            self.waiting.clear()
            return
        while self.waiting and _has_room(fd, stopper):
            # A pipe that has room takes so many bytes without waiting.
            del self.waiting[: os.write(fd, self.waiting[: select.PIPE_BUF])]


def _has_room(fd: int, stopper: Stopper | None) -> bool:
    """Waits for room, or for the stop: then whether there is room at once."""
    while True:
        is_stopped = stopper is not None and stopper.is_stopped
        stops = [stopper.fd] if stopper and not is_stopped else []
        woken, ready, _ = select.select(stops, [fd], [], 0 if is_stopped else None)
        if ready or is_stopped:
            return bool(ready)
        if woken and stopper:
            # A command that ended does not make room.
            stopper.drain()


class TextOutput(Output):
    """Text on standard output."""

    def __init__(self, out: TextIO) -> None:
        self.writer, self.stopper = Writer(out), None

    def stop_at(self, stopper: Stopper) -> None:
        self.stopper = stopper

    def pause(self) -> None:
        self.writer.flush(self.stopper)

    def close(self) -> None:
        # What came before a stop, or before a line that is not one of `watch`.
        with contextlib.suppress(OSError):
            self.writer.flush(self.stopper)


class WordLines(TextOutput):
    """Lines for people; beats too if it `has_beats`."""

    def __init__(self, out: TextIO, viewer: Viewer, setup_path: str | None, has_beats: bool = False) -> None:
        super().__init__(out)
        self.viewer, self.setup_path, self.has_beats = viewer, setup_path, has_beats
        self.shown = deque[Alert](maxlen=MOST_SHOWN)

    def _print(self, lines: Sequence[str]) -> None:
        self.writer.write("".join(f"{it}\n" for it in lines))

    def told(self, it: Told) -> None:
        if isinstance(it, RoundAlert):
            self.shown.append(Alert(it.trigger, it.bucket, it.value, it.by))
        if self.has_beats or not is_of_beat(it):
            self._print(told_lines(self.viewer, it))

    def held(self, it: Held) -> None:
        self._print([held_line(self.viewer, it)])

    def silent(self, it: Silent) -> None:
        self._print([silent_line(self.viewer, it)])

    def end(self, ending: Ending) -> None:
        if ending.report:
            # Its alerts were shown as they came; here are those whose value has changed since.
            shown = set(self.shown)
            report = replace(
                ending.report, alerts=tuple(it for it in ending.report.alerts if it not in shown)
            )
            self._print(["", *report_lines(self.viewer, report)])
        if ending.refusal:
            self._print(["", *in_words(ending.refusal, self.setup_path)])


def held_line(viewer: Viewer, it: Held) -> str:
    """What became of the alerts of a trigger that were held back."""
    trigger = viewer.style.title(it.trigger)
    more = f"{it.count} more alert{'s' * (it.count != 1)} held back" if it.count else "no alert held back"
    last = f", the last of {alert_place(viewer, it.last)}"
    return f"{'over' if it.is_over else 'held'}  {trigger}  {more}{last}"


def silent_line(viewer: Viewer, it: Silent) -> str:
    """That no packet came, or that they come again."""
    what, after = viewer.things[:-1], f"after {grouped(it.prefix)} {viewer.things}"
    spent = f"{it.seconds} second{'s' * (it.seconds != 1)}"
    if it.is_over:
        return f"silence  over: {what}s come again, {after} and {spent} without one"
    return f"silence  no {what} for {spent}, {after}"


def is_of_beat(it: Told) -> bool:
    """Whether the line is one of a beat."""
    return isinstance(it, (RoundBeat, RoundTotal))


def in_words(refusal: Refusal, setup_path: str | None) -> list[str]:
    """The refusal as `explain` has it."""
    return explain(refusal, None, Case(setup_path, is_watch=True))


class JsonLines(TextOutput):
    """An object a line; beats too if it `has_beats`."""

    def __init__(
        self, out: TextIO, setup: Setup | None, setup_path: str | None, has_beats: bool = False
    ) -> None:
        super().__init__(out)
        self.setup, self.setup_path, self.has_beats = setup, setup_path, has_beats

    def told(self, it: Told) -> None:
        if self.has_beats or not is_of_beat(it):
            self.writer.write(json_line(it, self.setup))

    def held(self, it: Held) -> None:
        last = told_object(it.last, self.setup)
        found = {"trigger": it.trigger, "count": it.count, "over": it.is_over, "last": last}
        self.writer.write(json.dumps({"format": FORMAT, "kind": "held", **found}) + "\n")

    def silent(self, it: Silent) -> None:
        self.writer.write(json_line(it))

    def end(self, ending: Ending) -> None:
        if ending.report:
            self.writer.write(json.dumps(report_object(ending.report, self.setup)) + "\n")
        if ending.refusal:
            words = in_words(ending.refusal, self.setup_path)
            found = {"format": FORMAT, "kind": "refusal", "line": ending.line, "words": words}
            self.writer.write(json.dumps(found) + "\n")


def json_line(it: Told | Silent, setup: Setup | None = None) -> str:
    """The line of a round, or a silence, as a JSON line."""
    if isinstance(it, Silent):
        found = {"kind": "silence", "over": it.is_over, "seconds": it.seconds, "prefix": it.prefix}
    else:
        found = told_object(it, setup)
    return json.dumps({"format": FORMAT, **found}) + "\n"


def report_trouble(text: str) -> None:
    """Says on standard error what ends nothing. A stream that is stopped does not wait for room there."""
    writer = Writer(sys.stderr)
    writer.write(f"confluo-report: {text}\n")
    writer.flush(Stopper.current)
