"""Metrics of a stream, in a file that node_exporter reads."""

from __future__ import annotations

import array
import fcntl
import termios
import time
from collections import Counter
from dataclasses import dataclass, field
from typing import Callable

from .alerting import Commands
from .errors import Complaint
from .incoming import Ending
from .metrics import EXACT, Families, add_beat, add_body, keys_of, write_at_once
from .outputs import Output, Silent, report_trouble
from .reports import Groups, Quad, RoundAlert, RoundBeat, RoundCrowded, RoundLive, RoundTotal, Told, Top
from .setups import SECOND, Setup
from .tcpdump import Counts

# How often the file is written at most, and at least, in seconds: by its age one sees that the stream is read.
LEAST, MOST = 1.0, 15.0


@dataclass
class Seen:
    """What the metrics are made of."""

    records: int = 0
    first: int = 0
    alerts: Counter[str] = field(default_factory=Counter)
    last: dict[str, RoundAlert] = field(default_factory=dict)
    crowded: Counter[str] = field(default_factory=Counter)
    lives: dict[str, RoundLive] = field(default_factory=dict)
    beat: RoundBeat | None = None
    totals: dict[str, RoundTotal] = field(default_factory=dict)
    # None if nobody looks for it.
    is_silent: bool | None = None


class Textfile(Output):
    """A file of metrics, which is replaced in one step."""

    def __init__(
        self,
        path: str,
        labels: dict[str, str],
        setup: Setup | None,
        commands: Commands | None = None,
        counts: Counts | None = None,
        now: Callable[[], float] = time.monotonic,
    ) -> None:
        self.path, self.labels, self.setup, self.commands, self.counts = path, labels, setup, commands, counts
        self.keys, self.now = keys_of(setup), now
        self.seen, self.running, self.ending = Seen(), 1, Ending()
        # How many bytes of the stream wait to be read, if it is known.
        self.unread: Callable[[], int] | None = None
        self.seen.alerts.update(dict.fromkeys((it.name for it in setup.triggers) if setup else (), 0))
        by_keys = [it.name for it in setup.lanes if it.by is not None] if setup else []
        self.seen.crowded.update(dict.fromkeys(by_keys, 0))
        self.is_new, self.written, self.is_failing = True, now() - LEAST, False

    def told(self, it: Told) -> None:
        self.is_new, seen = True, self.seen
        seen.records = it.prefix
        if isinstance(it, RoundAlert):
            seen.alerts[it.trigger] += 1
            seen.last[it.trigger] = it
        elif isinstance(it, RoundCrowded):
            seen.crowded[it.name] += 1
        elif isinstance(it, RoundBeat):
            seen.beat = it
        elif isinstance(it, RoundTotal):
            seen.totals[it.name] = it
        else:
            seen.first = it.first
            seen.lives[it.name] = it

    def silent(self, it: Silent) -> None:
        self.is_new, self.seen.is_silent = True, not it.is_over

    def pause(self) -> None:
        if self.rest() <= 0:
            self._write()

    def rest(self) -> float:
        is_new = self.is_new or bool(self.counts and self.counts.is_new)
        return self.written + (LEAST if is_new else MOST) - self.now()

    def end(self, ending: Ending) -> None:
        self.ending = ending
        if ending.report:
            self.seen.records, self.seen.first = ending.report.records, ending.report.window or 0

    def close(self) -> None:
        self.running = 0
        self._write()

    def _write(self) -> None:
        try:
            # Nothing waits for the disk: after a crash the next start writes it anew.
            write_at_once(self.path, self.text(), is_synced=False)
            self.is_new, self.written, self.is_failing = False, self.now(), False
        except Complaint as complaint:
            # A full disk now is no reason to lose the alerts to come. It is said once until there is room.
            self.written = self.now()
            if not self.is_failing:
                report_trouble(str(complaint))
            self.is_failing = True

    def text(self) -> str:
        """The metrics; a number above 2^53, which no value holds exactly, is left out."""
        families, seen = Families(self.labels), self.seen
        families.add("confluo_stream_running", self.running)
        families.add("confluo_records_total", seen.records)
        families.add("confluo_window_record", seen.first)
        if self.unread:
            families.add("confluo_stream_unread_bytes", self.unread())
        if seen.beat:
            add_beat(families, seen.beat, seen.totals.values(), self.setup)
        if seen.is_silent is not None:
            families.add("confluo_stream_silent", int(seen.is_silent))
        self._add_alerts(families)
        for name, live in sorted(seen.lives.items()):
            if _is_exact(live):
                add_body(families, "live_", live.body, self.keys, ask=name)
        for result, count in sorted(self.commands.results.items() if self.commands else ()):
            families.add("confluo_stream_commands_total", count, result=result)
        if self.counts:
            self.counts.add_to(families)
        if self.ending.refusal:
            families.add("confluo_stream_fault", self.ending.refusal.code, fault=self.ending.refusal.kind)
        return families.text()

    def _add_alerts(self, families: Families) -> None:
        for name, count in sorted(self.seen.alerts.items()):
            families.add("confluo_stream_alerts_total", count, trigger=name)
        for name, count in sorted(self.seen.crowded.items()):
            families.add("confluo_stream_crowded_total", count, aggregate=name)
        for name, it in sorted(self.seen.last.items()):
            values = {"alert_bucket_number": it.bucket, "alert_value": it.value}
            if self.setup:
                values["alert_seconds"] = it.bucket * self.setup.nanoseconds // SECOND
            for part, value in values.items():
                if value <= EXACT:
                    families.add(f"confluo_stream_{part}", value, trigger=name)


def unread(fd: int) -> int:
    """How many bytes of the pipe wait to be read; 0 of what cannot say it."""
    found = array.array("i", [0])
    try:
        fcntl.ioctl(fd, termios.FIONREAD, found)
    except OSError:
        return 0
    return found[0]


def _is_exact(live: RoundLive) -> bool:
    if isinstance(live.body, Quad):
        return live.body.sum <= EXACT
    if isinstance(live.body, Groups):
        return all(it.sum <= EXACT and it.key <= EXACT for it in live.body.groups)
    pairs = live.body.keys if isinstance(live.body, Top) else getattr(live.body, "marks", ())
    return all(it.value <= EXACT for it in pairs)
