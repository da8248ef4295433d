"""Commands that are run for the alerts of a stream."""

from __future__ import annotations

import os
import signal
import subprocess
import time
from collections import Counter, deque
from dataclasses import dataclass
from typing import Union

from .outputs import Output, Silent, Stopper, json_line, report_trouble
from .reports import RoundAlert, Told, told_text
from .setups import Setup
from .show import condition_text
from .values import by_text, utc

MOST_WAITING = 65536
# How often commands are looked at, in seconds, if none has ended.
GLANCE = 0.1
STDERR = 2
Event = Union[RoundAlert, Silent]


@dataclass
class Job:
    """A command that runs for an alert or a silence, until it is late."""

    event: Event
    process: subprocess.Popen[bytes]
    late: float
    is_killed: bool = False


class Commands(Output):
    """A command for each alert and silence: at most `limit` at a time, each for so many seconds."""

    def __init__(self, command: str, limit: int, seconds: float, setup: Setup | None) -> None:
        self.command, self.limit, self.seconds, self.setup = command, limit, seconds, setup
        self.waiting, self.running = deque[Event](), list[Job]()
        self.stopper: Stopper | None = None
        # (a copy: `os.environ` decodes all of itself each time that it is joined)
        self.environment = dict(os.environ)
        # Since commands were last run for all alerts.
        self.passed_over = 0
        self.results: Counter[str] = Counter(dict.fromkeys(("done", "failed", "late", "passed_over"), 0))

    def stop_at(self, stopper: Stopper) -> None:
        self.stopper = stopper

    def told(self, it: Told) -> None:
        if isinstance(it, RoundAlert):
            self._take(it)

    def silent(self, it: Silent) -> None:
        self._take(it)

    def _take(self, it: Event) -> None:
        if len(self.waiting) < MOST_WAITING:
            self.waiting.append(it)
            self.pause()
            return
        if not self.passed_over:
            report_trouble(f"{MOST_WAITING} alerts wait for their commands: those that come now have none")
        self.passed_over += 1
        self.results["passed_over"] += 1

    def pause(self) -> None:
        self.running = [it for it in self.running if not self._is_over(it)]
        while (
            self.waiting and len(self.running) < self.limit and not (self.stopper and self.stopper.is_stopped)
        ):
            self._start(self.waiting.popleft())
        if self.passed_over and len(self.waiting) < MOST_WAITING // 2:
            report_trouble(f"{self.passed_over} alerts have had no command; further ones have theirs")
            self.passed_over = 0

    def rest(self) -> float | None:
        return GLANCE if self.running else None

    def has_commands(self) -> bool:
        return bool(self.running)

    def close(self) -> None:
        """Begins no further command, and waits for those that run, each of which has its seconds."""
        if self.waiting or self.passed_over:
            report_trouble(f"{len(self.waiting) + self.passed_over} alerts have had no command")
        self.results["passed_over"] += len(self.waiting)
        self.waiting.clear()
        self.passed_over = 0
        while self.running:
            time.sleep(GLANCE / 2)
            self.pause()

    def _start(self, event: Event) -> None:
        try:
            process = subprocess.Popen(
                self.command,
                shell=True,
                stdin=subprocess.PIPE,
                stdout=STDERR,
                env=self.environment | environment_of(event, self.setup),
                start_new_session=True,
            )
        except OSError as error:
            self.results["failed"] += 1
            self._trouble(event, f"cannot be run: {error.strerror}")
            return
        assert process.stdin
        try:
            # It is shorter than the least buffer of a pipe, so this waits for nobody.
            process.stdin.write(json_line(event, self.setup).encode())
            process.stdin.close()
        except BrokenPipeError:
            pass
        self.running.append(Job(event, process, time.monotonic() + self.seconds))

    def _is_over(self, job: Job) -> bool:
        status = job.process.poll()
        if status is None:
            if time.monotonic() >= job.late and not job.is_killed:
                job.is_killed = True
                _kill(job.process.pid)
            return False
        result = "late" if job.is_killed else "failed" if status else "done"
        self.results[result] += 1
        if job.is_killed:
            self._trouble(job.event, f"was ended after {self.seconds:g} seconds")
        elif status:
            how = f"signal {-status}" if status < 0 else f"status {status}"
            self._trouble(job.event, f"ended with {how}")
        return True

    def _trouble(self, event: Event, what: str) -> None:
        text = "silence" if isinstance(event, Silent) else f"`{told_text(event)}`"
        report_trouble(f"the command for {text} {what}")


def _kill(pid: int) -> None:
    """Ends the command with all that it started in its session."""
    try:
        os.killpg(pid, signal.SIGKILL)
    except ProcessLookupError:
        pass


def environment_of(event: Event, setup: Setup | None) -> dict[str, str]:
    """The alert or silence in variables for its command."""
    if isinstance(event, Silent):
        return {
            "CONFLUO_KIND": "silence",
            "CONFLUO_OVER": str(int(event.is_over)),
            "CONFLUO_SECONDS": str(event.seconds),
            "CONFLUO_RECORDS": str(event.prefix),
        }
    alert = event
    found = {
        "CONFLUO_KIND": "alert",
        "CONFLUO_TRIGGER": alert.trigger,
        "CONFLUO_BUCKET": str(alert.bucket),
        "CONFLUO_VALUE": str(alert.value),
        "CONFLUO_RECORDS": str(alert.prefix),
    }
    if alert.by is not None:
        found["CONFLUO_KEY"] = str(alert.by)
    trigger = setup.trigger(alert.trigger) if setup else None
    if setup and trigger:
        if alert.by is not None and trigger.aggregate.by is not None:
            found["CONFLUO_KEY_TEXT"] = by_text(setup, trigger.aggregate, alert.by)
        found["CONFLUO_TIME"] = utc(alert.bucket * setup.nanoseconds)
        found["CONFLUO_CONDITION"] = condition_text(setup, trigger)
    return found
