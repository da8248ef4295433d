"""One answer about many captures: each is a run of confluo of its own, and what they say is added up as it comes."""

from __future__ import annotations

import contextlib
import os
import signal
import sys
import threading
from dataclasses import dataclass, replace
from types import FrameType
from typing import Generator, Iterator, Sequence

from .errors import Complaint
from .explain_capture import REASONS
from .nodes import FIRST_NODES, MOST_CAPACITY, MOST_RECORDS, Sizes, long_options, with_more_nodes
from .over_dask import by_scheduler
from .over_part import Ended, Piece, Work
from .over_pool import by_processes, processors
from .over_setup import Key, Plan, Sum, report_of, sum_of, unparsed_of
from .over_split import EACH, Cut, guesses_of, size_of, walked, whole
from .program import find_program, program
from .progress import Parts
from .reports import Refusal, Report, refusal_of
from .unparsed import Unparsed

# The status of a run over a capture that breaks a rule.
BROKEN = 3
NO_REFUSAL = {
    4: "confluo could not read it",
    5: "confluo could not write its report",
    8: "there was not enough memory",
}


@dataclass(frozen=True)
class Counted:
    """A capture that was answered: its name, its records, and how many are whole if it is cut off."""

    name: str
    records: int
    truncated: int | None = None


@dataclass(frozen=True)
class LeftOut:
    """A capture that was not, with confluo's status if it ended with one, and why."""

    name: str
    status: int | None
    why: str

    def text(self) -> str:
        return f"{self.name}: {self.why}" + ("" if self.status is None else f" (status {self.status})")


@dataclass(frozen=True)
class Over:
    """The report over all captures, whose records are numbered through all of them, and the captures.

    `unparsed` are the packets that `schema packet` does not parse, if they were counted.
    """

    report: Report
    captures: tuple[Counted, ...]
    left_out: tuple[LeftOut, ...]
    unparsed: Unparsed | None = None

    def by_capture(self, rows: Sequence[int]) -> list[tuple[str, list[int]]]:
        """The captures of records that are given by ascending numbers, each with its own numbers of them."""
        found: list[tuple[str, list[int]]] = []
        at = start = 0
        for it in self.captures:
            begin = at
            while at < len(rows) and rows[at] < start + it.records:
                at += 1
            if at > begin:
                found.append((it.name, [row - start for row in rows[begin:at]]))
            start += it.records
        return found


@dataclass(frozen=True)
class Way:
    """How the parts are run: so many at once here, or on the workers of a scheduler; and what else was asked for."""

    jobs: int | None = None
    scheduler: str | None = None
    keep_going: bool = False
    may_be_cut: bool = False
    is_split: bool = False


def _tries(plan: Plan, may_be_cut: bool) -> Iterator[tuple[str, ...]]:
    """The options of a part, with ever more room for nodes."""
    if plan.setup.is_packet:
        yield from long_options(may_be_cut)
        return
    # (`run --long` reads no CSV files)
    sizes: Sizes | None = Sizes(MOST_CAPACITY, MOST_RECORDS // MOST_CAPACITY, FIRST_NODES)
    while sizes:
        yield ("--writers", "1", *sizes.options().split(), *["--truncated"] * may_be_cut)
        sizes = with_more_nodes(sizes)


# The processes of which the pieces for a scheduler's workers are enough.
OF_A_CLUSTER = 64


@dataclass(frozen=True)
class Handed:
    """A piece that was handed on to be run: its key, and whether its capture is walked."""

    key: Key
    cut: Cut
    is_walked: bool


class Pieces:
    """What is run: all of each capture, or its pieces. `handed` are those that were handed on so far.

    It may be iterated again as long as there `is_more`: a capture whose guessed pieces are not its own is walked.
    """

    def __init__(self, captures: Sequence[str], way: Way) -> None:
        self.captures, self.way = captures, way
        self.handed: list[Handed] = []
        self.sizes = [size_of(it) for it in captures]
        self.size = sum(self.sizes)
        self.walked: set[int] = set()
        # Those to be walked whose pieces were not all handed on.
        self.waiting: list[int] = []
        self.firsts = self._firsts()
        self.is_more = True

    def walk(self, capture: int) -> None:
        """The capture is to be walked, and what was said of its pieces is worth nothing."""
        self.walked.add(capture)
        self.waiting.append(capture)
        self.size += self.sizes[capture]
        self.is_more = True

    def __iter__(self) -> Iterator[Piece]:
        for it in self.firsts:
            yield self._hand_on(it)
            yield from self._again()
        yield from self._again()
        self.is_more = False

    def _again(self) -> Iterator[Piece]:
        while self.waiting:
            yield from map(self._hand_on, self._by_walking(self.waiting[0]))
            self.waiting.pop(0)

    def _hand_on(self, it: Handed) -> Piece:
        self.handed.append(it)
        return it.cut.piece

    def _firsts(self) -> Iterator[Handed]:
        """All captures for the first time."""
        left, jobs = sum(self.sizes), self.way.jobs or (OF_A_CLUSTER if self.way.scheduler else processors())
        for capture, name in enumerate(self.captures):
            path, left = os.path.abspath(name), left - self.sizes[capture]
            cuts = guesses_of(path, left, jobs) if self.way.is_split else iter([whole(path)])
            if cuts is None:
                self.walked.add(capture)
                yield from self._by_walking(capture)
                continue
            for at, cut in enumerate(cuts):
                if capture in self.walked:
                    break
                yield Handed((capture, at), cut, False)

    def _by_walking(self, capture: int) -> Iterator[Handed]:
        for at, cut in enumerate(walked(os.path.abspath(self.captures[capture]), EACH)):
            yield Handed((capture, at), cut, True)


def _runs(plan: Plan, pieces: Pieces, way: Way) -> Generator[tuple[int, Ended], None, None]:
    tries = tuple(_tries(plan, way.may_be_cut))
    if way.scheduler is not None:
        # (the workers have their own program if not this one)
        return by_scheduler(Work(plan.text, tries, find_program()), pieces, way.scheduler)
    return by_processes(Work(plan.text, tries, program()), pieces, way.jobs or processors())


class Gathering:
    """The answers of pieces as they come. Of a capture with several, all must have answered."""

    def __init__(self, plan: Plan, pieces: Pieces) -> None:
        self.plan, self.pieces = plan, pieces
        self.total = Sum()
        self.by_capture: dict[int, Sum] = {}
        self.failed: dict[Key, Failure] = {}
        self.ended: set[int] = set()
        self.front = 0

    def take(self, place: int, ended: Ended) -> None:
        """Adds what the piece of that place among those handed on says to what others said."""
        handed = self.pieces.handed[place]
        capture = handed.key[0]
        self.ended.add(place)
        while self.front in self.ended:
            self.ended.remove(self.front)
            self.front += 1
        if capture in self.pieces.walked and not handed.is_walked:
            return
        said = _part(self.plan, handed.key, ended, self.pieces.captures[capture])
        if handed.cut.is_guess and (ended[0] == BROKEN or isinstance(said, Sum) and said.cuts):
            self._walk(capture)
        elif isinstance(said, Failure):
            self.failed[handed.key] = said
        elif self.pieces.way.is_split:
            self.by_capture.setdefault(capture, Sum()).add(said, self.plan)
        else:
            self.total.add(said, self.plan)

    def _walk(self, capture: int) -> None:
        """A piece ends within a record: the capture is broken there, or was cut at a wrong place."""
        self.pieces.walk(capture)
        self.by_capture.pop(capture, None)
        self.failed = {key: it for key, it in self.failed.items() if key[0] != capture}

    def first_failed(self) -> LeftOut | None:
        """The first piece that failed, once all before it have answered."""
        if not self.failed:
            return None
        first = min(self.failed)
        handed = self.pieces.handed
        keys = (handed[at].key for at in range(self.front, len(handed)) if at not in self.ended)
        waits = any(it < first for it in keys) or any(it < first[0] for it in self.pieces.waiting)
        return None if waits else self._left_out(first)

    def _left_out(self, key: Key) -> LeftOut:
        """The piece that failed is the first one of its capture that did."""
        capture, failure = key[0], self.failed[key]
        before = self.by_capture.get(capture, Sum()).records
        why = failure.in_words(sum(count for its, count in before.items() if its < key))
        return LeftOut(self.pieces.captures[capture], failure.status, why)

    def finish(self) -> tuple[LeftOut, ...]:
        """The captures that are left out; the others are all in the total."""
        left_out: dict[int, LeftOut] = {}
        for key in sorted(self.failed):
            if key[0] not in left_out:
                left_out[key[0]] = self._left_out(key)
        for capture, its in self.by_capture.items():
            if capture not in left_out:
                self.total.add(its, self.plan)
        return tuple(it for _, it in sorted(left_out.items()))

    def counted(self) -> tuple[Counted, ...]:
        """The captures that were answered."""
        records: dict[int, int] = {}
        cuts: dict[int, int] = {}
        for (capture, at), count in sorted(self.total.records.items()):
            if (capture, at) in self.total.cuts:
                # (in its last piece)
                cuts[capture] = records.get(capture, 0) + self.total.cuts[capture, at]
            records[capture] = records.get(capture, 0) + count
        return tuple(Counted(self.pieces.captures[it], records[it], cuts.get(it)) for it in sorted(records))


def over(plan: Plan, captures: Sequence[str], way: Way) -> Over:
    """Asks about all captures; a Complaint names the first that cannot be answered, unless it may be left out."""
    pieces = Pieces(captures, way)
    gathering = Gathering(plan, pieces)
    things = "parts" if way.is_split else f"of {len(captures):,} captures"
    with Parts(things, pieces.size) as parts:
        while pieces.is_more:
            front = len(pieces.handed)
            with contextlib.closing(_runs(plan, pieces, way)) as runs:
                for place, ended in runs:
                    gathering.take(front + place, ended)
                    failed = None if way.keep_going else gathering.first_failed()
                    if failed:
                        raise Complaint(f"{failed.text()}\n--keep-going answers about the other captures")
                    parts.size = pieces.size
                    parts.done(pieces.handed[front + place].cut.size)
    left_out = gathering.finish()
    counted = gathering.counted()
    if not counted:
        raise Complaint("\n".join(["no capture could be answered", *(it.text() for it in left_out)]))
    report = replace(
        report_of(plan, gathering.total), truncated=counted[0].truncated if len(counted) == 1 else None
    )
    return Over(report, counted, left_out, unparsed_of(plan, gathering.total))


@dataclass(frozen=True)
class Failure:
    """Why a piece says nothing: the status of its run, and a reason or what the run said."""

    status: int | None
    why: str = ""
    said: str = ""

    def in_words(self, before: int) -> str:
        """With the number of the record where so many come before the piece."""
        return self.why or _refused(self.status, refusal_of(self.said), before)


def _part(plan: Plan, key: Key, ended: Ended, name: str) -> Sum | Failure:
    """What a part says, or why it says nothing."""
    status, text, why = ended
    if status != 0:
        return Failure(status, why, text)
    try:
        return sum_of(plan, key, text, name)
    except Complaint as complaint:
        return Failure(None, str(complaint).removeprefix(f"{name}: "))


def _refused(status: int | None, refusal: Refusal | None, first: int) -> str:
    """The refusal in words."""
    if status is not None and status < 0:
        return f"confluo was ended by signal {-status}"
    if refusal is None:
        return NO_REFUSAL.get(status or 0, "confluo ended without a refusal")
    return {
        "capture": f"{REASONS.get(refusal.code, f'code {refusal.code}')}, at record {first + refusal.place}",
        "full": f"it has more than {refusal.place} records",
        "nodes": f"its keys need more than {refusal.place} tree nodes even in small segments: ask about fewer attributes",
        "setup": f"this confluo refuses the setup of a part at line {refusal.place} with code {refusal.code}",
        "words": "this confluo does not know the options of `run`: it is another version",
        "file": "confluo found no such file",
    }[refusal.kind]


class Ending(BaseException):
    """A signal ends the run."""

    def __init__(self, number: int) -> None:
        super().__init__(number)
        self.status = 128 + number


@contextlib.contextmanager
def ended_by_signals() -> Iterator[None]:
    """SIGINT, SIGTERM and SIGHUP end what runs inside, which can tidy up; one that is ignored, as by nohup, still is."""
    if threading.current_thread() is not threading.main_thread():
        yield
        return
    signals = (signal.SIGINT, signal.SIGTERM, signal.SIGHUP)
    before = {it: signal.getsignal(it) for it in signals if signal.getsignal(it) != signal.SIG_IGN}

    def end(number: int, _: FrameType | None) -> None:
        for it in before:
            signal.signal(it, signal.SIG_IGN)
        raise Ending(number)

    for it in before:
        signal.signal(it, end)
    try:
        yield
    finally:
        for it, handler in before.items():
            signal.signal(it, handler)


def say_left_out(answered: Over) -> None:
    """Names on standard error what is missing."""
    for it in answered.left_out:
        print(f"confluo-report: left out: {it.text()}", file=sys.stderr)
