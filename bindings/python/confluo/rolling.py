"""Logs that go on in their next segment by themselves."""

from __future__ import annotations

import contextlib
import os
import threading
from typing import TYPE_CHECKING, Any, Callable, Iterable, Iterator, Optional, TypeVar, Union

from .answers import Answer
from .calls import BytesLike, checked
from .errors import Code, Error
from .log import Appended, Frame, Log, Row, Span, Waits, Writer
from .names import Names

if TYPE_CHECKING:
    import pandas  # type: ignore[import]

MOST_RECORDS = 1 << 20
Held = TypeVar("Held", bound="Part")
Got = TypeVar("Got")


class Segment:
    """A log, its number among the segments, and its writers that nobody uses, by their numbers. Each has a reader, which says whether the
    log is full. Who uses a writer has its number in all segments."""

    def __init__(self, number: int, log: Log, count: int) -> None:
        self.number, self.log = number, log
        found = [log.writer() for _ in range(count)]
        self.writers = {it.number: it for it in found}
        self.probes = {it.number: log.reader() for it in found}


class Part:
    """What the parts of a rolling log have: the calls of each are made by one thread at a time."""

    def __init__(self) -> None:
        self._lock = threading.RLock()
        self._process = os.getpid()
        self._is_closed = False

    def close(self) -> None:
        """Closes it. Calls after that are refused with NOTHING."""
        self._is_closed = True

    def __enter__(self: Held) -> Held:
        return self

    def __exit__(self, *_: object) -> None:
        self.close()

    @contextlib.contextmanager
    def _used(self) -> Iterator[None]:
        if os.getpid() != self._process:
            raise RuntimeError("a log of the parent process cannot be used in a forked child")
        with self._lock:
            if self._is_closed:
                raise Error(Code.NOTHING)
            yield


class Rolling(Part):
    """A log of segments, each a `Log` of that setup and these sizes: a writer that finds its segment full opens the next one, and goes on
    there. With `keep` 0 all segments are kept, as many as take at most 2^20 records in all; then an append is an Error with FULL. Else the
    last `keep` segments are, and there is no end; `keep` + 1 of them take at most 2^20 records.

        with confluo.Rolling(setup, capacity=4096, keep=3) as rolling, rolling.writer() as writer, rolling.reader() as reader:
            writer.append_values(0, [1000, 60])
            print(reader.ask("all"), reader.before)

    A record has a place among all that were ever appended. What a reader sees begins with its first segment: offsets and tails count from
    there, and `before` is the place of its offset 0. A slow writer delays what comes after its record, and nothing is lost, unless its
    segment is let go. The calls of logs and spans are proved; the list of segments is tested. It has a lock, which is held when a writer or
    a reader comes to another segment."""

    def __init__(
        self,
        setup: Union[str, BytesLike],
        capacity: int = 65536,
        writers: int = 1,
        nodes: int = 4096,
        keep: int = 0,
    ) -> None:
        super().__init__()
        log = Log(setup, capacity, writers, nodes)
        if checked(keep, 32, "keep") and (keep + 1) * capacity > MOST_RECORDS:
            raise Error(Code.SIZES)
        self._open: Callable[[], Log] = lambda: Log(setup, capacity, writers, nodes)
        self.capacity, self.keep, self.names, self._waits = capacity, keep, log.names, Waits()
        self._writers, self._segments = writers, [Segment(0, log, writers)]
        self._free = (1 << writers) - 1  # the numbers of writers that are not taken, as bits

    def writer(self) -> RollingWriter:
        """A writer that is not taken; Error with NO_WRITER if all are. One that is closed can be taken again."""
        with self._used():
            if not self._free:
                raise Error(Code.NO_WRITER)
            number = self._free.bit_length() - 1
            self._free ^= 1 << number
            return RollingWriter(self, number, self._segments[-1])

    def reader(self) -> RollingReader:
        """A reader of all segments that are kept. Take as many as you like."""
        with self._used():
            return RollingReader(self, self._segments[0])

    def _after(self, number: int) -> list[Segment]:
        """The segments behind that number that are kept."""
        with self._lock:
            return self._segments[max(0, number + 1 - self._segments[0].number) :]

    def _go_on(self, full: Segment) -> Segment:
        """The newest segment, which comes after that one; it is opened if it is not there."""
        if self._segments[-1] is full:
            if not self.keep and (full.number + 2) * self.capacity > MOST_RECORDS:
                raise Error(Code.FULL)
            made = Segment(full.number + 1, self._open(), self._writers)
            with self._lock:
                if self._segments[-1] is full:
                    last = [*self._segments, made]
                    self._segments = last[-self.keep :] if self.keep else last
        return self._segments[-1]


class RollingWriter(Part):
    """A writer of a rolling log; `number` is its own. Its calls answer the place of the record."""

    def __init__(self, rolling: Rolling, number: int, segment: Segment) -> None:
        super().__init__()
        self.number, self._rolling, self._segment = number, rolling, segment

    def append(
        self, number: int, ns: int, frame: BytesLike, length: Optional[int] = None, link: int = 1
    ) -> int:
        """As `append` of a Writer. Error with NODES if the writer has too few nodes left in this segment; in the next one it has all again.
        Error with FULL, for good, if there can be no segment more."""
        return self._place(lambda it: it.append(number, ns, frame, length, link))

    def append_values(self, number: int, values: Iterable[int]) -> int:
        """As `append_values` of a Writer."""
        held = list(values)
        return self._place(lambda it: it.append_values(number, held))

    def append_row(self, number: int, values: Iterable[Union[int, BytesLike]]) -> int:
        """As `append_row` of a Writer."""
        held = list(values)
        return self._place(lambda it: it.append_row(number, held))

    def append_many(self, frames: Iterable[Union[Frame, tuple[Any, ...]]]) -> Appended:
        """As `append_many` of a Writer: Appended has the places of the frames that were appended."""
        held, places = list(frames), []
        with self._used():
            while True:
                done = self._writer.append_many(held[len(places) :])
                places += [self._base + it for it in done.offsets]
                self._rolling._waits.wake()
                if done.refused is None or not self._is_full(done.refused):
                    return Appended(places, done.refused)
                try:
                    self._segment = self._rolling._go_on(self._segment)
                except Error as refused:
                    return Appended(places, refused.code)

    def close(self) -> None:
        """Closes it. Its number can be taken again."""
        if os.getpid() != self._process:
            return
        with self._lock, self._rolling._lock:
            self._rolling._free |= 1 << self.number if not self._is_closed else 0
            super().close()

    def __del__(self) -> None:
        if hasattr(self, "_segment"):
            self.close()

    @property
    def _writer(self) -> Writer:
        return self._segment.writers[self.number]

    @property
    def _base(self) -> int:
        return self._segment.number * self._rolling.capacity

    def _place(self, call: Callable[[Writer], int]) -> int:
        """Appends by a call, in the next segment if this one is full, and answers the place."""
        with self._used():
            while True:
                try:
                    place = self._base + call(self._writer)
                    break
                except Error as refused:
                    if not self._is_full(refused.code):
                        raise
                self._segment = self._rolling._go_on(self._segment)
        self._rolling._waits.wake()
        return place

    def _is_full(self, code: Union[Code, int]) -> bool:
        """Whether a refusal says that the segment is full: a full log may say that the nodes are used."""
        if code != Code.NODES:
            return code == Code.FULL
        probe, newest = self._segment.probes[self.number], self._rolling._segments[-1]
        return newest is not self._segment or probe.tail() == self._rolling.capacity


class RollingReader(Part):
    """A reader of a rolling log, which asks its segments as one log. It looks for new segments, and lets those go that are beyond the last
    `keep`, when it looks at the tail: in `tail`, `ask` and `wait`."""

    def __init__(self, rolling: Rolling, first: Segment) -> None:
        super().__init__()
        self._rolling, self._last = rolling, first.number
        self._span = Span(first.log.reader())
        self.names: Names = rolling.names
        self.tail()

    @property
    def before(self) -> int:
        """The place of offset 0: how many records are in the segments before the reader's first one."""
        with self._used():
            return (self._last + 1 - len(self._span)) * self._rolling.capacity

    def __len__(self) -> int:
        """How many segments it has."""
        with self._used():
            return len(self._span)

    def tail(self) -> int:
        """How many records are below the tail now, from the reader's first segment on."""
        with self._used():
            self._follow()
            return self._span.tail()

    def ask(self, question: Union[str, int]) -> Answer:
        """The answer to a question of the setup, given by its name or its number, on all records below the tail."""
        with self._used():
            self._follow()
            return self._span.ask(question)

    def ask_seen(self, question: Union[str, int]) -> Answer:
        """The same on the records that it has seen: those below the tail that `tail`, `ask` or `wait` found last."""
        return self._by(lambda it: it.ask_seen(question))

    def groups(self, lane: Union[str, int]) -> Answer:
        """All groups of an aggregate or a tally, given by its name or its number, on the records that it has seen."""
        return self._by(lambda it: it.groups(lane))

    def report(self) -> str:
        """The report of the records that it has seen, as `report` of a Span gives it."""
        return self._by(lambda it: it.report())

    def row(self, offset: int) -> Row:
        """The record at an offset that it has seen."""
        return self._by(lambda it: it.row(offset))

    def rows(self, offsets: Optional[Iterable[int]] = None) -> Iterator[Row]:
        """The records at these offsets, read one by one; without them all that it has seen. Do not look at the tail meanwhile."""
        return self._by(lambda it: it.rows(offsets))

    def to_frame(self, offsets: Optional[Iterable[int]] = None) -> pandas.DataFrame:
        """The records of `rows` as a DataFrame, as `to_frame` of a Reader gives them."""
        return self._by(lambda it: it.to_frame(offsets))

    def wait(self, after: int, seconds: Optional[float] = None) -> int:
        """Waits until a record at the place `after`, or behind it, is below the tail, or so many seconds have gone by, and answers the
        place of the tail then: `before` and the tail together. The thread sleeps meanwhile."""
        waits = self._rolling._waits
        with waits.changed:
            waits.count += 1
            try:
                waits.changed.wait_for(lambda: self._end() > after, seconds)
            finally:
                waits.count -= 1
        return self._end()

    def close(self) -> None:
        """Closes it."""
        if os.getpid() != self._process:
            return
        with self._lock:
            super().close()
            self._span.close()

    # With `report` of Span: return self._by(lambda it: it.report())

    def _by(self, call: Callable[[Span], Got]) -> Got:
        with self._used():
            return call(self._span)

    def _end(self) -> int:
        with self._used():
            tail = self.tail()
            return self.before + tail

    def _follow(self) -> None:
        """Adds the segments that are new to the span, and lets the first ones go."""
        for it in self._rolling._after(self._last):
            keep = self._rolling.keep if it.number == self._last + 1 else 1
            self._span.add(it.log.reader())
            self._last = it.number
            while keep and len(self._span) > keep:
                self._span.drop_first()
