"""Logs, writers, readers and spans of readers."""

from __future__ import annotations

import array as arrays
import ctypes
import os
import threading
from typing import TYPE_CHECKING, Any, Iterable, Iterator, NamedTuple, Optional, TypeVar, Union

from . import calls
from .answers import Answer, pandas_module
from .calls import LONG, SIZE, WORD, BytesLike, array, call, checked, data_of
from .errors import Code, Error, code_of, wanted
from .names import Names

if TYPE_CHECKING:
    import pandas  # type: ignore[import]

Self = TypeVar("Self", bound="Part")


def sizes_of(capacity: int, writers: int, nodes: int) -> calls.Sizes:
    return calls.Sizes(
        checked(capacity, 32, "capacity"), checked(writers, 32, "writers"), checked(nodes, 32, "nodes"), 0
    )


def text_of(setup: Union[str, BytesLike]) -> bytes:
    return setup.encode("utf-8") if isinstance(setup, str) else data_of(setup)


def version() -> int:
    """The version of the library: 1,000,000 for the major number, 1,000 for the minor one, 1 for the patch."""
    return int(call("version")())


def check(setup: Union[str, BytesLike], capacity: int = 65536, writers: int = 1, nodes: int = 4096) -> int:
    """How many bytes the words of such a log take; SetupError or Error if `Log` would refuse it."""
    text, found, fault = text_of(setup), LONG(), calls.Fault()
    wanted(call("check")(text, len(text), sizes_of(capacity, writers, nodes), found, fault), fault)
    return found.value


class Part:
    """A handle, its lock, and the process that it belongs to."""

    _free = ""

    def __init__(self) -> None:
        self._handle = calls.Handle()
        self._lock = threading.Lock()
        self._process = os.getpid()

    def _check(self) -> None:
        if os.getpid() != self._process:
            raise RuntimeError("a log of the parent process cannot be used in a forked child")

    def _call(self, name: str, *words: Any) -> None:
        """Calls the library with the handle, by one thread at a time."""
        self._check()
        with self._lock:
            wanted(call(name)(self._handle, *words))

    def close(self) -> None:
        """Frees it. Calls after that are refused with NOTHING. The memory of a log goes with the last of its parts."""
        if os.getpid() == self._process:
            with self._lock:
                call(self._free)(self._handle)

    def __enter__(self: Self) -> Self:
        return self

    def __exit__(self, *_: object) -> None:
        self.close()

    def __del__(self) -> None:
        if call is not None and hasattr(self, "_process"):
            self.close()


class Waits:
    """The readers of a log that wait. A writer appends before it looks whether one waits, and a reader says that it waits before
    it looks at the tail, so one of them sees the other."""

    def __init__(self) -> None:
        self.changed, self.count, self.is_closed = threading.Condition(), 0, False

    def wake(self) -> None:
        if self.count:
            with self.changed:
                self.changed.notify_all()


class Log(Part):
    """A log of the setup, which takes `capacity` records by `writers` writers of `nodes` nodes each. `names` is what
    the setup names."""

    _free = "free_log"

    def __init__(
        self, setup: Union[str, BytesLike], capacity: int = 65536, writers: int = 1, nodes: int = 4096
    ) -> None:
        super().__init__()
        text, fault = text_of(setup), calls.Fault()
        wanted(
            call("open")(self._handle, text, len(text), sizes_of(capacity, writers, nodes), fault),
            fault,
        )
        self.names, self._waits = Names(self._handle, text), Waits()

    def width(self) -> int:
        """How wide a bucket is, in nanoseconds."""
        return self.names.width

    def reads_link(self, link: int) -> bool:
        """Whether `append` takes the frames of a link. A log of one record is opened and closed."""
        with Log(self.names.setup, 1, 1, 0) as log, log.writer() as writer:
            try:
                writer.append(0, 0, b"", link=link)
            except Error as refused:
                if refused.code not in (Code.FRAME, Code.UNFIT, Code.NODES):
                    raise
                return refused.code == Code.NODES
        return True

    def writer(self) -> Writer:
        """A writer that is not taken; Error with NO_WRITER if all are. A writer that is closed can be taken again."""
        writer, taken = Writer(self._waits), WORD()
        self._call("take_writer", writer._handle, taken)
        writer.number = taken.value
        return writer

    def reader(self) -> Reader:
        """A reader. Take as many as you like."""
        reader = Reader(self.names, self._waits)
        self._call("take_reader", reader._handle)
        return reader

    def finish(self) -> Reader:
        """Closes the log for good, once all its writers are closed: no record comes to it any more. Answers a reader that has seen every
        record: `ask_seen` gives the final answers, and `report` their text with the history of the log. Other readers may stay. Error with
        BUSY while a writer is taken; the log stays open then."""
        reader = Reader(self.names, self._waits)
        self._call("close", reader._handle)
        self._waits.is_closed = True
        self._waits.wake()
        return reader


class Frame(NamedTuple):
    """A captured frame of a batch: a number of yours, when it was captured in nanoseconds, its bytes, its length on the
    wire (as many as its bytes if it is None), and the type of its link."""

    number: int
    ns: int
    data: BytesLike
    length: Optional[int] = None
    link: int = 1


class Appended(NamedTuple):
    """What came of a batch: the offsets of the frames that were appended, and the Code of why the next one was not,
    None if all were."""

    offsets: list[int]
    refused: Union[Code, int, None]


class Row(NamedTuple):
    """A record that is read back: the number that it was appended with, and its values by the names of their
    attributes, an int or bytes each."""

    number: int
    values: dict[str, Union[int, bytes]]


def capture_of(frame: Frame) -> calls.Capture:
    """What a frame has besides its bytes, for the library."""
    return calls.Capture(
        checked(frame.ns, 64, "ns"),
        checked(frame.number, 32, "number"),
        checked(len(frame.data) if frame.length is None else frame.length, 32, "length"),
        checked(frame.link, 32, "link"),
        0,
    )


def value_of(value: Union[int, BytesLike]) -> calls.ValueOf:
    """A value for the library: of an int, or of at most 16 bytes."""
    if isinstance(value, (bytes, bytearray, memoryview)):
        held = data_of(value)
        if len(held) > 16:
            raise ValueError(f"a value has {len(held)} bytes, more than 16")
        return calls.ValueOf(0, 1, len(held), (ctypes.c_uint8 * 16)(*held))
    return calls.ValueOf(checked(value, 64, "a value"), 0, 0)


class Room(NamedTuple):
    """What a log has room for: its `capacity`; how many records are `covered`, as far as the writer knows; the
    writer's `nodes_left`."""

    capacity: int
    covered: int
    nodes_left: int


class Writer(Part):
    """A writer of a log; `number` is its own."""

    _free = "free_writer"
    number: Optional[int] = None

    def __init__(self, waits: Waits) -> None:
        super().__init__()
        self._waits = waits

    def _append(self, name: str, *words: Any) -> int:
        """Appends a record, answers its offset, and wakes the readers that wait."""
        offset = WORD()
        self._call(name, *words, offset)
        self._waits.wake()
        return offset.value

    def append(
        self, number: int, ns: int, frame: BytesLike, length: Optional[int] = None, link: int = 1
    ) -> int:
        """Appends the record of a captured frame, any bytes-like object, and answers its offset. Error with UNFIT if the schema
        is not one of packets; with NODES if the writer has too few nodes for it: it has none left then, and appends the rows
        that need no new one; with FULL for good, though a full log may answer NODES to a writer that had no FULL yet.
        """
        one = Frame(number, ns, data_of(frame), length, link)
        return self._append("append", capture_of(one), one.data, len(one.data))

    def append_many(self, frames: Iterable[Union[Frame, tuple[Any, ...]]]) -> Appended:
        """Appends frames, each a Frame or a tuple like one, in one call, until one is refused. Answers Appended."""
        held = [Frame(*it) for it in frames]
        held = [it._replace(data=data_of(it.data)) for it in held]
        many = (calls.FrameOf * max(1, len(held)))()
        at = 0
        for place, it in zip(many, held):
            place.capture, place.from_, place.count = capture_of(it), at, len(it.data)
            at += len(it.data)
        data, offsets, done = b"".join(it.data for it in held), (WORD * max(1, len(held)))(), SIZE()
        self._check()
        with self._lock:
            code = call("append_many")(self._handle, many, len(held), data, at, offsets, len(held), done)
        if code == Code.NOTHING:
            wanted(code)
        self._waits.wake()
        return Appended(offsets[: done.value], None if code == Code.OK else code_of(code))

    def append_row(self, number: int, values: Iterable[Union[int, BytesLike]]) -> int:
        """Appends a record of values, an int or bytes for each attribute of the schema, and answers its offset."""
        held = [value_of(it) for it in values]
        row = (calls.ValueOf * max(1, len(held)))(*held)
        return self._append("append_row", checked(number, 32, "number"), row, len(held))

    def append_values(self, number: int, values: Iterable[int]) -> int:
        """Appends a record of numbers, one for each attribute of the schema, and answers its offset."""
        row, count = array(values)
        return self._append("append_values", checked(number, 32, "number"), row, count)

    def room(self) -> Room:
        """What the log has room for, and the writer."""
        room = calls.RoomOf()
        self._call("room_of", room)
        return Room(room.capacity, room.covered, room.nodes_left)


class Asks(Part):
    """What a reader and a span answer. Their calls of the library have one name, behind `_calls`."""

    _calls = ""

    def __init__(self, names: Names) -> None:
        super().__init__()
        self.names = names

    def ask(self, question: Union[str, int]) -> Answer:
        """The answer to a question of the setup, given by its name or its number, on all records below the tail."""
        return self._answer("ask", self.names.number("questions", question))

    def ask_seen(self, question: Union[str, int]) -> Answer:
        """The same on the records that it has seen: those below the tail that `tail` or `ask` found last."""
        return self._answer("ask_seen", self.names.number("questions", question))

    def groups(self, lane: Union[str, int]) -> Answer:
        """All groups of an aggregate or a tally, given by its name or its number, on the records that it has seen. Those of an
        aggregate by a key are the answer to a question."""
        return self._answer("groups", self.names.number("lanes", lane))

    def row(self, offset: int) -> Row:
        """The record at an offset that it has seen."""
        number, count, values = WORD(), SIZE(), (calls.ValueOf * 32)()
        self._call(self._calls + "row", checked(offset, 32, "offset"), number, values, 32, count)
        found = [bytes(it.bytes[: it.length]) if it.kind else it.number for it in values[: count.value]]
        return Row(number.value, dict(zip((it.name for it in self.names.attributes), found)))

    def rows(self, offsets: Optional[Iterable[int]] = None) -> Iterator[Row]:
        """The records at these offsets, read one by one; without them all that it has seen."""
        if offsets is not None:
            yield from map(self.row, offsets)
            return
        offset = 0
        while True:
            try:
                row = self.row(offset)
            except Error as refused:
                if refused.code == Code.NO_ROW:
                    return
                raise
            yield row
            offset += 1

    def report(self) -> str:
        """The report of the records that it has seen, as `confluo run` prints it: how many they are, what each question and trigger
        of the setup means on them, and the order in which the writers appended them."""
        self._check()
        count = SIZE()
        with self._lock:
            text = ctypes.create_string_buffer(1 << 16)  # the library makes the text at each call
            wanted(call(self._calls + "report")(self._handle, text, len(text), count))
            if count.value > len(text):
                text = ctypes.create_string_buffer(count.value)
                wanted(call(self._calls + "report")(self._handle, text, len(text), count))
        return text.raw[: count.value].decode("ascii")

    def to_frame(self, offsets: Optional[Iterable[int]] = None) -> pandas.DataFrame:
        """The records of `rows` as a DataFrame: a column `number`, and one for each attribute. ImportError if pandas is missing."""
        held, rows = pandas_module(), list(self.rows(offsets))
        columns = {"number": held.Series([it.number for it in rows], dtype="uint32")}
        for it in self.names.attributes:
            kind = "object" if it.kind.startswith("b") else "uint" + it.kind[1:]
            columns[it.name] = held.Series([row.values[it.name] for row in rows], dtype=kind)
        return held.DataFrame(columns)

    def _answer(self, name: str, *words: Any, fault: Optional[calls.Fault] = None) -> Answer:
        self._check()
        head = calls.Head()
        with self._lock:
            code = call(self._calls + name)(self._handle, *words, head, *([] if fault is None else [fault]))
            if fault is not None and fault.line:
                fault.line = 1  # the library counts the line on from the setup's
            wanted(code, fault)
            found = (LONG * max(1, head.count))()
            count = call(self._calls + "words")(self._handle, 0, found, head.count)
        return Answer(
            head.tail, head.kind, arrays.array("Q", memoryview(found).cast("B")[: 8 * count].tobytes())
        )

    def tail(self) -> int:
        """How many records are below the tail now."""
        tail = WORD()
        self._call(self._calls + "tail", tail)
        return tail.value


class Reader(Asks):
    """A reader of a log."""

    _free = "free_reader"

    def __init__(self, names: Names, waits: Waits) -> None:
        super().__init__(names)
        self._waits = waits

    def ask_text(self, line: Union[str, BytesLike]) -> Answer:
        """The answer to the question that a line of the setup's language says, as one more line of the setup, which must have fewer than
        32; its name must be new. SetupError if the line is faulty, Error with NO_QUESTION if it is no question.
        """
        text = text_of(line)
        return self._answer("ask_text", text, len(text), fault=calls.Fault())

    def wait(self, after: int, seconds: Optional[float] = None) -> int:
        """Waits until more than `after` records are below the tail, the log is closed by `finish`, or so many seconds have gone by, and
        answers how many are below the tail then. The thread sleeps meanwhile."""
        waits = self._waits
        with waits.changed:
            waits.count += 1
            try:
                waits.changed.wait_for(lambda: self.tail() > after or waits.is_closed, seconds)
            finally:
                waits.count -= 1
        return self.tail()


class Span(Asks):
    """Readers of logs of one setup and the same sizes, each of which goes on where the one before is full, made of the reader of the first
    log. It answers as one reader of one log that has the records of all: offsets count from the first record of the first log, and a tail
    is how many records are seen together. A log is looked at as soon as all records are seen that the log before it takes, so one that is
    left before it is full hides those behind it. A rolling log keeps the last so many:

        span.add(next_log.reader())
        if len(span) > 8:
            span.drop_first()
    """

    _free = "free_span"
    _calls = "span_"

    def __init__(self, reader: Reader) -> None:
        super().__init__(reader.names)
        reader._check()
        with reader._lock:
            wanted(call("span_of")(reader._handle, self._handle))

    def add(self, reader: Reader) -> None:
        """Adds the reader of the log that comes next, which is the span's then: its own calls are refused with NOTHING. Error with UNLIKE
        if its log was opened from another text of a setup or with other sizes, with FULL if the logs would take more than 2^20 records
        together; then the reader stays."""
        self._check()
        with self._lock, reader._lock:
            wanted(call("span_add")(self._handle, reader._handle))

    def drop_first(self) -> None:
        """Lets the first log go; Error with ONE_LOG if it is the only one. Offsets count from the log behind it then."""
        self._call("span_drop_first")

    def __len__(self) -> int:
        """How many logs it has."""
        logs = SIZE()
        self._call("span_logs", logs)
        return logs.value
