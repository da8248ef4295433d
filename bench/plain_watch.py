#!/usr/bin/env python3
"""What `confluo watch` writes, by a plain walk over the window at each round.

    bench/plain_watch.py [--reads N,N,..] watch --setup FILE [OPTIONS] CAPTURE

The options are those of `confluo watch`. It reads the capture as it comes, writes what that has to write for these reads, and
ends with its status. With --reads the reads have these sizes, the last size again and again; without, each takes what is there,
at most 65,536 bytes. Captures and packets are read by plain.py, the setup by confluo-report; answers are plain_answers.py's.
"""

import os
import pathlib
import struct
import sys

sys.dont_write_bytecode = True
ROOT = pathlib.Path(__file__).resolve().parent.parent
sys.path[:0] = [str(ROOT / "tools"), str(ROOT / "bench")]

import plain  # noqa: E402
from confluo_report.commands import WordsFault, parse_words  # noqa: E402
from confluo_report.setups import SetupFault, parse_setup  # noqa: E402
from plain_answers import Answers, place_text, quad  # noqa: E402

MOST_READ = 65536
MOST_RECORDS = 2**53 - 1
MOST_KEPT = 4096
# Of an aggregate by key: buckets, and pairs of a bucket and a key.
MOST_APART, MOST_PAIRS = 8, 65536
DEFAULTS = {"capacity": 65536, "segments": 4, "nodes": 65536, "every": 4096, "beat": 0}
BITS = {"u8": 8, "u16": 16, "u32": 32, "u64": 64}
SECTION, INTERFACE, SIMPLE, ENHANCED = 0x0A0D0D0A, 1, 3, 6


class Stop(Exception):
    """The end before the end: a status and its line."""

    def __init__(self, status, line):
        super().__init__(line)
        self.status, self.line = status, line


class Source:
    """A capture that comes by pieces."""

    def __init__(self, schema):
        self.links, self.schema = plain.LINKS[schema], schema
        # What later packets are read by, and the bytes behind it that end no packet yet.
        self.front, self.rest = b"", b""
        # The fault that the last piece shows; 5 and 25 if it ends within a packet.
        self.code = 0

    def feed(self, piece):
        """The rows of the records that end in the piece."""
        data = self.front + self.rest + piece
        frames, self.code, _ = plain.read(data, self.links)
        used = self.use(data, len(frames))
        self.rest = data[used:]
        return [tuple(plain.row(it, self.schema).values()) for it in frames]

    def use(self, data, count):
        """Where `count` packets of the data end; `front` becomes what those behind them are read by."""
        if data[:4] != b"\x0a\x0d\x0d\x0a":
            self.front = data[:24]
            at = len(self.front)
            for _ in range(count):
                order = "<" if data[:1] in (b"\xd4", b"\x4d") else ">"
                at += 16 + struct.unpack(order + "I", data[at + 8 : at + 12])[0]
            return at
        at, order, front = 0, "<", []
        while count or is_known(data, at, order):
            kind, order, total = block_at(data, at, order)
            front = [data[at : at + total]] if kind == SECTION else front + [data[at : at + total]] * (kind == INTERFACE)
            count -= kind in (SIMPLE, ENHANCED)
            at += total
        self.front = b"".join(front)
        return at

    def end(self, truncated):
        """The code of an end here, 0 for none, and whether the capture is cut off and may be."""
        read = plain.read(self.front + self.rest, self.links, truncated)
        return read.code, read.is_cut


def block_at(data, at, order):
    """The kind of a block, its byte order and its length."""
    if data[at : at + 4] == b"\x0a\x0d\x0d\x0a":
        order = "<" if data[at + 8] == 0x4D else ">"
    kind, total = struct.unpack(order + "II", data[at : at + 8])
    return kind, order, total


def is_known(data, at, order):
    """Whether a whole section header or interface is there, without a fault."""
    if len(data) - at < 12:
        return False
    kind, order, total = block_at(data, at, order)
    if kind not in (SECTION, INTERFACE) or not 12 <= total <= len(data) - at:
        return False
    header = b"" if kind == SECTION else struct.pack(order + "IIIHHqI", SECTION, 28, 0x1A2B3C4D, 1, 0, -1, 28)
    return plain.read(header + data[at : at + total], plain.LINKS["packet6"]).code == 0


class Window(Answers):
    """Answers on the records from `first` on, whose numbers are those in the capture; triggers see whole buckets."""

    def __init__(self, setup, first, rows, marks_of=None):
        super().__init__(setup, rows)
        self.first, self.marks_of = first, marks_of or super().marks

    def found(self, holds):
        return [self.first + k for k in super().found(holds)]

    def marks(self, trigger):
        return self.marks_of(trigger)


OPERATORS = {"==": int.__eq__, "!=": int.__ne__, "<": int.__lt__, "<=": int.__le__, ">": int.__gt__, ">=": int.__ge__}
GROWING = {"count": (">", ">="), "sum": (">", ">="), "greatest": (">", ">="), "least": ("<", "<=")}


def settled(buckets, trigger, is_final):
    """The buckets at which a trigger looks."""
    if is_final or trigger.operator in GROWING[trigger.part]:
        return buckets
    return buckets[: max(len(buckets) - 2, 0)]


def marks_of(trigger, values):
    """The places whose values meet a trigger, with its part, ascending; `values` are places with what was measured in each."""
    parts = ((place, quad(it)[trigger.part]) for place, it in values)
    return sorted((place, min(part, 2**64 - 1)) for place, part in parts if OPERATORS[trigger.operator](part, trigger.number))


class Kept:
    """Whole buckets of an aggregate, first the one whose last record came first; of each its values, and for which triggers it was told."""

    def __init__(self):
        self.buckets, self.told, self.count, self.sum = {}, set(), 0, 0

    def forgotten(self, bucket):
        """The bucket that is forgotten with a record of this one."""
        is_full = bucket not in self.buckets and len(self.buckets) == MOST_KEPT
        return next(iter(self.buckets)) if is_full else None

    def forget(self, gone):
        del self.buckets[gone]
        self.told = {it for it in self.told if it[1] != gone}

    def take(self, value, bucket):
        gone = self.forgotten(bucket)
        if gone is not None:
            self.forget(gone)
        self.buckets[bucket] = self.buckets.pop(bucket, []) + [value]
        self.count, self.sum = self.count + 1, (self.sum + value) % 2**64

    def marks(self, trigger, is_final):
        kept = settled(list(self.buckets), trigger, is_final)
        return marks_of(trigger, (((bucket,), self.buckets[bucket]) for bucket in kept))

    def fresh(self, trigger):
        """The marks that were not told."""
        return [it for it in self.marks(trigger, False) if (trigger.name, *it[0]) not in self.told]

    def crowds(self):
        """The crowded buckets that were not told."""
        return []


class KeptApart(Kept):
    """The same of an aggregate by key: of each bucket the values of each key, and for which triggers the key was told; and the buckets in
    which a record counted for nothing."""

    def __init__(self):
        super().__init__()
        self.crowded, self.crowd_told = set(), set()

    def forgotten(self, bucket, key):
        if key in self.buckets.get(bucket, {}):
            return None
        if sum(map(len, self.buckets.values())) >= MOST_PAIRS:
            return next((it for it in self.buckets if it != bucket), None)
        is_full = bucket not in self.buckets and len(self.buckets) == MOST_APART
        return next(iter(self.buckets)) if is_full else None

    def forget(self, gone):
        super().forget(gone)
        self.crowded.discard(gone)
        self.crowd_told.discard(gone)

    def take(self, value, bucket, key):
        gone = self.forgotten(bucket, key)
        if gone is not None:
            self.forget(gone)
        self.buckets[bucket] = keys = self.buckets.pop(bucket, {})
        if key in keys or len(keys) < MOST_PAIRS:
            keys.setdefault(key, []).append(value)
        else:
            self.crowded.add(bucket)
        self.count, self.sum = self.count + 1, (self.sum + value) % 2**64

    def marks(self, trigger, is_final):
        kept = settled(list(self.buckets), trigger, is_final)
        return marks_of(trigger, (((bucket, key), it) for bucket in kept for key, it in self.buckets[bucket].items()))

    def crowds(self):
        return sorted(self.crowded - self.crowd_told)


class Segment:
    """Consecutive rows, and the nodes of their keys."""

    def __init__(self, first):
        self.first, self.rows, self.nodes = first, [], set()


class Watch:
    """The window, the kept buckets and the rounds of a stream of rows; the lines gather in `lines`."""

    def __init__(self, setup, capacity=65536, segments=4, nodes=65536, every=4096, beat=0, most=MOST_RECORDS):
        self.setup, self.capacity, self.most_segments, self.most_nodes = setup, capacity, segments, nodes
        self.every, self.beat, self.most = every, beat, most
        self.count, self.asked, self.beaten, self.second, self.segments = 0, 0, 0, 0, []
        self.kept = {it.name: Kept() if it.by is None else KeptApart() for it in setup.lanes if it.family == "aggregate"}
        self.lines = []

    @property
    def first(self):
        return self.segments[0].first if self.segments else 0

    def marks(self, trigger, is_final=True):
        return self.kept[trigger.aggregate.name].marks(trigger, is_final)

    def window(self, marks_of):
        return Window(self.setup, self.first, [row for it in self.segments for row in it.rows], marks_of)

    def selected(self, row):
        """What is kept of each aggregate that selects the row, the row's bucket with its key, and what is measured of it."""
        for lane in self.setup.lanes:
            if lane.family == "aggregate" and lane.select.holds(row):
                bucket = row[0] // self.setup.nanoseconds
                yield self.kept[lane.name], (bucket,) if lane.by is None else (bucket, row[lane.by]), row[lane.measure]

    def untold(self, row):
        """Whether a bucket is forgotten with the row that is crowded or has a mark, not yet told."""
        for kept, place, _ in self.selected(row):
            gone = kept.forgotten(*place)
            if gone is None:
                continue
            triggers = [it for it in self.setup.triggers if self.kept[it.aggregate.name] is kept]
            if gone in kept.crowds() or any(there[0] == gone for it in triggers for there, _ in kept.fresh(it)):
                return True
        return False

    def nodes_of(self, row):
        """The nodes on the paths of a row: a lane and a proper beginning of its key, of one digit or more."""
        nodes = set()
        for place, lane in enumerate(self.setup.lanes):
            if lane.select.holds(row):
                key, bits = row[0] // self.setup.nanoseconds, 64
                if lane.key is not None:
                    key, bits = row[lane.key], BITS[self.setup.schema[lane.key].kind]
                nodes |= {(place, rest, key >> rest) for rest in range(4, bits, 4)}
        return nodes

    def take(self, row):
        """One record goes into the window; a Stop where none more may."""
        nodes = self.nodes_of(row)
        if self.count == self.most:
            raise Stop(6, f"full: more than {self.most} records")
        now = self.segments[-1] if self.segments else None
        needs_new = now is None or len(now.rows) == self.capacity or len(now.nodes | nodes) > self.most_nodes
        if needs_new and len(nodes) > self.most_nodes:
            raise Stop(7, f"nodes: more than {self.most_nodes} nodes")
        drops = needs_new and len(self.segments) == self.most_segments
        if drops or self.untold(row):
            self.round()
        if drops:
            del self.segments[0]
        if needs_new:
            now = Segment(self.count)
            self.segments.append(now)
        now.rows.append(row)
        now.nodes |= nodes
        for kept, place, value in self.selected(row):
            kept.take(value, *place)
        self.count, self.second = self.count + 1, row[0] // 10**9

    def round(self, is_last=False):
        """A round, which may be the last of all."""
        for name, kept in self.kept.items():
            for bucket in kept.crowds():
                kept.crowd_told.add(bucket)
                self.lines.append(f"crowded {name} {bucket} @{self.count}")
        for trigger in self.setup.triggers:
            kept = self.kept[trigger.aggregate.name]
            for place, value in kept.fresh(trigger):
                kept.told.add((trigger.name, *place))
                self.lines.append(f"alert {trigger.name} {place_text(place)} {value} @{self.count}")
        if self.every and self.count - self.asked >= self.every:
            self.asked = self.count
            window = self.window(lambda trigger: self.marks(trigger, False))
            for name in self.setup.lives:
                body = window.body(self.setup.question(name))
                self.lines.append(f"live {name} @{self.first}..{self.count} {body}")
        if self.beat and self.count - self.beaten >= (1 if is_last else self.beat):
            self.beaten = self.count
            self.lines.append(f"at {self.count} {self.second}")
            self.lines += [f"total {name} count {it.count} sum {it.sum}" for name, it in self.kept.items()]

    def finish(self, is_cut):
        """The final part."""
        self.round(True)
        front, *rest = self.window(self.marks).lines()
        self.lines += [f"records {self.count}", f"window {self.first}", *rest]
        self.lines += [f"truncated: record {self.count}"] * is_cut


class Run:
    """`watch` with a setup and options: `read` for each read, then `end`; both answer what was written."""

    def __init__(self, setup, truncated=False, **options):
        schema = "packet6" if len(setup.schema) > len(plain.NAMES) else "packet"
        self.source, self.watch, self.truncated = Source(schema), Watch(setup, **options), truncated
        # None until it ends.
        self.status = None

    def text(self):
        lines, self.watch.lines = self.watch.lines, []
        return "".join(f"{it}\n" for it in lines)

    def stop(self, status, line):
        self.watch.round(True)
        self.watch.lines.append(line)
        self.status = status

    def read(self, piece):
        """One read of the capture, of at least a byte."""
        try:
            for row in self.source.feed(piece):
                self.watch.take(row)
        except Stop as stop:
            self.stop(stop.status, stop.line)
            return self.text()
        if self.source.code not in (0, 5, 25):
            self.stop(3, f"capture: record {self.watch.count} code {self.source.code}")
        else:
            self.watch.round()
        return self.text()

    def end(self):
        """The end of the capture."""
        code, is_cut = self.source.end(self.truncated)
        if code:
            self.stop(3, f"capture: record {self.watch.count} code {code}")
        else:
            self.watch.finish(is_cut)
            self.status = 0
        return self.text()


def setup_of(data):
    """The setup, or a Stop; one of records is at fault in its first statement."""
    try:
        setup = parse_setup(data)
    except SetupFault as fault:
        raise Stop(2, f"setup: line {fault.line} code {fault.fault.code}") from fault
    if not setup.is_packet:
        lines = [it.strip(b" ") for it in data.split(b"\n")]
        line = next(number for number, it in enumerate(lines, 1) if it.startswith(b"schema"))
        raise Stop(2, f"setup: line {line} code 4")
    return setup


def pieces(data, sizes):
    """The data by reads of these sizes, the last again and again."""
    at, sizes = 0, list(sizes)
    while at < len(data):
        size = sizes.pop(0) if len(sizes) > 1 else sizes[0]
        yield data[at : at + size]
        at += size


def watch(setup, data, sizes=(MOST_READ,), truncated=False, **options):
    """The status, what each read wrote, and what the end did, of a setup's bytes and a capture's."""
    try:
        run = Run(setup_of(setup), truncated, **options)
    except Stop as stop:
        return stop.status, [], stop.line + "\n"
    texts = []
    for piece in pieces(data, sizes):
        texts.append(run.read(piece))
        if run.status is not None:
            return run.status, texts, ""
    end = run.end()
    return run.status, texts, end


def follow(run, fd, sizes):
    """Reads a file as it comes, and writes what each read gives rise to before the next."""
    sizes = list(sizes)
    while run.status is None:
        size = sizes.pop(0) if len(sizes) > 1 else sizes[0]
        piece = os.read(fd, size)
        text = (run.read(piece) if piece else run.end()).encode()
        try:
            while text:
                text = text[os.write(1, text) :]
        except OSError:
            return 5
    return run.status


def main():
    words, sizes = sys.argv[1:], [MOST_READ]
    if words[:1] == ["--reads"]:
        sizes, words = [int(it) for it in words[1].split(",")], words[2:]
    try:
        command = parse_words(words)
        if command.name != "watch":
            sys.exit(__doc__)
        options = {name: int(command.options.get(name, default)) for name, default in DEFAULTS.items()}
        setup = setup_of(pathlib.Path(command.options["setup"]).read_bytes())
        fd = os.open(command.captures[0], os.O_RDONLY)
    except (WordsFault, FileNotFoundError, Stop) as fault:
        lines = {WordsFault: (1, "words: not a command"), FileNotFoundError: (9, "file: none of that name")}
        status, line = lines[type(fault)] if type(fault) in lines else (fault.status, fault.line)
        print(line)
        sys.exit(status)
    sys.exit(follow(Run(setup, command.may_be_cut, **options), fd, sizes))


if __name__ == "__main__":
    main()
