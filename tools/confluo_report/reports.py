"""Reads the texts that confluo prints: reports, snapshots, dumps, refusals, and what `watch` writes.

The lines are those of docs/FORMATS.md and no others. A text that is anything else is a Complaint that
names the line and quotes it.
"""

from __future__ import annotations

import itertools
import operator
import re
from dataclasses import dataclass
from typing import Callable, Iterator, Sequence, Tuple, Union

from .errors import Complaint

NUMBER = r"(?:0|[1-9][0-9]*)"
NAME = r"[a-z][a-z0-9_]{0,31}"
# A bucket, or a bucket and the key beside it.
PLACE = rf"{NUMBER}(?:/{NUMBER})?"
FOUND = ("list", "find", "between")
QUADS = ("measure", "total")


@dataclass(frozen=True)
class Found:
    """The records that a `list`, `find` or `between` found, by their numbers."""

    kind: str
    rows: tuple[int, ...]


@dataclass(frozen=True)
class Quad:
    """The answer of a `measure` or a `total`; least and greatest are None where nothing was counted."""

    kind: str
    count: int
    sum: int
    least: int | None
    greatest: int | None


# A bucket or a key, or a bucket and the key beside it.
Place = Union[Tuple[int], Tuple[int, int]]


def place_of(bucket: int, by: int | None) -> Place:
    """Both where there are both."""
    return (bucket,) if by is None else (bucket, by)


def place_text(bucket: int, by: int | None) -> str:
    """The same as confluo prints it."""
    return "/".join(map(str, place_of(bucket, by)))


@dataclass(frozen=True)
class Pair:
    """A bucket with its value, or a key with its part. `by` is the key beside the bucket where an aggregate goes by keys too."""

    key: int
    value: int
    by: int | None = None

    @property
    def place(self) -> Place:
        return place_of(self.key, self.by)


@dataclass(frozen=True)
class Fired:
    """The buckets in which a trigger fires, ascending."""

    marks: tuple[Pair, ...]
    kind: str = "fired"


@dataclass(frozen=True)
class Top:
    """The first keys of a tally, the greatest part first."""

    keys: tuple[Pair, ...]
    kind: str = "top"


@dataclass(frozen=True)
class Group:
    """A bucket or a key with the count, the sum, the least and the greatest of what its records measure."""

    key: int
    count: int
    sum: int
    least: int
    greatest: int
    by: int | None = None

    @property
    def place(self) -> Place:
        return place_of(self.key, self.by)


@dataclass(frozen=True)
class Groups:
    """All groups of an aggregate, by ascending bucket and the key beside it, or of a tally, by ascending key."""

    groups: tuple[Group, ...]
    kind: str = "groups"


Body = Union[Found, Quad, Fired, Top, Groups]


@dataclass(frozen=True)
class Ask:
    """A question's name with its answer."""

    name: str
    body: Body


@dataclass(frozen=True)
class Alert:
    """A bucket in which a trigger fires, with the value, and the key beside it where the aggregate goes by keys too."""

    trigger: str
    bucket: int
    value: int
    by: int | None = None

    @property
    def place(self) -> Place:
        return place_of(self.bucket, self.by)


@dataclass(frozen=True)
class Live:
    """An answer on the first `prefix` records of the log; `new` follows an answer of the kind fired."""

    name: str
    prefix: int
    body: Body
    new: Fired | None = None


@dataclass(frozen=True)
class Stretch:
    """A run of consecutive records of one writer."""

    writer: int
    count: int


@dataclass(frozen=True)
class RoundAlert:
    """An alert of a round of `watch`: a bucket in which the trigger did not fire in the round before.

    `prefix` is the number of records that had come.
    """

    trigger: str
    bucket: int
    value: int
    prefix: int
    by: int | None = None

    @property
    def place(self) -> Place:
        return place_of(self.bucket, self.by)


@dataclass(frozen=True)
class RoundCrowded:
    """A bucket that has as many keys as `watch` keeps: records of others count only for totals. `prefix` is as in an alert."""

    name: str
    bucket: int
    prefix: int


@dataclass(frozen=True)
class RoundLive:
    """A live answer of a round of `watch`, on the records from `first` up to `prefix`, which is not one of them."""

    name: str
    first: int
    prefix: int
    body: Body


@dataclass(frozen=True)
class RoundBeat:
    """A beat of `watch`: `prefix` records had come, the last one at that second since 1970."""

    prefix: int
    seconds: int


@dataclass(frozen=True)
class RoundTotal:
    """A total of the beat above: of all `prefix` records, how many the aggregate counts, and their sum modulo 2^64."""

    name: str
    count: int
    sum: int
    prefix: int


Told = Union[RoundAlert, RoundCrowded, RoundLive, RoundBeat, RoundTotal]


@dataclass(frozen=True)
class Report:
    """What `run` prints, or `synth`, whose report has no order, or `watch`.

    `truncated` is the number of whole records of a capture that is cut off; of `run --long` over several captures `cuts` has the
    places of such captures, from 1, each with that number. Of `watch`, `window` is the number of the first record that the answers
    are on, and `told` is what its rounds said.
    """

    records: int
    asks: tuple[Ask, ...]
    alerts: tuple[Alert, ...]
    lives: tuple[Live, ...] = ()
    order: tuple[Stretch, ...] | None = None
    truncated: int | None = None
    window: int | None = None
    told: tuple[Told, ...] = ()
    cuts: tuple[Pair, ...] = ()


@dataclass(frozen=True)
class Host:
    """A host's part of a snapshot: how many of its records are in the cut, and the answers on these."""

    number: int
    records: int
    asks: tuple[Ask, ...]
    truncated: int | None = None


@dataclass(frozen=True)
class Snapshot:
    """What `snapshot` prints."""

    cut: int
    hosts: tuple[Host, ...]


@dataclass(frozen=True)
class Refusal:
    """A refusal's line: `kind` is its first word, `place` its line, record or number, `code` its code.

    `capture` is the place, from 1, of the capture that is meant, where several were given to `run --long`.
    """

    kind: str
    place: int = 0
    code: int = 0
    capture: int = 0


REFUSALS = (
    ("words", re.compile(r"words: not a command")),
    ("setup", re.compile(rf"setup: line ({NUMBER}) code ({NUMBER})")),
    ("capture", re.compile(rf"capture: record ({NUMBER}) code ({NUMBER})")),
    ("full", re.compile(rf"full: more than ({NUMBER}) records")),
    ("nodes", re.compile(rf"nodes: more than ({NUMBER}) nodes")),
    ("file", re.compile(r"file: none of that name")),
)
REFUSALS_OF_ONE = (
    ("capture", re.compile(rf"capture ({NUMBER}): record ({NUMBER}) code ({NUMBER})")),
    ("file", re.compile(rf"capture ({NUMBER}): none of that name")),
)
FORMS = {
    "records": re.compile(rf"records ({NUMBER})"),
    "ask": re.compile(rf"ask ({NAME}) (.*)"),
    "alert": re.compile(rf"alert ({NAME}) ({PLACE}) ({NUMBER})"),
    "live": re.compile(rf"live ({NAME}) @({NUMBER}) (.*)"),
    "new": re.compile(rf"new ({NAME}) @({NUMBER}) (.*)"),
    "order": re.compile(rf"order((?: {NUMBER}\*{NUMBER})*)"),
    "cut": re.compile(rf"cut ({NUMBER})"),
    "host": re.compile(rf"host ({NUMBER}) @({NUMBER})"),
    "truncated:": re.compile(rf"truncated: record ({NUMBER})"),
    "truncated: capture": re.compile(rf"truncated: capture ({NUMBER}) record ({NUMBER})"),
    "window": re.compile(rf"window ({NUMBER})"),
    "round alert": re.compile(rf"alert ({NAME}) ({PLACE}) ({NUMBER}) @({NUMBER})"),
    "crowded": re.compile(rf"crowded ({NAME}) ({NUMBER}) @({NUMBER})"),
    "round live": re.compile(rf"live ({NAME}) @({NUMBER})\.\.({NUMBER}) (.*)"),
    "at": re.compile(rf"at ({NUMBER}) ({NUMBER})"),
    "total": re.compile(rf"total ({NAME}) count ({NUMBER}) sum ({NUMBER})"),
}
QUAD = re.compile(
    rf"(measure|total) count ({NUMBER}) sum ({NUMBER}) least ({NUMBER}|-) greatest ({NUMBER}|-)"
)
LISTED = re.compile(rf"(list|find|between) ({NUMBER}):([0-9 ]*)")
LEADING_ZERO = re.compile(" 0[0-9]")
PAIRED = re.compile(
    rf"(fired) ({NUMBER}):((?: {PLACE}={NUMBER})*)|(top) ({NUMBER}):((?: {NUMBER}={NUMBER})*)"
)
GROUPED = re.compile(rf"groups ({NUMBER}):((?: {PLACE}=[1-9][0-9]*(?:/{NUMBER}){{3}})*)")


TOLD = ("alert", "crowded", "live", "at", "total")


def is_told(line: str) -> bool:
    """Whether the line is one of a round of `watch`, or begins like one."""
    return line.partition(" ")[0] in TOLD and " " in line


def refusal_of(text: str) -> Refusal | None:
    """The refusal, if the text is one line of a refusal, or lines of rounds of `watch` before one."""
    *before, last = text.removesuffix("\n").split("\n")
    if not all(is_told(it) for it in before):
        return None
    for kind, form in REFUSALS:
        found = form.fullmatch(last)
        if found:
            return Refusal(kind, *map(int, found.groups()))
    for kind, form in REFUSALS_OF_ONE:
        found = form.fullmatch(last)
        if found and not before:
            capture, *more = map(int, found.groups())
            return Refusal(kind, *more, capture=capture)
    return None


class _Lines:
    """The lines of a text one after another, with the number of the one that is next.

    `before` is the number of lines that came before the text.
    """

    def __init__(self, text: str, source: str, before: int = 0) -> None:
        self.source, self.before = source, before
        self.whole = text.endswith("\n")
        self.lines = text.split("\n")[:-1] if self.whole else text.split("\n")
        self.at = 0

    def word(self) -> str:
        """The first word of the next line, or nothing at the end."""
        return self.lines[self.at].partition(" ")[0] if self.at < len(self.lines) else ""

    def take(self, word: str) -> tuple[str, ...]:
        """The parts of the next line, which begins with that word."""
        found = FORMS[word].fullmatch(self.lines[self.at])
        if not found:
            self.fail(f"a line of the form {_shown_form(word)}")
        self.at += 1
        return found.groups() if found else ()

    def fail(self, wanted: str, back: int = 0) -> None:
        """Complains of the line `back` lines before the next one."""
        at = self.at - back
        if at >= len(self.lines):
            raise Complaint(
                f"{self.source}: the report ends after line {at + self.before}; {wanted} should follow"
            )
        line = self.lines[at]
        shown = line if len(line) <= 76 else line[:73] + "..."
        cut = ""
        if at == len(self.lines) - 1 and not self.whole:
            cut = "\nThe last line has no line end: the report is cut off."
        raise Complaint(
            f"{self.source}: line {at + 1 + self.before} cannot be read as part of a report:\n    {shown}\n"
            f"Expected: {wanted}.{cut}"
        )


def _shown_form(word: str) -> str:
    return {
        "records": "`records K`",
        "ask": "`ask NAME KIND ..`",
        "alert": "`alert TRIGGER BUCKET VALUE` or `alert TRIGGER BUCKET/KEY VALUE`",
        "live": "`live NAME @T ..`",
        "new": "`new NAME @T fired K: ..`",
        "order": "`order W*K ..`",
        "cut": "`cut K`",
        "host": "`host H @C`",
        "truncated:": "`truncated: record K`",
        "truncated: capture": "`truncated: capture F record K`",
        "window": "`window F`",
        "round alert": "`alert TRIGGER BUCKET VALUE @T` or `alert TRIGGER BUCKET/KEY VALUE @T`",
        "crowded": "`crowded NAME BUCKET @T`",
        "round live": "`live NAME @F..T ..`",
        "at": "`at T S`",
        "total": "`total NAME count C sum U`",
    }[word]


def _body(lines: _Lines, text: str, most: int, ascending: bool, least: int = 0) -> Body:
    """An answer whose line was just taken, over the records from `least` up to `most`."""
    if found := QUAD.fullmatch(text):
        return _quad(lines, found.groups())
    found = LISTED.fullmatch(text)
    rows = _numbers(found[3]) if found else None
    if found and rows is not None:
        _must_count(lines, int(found[2]), len(rows))
        _must_be_rows(lines, rows, (least, most), ascending)
        return Found(found[1], rows)
    if found := PAIRED.fullmatch(text):
        kind, count, its = (it for it in found.groups() if it is not None)
        pairs = tuple(map(_pair, its.split()))
        _must_count(lines, int(count), len(pairs))
        _must_be_in_order(lines, kind, pairs)
        return Fired(pairs) if kind == "fired" else Top(pairs)
    if found := GROUPED.fullmatch(text):
        groups = tuple(map(_group, found[2].split()))
        _must_count(lines, int(found[1]), len(groups))
        _must_be_groups(lines, groups)
        return Groups(groups)
    lines.fail(
        "an answer as `list K: ..`, `find K: ..`, `between K: ..`, `fired K: ..`, `top K: ..`, `groups K: ..`, "
        "`measure count C sum S least L greatest G` or `total count ..`",
        back=1,
    )
    raise AssertionError


def _numbers(text: str) -> tuple[int, ...] | None:
    """The numbers, which may be millions, of a text of spaces and digits: each has one space before it, and no zero in front."""
    first, *words = text.split(" ")
    if first or "" in words or LEADING_ZERO.search(text):
        return None
    return tuple(map(int, words))


def _both(text: str) -> tuple[int, int | None]:
    """A bucket, and the key beside it if there is one."""
    bucket, has_key, key = text.partition("/")
    return int(bucket), int(key) if has_key else None


def _pair(text: str) -> Pair:
    place, _, value = text.partition("=")
    key, by = _both(place)
    return Pair(key, int(value), by)


def _group(text: str) -> Group:
    place, _, quad = text.partition("=")
    key, by = _both(place)
    return Group(key, *map(int, quad.split("/")), by=by)


def _quad(lines: _Lines, parts: tuple[str, ...]) -> Quad:
    kind, count, total, least, greatest = parts
    if (count == "0") != (least == "-") or (least == "-") != (greatest == "-"):
        lines.fail("`-` for least and greatest exactly where the count is 0", back=1)
    ends = [None if it == "-" else int(it) for it in (least, greatest)]
    return Quad(kind, int(count), int(total), ends[0], ends[1])


def _must_count(lines: _Lines, stated: int, there: int) -> None:
    if stated != there:
        lines.fail(f"{stated} entries after the colon, and there are {there}", back=1)


def _must_be_rows(lines: _Lines, rows: tuple[int, ...], ends: tuple[int, int], ascending: bool) -> None:
    # (there may be millions)
    least, most = ends
    if rows and not (least <= min(rows) and max(rows) < most):
        lines.fail(f"numbers of records {f'from {least} and ' if least else ''}below {most}", back=1)
    if ascending and not all(map(operator.lt, rows, itertools.islice(rows, 1, None))):
        lines.fail("numbers of records in ascending order", back=1)
    if not ascending and len(set(rows)) != len(rows):
        lines.fail("each record once", back=1)


def _must_be_in_order(lines: _Lines, kind: str, pairs: tuple[Pair, ...]) -> None:
    if kind == "fired":
        _must_ascend(lines, "buckets", [it.place for it in pairs])
        return
    places = [(-it.value, it.key) for it in pairs]
    if any(low >= high for low, high in zip(places, places[1:])):
        lines.fail("the greater part first, and of equal parts the lower key", back=1)


def _must_ascend(lines: _Lines, things: str, places: Sequence[Place]) -> None:
    if len(set(map(len, places))) > 1:
        lines.fail("a key with every bucket or with none", back=1)
    if not all(map(operator.lt, places, itertools.islice(places, 1, None))):
        lines.fail(f"{things} in ascending order", back=1)


def _must_be_groups(lines: _Lines, groups: tuple[Group, ...]) -> None:
    _must_ascend(lines, "buckets or keys", [it.place for it in groups])
    if any(not it.least * it.count <= it.sum <= it.greatest * it.count for it in groups):
        lines.fail("sums of so many numbers, from the least to the greatest", back=1)


def _asks(lines: _Lines, most: int, least: int = 0) -> tuple[Ask, ...]:
    asks: list[Ask] = []
    while lines.word() == "ask":
        name, text = lines.take("ask")
        if any(it.name == name for it in asks):
            lines.fail(f"another name than {name}, which has its answer above", back=1)
        asks.append(Ask(name, _body(lines, text, most, True, least)))
    return tuple(asks)


def _alerts(lines: _Lines) -> tuple[Alert, ...]:
    alerts: list[Alert] = []
    names: set[str] = set()
    while lines.word() == "alert":
        name, place, value = lines.take("alert")
        bucket, by = _both(place)
        alert = Alert(name, bucket, int(value), by)
        last = alerts[-1] if alerts and alerts[-1].trigger == name else None
        if last and (last.by is None) != (by is None):
            lines.fail("a key with every bucket of a trigger or with none", back=1)
        if last and last.place >= alert.place or not last and name in names:
            lines.fail("the alerts of a trigger together, by ascending buckets", back=1)
        names.add(name)
        alerts.append(alert)
    return tuple(alerts)


def _lives(lines: _Lines, most: int) -> tuple[Live, ...]:
    lives: list[Live] = []
    while lines.word() == "live":
        name, prefix, text = lines.take("live")
        if int(prefix) > most:
            lines.fail(f"at most @{most}, since there are {most} records", back=1)
        body = _body(lines, text, most, False)
        new = _new(lines, name, prefix) if isinstance(body, Fired) else None
        lives.append(Live(name, int(prefix), body, new))
    return tuple(lives)


def _new(lines: _Lines, name: str, prefix: str) -> Fired:
    wanted = f"`new {name} @{prefix} fired K: ..` after the live line above"
    if lines.word() != "new":
        lines.fail(wanted)
    other, at, text = lines.take("new")
    body = _body(lines, text, 0, True)
    if (other, at) != (name, prefix) or not isinstance(body, Fired):
        lines.fail(wanted, back=1)
    assert isinstance(body, Fired)
    return body


def _order(lines: _Lines, records: int) -> tuple[Stretch, ...] | None:
    if lines.word() != "order":
        return None
    (text,) = lines.take("order")
    order = tuple(Stretch(*map(int, it.split("*"))) for it in text.split())
    if sum(it.count for it in order) != records:
        lines.fail(f"an order of {records} records", back=1)
    if any(it.count == 0 for it in order) or any(a.writer == b.writer for a, b in zip(order, order[1:])):
        lines.fail("the longest runs of records of one writer", back=1)
    return order


def _truncated(lines: _Lines, least: int, most: int | None, wanted: str) -> int | None:
    """The whole records of a capture that is cut off, where its line is next."""
    if lines.word() != "truncated:":
        return None
    whole = int(lines.take("truncated:")[0])
    if whole < least or most is not None and whole > most:
        lines.fail(wanted, back=1)
    return whole


def _cuts(lines: _Lines, records: int) -> tuple[Pair, ...]:
    """The captures of several that are cut off."""
    cuts: list[Pair] = []
    while lines.at < len(lines.lines) and lines.lines[lines.at].startswith("truncated: capture"):
        cuts.append(Pair(*map(int, lines.take("truncated: capture"))))
        if cuts[-1].key <= (cuts[-2].key if len(cuts) > 1 else 0) or sum(it.value for it in cuts) > records:
            lines.fail(f"captures in ascending order, from 1, with at most {records} records", back=1)
    return tuple(cuts)


def _must_end(lines: _Lines, wanted: str) -> None:
    if lines.at < len(lines.lines):
        lines.fail(wanted)
    if not lines.whole:
        lines.fail("a line end after the last line", back=1)


class Rounds:
    """Reads the lines of rounds of `watch` one after another."""

    def __init__(self) -> None:
        # The window of the last line.
        self.first = self.prefix = 0
        # The records of the last beat, and of each aggregate the last count.
        self.beat, self.counts = 0, dict[str, int]()
        # The aggregates of the beat so far; None where no total may follow.
        self.names: set[str] | None = None

    def take(self, lines: _Lines) -> Told:
        """The next line, which is one of a round."""
        word = lines.word()
        if word == "total":
            return self._total(lines)
        self.names = None
        if word == "at":
            return self._beat(lines)
        if word == "alert":
            name, place, value, prefix = lines.take("round alert")
            self._move(lines, self.first, int(prefix))
            bucket, by = _both(place)
            return RoundAlert(name, bucket, int(value), self.prefix, by)
        if word == "crowded":
            name, place, prefix = lines.take("crowded")
            self._move(lines, self.first, int(prefix))
            return RoundCrowded(name, int(place), self.prefix)
        name, first, prefix, text = lines.take("round live")
        self._move(lines, int(first), int(prefix))
        return RoundLive(name, self.first, self.prefix, _body(lines, text, self.prefix, True, self.first))

    def _beat(self, lines: _Lines) -> RoundBeat:
        prefix, seconds = map(int, lines.take("at"))
        self._move(lines, self.first, prefix)
        if prefix <= self.beat:
            lines.fail(f"a beat after more records than the {self.beat} of the one before", back=1)
        self.beat, self.names = prefix, set()
        return RoundBeat(prefix, seconds)

    def _total(self, lines: _Lines) -> RoundTotal:
        name, count, total = lines.take("total")
        if self.names is None or name in self.names:
            lines.fail("`at T S`, the first line of a beat, before each aggregate once", back=1)
            raise AssertionError
        if not self.counts.get(name, 0) <= int(count) <= self.beat:
            lines.fail(f"a count from {self.counts.get(name, 0)}, the last one, to {self.beat}", back=1)
        self.names.add(name)
        self.counts[name] = int(count)
        return RoundTotal(name, int(count), int(total), self.beat)

    def _move(self, lines: _Lines, first: int, prefix: int) -> None:
        if prefix < self.prefix or not self.first <= first <= prefix:
            lines.fail(f"a window that is none before {self.first}..{self.prefix}", back=1)
        self.first, self.prefix = first, prefix

    def take_line(self, line: str, number: int, source: str) -> Told:
        """The line of that number, from 1, which is one of a round."""
        return self.take(_Lines(line + "\n", source, number - 1))


def _report(lines: _Lines) -> Report:
    told, rounds = [], Rounds()
    while lines.word() in TOLD:
        told.append(rounds.take(lines))
    if lines.word() != "records":
        lines.fail("a further line of a round of `watch`, or `records K`, the first line of its final part")
    records = int(lines.take("records")[0])
    if lines.word() == "window" or told:
        return _final_part(lines, records, rounds, tuple(told))
    asks = _asks(lines, records)
    alerts = _alerts(lines)
    lives = _lives(lines, records)
    order = _order(lines, records)
    if lives and order is None:
        lines.fail("a further `live` line, or `order W*K ..`")
    cuts = _cuts(lines, records) if order is None else ()
    truncated = _truncated(lines, records, records, f"`truncated: record {records}`, the report's records")
    _must_end(lines, "a further line of a report, in the order records, ask, alert, live, order, truncated")
    return Report(records, asks, alerts, lives, order, truncated, cuts=cuts)


def _final_part(lines: _Lines, records: int, rounds: Rounds, told: tuple[Told, ...]) -> Report:
    """What `watch` writes at the end, behind the line of its records."""
    if records < rounds.prefix:
        lines.fail(f"`records K` of at least {rounds.prefix}, those of the round above", back=1)
    if lines.word() != "window":
        lines.fail("`window F`")
    window = int(lines.take("window")[0])
    if not rounds.first <= window <= records:
        lines.fail(f"a window from {rounds.first} on, and of at most {records} records", back=1)
    asks = _asks(lines, records, window)
    alerts = _alerts(lines)
    truncated = _truncated(lines, records, records, f"`truncated: record {records}`, the capture's records")
    _must_end(lines, "a further line, in the order records, window, ask, alert, truncated")
    return Report(records, asks, alerts, truncated=truncated, window=window, told=told)


def _snapshot(lines: _Lines) -> Snapshot:
    cut = int(lines.take("cut")[0])
    hosts: list[Host] = []
    while lines.word() == "host":
        number, count = map(int, lines.take("host"))
        if number != len(hosts):
            lines.fail(f"host {len(hosts)}", back=1)
        asks = _asks(lines, count)
        wanted = f"`truncated: record K` of at least the host's {count} records in the cut"
        hosts.append(Host(number, count, asks, _truncated(lines, count, None, wanted)))
    _must_end(lines, "`host H @C`, `ask NAME KIND ..` or `truncated: record K`")
    if not hosts or sum(it.records for it in hosts) != cut:
        lines.fail(f"hosts that have {cut} records in the cut together")
    return Snapshot(cut, tuple(hosts))


def _must_be_text(text: str, source: str) -> None:
    if not text:
        raise Complaint(
            f"{source}: this is not a report: it is empty. confluo prints nothing with status 4 "
            "(a file could not be read) and 8 (out of memory)"
        )
    refusal = refusal_of(text)
    if refusal:
        raise Complaint(
            f"{source}: this is not a report but a refusal: {text.rstrip().rpartition(chr(10))[2]}\n"
            "`confluo-report explain` says what it means"
        )
    lines = text.split("\n", 2)
    if FORMS["records"].fullmatch(lines[0]) and re.match(r"0 ts=", "".join(lines[1:2])):
        raise Complaint(f"{source}: this is not a report but the text of `confluo dump`")


def parse(text: str, source: str = "report") -> Report | Snapshot:
    """The report or snapshot that the text is."""
    _must_be_text(text, source)
    lines = _Lines(text, source)
    readers: dict[str, Callable[[_Lines], Report | Snapshot]]
    readers = {"records": _report, "cut": _snapshot, **dict.fromkeys(TOLD, _report)}
    reader = readers.get(lines.word())
    if not reader:
        lines.fail("`records K`, the first line of a report, or `cut K`, that of a snapshot")
        raise AssertionError
    return reader(lines)


def parse_body(text: str, source: str, number: int, records: int) -> Body:
    """The answer that the text is, of the line of that number and over so many records."""
    lines = _Lines(f"{text}\n", source, number - 1)
    lines.at = 1
    return _body(lines, text, records, True)


def parse_report(text: str, source: str = "report") -> Report:
    """The report that the text is; a snapshot is a Complaint."""
    read = parse(text, source)
    if isinstance(read, Snapshot):
        raise Complaint(f"{source}: this is a snapshot; a report of `confluo run` is needed here")
    return read


def body_text(body: Body) -> str:
    """The answer as confluo prints it."""
    if isinstance(body, Quad):
        ends = ["-" if it is None else str(it) for it in (body.least, body.greatest)]
        return f"{body.kind} count {body.count} sum {body.sum} least {ends[0]} greatest {ends[1]}"
    if isinstance(body, Found):
        # (in half the time of joined words)
        return f"{body.kind} {len(body.rows)}:" + " %d" * len(body.rows) % body.rows
    if isinstance(body, Groups):
        quads = [f"{it.count}/{it.sum}/{it.least}/{it.greatest}" for it in body.groups]
        words = [f"{place_text(it.key, it.by)}={quad}" for it, quad in zip(body.groups, quads)]
    else:
        pairs = body.marks if isinstance(body, Fired) else body.keys
        words = [f"{place_text(it.key, it.by)}={it.value}" for it in pairs]
    return " ".join([f"{body.kind} {len(words)}:", *words])


def alert_text(it: Alert) -> str:
    """The line of an alert as confluo prints it."""
    return f"alert {it.trigger} {place_text(it.bucket, it.by)} {it.value}"


def told_text(it: Told) -> str:
    """The line of a round as `watch` writes it."""
    if isinstance(it, RoundAlert):
        return f"alert {it.trigger} {place_text(it.bucket, it.by)} {it.value} @{it.prefix}"
    if isinstance(it, RoundCrowded):
        return f"crowded {it.name} {it.bucket} @{it.prefix}"
    if isinstance(it, RoundBeat):
        return f"at {it.prefix} {it.seconds}"
    if isinstance(it, RoundTotal):
        return f"total {it.name} count {it.count} sum {it.sum}"
    return f"live {it.name} @{it.first}..{it.prefix} {body_text(it.body)}"


def lines_of(read: Report | Snapshot) -> Iterator[str]:
    """The lines of the report or snapshot, as confluo prints them."""
    if isinstance(read, Snapshot):
        yield f"cut {read.cut}"
        for host in read.hosts:
            yield f"host {host.number} @{host.records}"
            yield from (f"ask {it.name} {body_text(it.body)}" for it in host.asks)
            yield from _truncated_lines(host)
        return
    yield from map(told_text, read.told)
    yield f"records {read.records}"
    if read.window is not None:
        yield f"window {read.window}"
    yield from (f"ask {it.name} {body_text(it.body)}" for it in read.asks)
    yield from map(alert_text, read.alerts)
    for live in read.lives:
        yield f"live {live.name} @{live.prefix} {body_text(live.body)}"
        if live.new is not None:
            yield f"new {live.name} @{live.prefix} {body_text(live.new)}"
    if read.order is not None:
        yield "order" + "".join(f" {it.writer}*{it.count}" for it in read.order)
    yield from _truncated_lines(read)


def _truncated_lines(read: Report | Host) -> Iterator[str]:
    if read.truncated is not None:
        yield f"truncated: record {read.truncated}"
    for it in read.cuts if isinstance(read, Report) else ():
        yield f"truncated: capture {it.key} record {it.value}"
