"""A report as tables for people."""

from __future__ import annotations

import itertools
from dataclasses import dataclass, field
from typing import Collection, Mapping, Sequence

from .addresses import Ranked
from .merge import Merged
from .reports import (
    Alert,
    Ask,
    Body,
    Fired,
    Found,
    Groups,
    Host,
    Live,
    Pair,
    Quad,
    Report,
    RoundAlert,
    RoundBeat,
    RoundCrowded,
    RoundTotal,
    Snapshot,
    Told,
    Top,
)
from .setups import SECOND, Lane, Question, Setup, Trigger
from .tables import Style, marks, table
from .values import by_text, clock, grouped, key_text, unit, units, utc, value_text

# Of an aggregate by keys `watch` keeps so many, each with its bucket.
MOST_PAIRS = 65536
PART_WORDS = {"count": "number", "sum": "sum", "least": "least", "greatest": "greatest"}


@dataclass(frozen=True)
class Viewer:
    """What is known beside the report: its setup, the lines of packets, and how text is marked."""

    setup: Setup | None = None
    details: Mapping[int, str] = field(default_factory=dict)
    style: Style = Style()
    most: int = 20
    # The whole addresses behind networks of IPv6, by the names of questions.
    addresses: Mapping[str, Ranked] = field(default_factory=dict)
    # Conversations by their endpoints.
    flows: Mapping[int, str] = field(default_factory=dict)

    @property
    def things(self) -> str:
        return "packets" if not self.setup or self.setup.is_packet else "records"


def part_text(setup: Setup, part: str, lane: Lane) -> str:
    """A part of what a lane measures, as `sum of len`."""
    return measured_text(setup, part, setup.schema[lane.measure].name if lane.measure is not None else "?")


def measured_text(setup: Setup, part: str, measure: str) -> str:
    """The same of an attribute."""
    thing = "packets" if setup.is_packet else "records"
    return (
        f"number of {thing}"
        if part == "count"
        else f"{PART_WORDS[part]} {'of ' if part == 'sum' else ''}{measure}"
    )


def condition_text(setup: Setup, trigger: Trigger) -> str:
    """What the trigger watches, as `sum of len > 1000 of dport==80`."""
    part = part_text(setup, trigger.part, trigger.aggregate)
    each = each_text(setup, trigger.aggregate)
    return f"{part} {trigger.operator} {grouped(trigger.number)}, of {select_text(trigger.aggregate)}{each}"


def each_text(setup: Setup, lane: Lane) -> str:
    """That an aggregate goes by keys too, as ` by src`."""
    return "" if lane.by is None else f" by {setup.schema[lane.by].name}"


def select_text(lane: Lane) -> str:
    text = lane.select.text
    return "all packets" if text == "*" else text


def _range_text(setup: Setup, question: Question) -> str:
    if question.low > question.high:
        return "in no bucket, since the range ends before it begins"
    width = setup.nanoseconds
    first = clock(question.low * width)
    if question.low == question.high:
        return f"in the {unit(width)} {first}"
    return f"from {first} to {clock(question.high * width)}, both {units(width)} included"


def heading(viewer: Viewer, name: str, body: Body) -> str:
    """What the question asks, in words."""
    setup = viewer.setup
    question = setup.question(name) if setup else None
    if not setup or not question:
        return body.kind
    lane = question.lane
    if question.kind == "list" and question.expression:
        return f"{viewer.things} with {question.expression.text}"
    if question.kind == "find" and lane and lane.key is not None:
        attribute = setup.schema[lane.key]
        ends = [value_text(setup, attribute, it) for it in (question.low, question.high)]
        span = ends[0] if ends[0] == ends[1] else f"{ends[0]} to {ends[1]}"
        return f"{viewer.things} with {attribute.name} {span}"
    if question.kind == "between" and lane:
        return f"{viewer.things} of {select_text(lane)}, {_range_text(setup, question)}"
    if question.kind == "measure" and lane:
        return f"of {select_text(lane)}, {_range_text(setup, question)}"
    if question.kind == "total" and question.expression:
        text = question.expression.text
        return f"of {'all ' + viewer.things if text == '*' else text}"
    if question.kind == "fired" and question.trigger:
        return f"{units(setup.nanoseconds)} with {condition_text(setup, question.trigger)}"
    if question.kind == "top" and lane and lane.key is not None:
        return f"{setup.schema[lane.key].name} by {part_text(setup, question.part, lane)}, of {select_text(lane)}"
    if question.kind == "groups" and lane:
        by = unit(setup.nanoseconds) if lane.key is None else setup.schema[lane.key].name
        return f"each {by} of {select_text(lane)}{each_text(setup, lane)}"
    return question.text


def _found(viewer: Viewer, body: Found) -> list[str]:
    shown = body.rows[: viewer.most or None]
    if viewer.details:
        rows = [[str(it), viewer.details.get(it, "")] for it in shown]
        lines = table(["number", viewer.things[:-1]], rows, viewer.style, "r") if rows else []
    else:
        lines = _wrapped([str(it) for it in shown])
    if len(shown) < len(body.rows):
        lines.append(f"  and {grouped(len(body.rows) - len(shown))} more; --most 0 shows all")
    return lines


def _wrapped(words: Sequence[str], width: int = 76) -> list[str]:
    lines = [" "]
    for word in words:
        if len(lines[-1]) + 1 + len(word) > width:
            lines.append(" ")
        lines[-1] += " " + word
    return lines if words else []


def _quad(viewer: Viewer, name: str, body: Quad) -> list[str]:
    measure = ""
    setup = viewer.setup
    question = setup.question(name) if setup else None
    if setup and question:
        place = question.lane.measure if question.lane else question.attribute
        measure = f" {setup.schema[place].name}" if place is not None else ""
    of = f" of{measure}" if measure else ""
    head = [viewer.things, f"sum{of}", f"least{measure}", f"greatest{measure}"]
    numbers = (body.count, body.sum, body.least, body.greatest)
    return table(head, [[grouped(it) for it in numbers]], viewer.style, "rrrr")


def _bucket_cell(viewer: Viewer, bucket: int) -> str:
    return clock(bucket * viewer.setup.nanoseconds) if viewer.setup else str(bucket)


def _bucket_head(viewer: Viewer) -> str:
    return f"{unit(viewer.setup.nanoseconds)} (UTC)" if viewer.setup else "bucket"


def _by_cell(viewer: Viewer, lane: Lane | None, by: int | None) -> str:
    """The key beside a bucket, nothing where there is none."""
    if by is None:
        return ""
    known = viewer.setup and lane and lane.by is not None
    return by_text(viewer.setup, lane, by, viewer.flows) if known and viewer.setup and lane else str(by)


def _by_head(viewer: Viewer, lane: Lane | None) -> str:
    """What the keys beside buckets are."""
    return viewer.setup.schema[lane.by].name if viewer.setup and lane and lane.by is not None else "key"


def _groups(viewer: Viewer, name: str, body: Groups) -> list[str]:
    setup = viewer.setup
    question = setup.question(name) if setup else None
    lane = question.lane if question else None
    head, measure = "bucket or key", ""
    if setup and lane:
        head = _bucket_head(viewer) if lane.key is None else setup.schema[lane.key].name
        measure = f" {setup.schema[lane.measure].name}" if lane.measure is not None else ""
    shown = body.groups[: viewer.most or None]
    has_keys = any(it.by is not None for it in shown)
    if has_keys and not lane:
        head = "bucket"
    rows = []
    for it in shown:
        key = str(it.key)
        if setup and lane:
            is_timed = lane.key is None
            key = _bucket_cell(viewer, it.key) if is_timed else key_text(setup, lane, it.key, viewer.flows)
        keys = [key, *[_by_cell(viewer, lane, it.by)] * has_keys]
        rows.append([*keys, *(grouped(number) for number in (it.count, it.sum, it.least, it.greatest))])
    of = f" of{measure}" if measure else ""
    heads = [head, *[_by_head(viewer, lane)] * has_keys]
    heads += [viewer.things, f"sum{of}", f"least{measure}", f"greatest{measure}"]
    lines = table(heads, rows, viewer.style, "l" * (1 + has_keys) + "rrrr") if rows else []
    if len(shown) < len(body.groups):
        lines.append(f"  and {grouped(len(body.groups) - len(shown))} more; --most 0 shows all")
    return lines


def _fired(viewer: Viewer, name: str, pairs: Sequence[Pair]) -> list[str]:
    question = viewer.setup.question(name) if viewer.setup else None
    trigger = question.trigger if question else None
    lines = bucket_lines(viewer, name, pairs, (trigger.operator, trigger.number) if trigger else None)
    if viewer.setup and trigger and trigger.operator in ("<", "<="):
        lines.append(f"  {units(viewer.setup.nanoseconds)} without a {viewer.things[:-1]} are not listed")
    return lines


def bucket_lines(
    viewer: Viewer, name: str, pairs: Sequence[Pair], condition: tuple[str, int] | None
) -> list[str]:
    """The table of buckets, of all those whose value meets the condition."""
    question = viewer.setup.question(name) if viewer.setup else None
    value = "value"
    if viewer.setup and question and question.trigger:
        value = part_text(viewer.setup, question.trigger.part, question.trigger.aggregate)
    lane = question.trigger.aggregate if question and question.trigger else None
    if any(it.by is not None for it in pairs):
        head = [_bucket_head(viewer), _by_head(viewer, lane), value]
        rows = [
            [_bucket_cell(viewer, it.key), _by_cell(viewer, lane, it.by), grouped(it.value)] for it in pairs
        ]
        return table(head, rows, viewer.style, "llr")
    noted = bucket_marks(pairs, condition)
    rows = [[_bucket_cell(viewer, it.key), grouped(it.value), note] for it, note in zip(pairs, noted)]
    return table([_bucket_head(viewer), value, ""], rows, viewer.style, "lr") if rows else []


def bucket_marks(pairs: Sequence[Pair], condition: tuple[str, int] | None) -> list[str]:
    """The bucket with the most and that with the fewest, where no bucket that is not listed could have more or fewer."""
    if not pairs or condition is None:
        return [""] * len(pairs)
    has_no_gap = pairs[-1].key - pairs[0].key == len(pairs) - 1
    lists_all = condition in ((">=", 0), (">", 0))
    has_fewest = has_no_gap and (lists_all or condition[0] in ("<", "<="))
    return marks([it.value for it in pairs], condition[0] in (">", ">="), has_fewest)


def silence_line(
    viewer: Viewer, there: Collection[int], ends: Sequence[int], expression: str = "*"
) -> list[str]:
    """That buckets from the first to the last packet have none, where there are such."""
    if not ends or not viewer.setup:
        return []
    gaps = _gaps(sorted({it for it in there if ends[0] <= it <= ends[-1]}), ends[0], ends[-1])
    count = sum(last - first + 1 for first, last in gaps)
    if not count:
        return []
    width = viewer.setup.nanoseconds
    spans = [_span_text(first * width, last * width) for first, last in gaps[:3]]
    rest = len(gaps) - 3
    more = f", and {rest} more {'stretch' if rest == 1 else 'stretches'}" if rest > 0 else ""
    what = f"no {viewer.things[:-1]}" + ("" if expression == "*" else f" with {expression}")
    name = unit(width) if count == 1 else units(width)
    has = "has" if count == 1 else "have"
    return [
        f"  {grouped(count)} {name} between the first and the last {viewer.things[:-1]} {has} {what} "
        f"and {'is' if count == 1 else 'are'} not listed: {', '.join(spans)}{more}"
    ]


def _span_text(first: int, last: int) -> str:
    """Both times, of which the second has no date where it is that of the first."""
    begin, end = clock(first), clock(last)
    if first == last:
        return begin
    day = begin.partition(" ")[0]
    return f"{begin} to {end.removeprefix(f'{day} ') if ':' in begin else end}"


def _gaps(keys: Sequence[int], first: int, last: int) -> list[tuple[int, int]]:
    """The stretches from first to last without a key."""
    found, begin = [], first
    for it in keys:
        if it > begin:
            found.append((begin, it - 1))
        begin = it + 1
    return found + ([(begin, last)] if begin <= last else [])


def _top(viewer: Viewer, name: str, body: Top) -> list[str]:
    question = viewer.setup.question(name) if viewer.setup else None
    lines = top_lines(viewer, name, body, bool(question and len(body.keys) < question.high))
    ranked = viewer.addresses.get(name)
    if not ranked:
        return lines
    return [*lines, "  Whole addresses:", *top_lines(viewer, name, ranked.top, ranked.is_all, ranked.texts)]


def top_lines(
    viewer: Viewer,
    name: str,
    body: Top,
    is_all: bool,
    texts: Sequence[str] | None = None,
    whole: int | None = None,
) -> list[str]:
    """The table of keys; the most and the fewest are marked where all keys are listed.

    `texts` are the keys as they are written, if that is known. With `whole` each has its part of that in percent.
    """
    setup = viewer.setup
    question = setup.question(name) if setup else None
    head = ["", "key", "value"]
    keys = [str(it.key) for it in body.keys] if texts is None else list(texts)
    notes: list[str] = []
    if setup and question and question.lane and question.lane.key is not None:
        lane, attribute = question.lane, setup.schema[question.lane.key]
        head = ["", attribute.name, part_text(setup, question.part, lane)]
        if texts is None:
            keys = [key_text(setup, lane, it.key, viewer.flows) for it in body.keys]
            notes = (
                [] if all(it.key for it in body.keys) or viewer.flows else _zero_note(setup, attribute.name)
            )
    rows = [[f"{place}.", key, grouped(it.value)] for place, (key, it) in enumerate(zip(keys, body.keys), 1)]
    if whole is not None:
        head.append("percent")
        rows = [[*row, percent(it.value, whole)] for row, it in zip(rows, body.keys)]
        rest = whole - sum(it.value for it in body.keys)
        rows += [["", "all others", grouped(rest), percent(rest, whole)]] if rest or not is_all else []
        rows += [["", "together", grouped(whole), percent(whole, whole)]] if rows else []
    noted = marks([it.value for it in body.keys], is_all, is_all) if whole is None else []
    rows = [[*row, note] for row, note in itertools.zip_longest(rows, noted, fillvalue="")]
    return (
        table([*head, ""], rows, viewer.style, "rlrr" if whole is not None else "rlr") + notes if rows else []
    )


def percent(value: int, whole: int) -> str:
    """The part in percent; less than a tenth is not shown as nothing, nor less than all as all."""
    if not whole:
        return "-"
    tenths = (2000 * value + whole) // (2 * whole)
    if value and not tenths:
        return "<0.1"
    return ">99.9" if value < whole and tenths == 1000 else f"{tenths // 10}.{tenths % 10}"


def _zero_note(setup: Setup, name: str) -> list[str]:
    """What the address 0 stands for."""
    if setup.source == "packet6" and name == "flow":
        return ["  0 stands for all packets that are not IP"]
    if not setup.is_packet or name not in ("src", "dst", "src6", "dst6"):
        return []
    if name.endswith("6"):
        return ["  ::/64 stands for all packets that are not IPv6"]
    six = f", with IPv6 among them: `{name}6` has its networks" if setup.source == "packet6" else ""
    return [f"  0.0.0.0 stands for all packets that are not IPv4{six}"]


def count_text(viewer: Viewer, body: Body) -> str:
    """How much was found, where the answer is a list."""
    if isinstance(body, Found):
        return f": {grouped(len(body.rows))}" if body.rows else ": none"
    if isinstance(body, Fired):
        return f": {grouped(len(body.marks))}" if body.marks else ": none"
    if isinstance(body, Top):
        return f": the first {grouped(len(body.keys))}" if body.keys else ": none"
    if isinstance(body, Groups):
        return f": {grouped(len(body.groups))}" if body.groups else ": none"
    return ""


def body_lines(viewer: Viewer, name: str, body: Body) -> list[str]:
    """The table of an answer."""
    if isinstance(body, Found):
        return _found(viewer, body)
    if isinstance(body, Quad):
        return _quad(viewer, name, body)
    if isinstance(body, Fired):
        return _fired(viewer, name, body.marks)
    if isinstance(body, Groups):
        return _groups(viewer, name, body)
    return _top(viewer, name, body)


def ask_lines(viewer: Viewer, name: str, body: Body) -> list[str]:
    """A question with its answer, after an empty line."""
    about = f"{heading(viewer, name, body)}{count_text(viewer, body)}"
    return ["", f"{viewer.style.title(name)}  {about}", *body_lines(viewer, name, body)]


def alert_lines(viewer: Viewer, alerts: Sequence[Alert]) -> list[str]:
    if not alerts:
        return []
    setup = viewer.setup
    noted = _alert_marks(setup, alerts)
    has_keys = any(it.by is not None for it in alerts)
    rows = []
    for it, note in zip(alerts, noted):
        trigger = setup.trigger(it.trigger) if setup else None
        condition = [condition_text(setup, trigger)] if setup and trigger else []
        keys = [_by_cell(viewer, trigger.aggregate if trigger else None, it.by)] * has_keys
        cells = [it.trigger, _bucket_cell(viewer, it.bucket), *keys, grouped(it.value)]
        rows.append([*cells, *condition, note])
    head = [
        "trigger",
        _bucket_head(viewer),
        *["key"] * has_keys,
        "value",
        *(["fires at"] if setup else []),
        "",
    ]
    return ["", viewer.style.title("Alerts"), *table(head, rows, viewer.style, "ll" + "l" * has_keys + "r")]


def _alert_marks(setup: Setup | None, alerts: Sequence[Alert]) -> list[str]:
    """Of each trigger the greatest value, where a greater one would have fired too."""
    noted: list[str] = []
    for name, its in itertools.groupby(alerts, lambda it: it.trigger):
        trigger = setup.trigger(name) if setup else None
        is_up = trigger is not None and trigger.operator in (">", ">=")
        noted += marks([it.value for it in its], is_up, False)
    return noted


def _lives(viewer: Viewer, lives: Sequence[Live]) -> list[str]:
    lines = ["", viewer.style.title("While the records were loaded")] if lives else []
    for it in lives:
        about = f"{it.name}, first {grouped(it.prefix)} {viewer.things}: {it.body.kind}"
        lines.append(f"  {about}{count_text(viewer, it.body)}")
        lines += [f"  {line}" for line in body_lines(viewer, it.name, it.body)]
        if it.new is not None and it.new.marks:
            question = viewer.setup.question(it.name) if viewer.setup else None
            lane = question.trigger.aggregate if question and question.trigger else None
            cells = [(_bucket_cell(viewer, m.key), _by_cell(viewer, lane, m.by)) for m in it.new.marks]
            lines.append(f"    of these new: {', '.join(' '.join(filter(None, cell)) for cell in cells)}")
    return lines


def _order(report: Report) -> list[str]:
    if not report.order:
        return []
    counts: dict[int, int] = {}
    for it in report.order:
        counts[it.writer] = counts.get(it.writer, 0) + it.count
    if len(counts) == 1:
        return []
    shares = ", ".join(f"writer {at}: {grouped(counts[at])}" for at in sorted(counts))
    return ["", f"Loaded by {len(counts)} writers in {grouped(len(report.order))} stretches ({shares})"]


def report_lines(viewer: Viewer, report: Report) -> list[str]:
    """The whole report."""
    lines = [f"{grouped(report.records)} {viewer.things}{_window_text(report)}{_cut_text(viewer, report)}"]
    lines += [
        f"Capture {it.key} is cut off after {grouped(it.value)}: what came then is missing"
        for it in report.cuts
    ]
    for ask in report.asks:
        lines += ask_lines(viewer, ask.name, ask.body)
    lines += alert_lines(viewer, report.alerts)
    return lines + _lives(viewer, report.lives) + _order(report) + _told(viewer, report.told)


def _window_text(report: Report) -> str:
    """On which records `watch` answers."""
    if not report.window:
        return ""
    kept = grouped(report.records - report.window)
    return f"; the answers are on the last {kept}, from number {report.window}"


def _told(viewer: Viewer, told: Sequence[Told]) -> list[str]:
    """What the rounds said, and of their beats the totals of the last."""
    said = [it for it in told if not isinstance(it, (RoundBeat, RoundTotal))]
    lines = ["", viewer.style.title(f"While the {viewer.things} came")] if said else []
    for it in said:
        front, *rest = told_lines(viewer, it)
        lines += [f"  {front}", *(f"  {line}" for line in rest)]
    beat = next((it for it in reversed(told) if isinstance(it, RoundBeat)), None)
    totals = [it for it in told if isinstance(it, RoundTotal) and beat and it.prefix == beat.prefix]
    return lines + (_totals(viewer, beat, totals) if beat and totals else [])


def _totals(viewer: Viewer, beat: RoundBeat, totals: Sequence[RoundTotal]) -> list[str]:
    setup = viewer.setup
    rows = []
    for it in totals:
        lane = setup.lane(it.name, "aggregate") if setup else None
        about = [f"{part_text(setup, 'sum', lane)}, of {select_text(lane)}"] if setup and lane else []
        rows.append([it.name, grouped(it.count), grouped(it.sum), *about])
    head = ["aggregate", viewer.things, "sum", *([""] if setup else [])]
    title = viewer.style.title("Totals")
    return [
        "",
        f"{title}  after {grouped(beat.prefix)} {viewer.things}",
        *table(head, rows, viewer.style, "lrr"),
    ]


def bucket_text(setup: Setup | None, bucket: int) -> str:
    """A bucket by its time, or by its number."""
    if not setup:
        return f"bucket {bucket}"
    return f"{unit(setup.nanoseconds)} {utc(bucket * setup.nanoseconds)}"


def alert_place(viewer: Viewer, it: RoundAlert) -> str:
    """An alert's bucket, with the key beside it if there is one."""
    where = bucket_text(viewer.setup, it.bucket)
    if it.by is None:
        return where
    trigger = viewer.setup.trigger(it.trigger) if viewer.setup else None
    lane = trigger.aggregate if trigger else None
    return f"{where}, {_by_head(viewer, lane)} {_by_cell(viewer, lane, it.by)}"


def _crowded_line(viewer: Viewer, it: RoundCrowded, after: str) -> str:
    lane = viewer.setup.lane(it.name, "aggregate") if viewer.setup else None
    head, where = _by_head(viewer, lane), bucket_text(viewer.setup, it.bucket)
    what = f"more than {grouped(MOST_PAIRS)} different {head}: {viewer.things} of others count only for its totals"
    return f"crowded {viewer.style.title(it.name)}  {where} has {what}, {after}"


def told_lines(viewer: Viewer, it: Told) -> list[str]:
    """A line of a round of `watch`, and below a live one its table."""
    after = f"after {grouped(it.prefix)} {viewer.things}"
    if isinstance(it, RoundAlert):
        setup = viewer.setup
        trigger = setup.trigger(it.trigger) if setup else None
        where = alert_place(viewer, it)
        value = grouped(it.value)
        fires = f" (fires at {condition_text(setup, trigger)})" if setup and trigger else ""
        return [
            f"{viewer.style.high('alert')} {viewer.style.title(it.trigger)}  {where}: {value}{fires}, {after}"
        ]
    if isinstance(it, RoundCrowded):
        return [_crowded_line(viewer, it, after)]
    if isinstance(it, RoundBeat):
        return [f"beat  {after}, the last of {utc(it.seconds * SECOND)}"]
    if isinstance(it, RoundTotal):
        lane = viewer.setup.lane(it.name, "aggregate") if viewer.setup else None
        total = part_text(viewer.setup, "sum", lane) if viewer.setup and lane else "sum"
        return [
            f"total {viewer.style.title(it.name)}  {grouped(it.count)} {viewer.things}, {total} {grouped(it.sum)}"
        ]
    about = f"{heading(viewer, it.name, it.body)}{count_text(viewer, it.body)}"
    span = after if it.first == 0 else f"{after} on those from number {it.first}"
    return [f"live {viewer.style.title(it.name)}  {about}, {span}", *body_lines(viewer, it.name, it.body)]


def _cut_text(viewer: Viewer, read: Report | Host) -> str:
    """That the capture is cut off, where it is."""
    if read.truncated is None:
        return ""
    after = "" if read.truncated == read.records else f" after {grouped(read.truncated)}"
    return f"; the capture is cut off{after}: what came then is missing"


def snapshot_lines(viewer: Viewer, snapshot: Snapshot) -> list[str]:
    """The whole snapshot."""
    lines = [f"{grouped(snapshot.cut)} {viewer.things} of {len(snapshot.hosts)} hosts at the cut"]
    for host in snapshot.hosts:
        first = f"Host {host.number}: the first {grouped(host.records)} {viewer.things}"
        lines += ["", first + _cut_text(viewer, host)]
        for ask in host.asks:
            lines += ask_lines(viewer, ask.name, ask.body)
    return lines


def merged_shown(viewer: Viewer, merged: Merged) -> list[str]:
    """What `merge` wrote, as tables."""
    lines = [f"{grouped(merged.records)} {viewer.things} of all reports"]
    lines += [
        f"{name} is of a capture that is cut off after {grouped(whole)}" for name, whole in merged.truncated
    ]
    for it in merged.asks:
        if it.body is not None:
            lines += ask_lines(viewer, it.name, it.body)
            lines += [f"  Note: {it.note}."] if it.note else []
            continue
        lines += ["", f"{viewer.style.title(it.name)}  {heading(viewer, it.name, it.parts[0][1])}"]
        for name, body in it.parts:
            lines += [f"  in {name}{count_text(viewer, body)}", *body_lines(viewer, it.name, body)]
    for name, its in itertools.groupby(merged.alerts, lambda it: it[0]):
        first, *rest = alert_lines(viewer, [alert for _, alert in its])[1:]
        lines += ["", f"{first} of {name}", *rest]
    return lines


def asks_of(read: Report | Snapshot) -> Sequence[Ask]:
    """All answers on which details may be given."""
    return read.asks if isinstance(read, Report) else ()
