"""The setup that each part of a question over many captures runs, and how its reports are added up.

A trigger's threshold is for the sum, so a part reports the value of every bucket, or of every bucket and key. In place of a tally's
first keys a part reports all its groups.
"""

from __future__ import annotations

import operator
from dataclasses import dataclass, field
from itertools import accumulate, chain
from typing import Callable, Iterator, Mapping, Tuple, TypeVar

from .matching import must_match
from .merge import joined_group, joined_quad
from .questions import UNPARSED
from .reports import (
    Alert,
    Ask,
    Body,
    Fired,
    Found,
    Group,
    Groups,
    Pair,
    Place,
    Quad,
    Report,
    Top,
    parse_report,
)
from .setups import Question, Setup, SetupFault, Trigger, parse_setup
from .unparsed import Unparsed

FINDING = ("list", "find", "between")
# A capture's place, and that of a piece in it.
Key = Tuple[int, int]
Joined = TypeVar("Joined", int, Group)
# Below this no bucket with a record has a part of that kind.
LEAST = {"count": 1, "sum": 0, "least": 0, "greatest": 0}
JOINED: Mapping[str, Callable[[int, int], int]] = {
    "count": operator.add,
    "sum": operator.add,
    "least": min,
    "greatest": max,
}
HOLDS: Mapping[str, Callable[[int, int], bool]] = {
    "==": operator.eq,
    "!=": operator.ne,
    "<": operator.lt,
    "<=": operator.le,
    ">": operator.gt,
    ">=": operator.ge,
}


@dataclass(frozen=True)
class Plan:
    """A setup, the one that each part runs, and by the names of triggers those that report their values in a part.

    `counting` are the names of a part's own questions for packets that are not parsed, if there are any.
    """

    setup: Setup
    text: bytes
    part: Setup
    told_by: Mapping[str, str]
    counting: tuple[str, ...] = ()


def plan_of(data: bytes, counts_unparsed: bool = False) -> Plan:
    """The plan for a setup's bytes, which are valid."""
    setup = parse_setup(data)
    told_by: dict[str, str] = {}
    first: dict[tuple[str, str], str] = {}
    for it in setup.triggers:
        told_by[it.name] = first.setdefault((it.aggregate.name, it.part), it.name)
    lines = list(_part_lines(setup, data, set(first.values())))
    if counts_unparsed and setup.source == "packet":
        counting = _unused(lines)
        asks = [f"ask {name} total len {it}" for name, it in zip(counting, UNPARSED.values())]
        text = _text([*lines, *asks])
        try:
            return Plan(setup, text, parse_setup(text), told_by, counting)
        except SetupFault:
            # With these there are too many questions.
            pass
    text = _text(lines)
    return Plan(setup, text, parse_setup(text), told_by)


def _text(lines: list[str]) -> bytes:
    return "".join(f"{it}\n" for it in lines).encode("latin-1")


def _unused(lines: list[str]) -> tuple[str, ...]:
    """Names for the tool's own questions that no statement gives."""
    given = {word for line in lines for word in line.split()[1:2]}
    names = []
    for it in UNPARSED:
        while it in given:
            it += "_"
        names.append(it)
    return tuple(names)


def _part_lines(setup: Setup, data: bytes, telling: set[str]) -> Iterator[str]:
    for line in data.decode("latin-1").split("\n"):
        bare = line.removesuffix("\r").strip(" ")
        words = bare.split()
        if not words or bare.startswith("#") or words[0] == "live":
            continue
        trigger = setup.trigger(words[1]) if words[0] == "trigger" else None
        if trigger and trigger.name in telling:
            part = trigger.part
            yield f"trigger {trigger.name} {trigger.aggregate.name} {part} >= {LEAST[part]}"
        elif words[0] == "ask" and words[2] == "top":
            yield f"ask {words[1]} groups {words[3]}"
        elif words[0] != "trigger" and not (words[0] == "ask" and words[2] == "fired"):
            yield bare


@dataclass
class Sum:
    """What reports of parts say together. Parts are known by their keys; they may be added in any order.

    `values` are of the triggers of parts by bucket, or by bucket and key; `groups` so of the questions for groups, and by key
    of those for a top.
    """

    records: dict[Key, int] = field(default_factory=dict)
    cuts: dict[Key, int] = field(default_factory=dict)
    found: dict[str, dict[Key, tuple[int, ...]]] = field(default_factory=dict)
    quads: dict[str, Quad] = field(default_factory=dict)
    values: dict[str, dict[Place, int]] = field(default_factory=dict)
    groups: dict[str, dict[Place, Group]] = field(default_factory=dict)

    def add(self, other: Sum, plan: Plan) -> None:
        """Adds the other one to this, which takes only the time of the other."""
        self.records |= other.records
        self.cuts |= other.cuts
        for name, its in other.found.items():
            self.found.setdefault(name, {}).update(its)
        for name, quad in other.quads.items():
            self.quads[name] = joined_quad([self.quads[name], quad]) if name in self.quads else quad
        for trigger in plan.part.triggers:
            _join(self.values, other.values, trigger.name, JOINED[trigger.part])
        for question in plan.part.asks:
            if question.kind == "groups":
                _join(self.groups, other.groups, question.name, joined_group)


def _join(
    ours: dict[str, dict[Place, Joined]],
    theirs: Mapping[str, Mapping[Place, Joined]],
    name: str,
    join: Callable[[Joined, Joined], Joined],
) -> None:
    there = ours.setdefault(name, {})
    for key, value in theirs.get(name, {}).items():
        there[key] = join(there[key], value) if key in there else value


def sum_of(plan: Plan, part: Key, text: str, source: str) -> Sum:
    """What a part's report says; a Complaint where it is none."""
    report = parse_report(text, source)
    must_match(report, plan.part, source)
    total = Sum({part: report.records})
    if report.truncated is not None:
        total.cuts[part] = report.truncated
    for question, ask in zip(plan.part.asks, report.asks):
        _take(total, part, question, ask.body)
    for alert in report.alerts:
        total.values.setdefault(alert.trigger, {})[alert.place] = alert.value
    return total


def _take(total: Sum, part: Key, question: Question, body: Body) -> None:
    if isinstance(body, Found):
        total.found[question.name] = {part: body.rows} if body.rows else {}
    elif isinstance(body, Quad):
        total.quads[question.name] = body
    elif isinstance(body, Groups):
        total.groups[question.name] = {it.place: it for it in body.groups}


def report_of(plan: Plan, total: Sum) -> Report:
    """The report over all parts in the order of their keys; records are numbered through all of them."""
    parts = sorted(total.records)
    starts = dict(zip(parts, accumulate((total.records[it] for it in parts), initial=0)))
    marks = {it.name: _marks(plan, total, it) for it in plan.setup.triggers}
    asks = [Ask(it.name, _body(it, total, starts, marks)) for it in plan.setup.asks]
    alerts = [Alert(name, it.key, it.value, it.by) for name, its in marks.items() for it in its]
    return Report(sum(total.records.values()), tuple(asks), tuple(alerts))


def _marks(plan: Plan, total: Sum, trigger: Trigger) -> tuple[Pair, ...]:
    values = total.values.get(plan.told_by[trigger.name], {})
    holds = HOLDS[trigger.operator]
    meant = sorted(it for it in values.items() if holds(it[1], trigger.number))
    return tuple(Pair(place[0], value, *place[1:]) for place, value in meant)


def unparsed_of(plan: Plan, total: Sum) -> Unparsed | None:
    """How many packets of all parts are not parsed, if that was asked."""
    counts = [total.quads[it].count for it in plan.counting]
    return Unparsed(*counts, sum(total.records.values())) if counts else None


def _body(
    question: Question, total: Sum, starts: Mapping[Key, int], marks: Mapping[str, tuple[Pair, ...]]
) -> Body:
    name = question.name
    if question.kind in FINDING:
        by_part = sorted(total.found[name].items())
        rows = (map(starts[part].__add__, its) for part, its in by_part)
        return Found(question.kind, tuple(chain.from_iterable(rows)))
    if question.kind == "top":
        pairs = [Pair(it.key, getattr(it, question.part)) for it in total.groups[name].values()]
        ranked = sorted(pairs, key=lambda it: (-it.value, it.key))
        return Top(tuple(ranked[: question.high]))
    if question.kind == "groups":
        return Groups(tuple(its for _, its in sorted(total.groups[name].items())))
    if question.kind == "fired":
        assert question.trigger
        return Fired(marks[question.trigger.name])
    return total.quads[name]
