"""Puts the final parts of reports of one setup together.

What can be added up exactly is: records, and the answers of measure, total and groups. Found records, marks and
alerts stay with their report, since record numbers count within one capture, and a bucket that fires in
no report may still fire in the sum. Answers of top are put together with bounds: the answer says from
which place on it could be another.
"""

from __future__ import annotations

import re
from dataclasses import dataclass
from typing import Sequence

from .errors import Complaint
from .matching import must_match
from .reports import (
    NAME,
    NUMBER,
    Alert,
    Body,
    Group,
    Groups,
    Pair,
    Place,
    Quad,
    Report,
    Top,
    alert_text,
    body_text,
    parse_body,
    parse_report,
)
from .setups import Question, Setup


@dataclass(frozen=True)
class Named:
    """A report and the name of its file."""

    name: str
    report: Report


@dataclass(frozen=True)
class Joined:
    """One question over all reports: a joined answer, or each report's own."""

    name: str
    kind: str
    body: Body | None
    parts: tuple[tuple[str, Body], ...]
    note: str = ""


@dataclass(frozen=True)
class Merged:
    """All reports together."""

    records: int
    asks: tuple[Joined, ...]
    alerts: tuple[tuple[str, Alert], ...]
    truncated: tuple[tuple[str, int], ...] = ()


def split_reports(text: str, source: str, tagged: bool = False) -> list[Named]:
    """The reports of a text that has several one after another, each line with its tag where `tagged`."""
    if tagged:
        return [
            Named(tag, parse_report(part, f"{source}, {tag}")) for tag, part in _by_tag(text, source).items()
        ]
    begins = [at for at, line in enumerate(text.split("\n")) if line.startswith("records ")]
    if len(begins) < 2 or begins[0] != 0:
        return [Named(source, parse_report(text, source))]
    lines = text.splitlines(keepends=True)
    parts = ["".join(lines[a:b]) for a, b in zip(begins, [*begins[1:], len(lines)])]
    return [
        Named(f"{source}:{at}", parse_report(part, f"{source}, report {at},"))
        for at, part in enumerate(parts, 1)
    ]


def _by_tag(text: str, source: str) -> dict[str, str]:
    """The texts by the tags that `parallel --tag` puts before each line, with a tab behind it."""
    parts: dict[str, str] = {}
    for number, line in enumerate(text.splitlines(keepends=True), 1):
        tag, tab, rest = line.rpartition("\t")
        if not tab:
            raise Complaint(
                f"{source}: line {number} has no tag and tab before it, as `parallel --tag` writes them"
            )
        parts[tag] = parts.get(tag, "") + rest
    if not parts:
        raise Complaint(f"{source} is empty")
    return parts


def joined_quad(quads: Sequence[Quad]) -> Quad:
    """The quad of all numbers."""
    leasts = [it.least for it in quads if it.least is not None]
    greatests = [it.greatest for it in quads if it.greatest is not None]
    count, total = sum(it.count for it in quads), sum(it.sum for it in quads)
    return Quad(quads[0].kind, count, total, min(leasts, default=None), max(greatests, default=None))


def joined_group(one: Group, other: Group) -> Group:
    """Two groups of one place as one."""
    least, greatest = min(one.least, other.least), max(one.greatest, other.greatest)
    return Group(one.key, one.count + other.count, one.sum + other.sum, least, greatest, one.by)


def joined_groups(all_groups: Sequence[Groups]) -> Groups:
    """The groups of all records."""
    found: dict[Place, Group] = {}
    for it in (it for groups in all_groups for it in groups.groups):
        found[it.place] = joined_group(found[it.place], it) if it.place in found else it
    return Groups(tuple(found[place] for place in sorted(found)))


@dataclass(frozen=True)
class _Bounds:
    """A key with the value that its reports show, and the least and greatest that it can have."""

    key: int
    value: int
    low: int
    high: int


def _unseen(part: str, lasts: Sequence[int]) -> int:
    """The most that a key can have that no report lists."""
    return sum(lasts) if part in ("count", "sum") else max(lasts, default=0)


def _bounds(part: str, key: int, listed: Sequence[int], lasts: Sequence[int]) -> _Bounds:
    """`lasts` are the last values of the reports that are full and do not list the key."""
    if part in ("count", "sum"):
        return _Bounds(key, sum(listed), sum(listed), sum(listed) + sum(lasts))
    if part == "greatest":
        return _Bounds(key, max(listed), max(listed), max([*listed, *lasts]))
    return _Bounds(key, min(listed), 0 if lasts else min(listed), min(listed))


def _sure(ranked: Sequence[_Bounds], unseen: int | None) -> int:
    """How many places from the first on are certain, with their values."""
    for at, it in enumerate(ranked):
        others = [(other.high, other.key) for other in ranked[at + 1 :]]
        above = any(high > it.value or (high == it.value and key < it.key) for high, key in others)
        if it.low != it.high or above or (unseen is not None and unseen >= it.value):
            return at
    return len(ranked)


def joined_top(question: Question, tops: Sequence[Top], asked: int | None = None) -> tuple[Top, str]:
    """The first keys over all reports, and a note where the tail could be wrong."""
    asked = asked or question.high
    if len(tops) == 1:
        return Top(tops[0].keys[:asked]), ""
    full = [len(it.keys) >= question.high for it in tops]
    values = [{pair.key: pair.value for pair in it.keys} for it in tops]
    lasts = [it.keys[-1].value if it.keys else 0 for it in tops]
    bounds = []
    for key in {key for its in values for key in its}:
        listed = [its[key] for its in values if key in its]
        hidden = [last for its, last, is_full in zip(values, lasts, full) if is_full and key not in its]
        bounds.append(_bounds(question.part, key, listed, hidden))
    ranked = sorted(bounds, key=lambda it: (-it.value, it.key))
    unseen = (
        _unseen(question.part, [last for last, is_full in zip(lasts, full) if is_full]) if any(full) else None
    )
    sure = _sure(ranked, unseen)
    shown = Top(tuple(Pair(it.key, it.value) for it in ranked[:asked]))
    if sure >= min(asked, len(ranked)) and not (any(full) and len(ranked) < asked):
        return shown, ""
    return shown, _tail_note(sure, sum(full), question.high)


def _tail_note(sure: int, full: int, asked: int) -> str:
    certain = "no place is certain" if sure == 0 else f"certain up to place {sure} only"
    lists = "1 report lists" if full == 1 else f"{full} reports list"
    return f"{certain}: {lists} {asked} keys and may have more, so further keys and values could be wrong"


def merge(named: Sequence[Named], setup: Setup | None, asked: dict[str, int] | None = None) -> Merged:
    """All reports together; a Complaint where they are of different setups."""
    first = named[0]
    shape = [(it.name, it.body.kind) for it in first.report.asks]
    for it in named:
        if [(ask.name, ask.body.kind) for ask in it.report.asks] != shape:
            raise Complaint(f"{it.name} and {first.name} are reports of different setups")
        if it.report.window is not None:
            raise Complaint(
                f"{it.name} is of `watch`, whose answers are only on its window: it is not merged"
            )
        if setup:
            must_match(it.report, setup, it.name)
    asks = tuple(_joined(named, at, setup, asked or {}) for at in range(len(shape)))
    alerts = tuple((it.name, alert) for it in named for alert in it.report.alerts)
    truncated = tuple((it.name, it.report.truncated) for it in named if it.report.truncated is not None)
    return Merged(sum(it.report.records for it in named), asks, alerts, truncated)


def _joined(named: Sequence[Named], at: int, setup: Setup | None, asked: dict[str, int]) -> Joined:
    parts = tuple((it.name, it.report.asks[at].body) for it in named)
    name, kind = named[0].report.asks[at].name, parts[0][1].kind
    quads = [body for _, body in parts if isinstance(body, Quad)]
    if quads:
        return Joined(name, kind, joined_quad(quads), parts)
    groups = [body for _, body in parts if isinstance(body, Groups)]
    if groups:
        return Joined(name, kind, joined_groups(groups), parts)
    tops = [body for _, body in parts if isinstance(body, Top)]
    if tops:
        question = setup.question(name) if setup else None
        if question is None:
            raise Complaint(f"ask {name}: to put answers of top together, give the setup: --setup FILE")
        body, note = joined_top(question, tops, asked.get(name))
        return Joined(name, kind, body, parts, note)
    return Joined(name, kind, None, parts)


def merged_lines(merged: Merged) -> list[str]:
    """The lines of the merged report: those of one report have its name in parentheses behind them."""
    lines = [f"records {merged.records}"]
    for it in merged.asks:
        if it.body is None:
            lines += (f"ask {it.name} {body_text(body)} ({name})" for name, body in it.parts)
        else:
            lines.append(f"ask {it.name} {body_text(it.body)}" + (f" ({it.note})" if it.note else ""))
    lines += [f"{alert_text(it)} ({name})" for name, it in merged.alerts]
    return lines + [f"truncated: record {whole} ({name})" for name, whole in merged.truncated]


MERGED = re.compile(r"(ask|alert|truncated:) (.+?)(?: \((.*)\))?")
ALERT = re.compile(rf"({NAME}) ({NUMBER})(?:/({NUMBER}))? ({NUMBER})")
ASK = re.compile(rf"({NAME}) (.+)")


def is_merged(text: str) -> bool:
    """Whether the text is of `merge` and no report: then a line ends with the name of a report, or with a note."""
    return text.startswith("records ") and bool(re.search(r"(?m)^(?:ask|alert|truncated:) .*\)$", text))


class _Merging:
    """Gathers the lines of a merged report."""

    def __init__(self, records: int, source: str) -> None:
        self.records, self.source = records, source
        self.asks: list[Joined] = []
        self.alerts: list[tuple[str, Alert]] = []
        self.truncated: list[tuple[str, int]] = []

    def take(self, number: int, line: str) -> None:
        found = MERGED.fullmatch(line)
        kind, text, behind = found.groups() if found else ("", "", "")
        ask, alert, cut = (
            ASK.fullmatch(text),
            ALERT.fullmatch(text),
            re.fullmatch(rf"record ({NUMBER})", text),
        )
        if kind == "ask" and ask:
            body = parse_body(ask[2], self.source, number, self.records)
            self.ask(ask[1], body, behind)
        elif kind == "alert" and alert and behind:
            by = None if alert[3] is None else int(alert[3])
            self.alerts.append((behind, Alert(alert[1], int(alert[2]), int(alert[4]), by)))
        elif kind == "truncated:" and cut and behind:
            self.truncated.append((behind, int(cut[1])))
        else:
            raise Complaint(
                f"{self.source}: line {number} cannot be read as part of a merged report:\n    {line[:76]}"
            )

    def ask(self, name: str, body: Body, behind: str | None) -> None:
        """An answer on all reports, with its note, or that of one report, behind others of the same question."""
        if isinstance(body, (Quad, Top, Groups)):
            self.asks.append(Joined(name, body.kind, body, (), behind or ""))
            return
        last = (
            self.asks.pop() if self.asks and self.asks[-1].name == name else Joined(name, body.kind, None, ())
        )
        self.asks.append(Joined(name, body.kind, None, (*last.parts, (behind or "", body))))


def parse_merged(text: str, source: str, setup: Setup | None = None) -> Merged:
    """What `merge` wrote."""
    head, *lines = text.removesuffix("\n").split("\n")
    if not re.fullmatch(rf"records {NUMBER}", head):
        raise Complaint(f"{source}: line 1 is not `records K`")
    merging = _Merging(int(head.split(" ")[1]), source)
    for number, line in enumerate(lines, 2):
        merging.take(number, line)
    there, wanted = [(it.name, it.kind) for it in merging.asks], [
        (it.name, it.kind) for it in setup.asks
    ] if setup else []
    if setup and there != wanted:
        raise Complaint(f"{source} is not a report of this setup: its questions are others")
    return Merged(merging.records, tuple(merging.asks), tuple(merging.alerts), tuple(merging.truncated))
