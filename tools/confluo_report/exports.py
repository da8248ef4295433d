"""A report as JSON and as CSV, with everything that is in it."""

from __future__ import annotations

import csv
import io
import json
import re
from typing import Any, Iterator, Mapping, Optional, Sequence

from .addresses import Ranked
from .merge import Joined, Merged
from .reports import (
    Alert,
    Ask,
    Body,
    Fired,
    Found,
    Groups,
    Host,
    Live,
    Pair,
    Quad,
    Report,
    RoundAlert,
    RoundBeat,
    RoundCrowded,
    RoundTotal,
    Snapshot,
    Told,
)
from .setups import SECOND, Lane, Question, Setup, Trigger
from .values import by_text, key_text, utc

FORMAT = "confluo-report/1"
Addresses = Mapping[str, Ranked]
# Conversations whose endpoints are known.
Flows = Optional[Mapping[int, str]]
QUAD_PARTS = ("count", "sum", "least", "greatest")
# In JSON an escaped backslash, two halves that are one character, and a half alone: a byte of a name that is not UTF-8.
ESCAPES = re.compile(r"\\\\|\\ud[89ab]..\\ud[c-f]..|(\\ud[89a-f]..)")
COLUMNS = ("part", "host", "name", "kind", "prefix", "place", "key", "value")


def json_line(found: Any, indent: int | None = None) -> str:
    """The text of it. What is no character is U+FFFD, which every reader takes."""
    text = json.dumps(found, indent=indent)
    return ESCAPES.sub(lambda it: r"\ufffd" if it.group(1) else it.group(), text) + "\n"


def _time(setup: Setup | None, bucket: int) -> dict[str, Any]:
    return {"time": utc(bucket * setup.nanoseconds)} if setup else {}


def _by(setup: Setup | None, lane: Lane | None, by: int | None, flows: Flows = None) -> dict[str, Any]:
    """The key beside a bucket, and how it is written."""
    if by is None:
        return {}
    is_known = setup is not None and lane is not None and lane.by is not None
    return {"key": by, **({"text": by_text(setup, lane, by, flows)} if is_known and setup and lane else {})}


def _lane_of(trigger: Trigger | None) -> Lane | None:
    return trigger.aggregate if trigger else None


def _alert(it: Alert | RoundAlert, setup: Setup | None, flows: Flows = None) -> dict[str, Any]:
    """The members of an alert."""
    found = {"trigger": it.trigger, "bucket": it.bucket, "value": it.value}
    if isinstance(it, RoundAlert):
        found["prefix"] = it.prefix
    lane = _lane_of(setup.trigger(it.trigger) if setup else None)
    return {**found, **_by(setup, lane, it.by, flows), **_time(setup, it.bucket)}


def _pairs(
    pairs: Sequence[Pair], name: str, setup: Setup | None, question: Question | None, flows: Flows = None
) -> list[dict[str, Any]]:
    found: list[dict[str, Any]] = []
    lane = _lane_of(question.trigger if question else None)
    for it in pairs:
        more: dict[str, Any] = {}
        if name == "bucket":
            more = {**_by(setup, lane, it.by, flows), **_time(setup, it.key)}
        if name == "key" and setup and question and question.lane and question.lane.key is not None:
            more = {"text": key_text(setup, question.lane, it.key, flows)}
        found.append({name: it.key, "value": it.value, **more})
    return found


def _groups(
    body: Groups, setup: Setup | None, question: Question | None, flows: Flows
) -> list[dict[str, Any]]:
    lane = question.lane if question else None
    found = []
    for it in body.groups:
        more: dict[str, Any] = {}
        if setup and lane:
            more = (
                _time(setup, it.key) if lane.key is None else {"text": key_text(setup, lane, it.key, flows)}
            )
        keys = {"key": it.key} if it.by is None else {"bucket": it.key, **_by(setup, lane, it.by, flows)}
        found.append({**keys, **{part: getattr(it, part) for part in QUAD_PARTS}, **more})
    return found


def body_object(
    body: Body, setup: Setup | None = None, question: Question | None = None, flows: Flows = None
) -> dict[str, Any]:
    """The members of an answer."""
    if isinstance(body, Found):
        return {"kind": body.kind, "records": list(body.rows)}
    if isinstance(body, Quad):
        return {"kind": body.kind, **{part: getattr(body, part) for part in QUAD_PARTS}}
    if isinstance(body, Fired):
        return {"kind": body.kind, "marks": _pairs(body.marks, "bucket", setup, question, flows)}
    if isinstance(body, Groups):
        return {"kind": body.kind, "groups": _groups(body, setup, question, flows)}
    return {"kind": body.kind, "keys": _pairs(body.keys, "key", setup, question, flows)}


def _ask(
    ask: Ask, setup: Setup | None, addresses: Addresses | None = None, flows: Flows = None
) -> dict[str, Any]:
    question = setup.question(ask.name) if setup else None
    found = {"name": ask.name, **body_object(ask.body, setup, question, flows)}
    ranked = (addresses or {}).get(ask.name)
    if ranked:
        pairs = zip(ranked.texts or (), ranked.top.keys)
        found["addresses"] = [{"text": text, "value": it.value} for text, it in pairs]
    return found


def _live(live: Live, setup: Setup | None) -> dict[str, Any]:
    question = setup.question(live.name) if setup else None
    found = {"name": live.name, "prefix": live.prefix, **body_object(live.body, setup, question)}
    if live.new is not None:
        found["new"] = _pairs(live.new.marks, "bucket", setup, question)
    return found


def told_object(it: Told, setup: Setup | None = None) -> dict[str, Any]:
    """The members of a line of a round of `watch`."""
    if isinstance(it, RoundAlert):
        return {"kind": "alert", **_alert(it, setup)}
    if isinstance(it, RoundCrowded):
        found = {"name": it.name, "bucket": it.bucket, "prefix": it.prefix}
        return {"kind": "crowded", **found, **_time(setup, it.bucket)}
    if isinstance(it, RoundBeat):
        found = {"prefix": it.prefix, "seconds": it.seconds, "time": utc(it.seconds * SECOND)}
        return {"kind": "beat", **found}
    if isinstance(it, RoundTotal):
        return {"kind": "total", "name": it.name, "count": it.count, "sum": it.sum, "prefix": it.prefix}
    answer = body_object(it.body, setup, setup.question(it.name) if setup else None)
    return {"kind": "live", "name": it.name, "first": it.first, "prefix": it.prefix, "answer": answer}


def _merged_object(read: Merged, setup: Setup | None) -> dict[str, Any]:
    alerts = [{"report": name, **_alert(it, setup)} for name, it in read.alerts]
    truncated = [{"report": name, "records": whole} for name, whole in read.truncated]
    asks = [_joined(it, setup) for it in read.asks]
    found = {"format": FORMAT, "kind": "merged", "records": read.records, "asks": asks, "alerts": alerts}
    return found | ({"truncated": truncated} if truncated else {})


def _joined(joined: Joined, setup: Setup | None) -> dict[str, Any]:
    question = setup.question(joined.name) if setup else None
    if joined.body is not None:
        note = {"note": joined.note} if joined.note else {}
        return {"name": joined.name, **body_object(joined.body, setup, question), **note}
    parts = [{"report": name, **body_object(body, setup, question)} for name, body in joined.parts]
    return {"name": joined.name, "parts": parts}


def report_object(
    read: Report | Snapshot | Merged,
    setup: Setup | None = None,
    addresses: Addresses | None = None,
    flows: Flows = None,
) -> dict[str, Any]:
    """The object that docs/report.schema.json describes; with a setup also times and addresses, with flows endpoints."""
    if isinstance(read, Merged):
        return _merged_object(read, setup)
    if isinstance(read, Snapshot):
        hosts = [
            {
                "number": it.number,
                "records": it.records,
                "asks": [_ask(ask, setup) for ask in it.asks],
                **_truncated(it),
            }
            for it in read.hosts
        ]
        return {"format": FORMAT, "kind": "snapshot", "cut": read.cut, "hosts": hosts}
    alerts = [_alert(it, setup, flows) for it in read.alerts]
    order = None if read.order is None else [{"writer": it.writer, "count": it.count} for it in read.order]
    return {
        "format": FORMAT,
        "kind": "report",
        "records": read.records,
        "asks": [_ask(it, setup, addresses, flows) for it in read.asks],
        "alerts": alerts,
        "lives": [_live(it, setup) for it in read.lives],
        "order": order,
        **_truncated(read),
        **_watched(read, setup),
    }


def _watched(read: Report, setup: Setup | None) -> dict[str, Any]:
    if read.window is None:
        return {}
    return {"window": read.window, "told": [told_object(it, setup) for it in read.told]}


def _truncated(read: Report | Host) -> dict[str, Any]:
    if isinstance(read, Report) and read.cuts:
        return {"cuts": [{"capture": it.key, "records": it.value} for it in read.cuts]}
    return {} if read.truncated is None else {"truncated": read.truncated}


def json_text(
    read: Report | Snapshot | Merged,
    setup: Setup | None = None,
    indent: int | None = None,
    addresses: Addresses | None = None,
    flows: Flows = None,
) -> str:
    """The report as one JSON text."""
    return json_line(report_object(read, setup, addresses, flows), indent)


Cell = object


class Table:
    """The rows of a report; with a setup, times and texts stand in place of buckets and keys.

    A bucket and its key are one cell, with a slash between, as in the report.
    """

    def __init__(self, setup: Setup | None, addresses: Addresses | None = None, flows: Flows = None) -> None:
        self.setup, self.addresses, self.flows = setup, addresses or {}, flows

    def bucket(self, bucket: int, by: int | None = None, lane: Lane | None = None) -> Cell:
        found = utc(bucket * self.setup.nanoseconds) if self.setup else bucket
        key = _by(self.setup, lane, by, self.flows)
        return f"{found}/{key.get('text', by)}" if key else found

    def alert(self, it: Alert | RoundAlert) -> Cell:
        return self.bucket(it.bucket, it.by, _lane_of(self.setup.trigger(it.trigger) if self.setup else None))

    def key(self, name: Cell, key: int) -> Cell:
        question = self.setup.question(str(name)) if self.setup else None
        if self.setup and question and question.lane and question.lane.key is not None:
            return key_text(self.setup, question.lane, key, self.flows)
        return key

    def group(self, name: Cell, key: int, by: int | None) -> Cell:
        question = self.setup.question(str(name)) if self.setup else None
        lane = question.lane if question else None
        is_timed = by is not None or lane and lane.key is None
        return self.bucket(key, by, lane) if is_timed else self.key(name, key)

    def body(self, front: Sequence[Cell], body: Body) -> Iterator[tuple[Cell, ...]]:
        """First how many entries an answer has, then each; a quad has four rows, and so has each group, with its part as its place."""
        if isinstance(body, Quad):
            for name in QUAD_PARTS:
                value = getattr(body, name)
                yield (*front, "", name, "" if value is None else value)
            return
        if isinstance(body, Groups):
            yield (*front, "", "", len(body.groups))
            for it in body.groups:
                for name in QUAD_PARTS:
                    yield (*front, name, self.group(front[2], it.key, it.by), getattr(it, name))
            return
        if isinstance(body, Found):
            entries: list[tuple[Cell, Cell]] = [(it, "") for it in body.rows]
        elif isinstance(body, Fired):
            question = self.setup.question(str(front[2])) if self.setup else None
            lane = _lane_of(question.trigger if question else None)
            entries = [(self.bucket(it.key, it.by, lane), it.value) for it in body.marks]
        else:
            entries = [(self.key(front[2], it.key), it.value) for it in body.keys]
        yield (*front, "", "", len(entries))
        for place, (key, value) in enumerate(entries):
            yield (*front, place, key, value)

    def rows(self, read: Report | Snapshot | Merged) -> Iterator[tuple[Cell, ...]]:
        if isinstance(read, Snapshot):
            return self.snapshot(read)
        return self.merged(read) if isinstance(read, Merged) else self.report(read)

    def snapshot(self, read: Snapshot) -> Iterator[tuple[Cell, ...]]:
        yield ("cut", "", "", "", "", "", "", read.cut)
        for host in read.hosts:
            yield ("host", host.number, "", "", "", "", "", host.records)
            for ask in host.asks:
                yield from self.body(("ask", host.number, ask.name, ask.body.kind, ""), ask.body)
            if host.truncated is not None:
                yield ("truncated", host.number, "", "", "", "", "", host.truncated)

    def merged(self, read: Merged) -> Iterator[tuple[Cell, ...]]:
        """What belongs to one report has its name in the column of hosts."""
        yield ("records", "", "", "", "", "", "", read.records)
        for ask in read.asks:
            for name, body in [("", ask.body)] if ask.body is not None else ask.parts:
                yield from self.body(("ask", name, ask.name, ask.kind, ""), body)
        for name, it in read.alerts:
            yield ("alert", name, it.trigger, "", "", "", self.alert(it), it.value)
        for name, whole in read.truncated:
            yield ("truncated", name, "", "", "", "", "", whole)

    def told(self, read: Report) -> Iterator[tuple[Cell, ...]]:
        for told in read.told:
            if isinstance(told, RoundAlert):
                yield ("alert", "", told.trigger, "", told.prefix, "", self.alert(told), told.value)
            elif isinstance(told, RoundCrowded):
                yield ("crowded", "", told.name, "", told.prefix, "", self.bucket(told.bucket), "")
            elif isinstance(told, RoundBeat):
                time = utc(told.seconds * SECOND) if self.setup else told.seconds
                yield ("at", "", "", "", told.prefix, "", time, "")
            elif isinstance(told, RoundTotal):
                for name, value in (("count", told.count), ("sum", told.sum)):
                    yield ("total", "", told.name, "", told.prefix, "", name, value)
            else:
                prefix = f"{told.first}..{told.prefix}"
                yield from self.body(("live", "", told.name, told.body.kind, prefix), told.body)

    def report(self, read: Report) -> Iterator[tuple[Cell, ...]]:
        yield from self.told(read)
        yield ("records", "", "", "", "", "", "", read.records)
        if read.window is not None:
            yield ("window", "", "", "", "", "", "", read.window)
        for ask in read.asks:
            yield from self.body(("ask", "", ask.name, ask.body.kind, ""), ask.body)
            ranked = self.addresses.get(ask.name)
            for place, it in enumerate(ranked.top.keys if ranked else ()):
                text = ranked.texts[place] if ranked and ranked.texts else ""
                yield ("address", "", ask.name, ask.body.kind, "", place, text, it.value)
        for it in read.alerts:
            yield ("alert", "", it.trigger, "", "", "", self.alert(it), it.value)
        for live in read.lives:
            yield from self.body(("live", "", live.name, live.body.kind, live.prefix), live.body)
            if live.new is not None:
                yield from self.body(("new", "", live.name, "fired", live.prefix), live.new)
        if read.order is not None:
            yield ("order", "", "", "", "", "", "", len(read.order))
            for place, stretch in enumerate(read.order):
                yield ("order", "", "", "", "", place, stretch.writer, stretch.count)
        if read.truncated is not None:
            yield ("truncated", "", "", "", "", "", "", read.truncated)
        for it in read.cuts:
            yield ("truncated", it.key, "", "", "", "", "", it.value)


def csv_text(
    read: Report | Snapshot | Merged,
    setup: Setup | None = None,
    addresses: Addresses | None = None,
    flows: Flows = None,
) -> str:
    """The report as one table; with a setup, buckets are times and keys texts."""
    out = io.StringIO()
    writer = csv.writer(out, lineterminator="\n")
    writer.writerow(COLUMNS)
    writer.writerows(Table(setup, addresses, flows).rows(read))
    return out.getvalue()
