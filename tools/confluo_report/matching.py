"""Whether a report belongs to a setup."""

from __future__ import annotations

from typing import Sequence

from .errors import Complaint
from .reports import (
    Alert,
    Ask,
    Fired,
    Groups,
    Report,
    RoundAlert,
    RoundBeat,
    RoundCrowded,
    RoundTotal,
    Snapshot,
    Told,
    Top,
)
from .setups import Lane, Setup


def _must_have_asks(asks: Sequence[Ask], setup: Setup, source: str) -> None:
    there = [(it.name, it.body.kind) for it in asks]
    wanted = [(it.name, it.kind) for it in setup.asks]
    if there == wanted:
        return
    for have, want in zip(there, wanted):
        if have != want:
            raise Complaint(
                f"{source} is not a report of this setup: it answers `{have[0]} {have[1]}` "
                f"where the setup asks `{want[0]} {want[1]}`"
            )
    few = "fewer" if len(there) < len(wanted) else "more"
    raise Complaint(
        f"{source} is not a report of this setup, or is cut off: it has {len(there)} answers, "
        f"{few} than the {len(wanted)} questions of the setup"
    )


def _must_fit(asks: Sequence[Ask], setup: Setup, source: str) -> None:
    for ask, question in zip(asks, setup.asks):
        if isinstance(ask.body, Top) and len(ask.body.keys) > question.high:
            raise Complaint(
                f"{source} is not a report of this setup: `{ask.name}` lists {len(ask.body.keys)} keys, "
                f"and {question.high} were asked for"
            )
        if isinstance(ask.body, Groups) and question.lane and ask.body.groups:
            _must_have_keys(ask.body.groups[0].by, question.lane, f"`{ask.name}`", source)
        if isinstance(ask.body, Fired) and question.trigger and ask.body.marks:
            _must_have_keys(ask.body.marks[0].by, question.trigger.aggregate, f"`{ask.name}`", source)


def _must_have_keys(by: int | None, lane: Lane, what: str, source: str) -> None:
    """A Complaint where there is a key next to a bucket of an aggregate without keys, or none beside one of an aggregate by keys."""
    if (by is None) != (lane.by is None):
        has = "no key" if by is None else "a key"
        raise Complaint(
            f"{source} is not a report of this setup: {what} has {has} next to a bucket of `{lane.name}`"
        )


def _must_have_alerts(report: Report, setup: Setup, source: str) -> None:
    names = [it.name for it in setup.triggers]
    there = list(dict.fromkeys(it.trigger for it in report.alerts))
    if [it for it in names if it in there] != there:
        strange = next((it for it in there if it not in names), there[0])
        raise Complaint(
            f"{source} is not a report of this setup: its alerts of `{strange}` are not the setup's"
        )
    lanes = {it.name: it.aggregate for it in setup.triggers}
    for it in report.alerts:
        _must_have_keys(it.by, lanes[it.trigger], f"an alert of `{it.trigger}`", source)
    for ask, question in zip(report.asks, setup.asks):
        if isinstance(ask.body, Fired) and question.trigger:
            marks = tuple(Alert(question.trigger.name, it.key, it.value, it.by) for it in ask.body.marks)
            alerts = tuple(it for it in report.alerts if it.trigger == question.trigger.name)
            if marks != alerts:
                raise Complaint(
                    f"{source} is not a report of this setup, or is cut off: the marks of `{ask.name}` "
                    f"are not the alerts of its trigger `{question.trigger.name}`"
                )


def must_match(read: Report | Snapshot, setup: Setup, source: str) -> None:
    """A Complaint where the report is not one of this setup."""
    if isinstance(read, Snapshot):
        for host in read.hosts:
            _must_have_asks(host.asks, setup, f"{source}, host {host.number},")
            _must_fit(host.asks, setup, source)
        return
    _must_have_asks(read.asks, setup, source)
    _must_fit(read.asks, setup, source)
    _must_have_alerts(read, setup, source)
    if read.truncated is not None and not setup.is_packet:
        raise Complaint(f"{source} is not a report of this setup: a CSV file is never read as cut off")
    strange = [it.name for it in read.lives if it.name not in setup.lives]
    if strange:
        raise Complaint(f"{source} is not a report of this setup: `{strange[0]}` is not live in it")
    for it in read.told:
        must_be_told(it, setup, source)


def must_be_told(it: Told, setup: Setup, source: str) -> None:
    """A Complaint where the line of a round of `watch` is not one of this setup."""
    if isinstance(it, RoundAlert):
        trigger = setup.trigger(it.trigger)
        if not trigger:
            raise Complaint(f"{source} is not of this setup, which has no trigger `{it.trigger}`")
        _must_have_keys(it.by, trigger.aggregate, f"an alert of `{it.trigger}`", source)
        return
    if isinstance(it, RoundCrowded):
        lane = setup.lane(it.name, "aggregate")
        if not lane or lane.by is None:
            raise Complaint(f"{source} is not of this setup, which has no aggregate `{it.name}` by keys")
        return
    if isinstance(it, RoundTotal) and not setup.lane(it.name, "aggregate"):
        raise Complaint(f"{source} is not of this setup, which has no aggregate `{it.name}`")
    if isinstance(it, (RoundBeat, RoundTotal)):
        return
    question = setup.question(it.name)
    if it.name not in setup.lives or not question or question.kind != it.body.kind:
        raise Complaint(f"{source} is not of this setup, where no `{it.name} {it.body.kind}` is live")
