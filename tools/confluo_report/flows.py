"""Conversations by their endpoints. The program prints a conversation's number, which its packets have as `flow`."""

from __future__ import annotations

import re
from dataclasses import dataclass
from typing import Callable, Collection, Sequence

from .details import packets_at
from .reports import Body, Fired, Groups, Report, Top
from .setups import MOST, Lane, Question, Setup

NAME = "flow"
# What has no endpoints.
NONE = "not IP"
# With more of them beside buckets, these stay numbers: each 64 cost a run over the capture.
MOST_MARKED = 1000
# Runs a setup over all captures end to end; the answer is the report's text, which may be long.
Run = Callable[[str], str]
FIRST = re.compile(r"(?m)^ask \w+ list [0-9]+: ([0-9]+)")


@dataclass(frozen=True)
class Conversation:
    """Its first packet, from the sender to the receiver, and when that came."""

    text: str
    first: int


def _is_flow(setup: Setup, attribute: int | None) -> bool:
    return setup.source == "packet6" and attribute is not None and setup.schema[attribute].name == NAME


def numbers_in(setup: Setup | None, report: Report, most: int) -> set[int]:
    """The conversations that a report names, of a table of groups those of the first `most` (0: of all)."""
    numbers: set[int] = set()
    marked: set[int] = set()
    if setup is None:
        return numbers
    for ask in report.asks:
        question = setup.question(ask.name)
        if question and question.lane:
            numbers |= _listed(setup, question.lane, ask.body, most)
        elif question:
            marked |= _marked(setup, question, ask.body)
    for it in report.alerts:
        trigger = setup.trigger(it.trigger)
        if it.by is not None and trigger and _is_flow(setup, trigger.aggregate.by):
            marked.add(it.by)
    return numbers | marked if len(marked) <= MOST_MARKED else numbers


def _listed(setup: Setup, lane: Lane, body: Body, most: int) -> set[int]:
    """Of keys and of groups."""
    if isinstance(body, Top) and _is_flow(setup, lane.key):
        return {it.key for it in body.keys}
    shown = body.groups[: most or None] if isinstance(body, Groups) else ()
    if _is_flow(setup, lane.by):
        return {it.by for it in shown if it.by is not None}
    return {it.key for it in shown} if _is_flow(setup, lane.key) else set()


def _marked(setup: Setup, question: Question, body: Body) -> set[int]:
    """Beside the buckets in which a trigger fires."""
    if (
        not isinstance(body, Fired)
        or not question.trigger
        or not _is_flow(setup, question.trigger.aggregate.by)
    ):
        return set()
    return {it.by for it in body.marks if it.by is not None}


def conversations(
    captures: Sequence[str], numbers: Collection[int], may_be_cut: bool, run: Run, narrower: str = ""
) -> dict[int, Conversation]:
    """Those of these numbers, by their first packets, of those that `narrower`, an expression, selects."""
    rows: set[int] = set()
    wanted = sorted(set(numbers) - {0})
    for at in range(0, len(wanted), MOST["ask"]):
        rows.update(map(int, FIRST.findall(run(_setup(wanted[at : at + MOST["ask"]], narrower)))))
    found = {0: Conversation(NONE, 0)} if 0 in numbers else {}
    for packet in packets_at(captures, rows, may_be_cut):
        number, first = int(packet.values[NAME]), int(packet.values["ts"])
        found.setdefault(number, Conversation(packet.way(), first))
    return found


def _setup(numbers: Sequence[int], narrower: str) -> str:
    """Lists the packets of each."""
    parts = [f" && {it}" if it else "" for it in narrower.split(" || ")]
    texts = [" || ".join(f"{NAME}=={number}{it}" for it in parts) for number in numbers]
    lines = ["schema packet6", *(f"ask q{at} list {it}" for at, it in enumerate(texts))]
    return "\n".join(lines) + "\n"
