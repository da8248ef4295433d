"""What the capture of a report says of its answers: whole addresses of IPv6 behind networks, and endpoints of conversations."""

from __future__ import annotations

from typing import Mapping

from .addresses import Ranked, whole_addresses
from .ask import Files, Job, asker_of, end_to_end, files_of
from .errors import Complaint
from .flows import conversations, numbers_in
from .questions import Query
from .reports import Report, Top
from .setups import PACKETS, Question, Setup


def _query(setup: Setup, question: Question) -> Query | None:
    """The question as one for whole addresses, if it ranks networks of IPv6."""
    lane = question.lane
    if question.kind != "top" or not lane or lane.key is None or lane.measure is None:
        return None
    key = setup.schema[lane.key].name
    if setup.schema != PACKETS["packet6"] or key not in ("src6", "dst6"):
        return None
    return Query(
        question.text,
        "top",
        expression=lane.select.text,
        key=key,
        is_whole=True,
        part=question.part,
        measure=setup.schema[lane.measure].name,
        count=question.high,
    )


def _addresses(job: Job, query: Query, body: Top, files: Files) -> Ranked:
    asker = asker_of(job, query, files)
    networks, same = asker.again(
        [(query.key, query.bound, query.expression), (query.key, query.part, query.expression)]
    )
    if same.top.keys[: len(body.keys)] != body.keys:
        raise Complaint(f"{job.captures[0]} is not the capture of the report: it has other networks of IPv6")
    return whole_addresses(query, networks, asker)


def addresses_of(report: Report, setup: Setup | None, capture: str) -> Mapping[str, Ranked]:
    """By the names of questions, the addresses that have the most."""
    wanted = []
    for ask in report.asks if setup and report.window is None else ():
        question = setup.question(ask.name) if setup else None
        query = _query(setup, question) if setup and question else None
        if query and isinstance(ask.body, Top):
            wanted.append((ask.name, query, ask.body))
    if not wanted:
        return {}
    job = Job([capture], [], may_be_cut=report.truncated is not None)
    with files_of(job) as files:
        return {name: _addresses(job, query, body, files) for name, query, body in wanted}


def flows_of(report: Report, setup: Setup | None, capture: str, most: int) -> Mapping[int, str]:
    """The conversations that the report names, of a table of groups those of the first `most`, by their endpoints."""
    numbers = numbers_in(setup, report, most)
    if not numbers:
        return {}
    job = Job([capture], [], may_be_cut=report.truncated is not None)
    with files_of(job) as files:
        found = conversations(files[1], numbers, job.may_be_cut, end_to_end(job, files))
    if numbers - set(found):
        raise Complaint(f"{capture} is not the capture of the report: it has other conversations")
    return {number: it.text for number, it in found.items()}
