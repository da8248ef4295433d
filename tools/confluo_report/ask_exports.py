"""The answers of `ask` as JSON and as CSV."""

from __future__ import annotations

import csv
import io
from typing import Any, Iterator, Sequence

from .ask import Answered, Job, fired_in, in_order, joined_marks, meant_buckets, ranking
from .doubled import doubled_object
from .exports import FORMAT, body_object, json_line
from .merge import Joined
from .paired import paired_object
from .questions import Query
from .reports import Fired, Found, Pair, Top
from .values import key_text

COLUMNS = ("question", "capture", "place", "key", "value", "percent")


def _keys(answered: Answered, query: Query, joined: Joined, body: Top) -> dict[str, Any]:
    """The members of a ranking; each key has its text."""
    ranked, whole = ranking(answered, query, joined, body)
    setup = answered.viewers[0].setup
    question = setup.question(joined.name) if setup else None
    assert setup and question and question.lane
    flows = answered.viewers[0].flows
    texts = ranked.texts or [key_text(setup, question.lane, it.key, flows) for it in ranked.top.keys]
    keys: list[dict[str, Any]] = [
        {"text": text, "value": it.value} for text, it in zip(texts, ranked.top.keys)
    ]
    kind = "share" if whole is not None else "top"
    found: dict[str, Any] = {"kind": kind, "keys": keys, "all": ranked.is_all}
    if whole is not None:
        for it in keys:
            it["percent"] = round(100 * it["value"] / whole, 4) if whole else 0.0
        found["whole"] = whole
    return found | ({"note": ranked.note} if ranked.note else {})


def _marks(answered: Answered, query: Query, joined: Joined) -> dict[str, Any]:
    found: Sequence[Pair] = meant_buckets(query, joined_marks(query, fired_in(joined)))
    setup = answered.viewers[0].setup
    return body_object(Fired(tuple(found)), setup)


def _answer(answered: Answered, query: Query, joined: Joined) -> dict[str, Any]:
    front = {"question": query.text}
    if query.is_paired:
        return front | paired_object(query, answered.paired[answered.queries.index(query)])
    if query.second:
        setup = answered.viewers[0].setup
        assert setup
        return front | doubled_object(setup, query, answered.doubled[answered.queries.index(query)])
    if query.is_of_buckets:
        return front | _marks(answered, query, joined)
    if isinstance(joined.body, Top):
        return front | _keys(answered, query, joined, joined.body)
    if joined.body is not None:
        return front | body_object(joined.body)
    parts = [
        {"capture": name, "records": list(it.rows)} for name, it in joined.parts if isinstance(it, Found)
    ]
    return front | {"kind": joined.kind, "parts": parts}


def answers_object(job: Job, answered: Sequence[Answered]) -> dict[str, Any]:
    """The object `answers` that docs/report.schema.json describes."""
    merged = answered[0].merged
    found = {"format": FORMAT, "kind": "answers", "captures": job.captures, "records": merged.records}
    truncated = [{"capture": name, "records": whole} for name, whole in merged.truncated]
    answers = [_answer(*it) for it in in_order(job, answered)]
    return found | {"answers": answers} | ({"truncated": truncated} if truncated else {})


def answers_json(job: Job, answered: Sequence[Answered]) -> str:
    return json_line(answers_object(job, answered))


def _rows(answer: dict[str, Any]) -> Iterator[tuple[object, ...]]:
    """The rows of an answer, without its question: capture, place, key, value and percent."""
    for place, it in enumerate(answer.get("keys", ()), 1):
        yield "", place, it["text"], it["value"], it.get("percent", "")
        for name in ("answers", "resets"):
            if name in it:
                yield "", place, f"{name} of {it['text']}", it[name], ""
    for place, it in enumerate(answer.get("marks", ()), 1):
        yield "", place, it["time"], it["value"], ""
    for part in answer.get("parts", ()):
        for place, number in enumerate(part["records"], 1):
            yield part["capture"], place, "record", number, ""
    if "count" in answer:
        for name in ("count", "sum", "least", "greatest"):
            yield "", "", name, "" if answer[name] is None else answer[name], ""
    if "whole" in answer:
        yield "", "", "together", answer["whole"], ""


def answers_csv(job: Job, answered: Sequence[Answered]) -> str:
    """The answers as one table."""
    out = io.StringIO()
    writer = csv.writer(out, lineterminator="\n")
    writer.writerow(COLUMNS)
    for answer in answers_object(job, answered)["answers"]:
        writer.writerows((answer["question"], *it) for it in _rows(answer))
    return out.getvalue()
