"""Questions that count two kinds of packets of each conversation: SYNs and SYN-ACKs, echo requests and answers.

One `top` lists at most 1,000 conversations. If there are more, the numbers of conversations are cut into ranges that are asked
one by one, and ranges that are still too full are cut again. So the counts are exact, or the question is refused. Resets only
say more of connections that are unanswered: where there are too many they are left out.
"""

from __future__ import annotations

from dataclasses import dataclass, field
from typing import Callable, Mapping, Sequence

from .errors import Complaint
from .flows import Conversation, Run
from .frames6 import flow_without_type
from .packets import frames_at
from .questions import ANSWERS4, MOST_TOP, PAIRS, Query, narrowed
from .reports import Top
from .setups import MOST
from .show import Viewer
from .tables import table
from .values import grouped, utc

MOST_RUNS = 64
# Of a range that is too full. Numbers are hashes, so its parts are about equally full.
PARTS = 4
# Asks how many packets of each of these expressions a conversation has: for each expression the answers of the captures.
Ask = Callable[[Sequence[str]], list[list[Top]]]
Range = tuple[int, int]
HEADS = {
    "unanswered": ("connection", ("SYNs", "resets"), "first SYN"),
    "pings": ("hosts", ("requests", "answers"), "first request"),
}
RESET = "is_rst==1"


@dataclass(frozen=True)
class Row:
    """A conversation by its number, how many packets it has of both kinds, and if it is unanswered how many resets."""

    number: int
    asked: int
    answered: int
    resets: int | None = None


@dataclass(frozen=True)
class Paired:
    """The rows that are meant, those with the most first, and of how many conversations they are."""

    rows: tuple[Row, ...]
    all: int
    conversations: dict[int, Conversation] = field(default_factory=dict)

    def known(self, row: Row) -> Conversation:
        """The row's conversation, by its number if a capture has changed meanwhile."""
        return self.conversations.get(row.number) or Conversation(str(row.number), 0)


def _summed(tops: Sequence[Top]) -> dict[int, int] | None:
    """The counts of all captures together, if none lists so many that there may be more."""
    if any(len(it.keys) >= MOST_TOP for it in tops):
        return None
    found: dict[int, int] = {}
    for pair in (it for top in tops for it in top.keys):
        found[pair.key] = found.get(pair.key, 0) + pair.value
    return found


def _cut(span: Range, count: int) -> list[Range]:
    """The range in so many parts."""
    ends = [span[0] + (span[1] - span[0]) * at // count for at in range(count + 1)]
    return list(zip(ends, ends[1:]))


def _counts(query: Query, tops: Sequence[Top], ask: Ask) -> dict[int, int]:
    """How many packets of the question's expression each conversation has, where `tops` are the answers to it."""
    found = _summed(tops)
    if found is not None:
        return found
    found, most = {}, MOST["lane"]
    waiting = _cut((0, 2**64), most)
    for _ in range(MOST_RUNS):
        now, waiting = waiting[:most], waiting[most:]
        answers = ask([narrowed(query, f"flow in {low}..{high - 1}") for low, high in now])
        for span, its in zip(now, map(_summed, answers)):
            if its is None:
                waiting += _cut(span, PARTS)
            else:
                found |= its
        if not waiting:
            return found
    raise Complaint(
        f"`{query.text}` cannot be answered exactly: there are more conversations than {MOST_RUNS} runs list; narrow it by `where`"
    )


def without_type(captures: Sequence[str], may_be_cut: bool, run: Run) -> dict[int, int]:
    """How many packets each conversation has that `pings` takes for answers though their type is not read, which is 0 then."""
    text = run(f"schema packet6\nask q list {ANSWERS4}\n")
    rows = next(it for it in text.splitlines() if it.startswith("ask q list ")).partition(":")[2]
    found: dict[int, int] = {}
    for frame in frames_at(captures, set(map(int, rows.split())), may_be_cut):
        number = flow_without_type(frame)
        if number is not None:
            found[number] = found.get(number, 0) + 1
    return found


def paired(
    query: Query, first: Sequence[Top], second: Sequence[Top], ask: Ask, less: Mapping[int, int]
) -> Paired:
    """The answer; `first` and `second` are those of the captures for both kinds of packets, `less` what is no answer."""
    asked = _counts(query, first, ask)
    others = Query(query.text, query.verb, expression=PAIRS[query.verb][1])
    answered = {it: count - less.get(it, 0) for it, count in _counts(others, second, ask).items()}
    answered = {it: count for it, count in answered.items() if count}
    resets = None
    if query.verb == "unanswered":
        numbers = [it for it in asked if it not in answered]
        resets = _resets(query, ask) if numbers else None
    else:
        numbers = list(asked if query.condition != "*" else asked | answered)
    of_resets = {} if resets is None else {it: resets.get(it, 0) for it in numbers}
    rows = sorted(
        (Row(it, asked.get(it, 0), answered.get(it, 0), of_resets.get(it)) for it in numbers),
        key=lambda it: (-it.asked, it.number),
    )
    return Paired(tuple(rows), len(asked))


def _resets(query: Query, ask: Ask) -> dict[int, int] | None:
    """How many resets each conversation has, if that can be said exactly."""
    try:
        return _counts(Query(query.text, query.verb, expression=RESET), ask([RESET])[0], ask)
    except Complaint:
        return None


def count_of(query: Query, answer: Paired) -> str:
    """How many there are, for the title."""
    count = grouped(len(answer.rows))
    if query.verb != "unanswered":
        return f": {count}"
    resets = [it.resets for it in answer.rows if it.resets is not None]
    refused = f", {grouped(sum(map(bool, resets)))} refused" if resets else ""
    return f": {count} of {grouped(answer.all)} connections{refused}"


def paired_lines(viewer: Viewer, query: Query, answer: Paired) -> list[str]:
    """The table of the first rows."""
    name, counts, first = HEADS[query.verb]
    rows = []
    for place, it in enumerate(answer.rows[: query.count], 1):
        known = answer.known(it)
        second = it.answered if query.verb == "pings" else it.resets
        numbers = [grouped(it.asked), "" if second is None else grouped(second)]
        rows.append([f"{place}.", known.text, *numbers, utc(known.first)])
    if not rows:
        return ["  none"]
    lines = table(["", name, *counts, first], rows, viewer.style, "rl" + "r" * len(counts) + "l")
    more = len(answer.rows) - len(rows)
    return lines + ([f"  and {grouped(more)} more"] if more else [])


def paired_object(query: Query, answer: Paired) -> dict[str, object]:
    """The members of the answer for programs."""
    keys: list[Mapping[str, object]] = []
    for it in answer.rows[: query.count]:
        known = answer.known(it)
        more = {"answers": it.answered} if query.verb == "pings" else {}
        if it.resets is not None:
            more["resets"] = it.resets
        keys.append({"text": known.text, "value": it.asked, **more, "first": utc(known.first)})
    whole = {"whole": answer.all} if query.verb == "unanswered" else {}
    return {"kind": query.verb, "keys": keys, "all": len(keys) == len(answer.rows), **whole}
