"""Questions over two attributes: the pairs of values with the most, and the values that are seen with most different others.

The program keeps numbers for each value of one attribute. So it is asked for all values of the one, and then for those of the other
beside single values of the one, 16 in a run. Which of these must be asked? A pair has no more than each of its values (and its least
is at most their greatest), and a value is seen with no more different others than it has packets. So those with the most come first, and
the rest can be left out once as many rows are known as are wanted that all come before any that the rest could have. Where one of both
has few values, all of them are asked.

Time buckets with an attribute beside them are all told by one answer, of an aggregate by keys.

Sometimes too many would have to be asked. And `src` and `dst` are addresses of both families, of which the program has those of IPv6 as
halves. Then the packets are listed, read from the capture and added up. So each answer is exact, and some take longer.
"""

from __future__ import annotations

import heapq
from dataclasses import dataclass
from ipaddress import IPv4Address
from typing import Callable, Iterator, Mapping, Sequence

from .conditions import TooLong
from .questions import BOTH, WHOLE, Query, beside, parts_of
from .reports import Group
from .setups import MOST, PARTS, Setup
from .show import Viewer, measured_text
from .tables import marks, table
from .values import address_text, clock, grouped, unit, utc, value_text

MOST_RUNS = 4
ETYPE = 0x86DD
# A value: of IPv4 and of all other attributes 4, of IPv6 6, of packets that are neither 7, and the number.
Cell = tuple[int, int]
Pair = tuple[Cell, Cell]
# Count, sum, least and greatest.
Quad = tuple[int, int, int, int]
Known = dict[Pair, Quad]


# Of packets that were listed, the values of these attributes.
Listed = Callable[[Sequence[str]], Iterator[tuple[int, ...]]]


@dataclass(frozen=True)
class Firsts:
    """What the first run says of the two expressions of `parts_of`: the groups of the first attribute, or of time and the second; those of
    the second; and the packets that are listed."""

    groups: Sequence[Group]
    seconds: Sequence[Group]
    listed: Listed


@dataclass(frozen=True)
class Asker:
    """Asks the program: `groups` for all values of attributes within expressions, at most 16 at once; `listed` for those of each packet."""

    groups: Callable[[Sequence[tuple[str, str]]], list[Sequence[Group]]]
    listed: Callable[[str], Listed]


@dataclass(frozen=True)
class Row:
    """The cells of a row, what it is ranked by, and how many packets it has."""

    cells: tuple[Cell, ...]
    value: int
    packets: int


@dataclass(frozen=True)
class Doubled:
    """The first rows, and whether there are no others."""

    rows: tuple[Row, ...]
    is_all: bool


def _rows(query: Query, known: Known) -> list[Row]:
    """All rows that the known pairs make."""
    if query.part != "different":
        place = PARTS.index(query.part)
        return [Row(pair, quad[place], quad[0]) for pair, quad in known.items()]
    found: dict[Cell, list[int]] = {}
    for (first, _), quad in known.items():
        counts = found.setdefault(first, [0, 0])
        counts[0] += 1
        counts[1] += quad[0]
    return [Row((first,), *counts) for first, counts in found.items()]


def _rank(row: Row) -> tuple[int, tuple[Cell, ...]]:
    return -row.value, row.cells


def _best(query: Query, known: Known) -> list[Row]:
    return heapq.nsmallest(query.count, _rows(query, known), key=_rank)


def _add(known: Known, pair: Pair, quad: Quad) -> None:
    old = known.get(pair)
    known[pair] = (
        (old[0] + quad[0], old[1] + quad[1], min(old[2], quad[2]), max(old[3], quad[3])) if old else quad
    )


class _Search:
    """What is known so far of the packets whose values are single numbers."""

    def __init__(self, query: Query, expression: str, others: Known, asker: Asker) -> None:
        self.query, self.expression, self.asker = query, expression, asker
        self.known = dict(others)
        # How many different others a value has among packets that were listed.
        self.listed: dict[int, int] = {}
        for (family, number), _ in others:
            if family == 4:
                self.listed[number] = self.listed.get(number, 0) + 1
        self.sides = (query.key, query.second)
        self.is_all = True

    def run(self, firsts: Sequence[Group], seconds: Sequence[Group]) -> bool:
        """Whether the first rows are known; `is_all` then says whether there are no others."""
        side = 1 if len(seconds) < len(firsts) else 0
        if self.query.part == "different" and len(seconds) > MOST_RUNS * MOST["lane"]:
            side = 0
        waiting = sorted((-self._bound(it), it.key) for it in (firsts, seconds)[side])
        for _ in range(MOST_RUNS):
            waiting = self._that_matter(side, waiting)
            if not waiting:
                return True
            due, waiting = waiting[: MOST["lane"]], waiting[MOST["lane"] :]
            self._ask(side, [number for _, number in due])
        return not self._that_matter(side, waiting)

    def _that_matter(self, side: int, waiting: Sequence[tuple[int, int]]) -> list[tuple[int, int]]:
        """The values with which there could be a row among the first."""
        best = _best(self.query, self.known)
        counts_all = self.query.part == "different" and side == 1
        if counts_all or len(best) < self.query.count:
            return list(waiting)
        limit = _rank(best[-1])
        found = [it for it in waiting if (it[0], ((4, it[1]),) if side == 0 else ()) < limit]
        self.is_all = self.is_all and len(found) == len(waiting)
        return found

    def _bound(self, group: Group) -> int:
        """No row with this value has more."""
        if self.query.part == "different":
            return group.count + self.listed.get(group.key, 0)
        return group.greatest if self.query.part == "least" else int(getattr(group, self.query.part))

    def _ask(self, side: int, numbers: Sequence[int]) -> None:
        here, there = self.sides[side], self.sides[1 - side]
        asked = [(there, beside(self.expression, f"{here}=={number}")) for number in numbers]
        for number, groups in zip(numbers, self.asker.groups(asked)):
            for it in groups:
                pair = ((4, number), (4, it.key)) if side == 0 else ((4, it.key), (4, number))
                _add(self.known, pair, (it.count, it.sum, it.least, it.greatest))


def _added(query: Query, listed: Listed) -> Known:
    """All pairs of the packets that were listed."""
    sides = ("ts" if query.is_timed_pair else query.key, query.second)
    names = [it for side in sides for it in _names(side)]
    wanted = list(dict.fromkeys([*names, "kind", "etype", query.measure]))
    is_of_six = any(it in WHOLE for it in sides)
    known: Known = {}
    for values in listed(wanted):
        named = dict(zip(wanted, values))
        if is_of_six and not (named["kind"] and named["etype"] == ETYPE):
            continue
        first, second = (_cell(side, named) for side in sides)
        if query.is_timed_pair:
            first = 4, named["ts"] // query.width
        value = named[query.measure]
        _add(known, (first, second), (1, value, value, value))
    return known


def _names(key: str) -> tuple[str, ...]:
    """The program's attributes that make a value."""
    if key in BOTH:
        return (key, f"{key}6", f"{key}6_low")
    return (key, f"{key}_low") if key in WHOLE else (key,)


def _cell(key: str, named: Mapping[str, int]) -> Cell:
    if key not in (*BOTH, *WHOLE):
        return 4, named[key]
    if named["kind"] == 0:
        return 7, 0
    if named["etype"] != ETYPE:
        return 4, named[key]
    high = key if key in WHOLE else f"{key}6"
    return 6, (named[high] << 64) + named[f"{high}_low"]


def doubled(query: Query, firsts: Firsts, asker: Asker) -> Doubled:
    """The first rows of a question over two attributes."""
    expression, listed = parts_of(query)
    known = _added(query, firsts.listed) if listed else dict[Pair, Quad]()
    if not expression:
        return _answer(query, known, True)
    if query.is_timed_pair:
        for it in firsts.groups:
            assert it.by is not None
            known[(4, it.key), (4, it.by)] = (it.count, it.sum, it.least, it.greatest)
        return _answer(query, known, True)
    search = _Search(query, expression, known, asker)
    try:
        if search.run(firsts.groups, firsts.seconds):
            return _answer(query, search.known, search.is_all)
    except TooLong:
        pass
    return _answer(query, _added(query, asker.listed(query.expression)), True)


def _answer(query: Query, known: Known, is_all: bool) -> Doubled:
    if query.verb == "over":
        rows = [it for it in _rows(query, known) if query.fires(it.value)]
        return Doubled(tuple(sorted(rows, key=lambda it: it.cells)), True)
    best = _best(query, known)
    return Doubled(tuple(best), is_all and len(best) == len(_rows(query, known)))


def cell_text(setup: Setup, key: str, cell: Cell) -> str:
    """A value as people write it."""
    family, number = cell
    if family == 7:
        return "not IP"
    if family == 6:
        return address_text(number)
    if key in BOTH:
        return str(IPv4Address(number))
    place = setup.place_of(key)
    return value_text(setup, setup.schema[place], number) if place is not None else str(number)


def texts_of(setup: Setup, query: Query, row: Row, time: Callable[[int], str] = clock) -> list[str]:
    """The cells of a row."""
    if query.is_timed_pair:
        (_, bucket), *others = row.cells
        return [time(bucket * query.width), *(cell_text(setup, query.second, it) for it in others)]
    return [cell_text(setup, key, cell) for key, cell in zip((query.key, query.second), row.cells)]


def doubled_lines(viewer: Viewer, query: Query, answer: Doubled) -> list[str]:
    """The table of the first rows."""
    setup = viewer.setup
    assert setup
    is_different = query.part == "different"
    is_all = answer.is_all and query.verb != "over"
    noted = marks([it.value for it in answer.rows], is_all, is_all)
    rows = []
    for place, (it, note) in enumerate(zip(answer.rows, noted), 1):
        numbers = [grouped(it.value), *[grouped(it.packets)] * is_different]
        rows.append([f"{place}.", *texts_of(setup, query, it), *numbers, note])
    if not rows:
        return ["  none"]
    if is_different:
        heads = [f"different {query.second}", "SYNs" if query.verb == "scans" else viewer.things]
    else:
        heads = [query.second, measured_text(setup, query.part, query.measure)]
    first = f"{unit(query.width)} (UTC)" if query.is_timed_pair else query.key
    if query.verb == "over":
        # (by time, so no place is one)
        return table([first, *heads], [row[1:-1] for row in rows], viewer.style, "llr")
    return table(["", first, *heads, ""], rows, viewer.style, "rlrr" if is_different else "rllr")


def doubled_object(setup: Setup, query: Query, answer: Doubled) -> dict[str, object]:
    """The members of the answer for programs."""
    keys: list[dict[str, object]] = []
    for it in answer.rows:
        texts = texts_of(setup, query, it, utc)
        more = {"packets": it.packets} if query.part == "different" else {"texts": texts}
        keys.append({"text": ", ".join(texts), "value": it.value, **more})
    return {"kind": query.verb, "keys": keys, "all": answer.is_all}
