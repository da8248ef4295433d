"""Sets of an attribute's values, conjunctions of them, and how they are written in the program's form."""

from __future__ import annotations

import ipaddress
import itertools
from dataclasses import dataclass
from typing import Iterable, Sequence

from .expressions import HALVES, NUMBER_BITS, Attribute, Expression

Span = tuple[int, int]


@dataclass(frozen=True)
class Literal:
    """The attribute has one of these values: ascending spans with both ends, and a gap between any two.

    `text` is how that was written, if it was written as one comparison.
    """

    attribute: Attribute
    spans: tuple[Span, ...]
    text: str = ""


# By the names of attributes; one that has no entry may have any value.
Conjunction = dict[str, Literal]


def _most(attribute: Attribute) -> int:
    """The greatest value, of a byte string the number that it is."""
    bits = NUMBER_BITS.get(attribute.kind) or 8 * int(attribute.kind[1:])
    return 2**bits - 1


def literal_of(schema: Sequence[Attribute], expression: Expression) -> Literal:
    """The literal of an expression with one comparison."""
    ((atom,),) = expression.conjunctions
    attribute = schema[atom.attribute]
    low, high = (it if isinstance(it, int) else int.from_bytes(it, "big") for it in (atom.low, atom.high))
    most = _most(attribute)
    spans = {
        "==": [(low, low)],
        "!=": [(0, low - 1), (low + 1, most)],
        "<": [(0, low - 1)],
        "<=": [(0, low)],
        ">": [(low + 1, most)],
        ">=": [(low, most)],
        "in": [(low, high)],
        "not in": [(0, low - 1), (high + 1, most)],
    }[atom.operator]
    return Literal(attribute, tuple(it for it in spans if it[0] <= it[1]), expression.text)


def _turned(text: str) -> str:
    """The opposite of a range as it was written; of another comparison nothing."""
    name, _, rest = text.partition(" ")
    if rest.startswith("in "):
        return f"{name} not {rest}"
    return f"{name} {rest.removeprefix('not ')}" if rest.startswith("not in ") else ""


def opposite_of(literal: Literal) -> Literal:
    """All other values."""
    ends = [-1, *itertools.chain.from_iterable(literal.spans), _most(literal.attribute) + 1]
    spans = [(ends[at] + 1, ends[at + 1] - 1) for at in range(0, len(ends), 2)]
    return Literal(literal.attribute, tuple(it for it in spans if it[0] <= it[1]), _turned(literal.text))


def _both(a: Literal, b: Literal) -> Literal:
    """The values of both; one of the two itself if it has them."""
    crossed = [(max(x[0], y[0]), min(x[1], y[1])) for x in a.spans for y in b.spans]
    spans = tuple(sorted(it for it in crossed if it[0] <= it[1]))
    return next((it for it in (a, b) if it.spans == spans), Literal(a.attribute, spans))


def conjunctions_of(literal: Literal) -> list[Conjunction]:
    """The literal as conjunctions: none if it has no value, and one without a condition if it has all."""
    if not literal.spans:
        return []
    is_all = literal.spans == ((0, _most(literal.attribute)),)
    return [{} if is_all else {literal.attribute.name: literal}]


def conjoined(a: Conjunction, b: Conjunction) -> list[Conjunction]:
    """Both together, if a record can meet both."""
    found = a | {name: _both(a[name], it) if name in a else it for name, it in b.items()}
    return [found] if all(it.spans for it in found.values()) else []


def _is_contained(a: Conjunction, b: Conjunction) -> bool:
    """Whether each record of the first meets the second."""
    return all(name in a and _both(a[name], it).spans == a[name].spans for name, it in b.items())


def reduced(conjunctions: Iterable[Conjunction]) -> list[Conjunction]:
    """Those that add records to the others."""
    found: list[Conjunction] = []
    for it in conjunctions:
        if not any(_is_contained(it, other) for other in found):
            found = [other for other in found if not _is_contained(other, it)] + [it]
    return found


def _value_text(attribute: Attribute, value: int) -> str:
    if attribute.kind not in NUMBER_BITS:
        return f"0x{value:0{2 * int(attribute.kind[1:])}x}"
    if attribute.kind == "u32" and attribute.name in ("src", "dst"):
        return str(ipaddress.IPv4Address(value))
    return f"{value:#018x}" if attribute.name in HALVES else str(value)


def _gap_text(literal: Literal, before: Span, behind: Span) -> str:
    """That the value is not between these spans."""
    name = literal.attribute.name
    low, high = (_value_text(literal.attribute, it) for it in (before[1] + 1, behind[0] - 1))
    return f"{name}!={low}" if low == high else f"{name} not in {low}..{high}"


def _pieces(literal: Literal) -> list[list[str]]:
    """Groups of comparisons, one of which must hold as a whole."""
    if literal.text:
        return [[literal.text]]
    name, most = literal.attribute.name, _most(literal.attribute)
    if literal.attribute.kind not in NUMBER_BITS:
        return _pieces_of_bytes(literal)
    spans = literal.spans
    if spans and spans[0][0] == 0 and spans[-1][1] == most:
        return [[_gap_text(literal, *it) for it in zip(spans, spans[1:])]]
    runs: list[list[Span]] = []
    for span in spans:
        # A gap of one value is written with !=.
        if runs and runs[-1][-1][1] + 2 == span[0]:
            runs[-1].append(span)
        else:
            runs.append([span])
    pieces = []
    for run in runs:
        low, high = (_value_text(literal.attribute, it) for it in (run[0][0], run[-1][1]))
        if run[0][0] == run[-1][1]:
            piece = [f"{name}=={low}"]
        elif run[0][0] == 0:
            piece = [f"{name}<={high}"]
        else:
            piece = [f"{name}>={low}" if run[-1][1] == most else f"{name} in {low}..{high}"]
        gaps = [_gap_text(literal, *it) for it in zip(run, run[1:])]
        if run[0][0] == 1 and run[-1][1] == most:
            # All but 0.
            piece = [f"{name}!={_value_text(literal.attribute, 0)}"]
        pieces.append([*piece, *gaps])
    return pieces


def _pieces_of_bytes(literal: Literal) -> list[list[str]]:
    """Byte strings compare only by == and !=: the few values, or all but few."""
    others = opposite_of(literal).spans
    there, missing = (sum(high - low + 1 for low, high in its) for its in (literal.spans, others))
    spans, sign = (literal.spans, "==") if there < missing else (others, "!=")
    name = literal.attribute.name
    texts = [
        f"{name}{sign}{_value_text(literal.attribute, it)}"
        for low, high in spans
        for it in range(low, high + 1)
    ]
    return [[it] for it in texts] if there < missing else [texts]


def size_of(literal: Literal) -> tuple[int, int]:
    """How many groups it is written as, and how many comparisons these have."""
    groups = _pieces(literal)
    return len(groups), sum(map(len, groups))


def crossed(sizes: Iterable[tuple[int, int]]) -> tuple[int, int]:
    """The same of all choices of one group from each."""
    count, atoms = 1, 0
    for groups, its in sizes:
        count, atoms = count * groups, atoms * groups + count * its
    return count, atoms


def weight_of(conjunctions: Iterable[Conjunction]) -> int:
    """How many comparisons it takes to write them out."""
    return sum(crossed(map(size_of, it.values()))[1] for it in conjunctions)


def text_of(conjunctions: Iterable[Conjunction]) -> str:
    """The program's form."""
    found = []
    for it in conjunctions:
        for choice in itertools.product(*map(_pieces, it.values())):
            found.append(" && ".join(itertools.chain.from_iterable(choice)))
    return " || ".join(found)
