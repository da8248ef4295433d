"""What a setup names."""

from __future__ import annotations

import ctypes
import itertools
from typing import Iterator, NamedTuple, Optional, Union

from . import calls
from .calls import LONG, SIZE, call
from .errors import Code, wanted

LANES = ["index", "filter", "aggregate", "tally", "aggregate by"]
QUESTIONS = ["list", "find", "between", "measure", "fired", "top", "total", "groups"]
PARTS = ["count", "sum", "least", "greatest"]
OPERATORS = ["==", "!=", "<", "<=", ">", ">="]


class Attribute(NamedTuple):
    """An attribute: its name, and its kind in the words of a setup, as `u16` or `b6`."""

    name: str
    kind: str


class Lane(NamedTuple):
    """An index, a filter, an aggregate, a tally, or an `aggregate by` (a key): its name and kind, and the names of the attributes of
    its keys (index, tally, aggregate by), and of what it measures (aggregate, tally, aggregate by)."""

    name: str
    kind: str
    key: Optional[str]
    measure: Optional[str]


class Trigger(NamedTuple):
    """A trigger: its name, the name of its aggregate, and how which part of it compares with which number."""

    name: str
    aggregate: str
    part: str
    operator: str
    number: int


class Question(NamedTuple):
    """A question: its name and kind; `of`, the name of its lane or, of a total, its attribute; its range, for find,
    between and measure; `part`, for fired and top; `operator` and `number`, for fired; `count`, how many keys, for top.
    """

    name: str
    kind: str
    of: Optional[str] = None
    range: Optional[tuple[int, int]] = None
    part: Optional[str] = None
    operator: Optional[str] = None
    number: Optional[int] = None
    count: Optional[int] = None  # type: ignore[assignment]


def told(handle: calls.Handle, sort: int) -> Iterator[tuple[str, calls.About]]:
    """The names of a sort, each with what the setup says of it."""
    for number in itertools.count():
        name, count, about = ctypes.create_string_buffer(32), SIZE(), calls.About()
        code = call("name")(handle, sort, number, name, 32, count)
        if code == Code.NO_NAME:
            return
        wanted(code)
        wanted(call("tell")(handle, sort, number, about))
        yield name.raw[: count.value].decode("ascii"), about


def question_of(name: str, about: calls.About, attributes: list[Attribute], lanes: list[Lane]) -> Question:
    """The question of that name, by what the library says of it."""
    kind = QUESTIONS[about.kind]
    if kind == "list":
        return Question(name, kind)
    if kind == "total":
        return Question(name, kind, attributes[about.of].name)
    of, part = lanes[about.of].name, PARTS[about.part]
    if kind == "groups":
        return Question(name, kind, of)
    if kind == "fired":
        return Question(name, kind, of, part=part, operator=OPERATORS[about.op], number=about.low)
    if kind == "top":
        return Question(name, kind, of, part=part, count=about.size)
    return Question(name, kind, of, (about.low, about.high))


class Names:
    """All that a setup names: `attributes`, `lanes`, `triggers` and `questions`, as lists in the order of the lines. `setup` is its text,
    and `width` how wide a bucket is, in nanoseconds."""

    def __init__(self, handle: calls.Handle, setup: bytes) -> None:
        width = LONG()
        wanted(call("width")(handle, width))
        self.setup, self.width = setup.decode("ascii"), width.value
        self.attributes = [
            Attribute(name, f"u{it.kind}" if it.kind else f"b{it.size}") for name, it in told(handle, 0)
        ]
        keys = [it.name for it in self.attributes]
        self.lanes = [
            Lane(
                name,
                LANES[it.kind],
                keys[it.of] if it.kind in (0, 3, 4) else None,
                keys[it.size] if it.kind in (2, 3, 4) else None,
            )
            for name, it in told(handle, 1)
        ]
        self.triggers = [
            Trigger(name, self.lanes[it.of].name, PARTS[it.part], OPERATORS[it.op], it.low)
            for name, it in told(handle, 2)
        ]
        self.questions = [question_of(name, it, self.attributes, self.lanes) for name, it in told(handle, 3)]

    def number(self, sort: str, name: Union[str, int]) -> int:
        """The number of the thing of that name, of a sort; a number is itself."""
        if not isinstance(name, str):
            return calls.checked(name, 32, "a number")
        for number, it in enumerate(getattr(self, sort)):
            if it.name == name:
                return number
        raise KeyError(f"the setup has no {name} among its {sort}")
