"""Answers."""

from __future__ import annotations

import array as arrays
import enum
from typing import TYPE_CHECKING, Any, Iterable, Iterator, NamedTuple, Optional, Sequence

from .calls import LONG, SIZE, array, call
from .errors import wanted

if TYPE_CHECKING:
    import pandas  # type: ignore[import]


class Kind(enum.IntEnum):
    """The kinds of answers, and what their words are."""

    PLACES = 0  # offsets, ascending
    QUAD = 1  # count, sum, least, greatest
    MARKS = 2  # pairs of a bucket and its value, by ascending bucket
    TOPS = 3  # pairs of a key and its value, the heaviest first
    GROUPS = 4  # of each bucket or key, ascending: it, count, sum, least, greatest
    KEYED_MARKS = 5  # threes of a bucket, a key and its value, ascending
    KEYED_GROUPS = 6  # of each bucket and key, ascending: both, count, sum, least, greatest


COLUMNS = {
    Kind.PLACES: ["offset"],
    Kind.QUAD: ["count", "sum", "least", "greatest"],
    Kind.MARKS: ["bucket", "value"],
    Kind.TOPS: ["key", "value"],
    Kind.GROUPS: ["key", "count", "sum", "least", "greatest"],
    Kind.KEYED_MARKS: ["bucket", "key", "value"],
    Kind.KEYED_GROUPS: ["bucket", "key", "count", "sum", "least", "greatest"],
}


class Quad(NamedTuple):
    """Count, sum, least and greatest; of no value four times 0."""

    count: int  # type: ignore[assignment]
    sum: int
    least: int
    greatest: int


def pandas_module() -> Any:
    """pandas, which only those need who want DataFrames."""
    try:
        import pandas
    except ImportError:
        raise ImportError(
            "pandas is missing: pip install 'confluo[pandas]', or apt-get install python3-pandas"
        ) from None
    return pandas


class Answer:
    """An answer: about how many records (`tail`), its `kind`, and its `numbers`, an array of 64 bits each, from which numpy reads without
    a copy. Iterate over it for its rows, one by one; `rows` and `words` make lists of all."""

    __slots__ = ("tail", "kind", "numbers")

    def __init__(self, tail: int, kind: int, words: Iterable[int]) -> None:
        self.tail, self.kind = tail, Kind(kind)
        self.numbers = words if isinstance(words, arrays.array) else arrays.array("Q", words)

    @property
    def words(self) -> list[int]:
        """The numbers as a list."""
        return self.numbers.tolist()

    @property
    def columns(self) -> list[str]:
        """What the numbers of a row are."""
        return COLUMNS[self.kind]

    def __iter__(self) -> Iterator[Sequence[int]]:
        """The rows, as tuples: one for each record, mark, key or group, and a Quad for a quad."""
        wide = len(self.columns)
        for k in range(0, len(self.numbers), wide):
            row = self.numbers[k : k + wide]
            yield Quad(*row) if self.kind == Kind.QUAD else tuple(row)

    @property
    def rows(self) -> list[Sequence[int]]:
        """All rows as a list."""
        return list(self)

    def to_frame(self) -> pandas.DataFrame:
        """The rows as a DataFrame; ImportError if pandas is missing."""
        held = pandas_module()
        wide = len(self.columns)
        columns = {name: self.numbers[k::wide] for k, name in enumerate(self.columns)}
        return held.DataFrame(
            {name: held.Series(it.tolist(), dtype="uint64") for name, it in columns.items()}
        )

    def merge(self, other: Answer) -> Answer:
        """The groups of this answer and of another, of the same lane of another log with one setup, as one. Those of an aggregate by a
        key are not merged."""
        if self.kind != Kind.GROUPS or other.kind != Kind.GROUPS:
            raise ValueError("only groups of one key can be merged")
        (one, length), (two, more), count = array(self.numbers), array(other.numbers), SIZE()
        out = (LONG * max(1, length + more))()
        wanted(call("merge")(one, length, two, more, out, length + more, count))
        return Answer(self.tail + other.tail, Kind.GROUPS, out[: count.value])

    def __eq__(self, other: object) -> bool:
        if not isinstance(other, Answer):
            return NotImplemented
        return (self.tail, self.kind, self.numbers) == (other.tail, other.kind, other.numbers)

    __hash__: Optional[Any] = None  # type: ignore[assignment]

    def __repr__(self) -> str:
        return f"Answer(tail={self.tail}, kind={self.kind.name}, words={self.words})"
