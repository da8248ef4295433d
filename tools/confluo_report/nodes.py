"""How many segments and tree nodes a run needs, counted from the capture."""

from __future__ import annotations

from dataclasses import dataclass
from typing import Iterable, Iterator

from .expressions import NUMBER_BITS
from .rows import Row, bucket_of
from .setups import Lane, Setup

BLOCK = 4096
MOST_RECORDS = 2**20
MOST_CAPACITY = MOST_NODES = 65536
MOST_SEGMENTS = 256
FIRST_NODES = 8192
# Of segments of `run --long`. 256 records have fewer than 65,536 nodes in 16 lanes of 16 levels.
LONG_CAPACITIES = (65536, 16384, 4096, 1024, 256)
Keys = list[set[int]]


@dataclass(frozen=True)
class Need:
    """Records, and by the capacity of a segment the nodes that its fullest one needs."""

    records: int
    nodes: dict[int, int]


@dataclass(frozen=True)
class Sizes:
    """Options with which a run is not refused."""

    capacity: int
    segments: int
    nodes: int

    def options(self) -> str:
        capacity = f"--capacity {self.capacity} " if self.capacity != MOST_CAPACITY else ""
        segments = f"--segments {self.segments} " if self.segments > 1 else ""
        return f"{capacity}{segments}--nodes {self.nodes}"


def with_more_nodes(sizes: Sizes) -> Sizes | None:
    """Sizes with more room for nodes, or smaller segments, each of which has its own; None behind the last."""
    if sizes.nodes < MOST_NODES:
        return Sizes(sizes.capacity, sizes.segments, min(8 * sizes.nodes, MOST_NODES))
    if sizes.capacity > BLOCK:
        capacity = sizes.capacity // 2
        return Sizes(capacity, MOST_RECORDS // capacity, sizes.nodes)
    return None


def long_options(may_be_cut: bool) -> Iterator[tuple[str, ...]]:
    """The options of `run --long` to try one after another: in the last segments no record's keys lack nodes."""
    for capacity in LONG_CAPACITIES:
        yield ("--long", "--writers", "1", "--capacity", str(capacity), *["--truncated"] * may_be_cut)


def levels_of(setup: Setup, lane: Lane) -> int:
    """The levels of the lane's tree."""
    return 16 if lane.key is None else NUMBER_BITS[setup.schema[lane.key].kind] // 4


def _key(setup: Setup, lane: Lane, row: Row) -> int:
    value = bucket_of(setup, row) if lane.key is None else row[lane.key]
    assert isinstance(value, int)
    return value


def _keys_by_block(setup: Setup, rows: Iterable[Row], size: int) -> tuple[int, list[Keys]]:
    """The number of rows, and for each block of rows the keys of each lane."""
    blocks: list[Keys] = []
    count = 0
    for row in rows:
        if count % size == 0:
            blocks.append([set() for _ in setup.lanes])
        for lane, keys in zip(setup.lanes, blocks[-1]):
            if lane.select.holds(row):
                keys.add(_key(setup, lane, row))
        count += 1
    return count, blocks


def _nodes(setup: Setup, keys: Keys) -> int:
    """The distinct nodes: the different proper beginnings of the keys of each lane."""
    total = 0
    for lane, its in zip(setup.lanes, keys):
        level = levels_of(setup, lane)
        for length in range(1, level):
            total += len({key >> 4 * (level - length) for key in its})
    return total


def need_of(setup: Setup, rows: Iterable[Row], capacity: int = MOST_CAPACITY) -> Need:
    """What the rows need, with segments of 4096 records times each power of 2, or of that capacity."""
    size = BLOCK if capacity % BLOCK == 0 else capacity
    count, blocks = _keys_by_block(setup, rows, size)
    needed: dict[int, int] = {}
    while size <= capacity:
        needed[size] = max((_nodes(setup, it) for it in blocks), default=0)
        blocks = [_joined(blocks[at : at + 2]) for at in range(0, len(blocks), 2)]
        size *= 2
    return Need(count, needed)


def _joined(blocks: list[Keys]) -> Keys:
    return [set().union(*its) for its in zip(*blocks)] if len(blocks) > 1 else blocks[0]


def sizes_for(need: Need) -> Sizes | None:
    """The options of the largest segments that suffice, if any do."""
    for capacity in sorted(need.nodes, reverse=True):
        segments = max(1, -(-need.records // capacity))
        fits = segments <= MOST_SEGMENTS and segments * capacity <= MOST_RECORDS
        if fits and need.nodes[capacity] <= MOST_NODES:
            return Sizes(capacity, segments, need.nodes[capacity])
    return None
