"""The whole addresses of IPv6 that have the most.

The program keeps an address as two halves and ranks the values of one of them. So it ranks the networks, the high
halves, first, and then the low halves within networks.

Which networks must be asked again, so that the first N addresses are right? No address has more than its network has
(and its least is at most the network's greatest). So a network can be left out only if N addresses are known that all
come before any that it could have: they have more than the network, or as much and are lower. All others are asked,
those with the most first, 16 at a time.

Sometimes that would be very many: networks of many addresses that all have about as much. And one answer lists at most
1,000 networks; those behind have at most as much as the last one. If after a few runs there are still networks that
could matter, listed or not, the packets are listed instead and added up by address.

Packets that are not IPv6 have the network 0 too. They are left out by what is asked of it.

`src` and `dst` are of both families. The program's value 0 of them has all packets that are not IPv4, so these are
asked again: as addresses of IPv6, as packets that are not IP, and as those that IPv4 sends from 0.0.0.0.
"""

from __future__ import annotations

from dataclasses import dataclass, replace
from ipaddress import IPv4Address
from typing import Callable, Sequence

from .conditions import TooLong, program_form
from .errors import Complaint
from .questions import MOST_TOP, Query
from .reports import Pair, Top
from .setups import MOST, PACKETS
from .values import address_text

HALF = 2**64
MOST_RUNS = 4
# The key that is ranked, the part and the expression: what is asked again. Without a key it is the part of all.
Again = tuple[str, str, str]
IPV6 = "kind>=1 and etype==0x86dd"
# The place of an address in the answer: its value with a minus, and the address.
Rank = tuple[int, int]


@dataclass(frozen=True)
class Answer:
    """The first keys, and a note where captures together leave some open."""

    top: Top
    note: str = ""

    @property
    def is_full(self) -> bool:
        return len(self.top.keys) >= MOST_TOP


@dataclass(frozen=True)
class Asker:
    """Asks the program: `again` at most 16 rankings in one run, and `values` for the part of every address of IPv6."""

    again: Callable[[Sequence[Again]], list[Answer]]
    values: Callable[[Query, str], dict[int, int]]


@dataclass(frozen=True)
class Ranked:
    """The first keys, whether there are no others, a note, and how the keys are written."""

    top: Top
    is_all: bool
    note: str
    texts: tuple[str, ...] | None = None


def within(query: Query, narrower: str) -> str:
    """The question's condition and a narrower one."""
    condition = narrower if query.expression == "*" else f"({query.expression}) and {narrower}"
    try:
        return program_form(PACKETS["packet6"], condition)
    except TooLong as fault:
        why = f"its condition is too long to ask for whole addresses; {query.key}/64 ranks networks"
        raise Complaint(f"`{query.text}`: {why}") from fault


def _best(query: Query, known: dict[int, int]) -> list[Rank]:
    """The ranks of the first addresses."""
    return sorted((-value, address) for address, value in known.items())[: query.count]


def _could_matter(query: Query, known: dict[int, int], rank: Rank) -> bool:
    """Whether an address of that rank could be among the first."""
    best = _best(query, known)
    return len(best) < query.count or rank < best[-1]


def _searched(query: Query, networks: Answer, asker: Asker) -> dict[int, int] | None:
    """Addresses with their values, the first of which are right; nothing if it would take too many runs."""
    known: dict[int, int] = {}
    waiting = [(-it.value, it.key * HALF) for it in networks.top.keys]
    for _ in range(MOST_RUNS):
        best = _best(query, known)
        last = best[-1] if len(best) == query.count else None
        due = [it for it in waiting if last is None or it < last][: MOST["lane"]]
        if not due:
            break
        keys = [address // HALF for _, address in due]
        for key, answer in zip(keys, asker.again([_lows(query, it) for it in keys])):
            if answer.note:
                return None
            known.update((key * HALF + it.key, it.value) for it in answer.top.keys)
        waiting = [it for it in waiting if it not in due]
    if networks.is_full:
        # Those that are not listed.
        last_listed = networks.top.keys[-1]
        waiting.append((-last_listed.value, (last_listed.key + 1) * HALF))
    return None if any(_could_matter(query, known, it) for it in waiting) else known


def _lows(query: Query, network: int) -> Again:
    """What is asked of a network."""
    narrower = f"{query.key}=={network:#018x}" + ("" if network else f" and {IPV6}")
    return f"{query.key}_low", query.part, within(query, narrower)


def whole_addresses(query: Query, networks: Answer, asker: Asker) -> Ranked:
    """The first addresses of the question, whose networks the answer lists by their `bound`."""
    known = None if networks.note else _searched(query, networks, asker)
    is_all = known is not None and len(networks.top.keys) < MOST_TOP and _asked_all(networks, known)
    if known is None:
        known, is_all = asker.values(query, within(query, IPV6)), True
    best = _best(query, known)
    top = Top(tuple(Pair(address, -value) for value, address in best))
    texts = tuple(address_text(it.key) for it in top.keys)
    return Ranked(top, is_all and len(known) == len(best), "", texts)


def _asked_all(networks: Answer, known: dict[int, int]) -> bool:
    """Whether all addresses are known: each network was asked, and lists fewer than could be."""
    counts: dict[int, int] = {}
    for it in known:
        counts[it // HALF] = counts.get(it // HALF, 0) + 1
    there = {it.key for it in networks.top.keys if it.key}
    return there <= set(counts) and all(it < MOST_TOP for it in counts.values())


def both_families(query: Query, first: Answer, asker: Asker) -> Ranked | None:
    """The first addresses of IPv4 and IPv6, where the answer has those of IPv4; nothing where all are IPv4."""
    if query.part != "least" and all(it.key for it in first.top.keys):
        # An address of IPv6 has no more than the value 0, which is not among the first.
        return None
    key = query.key
    six = replace(query, key=f"{key}6", is_whole=True, expression=within(query, IPV6))
    networks, zero, others = asker.again(
        [
            (six.key, six.bound, six.expression),
            ("", query.part, within(query, f"kind>=1 and etype!=0x86dd and {key}==0.0.0.0")),
            ("", query.part, within(query, "kind==0")),
        ]
    )
    found = whole_addresses(six, networks, asker)
    rows = [(-it.value, 4, it.key, str(IPv4Address(it.key))) for it in first.top.keys if it.key]
    rows += [(-it.value, 4, 0, "0.0.0.0") for it in zero.top.keys]
    rows += [(-it.value, 6, it.key, text) for it, text in zip(found.top.keys, found.texts or ())]
    rows += [(-it.value, 7, 0, "not IP") for it in others.top.keys]
    shown = sorted(rows)[: query.count]
    top = Top(tuple(Pair(number, -value) for value, _, number, _ in shown))
    is_all = not first.is_full and found.is_all and len(shown) == len(rows)
    return Ranked(top, is_all, first.note, tuple(text for *_, text in shown))
