"""One line for each packet or record that a question found."""

from __future__ import annotations

import ipaddress
import re
import shlex
import tempfile
from dataclasses import dataclass, field
from ipaddress import IPv4Address
from typing import Callable, Iterable, Iterator, Mapping, Sequence

from . import program
from .captures import CaptureFault, Reading, frames, opened
from .errors import Complaint
from .expressions import Value, value_of
from .packets import copy_found
from .reports import Ask, Found
from .rows import bucket_of, rows_of
from .setups import PACKETS, Question, Setup
from .unparsed import Unparsed
from .values import KINDS, PROTOCOLS, flags_text, packet_clock

IPV6 = 0x86DD


@dataclass(frozen=True)
class Details:
    """The lines by record numbers, and what is known of all packets of the capture."""

    lines: Mapping[int, str] = field(default_factory=dict)
    all: Unparsed | None = None


@dataclass(frozen=True)
class Packet:
    """A line of `confluo dump`."""

    number: int
    values: dict[str, str]
    schema: str = "packet"

    def text(self) -> str:
        """The packet in one line."""
        it = self.values
        return f"{packet_clock(int(it['ts']))}  {self.way()}  {it['len']} bytes{self.more()}"

    def way(self) -> str:
        it = self.values
        if it["kind"] == "0":
            return f"{_mac(it['smac'])} > {_mac(it['dmac'])}  type {int(it['etype']):#06x}"
        src, dst = self.address("src"), self.address("dst")
        if it["kind"] in ("2", "3"):
            name = KINDS[int(it["kind"])]
            return f"{name} {_at_port(src, it['sport'])} > {_at_port(dst, it['dport'])}"
        proto = int(it["proto"])
        return f"{PROTOCOLS.get(proto, f'protocol {proto}')} {src} > {dst}"

    def address(self, side: str) -> str:
        """The address of that side, of IPv4 or IPv6."""
        if int(self.values["etype"]) != IPV6:
            return self.values[side]
        halves = [int(self.values.get(it, "0"), 16) for it in (f"{side}6", f"{side}6_low")]
        return str(ipaddress.IPv6Address((halves[0] << 64) + halves[1]))

    def more(self) -> str:
        it = self.values
        flags = f"  {flags_text(int(it['flags']))}" if it["flags"] != "0" else ""
        numbers = f"  seq {it['seq']} ack {it['ack']}" if it["kind"] == "2" else ""
        vlan = f"  vlan {it['vlan']}" if it["vlan"] != "0" else ""
        return f"{flags}{numbers}{vlan}"

    def row(self) -> tuple[Value, ...]:
        """The values of its schema."""
        found = [value_of(it.kind, self.values[it.name]) for it in PACKETS[self.schema]]
        if any(it is None for it in found):
            raise Complaint(f"packet {self.number} of `confluo dump` cannot be read")
        return tuple(it for it in found if it is not None)


def _mac(text: str) -> str:
    digits = text.removeprefix("0x")
    return ":".join(digits[at : at + 2] for at in range(0, len(digits), 2))


def _at_port(address: str, port: str) -> str:
    return f"[{address}]:{port}" if ":" in address else f"{address}:{port}"


def _packet(line: str, schema: str) -> Packet:
    number, *words = line.split(" ")
    values = dict(it.partition("=")[::2] for it in words)
    if not number.isdigit() or list(values) != [it.name for it in PACKETS[schema]]:
        raise Complaint(f"`confluo dump` printed a line that cannot be read: {line[:60]}")
    return Packet(int(number), values, schema)


def _dumped(
    capture: str, wanted: set[int], reading: Reading, to_end: bool = True
) -> tuple[dict[int, Packet], Unparsed]:
    """The packets of these numbers by `confluo dump`, which reads no others, and what is known of all that were read."""
    with tempfile.NamedTemporaryFile(prefix="confluo-report-") as file:
        try:
            found = copy_found(capture, wanted, file, reading, to_end).all  # type: ignore[arg-type]
        except CaptureFault as fault:
            raise Complaint(
                f"{capture}: it is refused with code {fault.code} at record {fault.record}\n"
                f"`confluo-report explain --capture {shlex.quote(capture)}` says what that means"
            ) from fault
        file.flush()
        there = sorted(it for it in wanted if it < found.packets)
        words = ["dump", "--schema", reading.schema, file.name]
        ran = program.run(words) if there else program.Ran(0, "")
    if ran.status != 0:
        raise Complaint(f"{capture}: `confluo dump` refuses it with status {ran.status}: {ran.text.strip()}")
    lines = ran.text.splitlines()[1:]
    return {at: _packet(line, reading.schema) for at, line in zip(there, lines)}, found


def dumped_values(
    capture: str, wanted: set[int], may_be_cut: bool, names: Sequence[str]
) -> Iterator[tuple[int, ...]]:
    """The values of these names of each packet with these numbers, by `confluo dump`, in the order of the capture."""
    if not wanted:
        return
    form = re.compile(r"\b.*".join(rf" {name}=(\S+)" for name in sorted(names, key=_place6)))
    places = [sorted(names, key=_place6).index(it) for it in names]
    with tempfile.NamedTemporaryFile(prefix="confluo-report-") as file:
        copy_found(capture, wanted, file, Reading(may_be_cut, "packet6"))  # type: ignore[arg-type]
        file.flush()
        for line in program.lines(["dump", "--schema", "packet6", file.name]):
            found = form.search(line)
            if found:
                values = [int(it, 0) if it.isalnum() else int(IPv4Address(it)) for it in found.groups()]
                yield tuple(values[it] for it in places)


def _place6(name: str) -> int:
    """The place of the attribute in a line."""
    return [it.name for it in PACKETS["packet6"]].index(name)


def dumped(
    capture: str, wanted: Iterable[int], records: int, truncated: int | None = None, schema: str = "packet6"
) -> tuple[dict[int, Packet], Unparsed]:
    """The packets of these numbers, of a capture that must have that many, and what is known of all.

    `truncated` is what the report says of a capture that is cut off.
    """
    reading = Reading(True, schema)
    packets, found = _dumped(capture, set(wanted), reading)
    _must_be_as_many(capture, found.packets, records)
    _must_be_cut(capture, reading.cut is not None, truncated)
    return packets, found


def _must_be_as_many(capture: str, there: int, records: int) -> None:
    if there != records:
        raise Complaint(
            f"{capture} is not the capture of the report: it has {there} records, and the report {records}"
        )


def _must_be_cut(capture: str, is_cut: bool, truncated: int | None) -> None:
    if is_cut != (truncated is not None):
        ends = "is cut off" if is_cut else "ends well"
        raise Complaint(f"{capture} is not the capture of the report: it {ends}, unlike the report's")


def _meant(setup: Setup, question: Question) -> Callable[[Sequence[Value]], bool]:
    """Whether the question finds a row."""
    lane = question.lane
    if question.expression:
        return question.expression.holds
    if lane and lane.key is not None:
        key = lane.key
        return lambda row: question.low <= row[key] <= question.high  # type: ignore[operator]
    if lane:
        return (
            lambda row: lane.select.holds(row)
            and question.low <= bucket_of(setup, tuple(row)) <= question.high
        )
    return lambda row: True


def _must_be_found(
    setup: Setup, asks: Sequence[Ask], rows: Mapping[int, Sequence[Value]], capture: str
) -> None:
    for ask in asks:
        question = setup.question(ask.name)
        if not question or not isinstance(ask.body, Found):
            continue
        meant = _meant(setup, question)
        for number in ask.body.rows:
            if number in rows and not meant(rows[number]):
                raise Complaint(
                    f"{capture} is not the capture of the report: `{ask.name}` found record {number}, "
                    f"and that record is not one that `{question.text}` finds"
                )


def details_of(
    asks: Sequence[Ask],
    records: int,
    setup: Setup | None,
    capture: str,
    most: int,
    truncated: int | None = None,
) -> Details:
    """The lines of the first records that each question found."""
    wanted = {row for ask in asks if isinstance(ask.body, Found) for row in ask.body.rows[: most or None]}
    if setup and not setup.is_packet:
        return Details(_record_lines(asks, records, setup, capture, wanted))
    packets, all_ = dumped(capture, wanted, records, truncated, setup.source if setup else "packet6")
    if setup:
        _must_be_found(setup, asks, {at: it.row() for at, it in packets.items()}, capture)
    return Details({at: it.text() for at, it in packets.items()}, all_)


def details_of_all(
    asks: Sequence[Ask], records: int, setup: Setup, captures: Sequence[str], most: int, may_be_cut: bool
) -> Details:
    """The same of captures end to end, whose packets are numbered on."""
    wanted = {row for ask in asks if isinstance(ask.body, Found) for row in ask.body.rows[: most or None]}
    packets, first = dict[int, Packet](), 0
    for capture in captures:
        reading = Reading(may_be_cut, setup.source)
        its, found = _dumped(capture, {it - first for it in wanted if it >= first}, reading)
        packets |= {first + at: it for at, it in its.items()}
        first += found.packets
    _must_be_as_many(", ".join(captures), first, records)
    _must_be_found(setup, asks, {at: it.row() for at, it in packets.items()}, ", ".join(captures))
    return Details({at: it.text() for at, it in packets.items()})


def packets_at(captures: Sequence[str], wanted: set[int], may_be_cut: bool) -> Iterator[Packet]:
    """The packets of these numbers of captures end to end, in their order, by `schema packet6`."""
    first = 0
    for capture in captures:
        left = {it - first for it in wanted if it >= first}
        if not left:
            return
        packets, read = _dumped(capture, left, Reading(may_be_cut, "packet6"), to_end=False)
        yield from (packets[it] for it in sorted(packets))
        first += read.packets


def split_rows(captures: Sequence[str], rows: Sequence[int], may_be_cut: bool) -> Iterator[set[int]]:
    """Of captures end to end, the rows in each by its own numbers."""
    first = 0
    for capture in captures:
        with opened(capture) as file:
            count = sum(1 for _ in frames(file, Reading(may_be_cut, "packet6")))
        yield {it - first for it in rows if first <= it < first + count}
        first += count


def _record_lines(
    asks: Sequence[Ask], records: int, setup: Setup, capture: str, wanted: set[int]
) -> dict[int, str]:
    try:
        rows = list(rows_of(setup, capture))
    except CaptureFault as fault:
        raise Complaint(
            f"{capture} is not the capture of the report: it is refused with code {fault.code}"
        ) from fault
    _must_be_as_many(capture, len(rows), records)
    found = {at: rows[at] for at in wanted}
    _must_be_found(setup, asks, found, capture)
    names = [it.name for it in setup.schema]
    return {at: " ".join(f"{a}={_plain(v)}" for a, v in zip(names, row)) for at, row in found.items()}


def _plain(value: Value) -> str:
    return str(value) if isinstance(value, int) else f"0x{value.hex()}"
