"""Numbers, times and addresses as people write them."""

from __future__ import annotations

import datetime
import ipaddress
from typing import Mapping

from .expressions import Attribute
from .setups import HALVES, SECOND, Lane, Setup

ADDRESSES = ("src", "dst")
PROTOCOLS = {1: "ICMP", 2: "IGMP", 6: "TCP", 17: "UDP", 47: "GRE", 50: "ESP", 58: "ICMPv6"}
TYPES = {
    0x0800: "IPv4",
    0x0806: "ARP",
    0x8100: "VLAN tag",
    0x86DD: "IPv6",
    0x8847: "MPLS",
    0x8863: "PPPoE discovery",
    0x8864: "PPPoE",
    0x88A8: "service tag",
    0x88CC: "LLDP",
    0x88E5: "MACsec",
}
KINDS = {0: "not IPv4", 1: "other IPv4", 2: "TCP", 3: "UDP"}
KINDS6 = KINDS | {0: "not IP", 1: "other IP"}
UNITS = {
    1: "nanosecond",
    10**3: "microsecond",
    10**6: "millisecond",
    SECOND: "second",
    60 * SECOND: "minute",
    3600 * SECOND: "hour",
    86400 * SECOND: "day",
}


def grouped(number: int | None) -> str:
    """The number with commas, `-` for none."""
    return "-" if number is None else f"{number:,}"


def clock(nanoseconds: int) -> str:
    """The time in UTC, with as many digits behind the seconds as it has, by threes."""
    seconds, rest = divmod(nanoseconds, SECOND)
    try:
        day = datetime.datetime.fromtimestamp(seconds, datetime.timezone.utc)
    except (OverflowError, ValueError, OSError):
        return f"{nanoseconds} ns"
    digits = f"{rest:09d}"
    while digits.endswith("000"):
        digits = digits[:-3]
    return f"{day:%Y-%m-%d %H:%M:%S}" + (f".{digits}" if digits else "")


def utc(nanoseconds: int) -> str:
    """The time with its zone, Z."""
    text = clock(nanoseconds)
    return text if text.endswith(" ns") else text + "Z"


def packet_clock(nanoseconds: int) -> str:
    """A packet's time in UTC, with 6 digits behind the seconds, or 9 where it has more."""
    whole, rest = clock(nanoseconds - nanoseconds % SECOND), nanoseconds % SECOND
    if whole.endswith(" ns"):
        return f"{nanoseconds} ns"
    return f"{whole}.{rest:09d}" if rest % 1000 else f"{whole}.{rest // 1000:06d}"


def unit(width: int) -> str:
    """What a bucket of that width is called."""
    if width in UNITS:
        return UNITS[width]
    for size in sorted(UNITS, reverse=True):
        if width % size == 0:
            return f"bucket of {width // size} {UNITS[size]}s"
    return f"bucket of {width} nanoseconds"


def units(width: int) -> str:
    """The plural of `unit`."""
    text = unit(width)
    return text + "s" if width in UNITS else text.replace("bucket", "buckets", 1)


def dotted(number: int) -> str:
    """The IPv4 address, or the number itself where it is none."""
    return str(ipaddress.IPv4Address(number)) if 0 <= number < 2**32 else str(number)


def address_text(address: int) -> str:
    """The IPv6 address."""
    return str(ipaddress.IPv6Address(address))


def network(half: int) -> str:
    """The network of 64 bits that the high half of an IPv6 address is of."""
    return f"{ipaddress.IPv6Address(half << 64)}/64"


def value_text(setup: Setup, attribute: Attribute, value: int) -> str:
    """A value of the attribute: addresses dotted, protocols and kinds named, times as times."""
    if setup.source == "packet6" and attribute.name in HALVES:
        return f"{value:#018x}" if attribute.name.endswith("_low") else network(value)
    if attribute.kind == "u32" and attribute.name in ADDRESSES:
        return dotted(value)
    if attribute.name == "ts":
        return clock(value)
    if setup.is_packet and attribute.name == "etype" and value:
        return f"{value:#06x} ({TYPES[value]})" if value in TYPES else f"{value:#06x}"
    if setup.is_packet and attribute.name == "proto" and value in PROTOCOLS:
        return f"{value} ({PROTOCOLS[value]})"
    if setup.is_packet and attribute.name == "kind" and value in KINDS:
        return f"{value} ({(KINDS if setup.source == 'packet' else KINDS6)[value]})"
    if setup.is_packet and attribute.name == "flags":
        return f"{value} ({flags_text(value)})" if value else "0"
    return str(value)


def key_text(setup: Setup, lane: Lane, value: int, flows: Mapping[int, str] | None = None) -> str:
    """A key of a tally; an address of IPv6 is whole if the tally is over one value of its other half.

    `flows` are conversations whose endpoints are known.
    """
    assert lane.key is not None
    return _text_of(setup, lane, setup.schema[lane.key], value, flows)


def by_text(setup: Setup, lane: Lane, value: int, flows: Mapping[int, str] | None = None) -> str:
    """The key beside a bucket of an aggregate by keys, as the same key of a tally."""
    assert lane.by is not None
    return _text_of(setup, lane, setup.schema[lane.by], value, flows)


def _text_of(
    setup: Setup, lane: Lane, attribute: Attribute, value: int, flows: Mapping[int, str] | None
) -> str:
    if setup.source == "packet6" and attribute.name == "flow":
        return (flows or {}).get(value, str(value))
    other = _other_half(setup, lane, attribute.name) if setup.source == "packet6" else None
    if other is None:
        return value_text(setup, attribute, value)
    high, low = (other, value) if attribute.name.endswith("_low") else (value, other)
    return address_text((high << 64) + low)


def _other_half(setup: Setup, lane: Lane, name: str) -> int | None:
    """The one value of the address's other half that the lane selects."""
    if name not in HALVES:
        return None
    other = setup.place_of(name.removesuffix("_low") if name.endswith("_low") else f"{name}_low")
    found: set[int | None] = set()
    for atoms in lane.select.conjunctions:
        its = {it.low for it in atoms if it.attribute == other and it.operator == "=="}
        found.add(its.pop() if len(its) == 1 else None)  # type: ignore[arg-type]
    return found.pop() if len(found) == 1 else None


def flags_text(flags: int) -> str:
    """The names of TCP flags."""
    names = ("FIN", "SYN", "RST", "PSH", "ACK", "URG", "ECE", "CWR")
    return "+".join(name for at, name in enumerate(names) if flags >> at & 1)
