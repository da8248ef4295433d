"""What is read of a packet with its IPv6 addresses and more: the row of packet6, as docs/FORMATS.md says."""

from __future__ import annotations

import functools
from dataclasses import dataclass

from .captures import Frame
from .expressions import Value
from .frames import IPV4, NO_ADDRESS, TAG, network_values, transport_values

IPV6 = 0x86DD
SERVICE_TAG = 0x88A8
TAGGED = (1, 113, 276)
# Where the type is, and where the network header begins.
PLACES = {1: (12, 14), 113: (14, 16), 276: (0, 20)}
FAMILIES = {2: IPV4, 10: IPV6, 24: IPV6, 28: IPV6, 30: IPV6}
MOST_EXTENSIONS = 8
FRAGMENT, AUTHENTICATION = 44, 51
# Of an IPv4 address as one of 16 bytes (RFC 4291).
MAPPED = bytes(10) + b"\xff\xff"
# The places of FIN, SYN, RST and ACK among TCP's flags, from the last.
FLAGS = (0, 1, 2, 4)


def _number(data: bytes, at: int, size: int = 2) -> int:
    return int.from_bytes(data[at : at + size], "big")


def _link(frame: Frame) -> tuple[int, int]:
    """The type of what the frame carries, and where that begins."""
    data, link = frame.data, frame.link
    if link in PLACES:
        at, begins = PLACES[link]
        return (_number(data, at) if len(data) >= at + 2 else 0), begins
    if link in (0, 108):
        families = [int.from_bytes(data[:4], order) for order in ("big", "little")]  # type: ignore[arg-type]
        known = [FAMILIES[it] for it in families if it in FAMILIES]
        return (known[0] if known and len(data) >= 4 else 0), 4
    return {4: IPV4, 6: IPV6}.get(data[0] >> 4 if data else 0, 0), 0


def _tags(frame: Frame) -> tuple[int, int, int]:
    """The VLAN of the first tag, and the type and place behind at most two tags."""
    etype, at = _link(frame)
    vlan = 0
    for count in range(2):
        if frame.link not in TAGGED or etype not in (TAG, SERVICE_TAG) or len(frame.data) < at + 4:
            break
        vlan = vlan if count else _number(frame.data, at) & 0xFFF
        etype, at = _number(frame.data, at + 2), at + 4
    return vlan, etype, at


def _extension(data: bytes, kind: int, at: int, end: int) -> int:
    """The length of an extension header of that type, or 0 where it is not passed over."""
    if at + 8 > end:
        return 0
    lengths = {0: 8, 43: 8, 60: 8, AUTHENTICATION: 4}
    if kind == FRAGMENT:
        return 8
    if kind not in lengths:
        return 0
    length = lengths[kind] * (data[at + 1] + (2 if kind == AUTHENTICATION else 1))
    return length if at + length <= end else 0


def _behind(data: bytes, at: int, end: int) -> tuple[int, int, bool]:
    """The type and place of what comes behind extension headers, and whether it is of a later fragment."""
    kind, at = data[at + 6], at + 40
    for _ in range(MOST_EXTENSIONS):
        length = _extension(data, kind, at, end)
        if not length:
            break
        is_later = kind == FRAGMENT and _number(data, at + 2) >> 3 > 0
        kind, at = data[at], at + length
        if is_later:
            return kind, at, True
    return kind, at, False


@dataclass(frozen=True)
class Carried:
    """What an IP packet carries: the protocol and where it begins, unless the packet is a later fragment."""

    proto: int
    # The protocol that ICMP is by this version.
    icmp: int
    at: int
    is_later: bool
    # Where the captured packet ends, and where the packet does by its own length.
    end: int
    stop: int
    source: bytes
    target: bytes


def _four(frame: Frame, at: int) -> Carried:
    data, length = frame.data, _number(frame.data, at + 2)
    end = min(len(data), at + length) if length else len(data)
    stop = at + length if length else frame.length
    begins, is_later = at + 4 * (data[at] & 15), _number(data, at + 6) & 0x1FFF > 0
    source, target = (MAPPED + data[place : place + 4] for place in (at + 12, at + 16))
    return Carried(data[at + 9], 1, begins, is_later, end, stop, source, target)


def _six(frame: Frame, at: int) -> Carried:
    data, payload = frame.data, _number(frame.data, at + 4)
    end = min(len(data), at + 40 + payload) if payload else len(data)
    stop = at + 40 + payload if payload else frame.length
    proto, behind, is_later = _behind(data, at, end)
    return Carried(proto, 58, behind, is_later, end, stop, data[at + 8 : at + 24], data[at + 24 : at + 40])


def _six_values(data: bytes, at: int, it: Carried) -> tuple[tuple[int, ...], tuple[int, ...]]:
    """From `kind` to `win`, and the halves of the addresses."""
    kind, rest = (1, (0,) * 6) if it.is_later else transport_values(data, it.proto, it.at, it.end)
    length = min(_number(data, at + 4) + 40, 65535)
    head = (kind, _number(data, at) >> 4 & 255, length, data[at + 7], it.proto, 0, 0)
    return (*head, *rest), tuple(_number(data, at + place, 8) for place in (8, 16, 24, 32))


@functools.lru_cache(65536)
def flow_of(data: bytes) -> int:
    """FNV-1a of 64 bits."""
    found = 0xCBF29CE484222325
    for byte in data:
        found = (found ^ byte) * 0x100000001B3 & 2**64 - 1
    return found


def _more(data: bytes, it: Carried, network: tuple[int, ...]) -> tuple[int, ...]:
    """From `payload` to `flow`."""
    kind, ports, flags = network[0], network[7:9], network[11]
    payload = icmp_type = icmp_code = 0
    if kind == 2:
        payload = max(0, it.stop - it.at - 4 * (data[it.at + 12] >> 4))
    elif kind == 3:
        payload = max(0, _number(data, it.at + 4) - 8)
    elif it.proto == it.icmp and not it.is_later and it.at + 2 <= it.end:
        icmp_type, icmp_code = data[it.at : it.at + 2]
    ends = sorted(address + port.to_bytes(2, "big") for address, port in zip((it.source, it.target), ports))
    return (
        payload,
        icmp_type,
        icmp_code,
        *(flags >> bit & 1 for bit in FLAGS),
        flow_of(b"".join((*ends, bytes([it.proto])))),
    )


def flow_without_type(frame: Frame) -> int | None:
    """Of a packet of ICMP over IPv4 its `flow`, if `icmp_type` is not read: of a later fragment, or if it is cut off before."""
    *_, at = _tags(frame)
    carried = _four(frame, at)
    is_read = not carried.is_later and carried.at + 2 <= carried.end
    return None if is_read else int(packet6_row(frame)[-1])  # type: ignore[call-overload]


def packet6_row(frame: Frame) -> tuple[Value, ...]:
    """The values of packet6 in its order."""
    data = frame.data
    dmac = smac = NO_ADDRESS
    if frame.link == 1 and len(data) >= 14:
        dmac, smac = data[:6], data[6:12]
    vlan, etype, at = _tags(frame)
    halves, more, carried = (0,) * 4, (0,) * 8, None
    if etype == IPV6 and len(data) >= at + 40 and data[at] >> 4 == 6:
        carried = _six(frame, at)
        network, halves = _six_values(data, at, carried)
    else:
        network = network_values(data, etype, at)
        carried = _four(frame, at) if network[0] else None
    if carried:
        more = _more(data, carried, network)
    return (frame.ts, len(data), frame.length, dmac, smac, etype, *network, vlan, *halves, *more)
