"""What is read of a captured packet: the row of the packet schema, as docs/FORMATS.md says."""

from __future__ import annotations

import struct

from .captures import Frame
from .expressions import Value

NO_ADDRESS = bytes(6)
TAG = 0x8100
IPV4 = 0x0800


def _number(data: bytes, at: int) -> int:
    return struct.unpack_from(">H", data, at)[0]


def types_of(frame: Frame) -> tuple[int, int, int]:
    """The VLAN, the type of what the frame carries, and where that begins."""
    at = 12 if frame.link == 1 else 14
    if len(frame.data) < at + 2:
        return 0, 0, at + 2
    kind = _number(frame.data, at)
    if kind == TAG and len(frame.data) >= at + 6:
        return _number(frame.data, at + 2) & 0xFFF, _number(frame.data, at + 4), at + 6
    return 0, kind, at + 2


def transport_values(data: bytes, proto: int, at: int, end: int) -> tuple[int, tuple[int, ...]]:
    """The kind, and ports, seq, ack, flags and window."""
    if proto == 6 and at + 20 <= end:
        sport, dport, seq, ack, _, flags, win = struct.unpack_from(">HHIIBBH", data, at)
        return 2, (sport, dport, seq, ack, flags, win)
    if proto == 17 and at + 8 <= end:
        return 3, (*struct.unpack_from(">HH", data, at), 0, 0, 0, 0)
    return 1, (0,) * 6


def network_values(data: bytes, etype: int, at: int) -> tuple[int, ...]:
    """From `kind` to `win`; all 0 where no IPv4 header is read."""
    nothing = (0,) * 13
    if etype != IPV4 or len(data) < at + 20 or data[at] >> 4 != 4:
        return nothing
    header = 4 * (data[at] & 15)
    if header < 20 or len(data) < at + header:
        return nothing
    _, tos, iplen, _, fragment, ttl, proto, _, src, dst = struct.unpack_from(">BBHHHBBHII", data, at)
    end = len(data) if iplen == 0 else min(len(data), at + iplen)
    if fragment & 0x1FFF:
        kind, rest = 1, (0,) * 6
    else:
        kind, rest = transport_values(data, proto, at + header, end)
    return (kind, tos, iplen, ttl, proto, src, dst, *rest)


def packet_row(frame: Frame) -> tuple[Value, ...]:
    """The values of the packet schema in its order."""
    data = frame.data
    dmac = smac = NO_ADDRESS
    if frame.link == 1 and len(data) >= 14:
        dmac, smac = data[:6], data[6:12]
    vlan, etype, at = types_of(frame)
    network = network_values(data, etype, at)
    return (frame.ts, len(data), frame.length, dmac, smac, etype, *network, vlan)
