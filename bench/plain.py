#!/usr/bin/env python3
"""A second, plain reading of captures and packets, and the dump that follows from it.

    bench/plain.py [--schema packet6] [--truncated] CAPTURE

It prints what `confluo dump` has to print, and ends with its status. It is written from docs/FORMATS.md and the documents that
it names, apart from the program and from confluo-report, so that both can be compared with it: damage.py and tshark_fields.py
do. Classic libpcap 2.4 and pcapng; the schemas packet and packet6. No speed is meant; a capture is read whole.
"""

import argparse
import ipaddress
import pathlib
import struct
import sys
from collections import namedtuple

Frame = namedtuple("Frame", "ts length data link")
# What was read of a file: its frames, the code of its first fault (0 for none), and whether it is whole up to a cut.
Read = namedtuple("Read", "frames code is_cut")

LINKS = {"packet": {1, 113}, "packet6": {1, 113, 276, 101, 228, 229, 0, 108}}
NAMES = "ts caplen len dmac smac etype kind tos iplen ttl proto src dst sport dport seq ack flags win vlan".split()
HALVES = ["src6", "src6_low", "dst6", "dst6_low"]
MORE = "payload icmp_type icmp_code is_fin is_syn is_rst is_ack flow".split()
# RFC 9293, section 3.1
FLAGS = {"is_fin": 1, "is_syn": 2, "is_rst": 4, "is_ack": 16}
MOST = 262144


def read(data, links, truncated=False):
    """The frames of a capture before its first fault, and the fault's code."""
    is_blocks = data[:4] == b"\x0a\x0d\x0d\x0a"
    frames = []
    code, has_header = (blocks if is_blocks else classic)(data, links, frames)
    is_cut = truncated and has_header and code in (5, 25)
    return Read(frames, 0 if is_cut else code, is_cut)


def classic(data, links, frames):
    """Fills `frames`; answers the code of the first fault, and whether the file header is whole."""
    if len(data) < 4:
        return 5, False
    magics = {struct.pack(o + "I", m): (o, u) for o in "<>" for m, u in ((0xA1B2C3D4, 1000), (0xA1B23C4D, 1))}
    if data[:4] not in magics:
        return 1, False
    order, unit = magics[data[:4]]
    if len(data) < 8:
        return 5, False
    if struct.unpack(order + "HH", data[4:8]) != (2, 4):
        return 2, False
    if len(data) < 24:
        return 5, False
    link = struct.unpack(order + "I", data[20:24])[0] % 65536
    if link not in links:
        return 3, True
    at = 24
    while at < len(data):
        if at + 16 > len(data):
            return 5, True
        seconds, fraction, captured, length = struct.unpack(order + "IIII", data[at : at + 16])
        if captured > MOST:
            return 4, True
        if at + 16 + captured > len(data):
            return 5, True
        frames.append(Frame(seconds * 10**9 + fraction * unit, length, data[at + 16 : at + 16 + captured], link))
        at += 16 + captured
    return 0, True


def blocks(data, links, frames):
    """The same of pcapng."""
    at, order, interfaces = 0, "<", []
    while at < len(data):
        is_section = data[at : at + 4] == b"\x0a\x0d\x0d\x0a"
        if len(data) - at < (12 if is_section else 8):
            return 25, at > 0
        if is_section:
            magic = data[at + 8 : at + 12]
            if magic not in (b"\x4d\x3c\x2b\x1a", b"\x1a\x2b\x3c\x4d"):
                return 21, at > 0
            order, interfaces = "<" if magic[0] == 0x4D else ">", []
        kind, total = struct.unpack(order + "II", data[at : at + 8])
        least = {0x0A0D0D0A: 28, 1: 20, 6: 32, 3: 16}.get(kind)
        if total % 4 or total < (least or 12) or least and total > 2**20:
            return 27, at > 0
        if at + total > len(data):
            return 25, at > 0
        block = data[at : at + total]
        if struct.unpack(order + "I", block[-4:])[0] != total:
            return 27, at > 0
        if is_section and struct.unpack(order + "H", block[12:14])[0] != 1:
            return 22, at > 0
        if kind == 1:
            link, _, snaplen = struct.unpack(order + "HHI", block[8:16])
            interfaces.append((link, snaplen, resolution(order, block[16:-4])))
        if kind in (3, 6):
            code = packet(order, kind, block, interfaces, links, frames)
            if code:
                return code, True
        at += total
    return 0, True


def resolution(order, options):
    """How many nanoseconds a unit of time has, as a fraction."""
    value, at = 6, 0
    while at + 4 <= len(options):
        code, size = struct.unpack(order + "HH", options[at : at + 4])
        if code == 0 or at + 4 + size > len(options):
            break
        if (code, size) == (9, 1):
            value = options[at + 4]
        at += 4 + (size + 3) // 4 * 4
    return (10**9, 10**value) if value < 128 else (10**9, 2 ** (value - 128))


def packet(order, kind, block, interfaces, links, frames):
    """Takes the frame of an enhanced or a simple packet block; answers a fault's code, or 0."""
    number, high, low, captured, length = struct.unpack(order + "IIIII", block[8:28].ljust(20, b"\0"))
    if kind == 3:
        number, high, low, length = 0, 0, 0, number
    if number >= len(interfaces):
        return 28
    link, snaplen, (over, under) = interfaces[number]
    room = len(block) - (16 if kind == 3 else 32)
    if kind == 3:
        captured = min(length, snaplen or length, room)
    if link not in links:
        return 23
    if captured > MOST:
        return 24
    if captured > room:
        return 27
    begin = 12 if kind == 3 else 28
    ts = min((high * 2**32 + low) * over // under, 2**64 - 1)
    frames.append(Frame(ts, length, block[begin : begin + captured], link))
    return 0


def number(data, at, size):
    """The number of `size` bytes at a place, the highest byte first."""
    return int.from_bytes(data[at : at + size], "big")


def carried(frame, is_wide):
    """The VLAN, the type of what a frame carries, and where that begins."""
    f, c = frame.data, len(frame.data)
    if frame.link in (101, 228, 229):
        return 0, {4: 0x0800, 6: 0x86DD}.get(f[0] // 16, 0) if c >= 1 else 0, 0
    if frame.link in (0, 108):
        either = {number(f, 0, 4), number(f[3::-1], 0, 4)} if c >= 4 else set()
        return 0, 0x0800 if 2 in either else 0x86DD if either & {10, 24, 28, 30} else 0, 4
    t, q = {1: (12, 14), 113: (14, 16), 276: (0, 20)}[frame.link]
    etype = number(f, t, 2) if c >= t + 2 else 0
    vlan = 0
    tags = (0x8100, 0x88A8) if is_wide else (0x8100,)
    for turn in range(2 if is_wide else 1):
        if etype in tags and c >= q + 4:
            vlan = number(f, q, 2) % 4096 if turn == 0 else vlan
            etype, q = number(f, q + 2, 2), q + 4
        else:
            break
    return vlan, etype, q


def behind(f, protocol, o, end, stop, icmp, it):
    """Reads a TCP, UDP or ICMP header at o, if it is there up to `end`. By its own length the packet ends at `stop`."""
    if protocol == 6 and o + 20 <= end:
        it.update(kind=2, sport=number(f, o, 2), dport=number(f, o + 2, 2), seq=number(f, o + 4, 4))
        it.update(ack=number(f, o + 8, 4), flags=f[o + 13], win=number(f, o + 14, 2))
        it["payload"] = max(0, stop - o - f[o + 12] // 16 * 4)
        it.update({name: int(it["flags"] & bit > 0) for name, bit in FLAGS.items()})
    if protocol == 17 and o + 8 <= end:
        it.update(kind=3, sport=number(f, o, 2), dport=number(f, o + 2, 2), payload=max(0, number(f, o + 4, 2) - 8))
    if protocol == icmp and o + 2 <= end:
        it.update(icmp_type=f[o], icmp_code=f[o + 1])


def four(f, q, length, it):
    """Reads an IPv4 header (RFC 791) at q, and what is behind it."""
    c = len(f)
    if c < q + 20 or f[q] // 16 != 4 or f[q] % 16 < 5 or c < q + 4 * (f[q] % 16):
        return
    it.update(kind=1, tos=f[q + 1], iplen=number(f, q + 2, 2), ttl=f[q + 8], proto=f[q + 9])
    it.update(src=number(f, q + 12, 4), dst=number(f, q + 16, 4))
    stop = q + it["iplen"] if it["iplen"] else length
    end = min(c, stop) if it["iplen"] else c
    if number(f, q + 6, 2) % 8192 == 0:
        behind(f, it["proto"], q + 4 * (f[q] % 16), end, stop, 1, it)
    mapped = bytes(10) + b"\xff\xff"
    it["flow"] = flow(mapped + f[q + 12 : q + 16], mapped + f[q + 16 : q + 20], it)


def six(f, q, length, it):
    """Reads an IPv6 header (RFC 8200) at q, the headers that are passed over, and what is behind them."""
    c = len(f)
    if c < q + 40 or f[q] // 16 != 6:
        return
    payload = number(f, q + 4, 2)
    it.update(kind=1, tos=f[q] % 16 * 16 + f[q + 1] // 16, iplen=min(payload + 40, 65535), ttl=f[q + 7])
    it.update({name: number(f, q + 8 + 8 * k, 8) for k, name in enumerate(HALVES)})
    stop = q + 40 + payload if payload else length
    end = min(c, stop) if payload else c
    n, o, passed, first = f[q + 6], q + 40, 0, True
    while first and passed < 8 and n in (0, 43, 44, 51, 60) and o + 8 <= end:
        size = 8 if n == 44 else 4 * (f[o + 1] + 2) if n == 51 else 8 * (f[o + 1] + 1)
        if o + size > end:
            break
        first = n != 44 or number(f, o + 2, 2) // 8 == 0
        n, o, passed = f[o], o + size, passed + 1
    it["proto"] = n
    if first:
        behind(f, n, o, end, stop, 58, it)
    it["flow"] = flow(f[q + 8 : q + 24], f[q + 24 : q + 40], it)


def flow(source, target, it):
    """FNV-1a of 64 bits over both endpoints, the lesser one first, and the protocol."""
    ends = sorted([source + struct.pack(">H", it["sport"]), target + struct.pack(">H", it["dport"])])
    found = 0xCBF29CE484222325
    for byte in b"".join(ends) + bytes([it["proto"]]):
        found = (found ^ byte) * 0x100000001B3 % 2**64
    return found


def row(frame, schema):
    """The values of a frame by their names."""
    f = frame.data
    it = dict.fromkeys(NAMES + HALVES + MORE, 0)
    has_macs = frame.link == 1 and len(f) >= 14
    it.update(ts=frame.ts, caplen=len(f), len=frame.length)
    it.update(dmac=f[:6] if has_macs else bytes(6), smac=f[6:12] if has_macs else bytes(6))
    it["vlan"], it["etype"], q = carried(frame, schema == "packet6")
    if it["etype"] == 0x0800:
        four(f, q, frame.length, it)
    if it["etype"] == 0x86DD and schema == "packet6":
        six(f, q, frame.length, it)
    return it if schema == "packet6" else {name: it[name] for name in NAMES}


def text_of(name, value):
    """A value as a dump has it."""
    if name in ("src", "dst"):
        return str(ipaddress.IPv4Address(value))
    if name in HALVES:
        return f"0x{value:016x}"
    return f"0x{value.hex()}" if isinstance(value, bytes) else str(value)


def line_of(k, it):
    """The line of a row in a dump."""
    return " ".join([str(k), *(f"{name}={text_of(name, value)}" for name, value in it.items())])


def dump(data, schema="packet", truncated=False):
    """The status and the text of a dump."""
    frames, code, is_cut = read(data, LINKS[schema], truncated)
    if code:
        return 3, f"capture: record {len(frames)} code {code}\n"
    lines = [f"records {len(frames)}", *(line_of(k, row(it, schema)) for k, it in enumerate(frames))]
    return 0, "".join(f"{it}\n" for it in lines + [f"truncated: record {len(frames)}"] * is_cut)


def main():
    parser = argparse.ArgumentParser(description=__doc__.split("\n")[0])
    parser.add_argument("--schema", choices=sorted(LINKS), default="packet")
    parser.add_argument("--truncated", action="store_true")
    parser.add_argument("capture")
    words = parser.parse_args()
    status, text = dump(pathlib.Path(words.capture).read_bytes(), words.schema, words.truncated)
    sys.stdout.write(text)
    sys.exit(status)


if __name__ == "__main__":
    main()
