#!/usr/bin/env python3
"""Writes the captures of this folder, one for each format that is read beside plain Ethernet: the same bytes at each run.

    examples/formats/make_captures.py [FOLDER]

FOLDER is where the files go; the folder of this script where it is not said. All addresses are of the ranges that are set
aside for documentation (RFC 5737), and the addresses of the link are locally administered. Payloads are zeros, and the
checksums of the transport headers are left 0.
"""

import pathlib
import struct
import sys

START = 1_700_000_000
HOST, RESOLVER, SERVER = "192.0.2.10", "198.51.100.53", "203.0.113.80"
MAC_HOST, MAC_ROUTER = b"\x02\0\0\0\0\x0a", b"\x02\0\0\0\0\xfe"
ETHERNET, COOKED = 1, 113
IPV4, ARP, TAG = 0x0800, 0x0806, 0x8100


def number_of(address):
    """An IPv4 address as four bytes."""
    return bytes(int(part) for part in address.split("."))


def ipv4(sender, receiver, protocol, data):
    """An IPv4 packet."""
    head = struct.pack(">BBHHHBBH", 0x45, 0, 20 + len(data), 0, 0x4000, 64, protocol, 0) + number_of(sender) + number_of(receiver)
    total = sum(struct.unpack(">10H", head))
    total = (total & 0xFFFF) + (total >> 16)
    total = (total & 0xFFFF) + (total >> 16)
    return head[:10] + struct.pack(">H", 0xFFFF - total) + head[12:] + data


def datagram(sender, sport, receiver, dport, length):
    """A UDP datagram of so many zeros."""
    return ipv4(sender, receiver, 17, struct.pack(">HHHH", sport, dport, 8 + length, 0) + bytes(length))


def first_segment(sender, sport, receiver, dport):
    """The TCP segment that opens a connection."""
    return ipv4(sender, receiver, 6, struct.pack(">HHIIBBHHH", sport, dport, 1000, 0, 0x50, 2, 64240, 0, 0))


def ethernet(receiver, sender, kind, data, tags=()):
    """An Ethernet frame with 802.1Q tags."""
    return receiver + sender + b"".join(struct.pack(">HH", TAG, tag) for tag in tags) + struct.pack(">H", kind) + data


def cooked(way, sender, kind, data):
    """A frame as Linux hands it out at the device `any` (LINKTYPE_LINUX_SLL). `way` is 0 for a frame to this host, 4 for one from it."""
    return struct.pack(">HHH", way, 1, 6) + sender + b"\0\0" + struct.pack(">H", kind) + data


QUERY = datagram(HOST, 40001, RESOLVER, 53, 30)
ANSWER = datagram(RESOLVER, 53, HOST, 40001, 46)
OPENING = first_segment(HOST, 50001, SERVER, 443)
ASKING = struct.pack(">HHBBH", 1, IPV4, 6, 4, 1) + MAC_HOST + number_of(HOST) + bytes(6) + number_of("192.0.2.1")

TRUNK = [
    (0, ethernet(MAC_ROUTER, MAC_HOST, IPV4, QUERY, [0x000A])),
    (900, ethernet(MAC_HOST, MAC_ROUTER, IPV4, ANSWER, [0x000A])),
    # its priority is 5
    (2000, ethernet(MAC_ROUTER, MAC_HOST, IPV4, OPENING, [0xA014])),
    # a tag in a tag: only the outer one is read
    (3000, ethernet(MAC_ROUTER, MAC_HOST, IPV4, OPENING, [0x001E, 0x0014])),
    # a frame without a tag
    (4000, ethernet(b"\xff" * 6, MAC_HOST, ARP, ASKING)),
]

ANY = [
    (0, cooked(4, MAC_HOST, IPV4, QUERY)),
    (900, cooked(0, MAC_ROUTER, IPV4, ANSWER)),
    (2000, cooked(4, MAC_HOST, IPV4, OPENING)),
    (3000, cooked(0, MAC_ROUTER, ARP, ASKING)),
    (4000, cooked(4, MAC_HOST, TAG, struct.pack(">HH", 0x0014, IPV4) + OPENING)),
]


def pcap(link, frames):
    """A classic capture of these frames, each so many microseconds after the start."""
    out = struct.pack("<IHHIIII", 0xA1B2C3D4, 2, 4, 0, 0, 262144, link)
    for at, frame in frames:
        out += struct.pack("<IIII", START, at, len(frame), len(frame)) + frame
    return out


def block(order, kind, body):
    """A block of a file of the next generation, in a byte order."""
    body += bytes(-len(body) % 4)
    total = struct.pack(order + "I", 12 + len(body))
    return struct.pack(order + "I", kind) + total + body + total


def section(order):
    """A section header, which does not say how long its section is."""
    return block(order, 0x0A0D0D0A, struct.pack(order + "IHHq", 0x1A2B3C4D, 1, 0, -1))


def interface(order, link, snaplen, resolution=None):
    """An interface, with the option if_tsresol where a resolution is said."""
    options = b"" if resolution is None else struct.pack(order + "HHB3xHH", 9, 1, resolution, 0, 0)
    return block(order, 1, struct.pack(order + "HHI", link, 0, snaplen) + options)


def packet(order, number, time, frame):
    """An enhanced packet of the interface of that number; `time` is in its units."""
    return block(order, 6, struct.pack(order + "IIIII", number, time >> 32, time & 0xFFFFFFFF, len(frame), len(frame)) + frame)


def pcapng():
    """Two sections: of an Ethernet and a cooked interface in little-endian order, and of an Ethernet one in big-endian order."""
    nanoseconds = START * 10**9
    microseconds = START * 10**6
    (_, query), (_, answer), (_, opening), *_ = TRUNK
    out = section("<") + interface("<", ETHERNET, 0, 9) + interface("<", COOKED, 0)
    out += packet("<", 0, nanoseconds + 123, query)
    out += packet("<", 1, microseconds + 900, ANY[1][1])
    # the interface's statistics, which are passed over
    out += block("<", 5, struct.pack("<III", 0, 0, 0))
    out += section(">") + interface(">", ETHERNET, 64)
    out += packet(">", 0, microseconds + 2000, opening)
    # a simple packet has no time, and is cut to the interface's snapshot length
    out += block(">", 3, struct.pack(">I", len(answer)) + answer[:64])
    return out


def main():
    folder = pathlib.Path(sys.argv[1]) if len(sys.argv) > 1 else pathlib.Path(__file__).parent
    for name, data in [("tagged.pcap", pcap(ETHERNET, TRUNK)), ("cooked.pcap", pcap(COOKED, ANY)), ("sections.pcapng", pcapng())]:
        (folder / name).write_bytes(data)


if __name__ == "__main__":
    main()
