#!/usr/bin/env python3
"""Writes the captures of the incidents: classic pcap files and one of pcapng, the same bytes at each run.

    examples/incidents/make_captures.py [FOLDER]

FOLDER is where the files go; the folder of this script where it is not said. All addresses are of the ranges that are set
aside for documentation (RFC 5737, RFC 3849), and the addresses of the link are locally administered. Of each frame the first
96 bytes are kept, as `tcpdump -s 96` does; payloads are zeros.
"""

import ipaddress
import pathlib
import struct
import sys

KEPT = 96
ETHERNET, COOKED_V2 = 1, 276
FIN, SYN, RST, PSH, ACK = 1, 2, 4, 8, 16


def number_of(address):
    """An IPv4 address as four bytes."""
    return bytes(int(part) for part in address.split("."))


def checksum(data):
    """The Internet checksum (RFC 1071)."""
    if len(data) % 2:
        data += b"\0"
    total = sum(struct.unpack(f">{len(data) // 2}H", data))
    while total >> 16:
        total = (total & 0xFFFF) + (total >> 16)
    return ~total & 0xFFFF


def block(kind, body):
    """A block of a pcapng file."""
    body += bytes(-len(body) % 4)
    size = struct.pack("<I", len(body) + 12)
    return struct.pack("<I", kind) + size + body + size


class Capture:
    """Frames with their times in microseconds from a start in seconds, sorted by time when they are written."""

    def __init__(self, start, link=ETHERNET):
        self.start, self.link = start, link
        self.frames = []
        # what is left of the time to live of who is not near
        self.ttls = {}

    def packet(self, at, sender, receiver, protocol, header, data, sum_at, tag=None):
        """An IPv4 packet in an Ethernet frame, `at` microseconds after the start. `sum_at` is where its header has its checksum."""
        pseudo = number_of(sender) + number_of(receiver) + struct.pack(">BBH", 0, protocol, len(header) + len(data))
        header = header[:sum_at] + struct.pack(">H", checksum(pseudo + header + data)) + header[sum_at + 2 :]
        ip = struct.pack(">BBHHHBBH", 0x45, 0, 20 + len(header) + len(data), 0, 0x4000, self.ttls.get(sender, 64), protocol, 0) + number_of(sender) + number_of(receiver)
        ip = ip[:10] + struct.pack(">H", checksum(ip)) + ip[12:]
        # who is no neighbour comes by the router
        macs = [b"\x02\0\0\0\0" + number_of(it)[3:] if it.startswith("192.0.2.") else b"\x02\0\0\0\0\xfe" for it in (receiver, sender)]
        vlan = b"" if tag is None else struct.pack(">HH", 0x8100, tag)
        self.frames.append((at, macs[0] + macs[1] + vlan + b"\x08\x00" + ip + header + data))

    def segment(self, at, sender, sport, receiver, dport, flags, length=0, seq=0, ack=0, window=64240, tag=None):
        """A TCP segment with a payload of `length` bytes."""
        header = struct.pack(">HHIIBBHHH", sport, dport, seq, ack, 0x50, flags, window, 0, 0)
        self.packet(at, sender, receiver, 6, header, bytes(length), 16, tag)

    def segment6(self, at, sender, sport, receiver, dport, flags, length=0, seq=0, ack=0, options=b""):
        """A TCP segment over IPv6 in a cooked frame of version 2, behind a header of destination options where there is one."""
        ends = ipaddress.ip_address(sender).packed + ipaddress.ip_address(receiver).packed
        size = 20 + length
        tcp = struct.pack(">HHIIBBHHH", sport, dport, seq, ack, 0x50, flags, 64240, 0, 0)
        tcp = tcp[:16] + struct.pack(">H", checksum(ends + struct.pack(">II", size, 6) + tcp + bytes(length))) + tcp[18:]
        first = 60 if options else 6
        ip = struct.pack(">IHBB", 6 << 28, len(options) + size, first, 64) + ends
        # of the interface 2, received where it is for the server
        cooked = struct.pack(">HHIHBB8s", 0x86DD, 0, 2, 1, 4 if sport == 443 else 0, 6, b"\x02\0\0\0\0\xfe")
        self.frames.append((at, cooked + ip + options + tcp + bytes(length)))

    def datagram(self, at, sender, sport, receiver, dport, data, tag=None):
        """A UDP datagram."""
        self.packet(at, sender, receiver, 17, struct.pack(">HHHH", sport, dport, 8 + len(data), 0), data, 6, tag)

    def visit(self, at, client, port, server, service, answer):
        """A client opens a connection, asks, is answered with `answer` bytes, and both close it."""
        there = (client, port, server, service)
        back = (server, service, client, port)
        self.segment(at, *there, SYN, seq=1000)
        self.segment(at + 300, *back, SYN | ACK, seq=5000, ack=1001)
        self.segment(at + 900, *there, ACK, seq=1001, ack=5001)
        self.segment(at + 1000, *there, PSH | ACK, 310, seq=1001, ack=5001)
        self.segment(at + 4000, *back, PSH | ACK, answer, seq=5001, ack=1311)
        self.segment(at + 4600, *there, FIN | ACK, seq=1311, ack=5001 + answer)
        self.segment(at + 4900, *back, FIN | ACK, seq=5001 + answer, ack=1312)
        self.segment(at + 5500, *there, ACK, seq=1312, ack=5002 + answer)

    def opening(self, at, client, port, server, service):
        """A client opens a connection."""
        self.segment(at, client, port, server, service, SYN, seq=1000)
        self.segment(at + 900, server, service, client, port, SYN | ACK, seq=5000, ack=1001)
        self.segment(at + 1200, client, port, server, service, ACK, seq=1001, ack=5001)

    def exchange(self, at, count, client, port, server, service):
        """It asks with 120 bytes for the time of that count, from 0, and is answered with 400."""
        there, back = 1001 + 120 * count, 5001 + 400 * count
        self.segment(at, client, port, server, service, PSH | ACK, 120, seq=there, ack=back)
        self.segment(at + 2100, server, service, client, port, PSH | ACK, 400, seq=back, ack=there + 120)
        self.segment(at + 2400, client, port, server, service, ACK, seq=there + 120, ack=back + 400)

    def blocks(self):
        """The file as pcapng."""
        out = block(0x0A0D0D0A, struct.pack("<IHHq", 0x1A2B3C4D, 1, 0, -1)) + block(1, struct.pack("<HHI", self.link, 0, KEPT))
        for at, frame in sorted(self.frames, key=lambda it: it[0]):
            kept, ticks = frame[:KEPT], self.start * 10**6 + at
            out += block(6, struct.pack("<IIIII", 0, ticks >> 32, ticks & 0xFFFFFFFF, len(kept), len(frame)) + kept)
        return out

    def bytes(self):
        """The file."""
        out = struct.pack("<IHHIIII", 0xA1B2C3D4, 2, 4, 0, 0, KEPT, self.link)
        for at, frame in sorted(self.frames, key=lambda it: it[0]):
            kept = frame[:KEPT]
            out += struct.pack("<IIII", self.start + at // 10**6, at % 10**6, len(kept), len(frame)) + kept
        return out


def syn_flood():
    """Twenty seconds at a web server. From second 12 to 15 it is flooded with openings from made-up addresses."""
    server = "192.0.2.80"
    capture = Capture(1700053200)
    for k in range(8):
        capture.visit(k * 2_400_000 + 130_000, f"192.0.2.{20 + k}", 50000 + k, server, 443, 700 + 90 * k)
    for k in range(160):
        at = 12_000_000 + k * 25_000
        sender = f"198.51.100.{1 + k * 37 % 250}" if k % 2 else f"203.0.113.{1 + k * 53 % 250}"
        capture.segment(at, sender, 1024 + k * 97 % 60000, server, 443, SYN, seq=k * 7919)
        if k < 64:
            capture.segment(at + 200, server, 443, sender, 1024 + k * 97 % 60000, SYN | ACK, seq=9000 + k, ack=k * 7919 + 1)
    # a customer who gets no answer, and tries again
    for at in (14_010_000, 15_010_000, 17_010_000):
        capture.segment(at, "192.0.2.40", 51000, server, 443, SYN, seq=77)
    capture.segment(17_010_300, server, 443, "192.0.2.40", 51000, SYN | ACK, seq=6000, ack=78)
    capture.segment(17_010_900, "192.0.2.40", 51000, server, 443, ACK, seq=78, ack=6001)
    return capture.bytes()


def port_scan():
    """Twelve seconds at a server with ssh and a web site. A stranger tries its ports one after the other."""
    server, stranger = "192.0.2.10", "203.0.113.77"
    capture = Capture(1700139600)
    for k in range(5):
        capture.visit(k * 2_200_000 + 410_000, f"192.0.2.{30 + k}", 52000 + k, server, 80, 1200)
    # someone who has the wrong port once
    capture.segment(1_700_000, "192.0.2.33", 53000, server, 8080, SYN, seq=5)
    capture.segment(1_700_200, server, 8080, "192.0.2.33", 53000, RST | ACK, ack=6)
    for k, port in enumerate(range(15, 85)):
        at = 3_000_000 + k * 90_000
        capture.segment(at, stranger, 40000 + k, server, port, SYN, seq=k, window=1024)
        if port in (22, 80):
            capture.segment(at + 150, server, port, stranger, 40000 + k, SYN | ACK, seq=8000 + k, ack=k + 1)
            capture.segment(at + 40_000, stranger, 40000 + k, server, port, RST, seq=k + 1, window=0)
        else:
            capture.segment(at + 150, server, port, stranger, 40000 + k, RST | ACK, ack=k + 1, window=0)
    return capture.bytes()


def name_of(text):
    """A name as DNS writes it (RFC 1035)."""
    return b"".join(bytes([len(it)]) + it.encode() for it in text.split(".")) + b"\0"


def resolver():
    """Twelve seconds at a resolver, which fails from second 5 to 8: it answers with the question alone, and late."""
    server = "192.0.2.53"
    capture = Capture(1700226000)
    for k in range(60):
        at, client, port = k * 200_000 + 20_000, f"192.0.2.{20 + k % 7}", 30000 + k * 31
        question = name_of(f"host{k % 9}.example.com") + struct.pack(">HH", 1, 1)
        capture.datagram(at, client, port, server, 53, struct.pack(">HHHHHH", k, 0x0100, 1, 0, 0, 0) + question)
        if 5_000_000 <= at < 9_000_000:
            # SERVFAIL
            capture.datagram(at + 1_900_000, server, 53, client, port, struct.pack(">HHHHHH", k, 0x8182, 1, 0, 0, 0) + question)
        else:
            answer = struct.pack(">HHHIH", 0xC00C, 1, 1, 300, 4) + number_of(f"192.0.2.{100 + k % 9}")
            capture.datagram(at + 1_200, server, 53, client, port, struct.pack(">HHHHHH", k, 0x8180, 1, 1, 0, 0) + question + answer)
    return capture.bytes()


def microburst():
    """Two seconds on a link of 100 Mbit/s, which looks idle by the second. In one millisecond two hosts send at once."""
    capture = Capture(1700312400)
    for k in range(100):
        capture.segment(k * 20_000 + 500, "192.0.2.15", 55000, "192.0.2.90", 9000, PSH | ACK, 400, seq=1 + 400 * k, ack=1)
    for k in range(12):
        for sender, port in (("192.0.2.16", 55001), ("192.0.2.17", 55002)):
            capture.segment(1_234_050 + k * 70, sender, port, "192.0.2.90", 9000, ACK, 1460, seq=1 + 1460 * k, ack=1)
    return capture.bytes()


def stray_vlan():
    """Four seconds on a trunk that is to carry the VLANs 10 and 20. Somebody sends into VLAN 99."""
    capture = Capture(1700398800)
    for k in range(40):
        tag = 10 if k % 2 else 20
        capture.segment(k * 100_000, f"192.0.2.{40 + k % 4}", 56000 + k % 4, "192.0.2.200", 443, PSH | ACK, 120 + k, seq=1, ack=1, tag=tag)
    for k in range(3):
        capture.datagram(1_250_000 + k * 700_000, "192.0.2.66", 5353, "192.0.2.201", 5353, bytes(30 + k), tag=99)
    return capture.bytes()


def full_link():
    """Twelve seconds at the router of a field station, before its radio link of 256 kbit/s. From second 4 to 8 one host fills it."""
    capture = Capture(1700485200)
    # three sensors tell their readings each second; over a full link the acknowledgements are late
    for k in range(36):
        at, sensor = k // 3 * 1_000_000 + k % 3 * 310_000 + 40_000, f"192.0.2.{(20, 40, 55)[k % 3]}"
        late = 950_000 if 4_000_000 <= at < 9_000_000 else 90_000
        capture.segment(at, sensor, 57000 + k % 3, "198.51.100.10", 8883, PSH | ACK, 220, seq=1 + 220 * (k // 3), ack=1)
        capture.segment(at + late, "198.51.100.10", 8883, sensor, 57000 + k % 3, ACK, seq=1, ack=221 + 220 * (k // 3))
    there, back = ("192.0.2.31", 57100, "203.0.113.200", 443), ("203.0.113.200", 443, "192.0.2.31", 57100)
    for k in range(102):
        capture.segment(4_000_000 + k * 49_000, *there, ACK, 1460, seq=1 + 1460 * k, ack=1)
        if k % 2:
            capture.segment(4_600_000 + k * 49_000, *back, ACK, seq=1, ack=1461 + 1460 * k)
    return capture.bytes()


def upload(capture, at, client, port, server, first, sizes, arrives=True):
    """A client sends a header, and then segments of these sizes. Where they do not arrive, it sends the first again, and gives up."""
    there, back = (client, port, server, 445), (server, 445, client, port)
    seq = first + 311
    capture.segment(at, *there, SYN, seq=first)
    capture.segment(at + 20_000, *back, SYN | ACK, seq=7000, ack=first + 1)
    capture.segment(at + 20_600, *there, ACK, seq=first + 1, ack=7001)
    capture.segment(at + 21_000, *there, PSH | ACK, 310, seq=first + 1, ack=7001)
    capture.segment(at + 41_000, *back, ACK, seq=7001, ack=seq)
    at += 42_000
    if not arrives:
        for late in (240_000, 720_000, 1_680_000, 3_600_000):
            capture.segment(at + late, *there, ACK, sizes[0], seq=seq, ack=7001)
    for k, size in enumerate(sizes):
        capture.segment(at, *there, PSH | ACK if k == len(sizes) - 1 else ACK, size, seq=seq, ack=7001)
        seq += size
        if arrives:
            capture.segment(at + 20_000, *back, ACK, seq=7001, ack=seq)
        at += 9_000
    if arrives:
        capture.segment(at + 40_000, *there, FIN | ACK, seq=seq, ack=7001)
        capture.segment(at + 60_000, *back, FIN | ACK, seq=7001, ack=seq + 1)
        capture.segment(at + 60_600, *there, ACK, seq=seq + 1, ack=7002)
    else:
        capture.segment(at + 5_000_000, *there, RST | ACK, seq=seq, ack=7001)


def broken_uploads():
    """Twelve seconds at an office's router. Of what goes to one of two file servers, long segments do not arrive."""
    capture = Capture(1700571600)
    broken, sound = "198.51.100.60", "198.51.100.61"
    for k, size in enumerate((500, 900, 1200, 700)):
        upload(capture, k * 2_900_000 + 350_000, f"192.0.2.{21 + k}", 58000 + k, broken, 1_000_000_000 + k * 50_000_000, [size])
    for k, at in enumerate((1_100_000, 3_400_000, 6_200_000)):
        upload(capture, at, f"192.0.2.{31 + k}", 58100 + k, broken, 2_000_000_000 + k * 50_000_000, [1460, 1460], False)
    for k, at in enumerate((2_600_000, 8_800_000)):
        upload(capture, at, f"192.0.2.{31 + k}", 58200 + k, sound, 3_000_000_000 + k * 50_000_000, [1460, 1460, 1460, 1460, 1200])
    return capture.bytes()


def lost(behind):
    """Ten seconds at the router before a provider's line, or at the one behind it. Most of the long packets to one server get lost between."""
    capture = Capture(1700658000)
    for k in range(120):
        is_long = k % 8 == 3
        if behind and is_long and k % 24 != 3:
            continue
        receiver = f"198.51.100.{(80, 80, 85, 90)[k % 4]}"
        at = k * 80_000 + (4_000 if behind else 0)
        capture.segment(at, f"192.0.2.{20 + k % 5}", 59000 + k % 5, receiver, 443, PSH | ACK, 1460 if is_long else 300 + k, seq=1 + 2000 * k, ack=1)
    return capture.bytes()


def cut_off():
    """Eight seconds of a backup whose server runs full. The host that captured ran full too: the last packet is cut off."""
    there, back = ("192.0.2.15", 58500, "198.51.100.70", 873), ("198.51.100.70", 873, "192.0.2.15", 58500)
    capture = Capture(1700830800)
    for k in range(24):
        capture.segment(k * 250_000 + 20_000, *there, ACK, 1460, seq=1 + 1460 * k, ack=1)
        window = max(0, 29200 - 1460 * k) if k > 2 else 64240
        capture.segment(k * 250_000 + 60_000, *back, ACK, seq=1, ack=1461 + 1460 * k, window=window)
    for k in range(3):
        capture.segment(6_200_000 + k * 600_000, *there, ACK, seq=1460 * 24, ack=1)
        capture.segment(6_240_000 + k * 600_000, *back, ACK, seq=1, ack=1 + 1460 * 24, window=0)
    capture.segment(8_100_000, *back, RST, seq=1, window=0)
    return capture.bytes()[:-20]


def many_addresses():
    """Twenty seconds at a web server, on all of its interfaces. From second 8 on one network opens connections, each from another address."""
    server = "2001:db8:0:80::80"
    # a header for TCP, with padding
    options = bytes([6, 0, 1, 4, 0, 0, 0, 0])
    capture = Capture(1700917200, COOKED_V2)

    def visit(at, client, port, answer):
        there, back = (client, port, server, 443), (server, 443, client, port)
        capture.segment6(at, *there, SYN, seq=1000)
        capture.segment6(at + 300, *back, SYN | ACK, seq=5000, ack=1001)
        capture.segment6(at + 900, *there, ACK, seq=1001, ack=5001)
        capture.segment6(at + 1000, *there, PSH | ACK, 310, seq=1001, ack=5001)
        capture.segment6(at + 4000, *back, PSH | ACK, answer, seq=5001, ack=1311)
        capture.segment6(at + 4600, *there, FIN | ACK, seq=1311, ack=5001 + answer)

    for k in range(9):
        visit(k * 2_100_000 + 130_000, f"2001:db8:0:{k % 5 + 1:x}::{32 + k:x}", 50000 + k, 700 + 90 * k)
    for k in range(96):
        client = f"2001:db8:0:42:{k * 7919 % 65536:x}:{k * 104729 % 65536:x}:{k * 1299709 % 65536:x}:{k + 1:x}"
        there, back = (client, 40000 + k, server, 443), (server, 443, client, 40000 + k)
        at = 8_000_000 + k * 62_500
        capture.segment6(at, *there, SYN, seq=k * 31, options=options)
        capture.segment6(at + 200, *back, SYN | ACK, seq=9000, ack=k * 31 + 1)
    return capture.bytes()


def idle(part):
    """A file of a ring at an office's router. For ninety minutes applications ask a database, and one is silent for over an hour."""
    server, each = "198.51.100.80", 35
    capture = Capture(1701003600)
    capture.ttls[server] = 56
    asked = {30: (20, 50, 80), 31: range(60, 5400, 1140), 32: (90, 3050), 33: range(120, 5400, 300)}
    for host, times in asked.items():
        words = (f"192.0.2.{host}", 50000 + host, server, 5432)
        capture.opening(host * 200_000, *words)
        for count, at in enumerate(times):
            capture.exchange(at * 10**6 + host * 1000, count, *words)
    # the firewall before the database no longer knows the connection, and resets it in the database's name
    again = 4340 * 10**6
    capture.segment(again, "192.0.2.30", 50030, server, 5432, PSH | ACK, 120, seq=1361, ack=6201)
    capture.ttls[server] = 63
    capture.segment(again + 400, server, 5432, "192.0.2.30", 50030, RST, seq=6201, window=0)
    capture.ttls[server] = 56
    words = ("192.0.2.30", 50100, server, 5432)
    capture.opening(again + 2_000_000, *words)
    capture.exchange(again + 2_100_000, 0, *words)
    capture.frames = sorted(capture.frames, key=lambda it: it[0])[part * each : (part + 1) * each]
    return capture.blocks() if part == 1 else capture.bytes()


CAPTURES = {
    "syn_flood": syn_flood,
    "port_scan": port_scan,
    "resolver": resolver,
    "microburst": microburst,
    "stray_vlan": stray_vlan,
    "full_link": full_link,
    "broken_uploads": broken_uploads,
    "lost_before": lambda: lost(False),
    "lost_behind": lambda: lost(True),
    "cut_off": cut_off,
    "many_addresses": many_addresses,
}
# The files of a ring by their names.
RING = {"idle0.pcap": lambda: idle(0), "idle1.pcapng": lambda: idle(1), "idle2.pcap": lambda: idle(2)}
FILES = {f"{name}.pcap": made for name, made in CAPTURES.items()} | RING


def main():
    folder = pathlib.Path(sys.argv[1]) if len(sys.argv) > 1 else pathlib.Path(__file__).parent
    for name, made in FILES.items():
        (folder / name).write_bytes(made())


if __name__ == "__main__":
    main()
