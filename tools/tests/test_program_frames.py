"""Frames as the built program dumps them, by tables. Flows were computed by another program."""

from __future__ import annotations

import struct
import unittest

from program_cases import ADDRESSES, SEGMENT, Cases, header, record

FRAME = ADDRESSES + SEGMENT
TAGGED = ADDRESSES + bytes.fromhex("8100 2005") + SEGMENT
TWICE = ADDRESSES + bytes.fromhex("8100 ffff 8100 0006") + SEGMENT
SERVICE = ADDRESSES + bytes.fromhex("88a8 2005") + SEGMENT
LENGTH = ADDRESSES + bytes.fromhex("8100 2005 0026 424203")
COOKED_HEAD = bytes.fromhex("0000 0001 0006 020000000002 0000")
COOKED = COOKED_HEAD + SEGMENT
COOKED_TAGGED = COOKED_HEAD + bytes.fromhex("8100 0fff") + SEGMENT
ARP = COOKED_HEAD + bytes.fromhex("0806 0001 0800")
# What an IPv4 packet of the segment's endpoints has as `flow`: by TCP with ports, and without them by TCP, UDP, ICMP and protocol 58.
FLOW, FLOW_TCP, FLOW_UDP = 4101663974625659716, 14115949556883297560, 14115974845650746413
FLOW_ICMP, FLOW_58 = 0xC3E5F4551D5CA0FD, 14115997935394938844
# By UDP with ports, to port 81 in place of 80, and from the sender to itself.
FLOW_PORTS, FLOW_81, FLOW_SELF = 4101680467300082881, 4102616151695501217, 6492142986911155365
# The same of the IPv6 packet: by TCP and UDP with ports, and without by TCP, ICMP, protocol 1 and protocol 0.
FLOW6, FLOW6_PORTS, FLOW6_TCP = 6782462571163054155, 6782485660907246586, 5221520713289434371
FLOW6_ICMP, FLOW6_1, FLOW6_HOP = 0x48766D6C86F5C7D7, 5221526210847575426, 5221527310359203637
LAST = ("payload", "icmp_type", "icmp_code", "is_fin", "is_syn", "is_rst", "is_ack", "flow")
HALVES = ("src6", "src6_low", "dst6", "dst6_low")
HOP = bytes.fromhex("0000010400000000")
HOP_TCP = b"\x06" + HOP[1:]
SYN = struct.pack(">HHIIBBHI", 40000, 443, 0, 0, 0x50, 2, 1024, 0)


def ipv6(length: int, following: int, behind: bytes = b"") -> bytes:
    """An IPv6 packet of class 0xb8 from 2001:db8::1 to 2001:db8:0:1::2, of that payload length and next header, with a SYN at its end."""
    head = struct.pack(">IHBB", 0x6B800000, length, following, 64)
    return head + struct.pack(">4Q", 0x20010DB800000000, 1, 0x20010DB800000001, 2) + behind + SYN


def ethernet(packet: bytes, types: str = "86dd") -> bytes:
    """The packet in a frame of Ethernet."""
    return ADDRESSES + bytes.fromhex(types) + packet


def edited(edits: dict[int, int], frame: bytes = FRAME) -> bytes:
    """The frame with other bytes at these places."""
    return bytes(edits.get(at, byte) for at, byte in enumerate(frame))


class Frames(Cases):
    def dumped(
        self, link: int, frames: list[bytes], schema: str = "packet6", length: int = 60
    ) -> list[dict[str, int]]:
        """The values of the frames' rows, by their names. Each had that length."""
        self.put(c=header(link) + b"".join(record(it, length, 1) for it in frames))
        status, text = self.answer(("dump", "--schema", schema, "c"))
        self.assertEqual(status, 0, text)
        rows = []
        for line in text.splitlines()[1:]:
            fields = (it.split("=") for it in line.split()[1:])
            rows.append({name: self.number(value) for name, value in fields})
        self.assertEqual(len(rows), len(frames))
        return rows

    def number(self, value: str) -> int:
        if "." in value:
            return int.from_bytes(bytes(map(int, value.split("."))), "big")
        return int(value, 0)

    def compare(
        self,
        link: int,
        names: str | tuple[str, ...],
        cases: list[tuple[bytes, list[int]]],
        schema: str = "packet6",
    ) -> None:
        """Each frame's row has these values under the names."""
        words = names.split() if isinstance(names, str) else names
        rows = self.dumped(link, [frame for frame, _ in cases], schema)
        for row, (frame, wanted) in zip(rows, cases):
            self.assertEqual([row[it] for it in words], wanted, frame.hex())

    def test_a_tag_counts_where_it_is_whole(self) -> None:
        for schema in ("packet", "packet6"):
            names = "etype kind dport vlan"
            twice = [0x8100, 0, 0, 0xFFF] if schema == "packet" else [2048, 2, 80, 0xFFF]
            service = [0x88A8, 0, 0, 0] if schema == "packet" else [2048, 2, 80, 5]
            ethernets = [
                (TAGGED, [2048, 2, 80, 5]),
                (TAGGED[:38], [2048, 1, 0, 5]),
                (TAGGED[:37], [2048, 0, 0, 5]),
                (TAGGED[:18], [2048, 0, 0, 5]),
                (TAGGED[:17], [0x8100, 0, 0, 0]),
                (TAGGED[:16], [0x8100, 0, 0, 0]),
                (TAGGED[:14], [0x8100, 0, 0, 0]),
                (TAGGED[:13], [0, 0, 0, 0]),
                (TWICE, twice),
                (SERVICE, service),
                (LENGTH, [0x26, 0, 0, 5]),
            ]
            self.compare(1, names, ethernets, schema)
            cooked = [
                (COOKED, [2048, 2, 80, 0]),
                (COOKED[:36], [2048, 1, 0, 0]),
                (COOKED[:35], [2048, 0, 0, 0]),
                (COOKED[:16], [2048, 0, 0, 0]),
                (COOKED[:15], [0, 0, 0, 0]),
                (COOKED[:14], [0, 0, 0, 0]),
                (COOKED[:13], [0, 0, 0, 0]),
                (ARP, [0x0806, 0, 0, 0]),
                (COOKED_TAGGED, [2048, 2, 80, 4095]),
                (COOKED_TAGGED[:20], [2048, 0, 0, 4095]),
                (COOKED_TAGGED[:19], [0x8100, 0, 0, 0]),
                (TAGGED, [0x2005, 0, 0, 0]),
            ]
            self.compare(113, names, cooked, schema)

    def test_each_frame_has_its_kind(self) -> None:
        cases = []
        # How many bytes there are, two bytes at a place, and the values.
        for count, place, others, wanted in (
            (54, 0, "0200", [2048, 2, 6, 80]),
            (0, 0, "0200", [0, 0, 0, 0]),
            (13, 0, "0200", [0, 0, 0, 0]),
            (40, 12, "0806", [2054, 0, 0, 0]),
            (33, 0, "0200", [2048, 0, 0, 0]),
            (54, 14, "6500", [2048, 0, 0, 0]),
            (54, 14, "4400", [2048, 0, 0, 0]),
            (54, 14, "4f00", [2048, 0, 0, 0]),
            (54, 14, "4600", [2048, 1, 6, 0]),
            (54, 20, "0001", [2048, 1, 6, 0]),
            (54, 20, "2000", [2048, 2, 6, 80]),
            (40, 0, "0200", [2048, 1, 6, 0]),
            (54, 16, "0000", [2048, 2, 6, 80]),
            (54, 16, "0014", [2048, 1, 6, 0]),
            (54, 16, "0027", [2048, 1, 6, 0]),
            (54, 22, "4011", [2048, 3, 17, 80]),
            (41, 22, "4011", [2048, 1, 17, 0]),
            (42, 22, "4011", [2048, 3, 17, 80]),
            (54, 22, "4001", [2048, 1, 1, 0]),
        ):
            frame = FRAME[:place] + bytes.fromhex(others) + FRAME[place + 2 :]
            cases.append((frame[:count], wanted))
        for schema in ("packet", "packet6"):
            self.compare(1, "etype kind proto dport", cases, schema)

    def test_what_a_segment_has_more(self) -> None:
        cases = [
            (edited(edits), wanted)
            for edits, wanted in (
                ({}, [0, 0, 0, 0, 0, 0, 1, FLOW]),
                # The total length: of 60, of 0 (the frame had 60 bytes), and of less than the headers.
                ({17: 60}, [20, 0, 0, 0, 0, 0, 1, FLOW]),
                ({17: 0}, [6, 0, 0, 0, 0, 0, 1, FLOW]),
                ({17: 39}, [0, 0, 0, 0, 0, 0, 0, FLOW_TCP]),
                # The header's length.
                ({17: 80, 46: 0x80}, [28, 0, 0, 0, 0, 0, 1, FLOW]),
                ({17: 60, 46: 0xF0}, [0, 0, 0, 0, 0, 0, 1, FLOW]),
                ({17: 60, 46: 0}, [40, 0, 0, 0, 0, 0, 1, FLOW]),
                # To port 81, and from a host to itself.
                ({37: 81}, [0, 0, 0, 0, 0, 0, 1, FLOW_81]),
                ({32: 0, 33: 12}, [0, 0, 0, 0, 0, 0, 1, FLOW_SELF]),
                # Each flag, and those that have no attribute.
                ({47: 1}, [0, 0, 0, 1, 0, 0, 0, FLOW]),
                ({47: 2}, [0, 0, 0, 0, 1, 0, 0, FLOW]),
                ({47: 4}, [0, 0, 0, 0, 0, 1, 0, FLOW]),
                ({47: 0xE8}, [0, 0, 0, 0, 0, 0, 0, FLOW]),
                ({47: 0xFF}, [0, 0, 0, 1, 1, 1, 1, FLOW]),
                # A first fragment, and a later one.
                ({17: 60, 20: 0x20}, [20, 0, 0, 0, 0, 0, 1, FLOW]),
                ({17: 60, 21: 1}, [0, 0, 0, 0, 0, 0, 0, FLOW_TCP]),
                # UDP of 13 bytes, of 7, of 60 in a first fragment of 20, and a later one.
                ({23: 17, 39: 13}, [5, 0, 0, 0, 0, 0, 0, FLOW_PORTS]),
                ({23: 17, 39: 7}, [0, 0, 0, 0, 0, 0, 0, FLOW_PORTS]),
                ({20: 0x20, 23: 17, 39: 60}, [52, 0, 0, 0, 0, 0, 0, FLOW_PORTS]),
                ({21: 1, 23: 17, 39: 13}, [0, 0, 0, 0, 0, 0, 0, FLOW_UDP]),
                # ICMP: an echo request, an unreachable port, packets of 22 and of 21 bytes, a later fragment; and 58 over IPv4.
                ({23: 1, 34: 8, 35: 0}, [0, 8, 0, 0, 0, 0, 0, FLOW_ICMP]),
                ({23: 1, 34: 3, 35: 3}, [0, 3, 3, 0, 0, 0, 0, FLOW_ICMP]),
                ({17: 22, 23: 1, 34: 11}, [0, 11, 0x1B, 0, 0, 0, 0, FLOW_ICMP]),
                ({17: 21, 23: 1, 34: 8}, [0, 0, 0, 0, 0, 0, 0, FLOW_ICMP]),
                ({21: 1, 23: 1, 34: 8}, [0, 0, 0, 0, 0, 0, 0, FLOW_ICMP]),
                ({23: 58, 34: 128}, [0, 0, 0, 0, 0, 0, 0, FLOW_58]),
                # ARP, and version 6 in a frame of IPv4.
                ({13: 6}, [0] * 8),
                ({14: 0x65}, [0] * 8),
            )
        ]
        self.compare(1, LAST, cases)
        back = FRAME[:26] + FRAME[30:34] + FRAME[26:30] + FRAME[36:38] + FRAME[34:36] + FRAME[38:]
        self.compare(1, "sport dport flow", [(back, [80, 40219, FLOW])])

    def test_what_is_left_of_frames_that_are_cut(self) -> None:
        frame = edited({17: 60})
        fronts = [frame[:count] for count in range(55)]
        narrow, wide = self.dumped(1, fronts, "packet"), self.dumped(1, fronts)
        for count, (few, many) in enumerate(zip(narrow, wide)):
            self.assertEqual({name: many[name] for name in few}, few)
            last = (
                [0] * 8
                if count < 34
                else [0] * 7 + [FLOW_TCP]
                if count < 54
                else [20, 0, 0, 0, 0, 0, 1, FLOW]
            )
            self.assertEqual([many[it] for it in (*HALVES, *LAST)], [0] * 4 + last, count)
        frame = ethernet(ipv6(48, 0, HOP_TCP))
        cases = []
        for count in range(83):
            if count < 54:
                wanted = [0x86DD if count >= 14 else 0] + [0] * 12
            elif count < 62:
                wanted = [0x86DD, 1, 0, 0, 2] + [0] * 7 + [FLOW6_HOP]
            elif count < 82:
                wanted = [0x86DD, 1, 6, 0, 2] + [0] * 7 + [FLOW6_TCP]
            else:
                wanted = [0x86DD, 2, 6, 443, 2] + [20, 0, 0, 0, 1, 0, 0, FLOW6]
            cases.append((frame[:count], wanted))
        self.compare(1, ("etype", "kind", "proto", "dport", "dst6_low", *LAST), cases)

    def test_extension_headers_are_passed_over(self) -> None:
        cases = [
            (ethernet(ipv6(length, following, bytes.fromhex(behind))), wanted)
            for length, following, behind, wanted in (
                (28, 0, HOP_TCP.hex(), [2, 68, 6, 40000, 443]),
                (27, 0, HOP_TCP.hex(), [1, 67, 6, 0, 0]),
                (0, 0, HOP_TCP.hex(), [2, 40, 6, 40000, 443]),
                (65535, 0, HOP_TCP.hex(), [2, 65535, 6, 40000, 443]),
                (28, 43, HOP_TCP.hex(), [2, 68, 6, 40000, 443]),
                (28, 60, HOP_TCP.hex(), [2, 68, 6, 40000, 443]),
                (20, 6, "", [2, 60, 6, 40000, 443]),
                (19, 6, "", [1, 59, 6, 0, 0]),
                (20, 17, "", [3, 60, 17, 40000, 443]),
                (8, 17, "", [3, 48, 17, 40000, 443]),
                (7, 17, "", [1, 47, 17, 0, 0]),
                (20, 58, "", [1, 60, 58, 0, 0]),
                (20, 59, "", [1, 60, 59, 0, 0]),
                # A fragment: offset 1, the first part, and a length of 0 in a byte that a fragment header does not use.
                (28, 44, "0600000800000000", [1, 68, 6, 0, 0]),
                (28, 44, "0600000100000000", [2, 68, 6, 40000, 443]),
                (28, 44, "0609000700000000", [2, 68, 6, 40000, 443]),
                # A later part passes over no header: its next header is a type of the data.
                (28, 44, "3c00000800000000", [1, 68, 60, 0, 0]),
                # An authentication header counts units of 4 bytes, less 2, and the others units of 8, less 1.
                (28, 51, HOP_TCP.hex(), [2, 68, 6, 40000, 443]),
                (32, 51, "0601" + "00" * 10, [2, 72, 6, 40000, 443]),
                (36, 0, "0601" + "00" * 14, [2, 76, 6, 40000, 443]),
                # A header that is not whole is not passed over.
                (15, 0, "0601" + "00" * 14, [1, 55, 0, 0, 0]),
                (7, 0, HOP_TCP.hex(), [1, 47, 0, 0, 0]),
                (7, 44, HOP_TCP.hex(), [1, 47, 44, 0, 0]),
                (11, 51, "0601" + "00" * 10, [1, 51, 51, 0, 0]),
                (84, 0, HOP.hex() * 7 + HOP_TCP.hex(), [2, 124, 6, 40000, 443]),
                (92, 0, HOP.hex() * 8 + HOP_TCP.hex(), [1, 132, 0, 0, 0]),
            )
        ]
        self.compare(1, "kind iplen proto sport dport", cases)

    def test_what_an_ipv6_packet_has_more(self) -> None:
        unreachable, datagram = "0104000000000000", "9c4001bb04000000"
        cases = [
            (ethernet(ipv6(length, following, bytes.fromhex(behind))), wanted)
            for length, following, behind, wanted in (
                (28, 0, HOP_TCP.hex(), [0, 0, 0, 0, 1, 0, 0, FLOW6]),
                (48, 0, HOP_TCP.hex(), [20, 0, 0, 0, 1, 0, 0, FLOW6]),
                (25, 6, "", [5, 0, 0, 0, 1, 0, 0, FLOW6]),
                (27, 0, HOP_TCP.hex(), [0, 0, 0, 0, 0, 0, 0, FLOW6_TCP]),
                # Of no length: the frame had 60 bytes, fewer than its headers.
                (0, 6, "", [0, 0, 0, 0, 1, 0, 0, FLOW6]),
                # UDP that says 1,024 bytes, in a packet of 8.
                (8, 17, datagram, [1016, 0, 0, 0, 0, 0, 0, FLOW6_PORTS]),
                # ICMP in packets of 8 bytes, of two and of one, behind a first and a later fragment header; and 1 over IPv6.
                (8, 58, unreachable, [0, 1, 4, 0, 0, 0, 0, FLOW6_ICMP]),
                (2, 58, "0104", [0, 1, 4, 0, 0, 0, 0, FLOW6_ICMP]),
                (1, 58, "0104", [0, 0, 0, 0, 0, 0, 0, FLOW6_ICMP]),
                (20, 44, "3a000001000000008107", [0, 129, 7, 0, 0, 0, 0, FLOW6_ICMP]),
                (20, 44, "3a000009000000008107", [0, 0, 0, 0, 0, 0, 0, FLOW6_ICMP]),
                (8, 58, "8080", [0, 128, 128, 0, 0, 0, 0, FLOW6_ICMP]),
                (8, 1, unreachable, [0, 0, 0, 0, 0, 0, 0, FLOW6_1]),
            )
        ]
        self.compare(1, LAST, cases)
        # From etype on.
        wanted = [
            0x86DD,
            2,
            0xB8,
            68,
            64,
            6,
            0,
            0,
            40000,
            443,
            0,
            0,
            2,
            1024,
            0,
            0x20010DB800000000,
            1,
            0x20010DB800000001,
            2,
        ]
        names = "etype kind tos iplen ttl proto src dst sport dport seq ack flags win vlan".split()
        self.compare(1, (*names, *HALVES), [(ethernet(ipv6(28, 0, HOP_TCP)), wanted)])

    def test_a_packet_that_says_no_length_ends_with_its_frame(self) -> None:
        segment, packet = edited({17: 0}), ethernet(ipv6(0, 6))
        for frame, length, payload in (
            (segment, 1514, 1460),
            (segment, 2**32 - 1, 4_294_967_241),
            (segment, 0, 0),
            (packet, 1514, 1440),
        ):
            self.assertEqual(self.dumped(1, [frame], length=length)[0]["payload"], payload, length)
        frame = ethernet(ipv6(28, 0, HOP_TCP))
        rows = self.dumped(1, [frame, *(frame.ljust(size, b"\0") for size in (1501, 65_535, 262_144))])
        for row in rows:
            self.assertEqual(row | {"caplen": 0}, rows[0] | {"caplen": 0})

    def test_each_link_begins_its_packet_elsewhere(self) -> None:
        packet, six = SEGMENT[2:], ipv6(20, 6)
        known = self.dumped(1, [FRAME])[0]
        same = [it for it in known if it not in ("ts", "caplen", "len", "dmac", "smac")]
        for link, front in (
            (1, "020000000001 020000000002 0800"),
            (113, "0000 0001 0006 020000000002 0000 0800"),
            (276, "0800" + "00" * 18),
            (101, ""),
            (228, ""),
            (0, "02000000"),
            (0, "00000002"),
            (108, "00000002"),
        ):
            row = self.dumped(link, [bytes.fromhex(front) + packet])[0]
            self.assertEqual([row[it] for it in same], [known[it] for it in same], link)
        for link, front, wanted in (
            (276, "86dd" + "00" * 18, [0x86DD, 2, 0, 2]),
            (101, "", [0x86DD, 2, 0, 2]),
            (229, "", [0x86DD, 2, 0, 2]),
            (0, "1e000000", [0x86DD, 2, 0, 2]),
            (0, "0000001e", [0x86DD, 2, 0, 2]),
            (0, "18000000", [0x86DD, 2, 0, 2]),
            (108, "0000001c", [0x86DD, 2, 0, 2]),
            (108, "0000000a", [0x86DD, 2, 0, 2]),
            (108, "0000001f", [0, 0, 0, 0]),
            (0, "02000000", [0x0800, 0, 0, 0]),
            (1, ADDRESSES.hex() + "8100 2005 86dd", [0x86DD, 2, 5, 2]),
            (1, ADDRESSES.hex() + "88a8 0005 8100 0006 86dd", [0x86DD, 2, 5, 2]),
            (1, ADDRESSES.hex() + "8100 0005 8100 0006 8100 0007 86dd", [0x8100, 0, 5, 0]),
            (1, ADDRESSES.hex() + "0800", [0x0800, 0, 0, 0]),
        ):
            self.compare(link, "etype kind vlan dst6_low", [(bytes.fromhex(front) + six, wanted)])

    def test_drawn_packets(self) -> None:
        fields = "ttl==64 && dmac==0x020000000001 && smac==0x020000000002 && etype==2048 && tos==0 && ack==0 && vlan==0"
        tcp, udp = (
            "kind==2 && proto==6 && flags==16 && win==1024 && caplen==54",
            "kind==3 && proto==17 && caplen==42",
        )
        for seed, count, ask in (
            (
                1,
                1,
                f"{tcp} && ts==1000000000 && len==773 && iplen==759 && src==10.0.0.12 && dst==10.0.1.10"
                f" && sport==40219 && dport==80 && seq==0",
            ),
            (
                7,
                1,
                f"{udp} && ts==1000000000 && len==1060 && iplen==1046 && src==10.0.0.12 && dst==10.0.1.11 && sport==40202 && dport==53",
            ),
            (
                1,
                50_000,
                f"{tcp} && ts==50999000000 && len==111 && src==10.0.0.15 && dst==10.0.1.2 && sport==40222 && dport==53 && seq==49999",
            ),
        ):
            words = ("synth", "--setup", "s", "--seed", str(seed), "--count", str(count))
            text = f"records {count}\nask q list 1: {count - 1}\n"
            self.check(words, 0, text, s=f"schema packet\nask q list {ask} && {fields}\n".encode())


if __name__ == "__main__":
    unittest.main()
