"""Captures in pcap and pcapng as the built program reads them, by tables: below 4 GiB (`dump`), and of any length (`run --long`)."""

from __future__ import annotations

import struct
import unittest

from program_cases import BIG, BLOCKS, HEADER, RAW6, TWO, Cases, changed, header, record

SECTION, INTERFACE = BLOCKS[:28], BLOCKS[28:48]
SMALL = ("--writers", "1", "--capacity", "64", "--nodes", "64")
BIG_BLOCKS = bytes.fromhex(
    "0a0d0d0a 0000001c 1a2b3c4d 0001 0000 ffffffffffffffff 0000001c"
    "00000001 00000014 0001 0000 00000000 00000014"
    "00000006 00000024 00000000 00000000 0016e360 00000002 0000003c aabb0000 00000024"
    "00000003 00000014 00000064 cc000000 00000014"
)
# A block of an unknown type with 5 bytes in its body, padded.
UNKNOWN = bytes.fromhex("ad0b0000 14000000 0102030405000000 14000000")


def block(kind: int, total: int, fields: bytes = b"") -> bytes:
    """A block in pcapng of that total length, whose body begins with these fields."""
    return (
        struct.pack("<II", kind, total)
        + fields.ljust(total - 12, b"\0")[: max(total - 12, 0)]
        + struct.pack("<I", total)
    )


def interface(link: int = 1, snaplen: int = 0, options: bytes = b"") -> bytes:
    return block(1, 20 + len(options), struct.pack("<HHI", link, 0, snaplen) + options)


def enhanced(number: int, time: int) -> bytes:
    """An enhanced packet of two bytes, of that interface and time."""
    return block(6, 36, struct.pack("<IIIII", number, time >> 32, time & 0xFFFFFFFF, 2, 60) + b"\xaa\xbb")


def edited(data: bytes, *edits: tuple[int, int]) -> bytes:
    for place, byte in edits:
        data = changed(data, place, byte)
    return data


class Captures(Cases):
    def dumped(self, capture: bytes, schema: str = "packet") -> list[tuple[int, int, int]]:
        """The times and lengths, captured and whole, of the packets."""
        self.put(c=capture)
        status, text = self.answer(("dump", "--schema", schema, "c"))
        self.assertEqual(status, 0, text)
        values = (dict(it.split("=") for it in line.split()[1:]) for line in text.splitlines()[1:])
        return [(int(it["ts"]), int(it["caplen"]), int(it["len"])) for it in values]

    def end(self, capture: bytes) -> str:
        """What both ways to read the capture say: its number of packets, or the fault."""
        self.put(s=b"schema packet\n", c=capture)
        status, text = self.answer(("dump", "c"))
        if status == 0:
            text = text.splitlines()[0] + "\n"
        self.assertEqual(self.answer(("run", "--long", *SMALL, "--setup", "s", "c")), (status, text))
        self.assertEqual(status, 0 if text.startswith("records ") else 3)
        return text.removesuffix("\n").removeprefix("capture: ")

    def test_each_form_gives_the_same_packets(self) -> None:
        nano = [(1_000_500_000, 2, 60), (2_000_000_000, 1, 100)]
        micro = [(1_500_000_000, 2, 60), (2_000_000_000, 1, 100)]
        for capture, packets in (
            (TWO, micro),
            (edited(TWO, (0, 0x4D), (1, 0x3C)), nano),
            (edited(BIG, (2, 0xC3), (3, 0xD4), (29, 7), (30, 0xA1), (31, 0x20), (28, 0)), micro),
            (edited(BIG, (28, 0), (29, 7), (30, 0xA1), (31, 0x20)), nano),
            (BLOCKS, [(1_500_000_000, 2, 60), (0, 4, 100)]),
            (BIG_BLOCKS, [(1_500_000_000, 2, 60), (0, 4, 100)]),
            (
                BLOCKS[:48] + UNKNOWN + BLOCKS[48:84] + UNKNOWN + BIG_BLOCKS,
                [(1_500_000_000, 2, 60)] * 2 + [(0, 4, 100)],
            ),
        ):
            self.assertEqual(self.dumped(capture), packets)
            self.assertEqual(self.end(capture), f"records {len(packets)}")

    def test_each_field_that_counts_is_looked_at(self) -> None:
        for edits, end in (
            (((0, 0x34), (1, 0xCD)), "record 0 code 1"),
            (((0, 0x1F), (1, 0x8B)), "record 0 code 1"),
            (((4, 1),), "record 0 code 2"),
            (((6, 3),), "record 0 code 2"),
            (((4, 0), (5, 2)), "record 0 code 2"),
            (((20, 113), (21, 1)), "record 0 code 3"),
            (((20, 1), (21, 1)), "record 0 code 3"),
            (((20, 0),), "record 0 code 3"),
            (((20, 147),), "record 0 code 3"),
            (((20, 20), (21, 1)), "record 0 code 3"),
            (((20, 113),), "records 2"),
            (((23, 0xF0),), "records 2"),
            (((20, 113), (22, 9)), "records 2"),
            (((20, 0), (22, 1)), "record 0 code 3"),
            (((8, 1), (11, 0xFF)), "records 2"),
            (((12, 1), (15, 0xFF)), "records 2"),
            (((16, 1), (19, 0xFF)), "records 2"),
            (((34, 4), (32, 1)), "record 0 code 4"),
            (((52, 4), (50, 1)), "record 1 code 4"),
            (((53, 0xFF), (50, 0xFF)), "record 1 code 4"),
            # a captured length above that on the wire
            (((36, 1),), "records 2"),
        ):
            self.assertEqual(self.end(edited(TWO, *edits)), end, edits)
        for edits, end in (
            (((0, 0x0B),), "record 0 code 1"),
            (((8, 0x4E),), "record 0 code 21"),
            (((4, 0x1D),), "record 0 code 27"),
            (((4, 0x18),), "record 0 code 27"),
            (((24, 0x18),), "record 0 code 27"),
            (((12, 2),), "record 0 code 22"),
            (((14, 2),), "records 2"),
            (((34, 0x10),), "record 0 code 27"),
            (((32, 0x10),), "record 0 code 27"),
            (((36, 2),), "record 0 code 23"),
            (((36, 113),), "records 2"),
            (((56, 1),), "record 0 code 28"),
            (((70, 4), (68, 1)), "record 0 code 24"),
            (((68, 5),), "record 0 code 27"),
            (((68, 4),), "records 2"),
            (((88, 0x0C),), "record 1 code 27"),
            (((100, 0x15),), "record 1 code 27"),
        ):
            self.assertEqual(self.end(edited(BLOCKS, *edits)), end, edits)
        for capture, end in (
            (b"\x1f\x8b\x08\x00", "record 0 code 1"),
            (b"\x1f\x8b\x08", "record 0 code 5"),
            (bytes.fromhex("d4c3b2a102000300"), "record 0 code 2"),
            (bytes.fromhex("d4c3b2a1020003"), "record 0 code 5"),
            (b"", "record 0 code 5"),
        ):
            self.assertEqual(self.end(capture), end)

    def test_a_truncated_capture_has_its_whole_packets(self) -> None:
        big = edited(BIG, (28, 0))
        for capture, wholes, code in (
            (TWO, (24, 42, 59), 5),
            (big, (24, 42, 59), 5),
            (BLOCKS, (48, 84, 104), 25),
            (BIG_BLOCKS, (48, 84, 104), 25),
        ):
            least = 24 if code == 5 else 28
            for size in range(len(capture) + 1):
                self.put(c=capture[:size])
                for options in ((), ("--truncated",)):
                    status, text = self.answer(("dump", "c", *options))
                    count = sum(size >= it for it in wholes[1:])
                    is_whole = size in wholes or size == least
                    if is_whole:
                        end = (0, f"records {count}\n", "")
                    elif options and size >= least:
                        end = (0, f"records {count}\n", f"truncated: record {count}\n")
                    else:
                        fault = f"capture: record {count} code {5 if code == 25 and size < 4 else code}\n"
                        end = (3, fault, fault)
                    self.assertEqual(status, end[0], size)
                    self.assertTrue(text.startswith(end[1]), size)
                    self.assertEqual(
                        text.endswith(end[2]) and "truncated" in text, "truncated" in end[2], size
                    )

    def test_options_state_the_unit_of_time(self) -> None:
        most = 2**64 - 1
        for options, time, wanted in (
            ("", 1_500_000, 1_500_000_000),
            ("0900010000000000", 3, 3_000_000_000),
            ("0900010000000000", most, most),
            ("0900010006000000", 1_500_000, 1_500_000_000),
            ("0900010006000000", most, most),
            ("0900010009000000", most, most),
            ("090001000a000000", 19, 1),
            ("090001008a000000", 1, 976_562),
            ("090001008a000000", 3072, 3_000_000_000),
            ("0900010080000000", 3, 3_000_000_000),
            ("090001001c000000", most, 1),
            ("090001001d000000", most, 0),
            ("090001007f000000", most, 0),
            ("09000100ff000000", most, 0),
            # The last counts, and none of another length, after the end of the options or behind one that doesn't fit.
            ("09000100090000000900010000000000", 3, 3_000_000_000),
            ("0900020009090000", 3, 3000),
            ("000000000900010009000000", 3, 3000),
            ("020009000900010009000000", 3, 3000),
            ("09000100", 3, 3000),
            ("02000300657468000900010009000000", 3, 3),
        ):
            capture = SECTION + interface(options=bytes.fromhex(options)) + enhanced(0, time)
            self.assertEqual(self.dumped(capture), [(wanted, 2, 60)], options)

    def test_a_simple_packet_is_cut_by_its_interface_and_its_block(self) -> None:
        for snaplen, original, total, caplen in (
            (0, 100, 20, 4),
            (0, 2, 20, 2),
            (0, 0, 16, 0),
            (3, 100, 24, 3),
            (3, 2, 24, 2),
            (50, 100, 24, 8),
        ):
            # An interface of another snapshot length, which no simple packet is of.
            front = SECTION + interface(113, snaplen) + interface(1, 1)
            capture = front + block(3, total, struct.pack("<I", original))
            self.assertEqual(self.dumped(capture), [(0, caplen, original)])

    def test_interfaces_are_those_of_their_section(self) -> None:
        first = SECTION + interface(1) + interface(113) + enhanced(1, 7) + enhanced(0, 7) + BIG_BLOCKS
        for more, end in (
            (b"", "records 4"),
            (SECTION + interface(113) + enhanced(0, 7), "records 5"),
            (SECTION + interface(113) + enhanced(1, 7), "record 4 code 28"),
            (SECTION + enhanced(0, 7), "record 4 code 28"),
        ):
            self.assertEqual(self.end(first + more), end)

    def test_total_lengths_are_judged_at_their_bounds(self) -> None:
        section, bad = bytes.fromhex("4d3c2b1a01"), "record 0 code 27"
        for kind, fields, total, end in (
            (0x0A0D0D0A, section, 24, bad),
            (0x0A0D0D0A, section, 28, "records 0"),
            (0x0A0D0D0A, section, 30, bad),
            (0x0A0D0D0A, section, 1_048_576, "records 0"),
            (0x0A0D0D0A, section, 1_048_580, bad),
            (1, b"\1", 16, bad),
            (1, b"\1", 20, "records 0"),
            (1, b"\1", 1_048_576, "records 0"),
            (1, b"\1", 1_048_580, bad),
            (6, b"", 28, bad),
            (6, b"", 32, "records 1"),
            (6, b"", 1_048_576, "records 1"),
            (6, b"", 1_048_580, bad),
            (3, b"", 12, bad),
            (3, b"", 16, "records 1"),
            (3, b"\0\0\4\0", 1_048_576, "records 1"),
            (3, b"\1\0\4\0", 1_048_576, "record 0 code 24"),
            (3, b"", 1_048_580, bad),
            (0xBAD, b"", 8, bad),
            (0xBAD, b"", 12, "records 0"),
            (0xBAD, b"", 1_048_580, "records 0"),
            (0xBAD, b"", 2_097_152, "records 0"),
        ):
            self.assertEqual(self.end(SECTION + INTERFACE + block(kind, total, fields)), end, (kind, total))

    def test_captures_are_read_by_their_first_bytes(self) -> None:
        blocks = SECTION + interface(101) + block(3, 20, struct.pack("<I", 1) + b"\xcc")
        for capture, packet, packet6 in (
            (HEADER + record(b"\xaa\xbb", 2) * 2, "records 2", "records 2"),
            (RAW6, "capture: record 0 code 3", "records 1"),
            (header(147) + record(), "capture: record 0 code 3", "capture: record 0 code 3"),
            (blocks, "capture: record 0 code 23", "records 1"),
            (blocks[:67], "capture: record 0 code 25", "capture: record 0 code 25"),
            (blocks[:3], "capture: record 0 code 5", "capture: record 0 code 5"),
        ):
            self.put(c=capture)
            for schema, end in (("packet", packet), ("packet6", packet6)):
                self.assertEqual(self.answer(("dump", "--schema", schema, "c"))[1].splitlines()[0], end)

    def test_lines_of_records(self) -> None:
        setup = b"schema records ts:u64,dport:u16\nask q total dport *\n"
        words = ("run", "--setup", "s", "--writers", "1", "c")
        for rows, count, total in (
            (b'ts,dport\n0,"80"\n1,81\n2,82\n', 3, "count 3 sum 243 least 80 greatest 82"),
            (b"ts,dport\r\n0,0x50\r\n\r\n1,081", 2, "count 2 sum 161 least 80 greatest 81"),
            (b"\xef\xbb\xbfts,dport\n", 0, "count 0 sum 0 least - greatest -"),
            (b"ts,dport", 0, "count 0 sum 0 least - greatest -"),
        ):
            order = f"order 0*{count}" if count else "order"
            self.check(words, 0, f"records {count}\nask q total {total}\n{order}\n", s=setup, c=rows)
        for rows, end in (
            (b"\n\n", "0 code 11"),
            (b"ts,dport\n0,65536\n1\n", "0 code 14"),
            (b"ts,dport\n0,80\n-1,x\n", "1 code 14"),
            (b"ts,dport\n0,80,7\nx,y\n", "0 code 13"),
        ):
            self.check(words, 3, f"capture: record {end}\n", c=rows)


if __name__ == "__main__":
    unittest.main()
