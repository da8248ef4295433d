"""The built program: its words and files, with the status that it ends with and the text that it prints, by tables."""

from __future__ import annotations

import random
import struct
import sys
import unittest

from support import ROOT

from program_cases import (
    ADDRESSES,
    ADDRESSES_CSV,
    ADDRESSES_SETUP,
    BIG,
    BLOCKS,
    Cases,
    DUMP,
    HEADER,
    MISSING,
    NANOSECONDS,
    NONE,
    NO_COMMAND,
    ONE,
    ONE_BYTE,
    PLACE,
    RAW6,
    REPORT,
    RUN,
    SEGMENT,
    SETUP,
    TWO,
    changed,
    empty,
    header,
    line,
    record,
    segment,
    sent,
)

sys.path.append(str(ROOT / "bench"))

import damage  # noqa: E402
import plain_answers  # noqa: E402

# Two hosts send in two seconds.
KEYED_SETUP = (
    b"schema packet\nfilter f *\naggregate a f len by src\ntrigger t a count >= 2\ntrigger u a greatest > 70\n"
    b"ask x fired t\nask y fired u\nask g groups a\n"
)
KEYED = HEADER + b"".join(sent(*it) for it in ((1, 1, 60), (2, 1, 70), (1, 1, 80), (2, 2, 90)))
KEYED_ANSWERS = (
    "ask x fired 1: 1/167772161=2\nask y fired 2: 1/167772161=80 2/167772162=90\n"
    "ask g groups 3: 1/167772161=2/140/60/80 1/167772162=1/70/70/70 2/167772162=1/90/90/90\n"
)


def drawn(seed: int, count: int) -> list[tuple[int, int, int]]:
    """Second, source and length of each packet that `synth` makes."""
    found, x = [], seed
    for k in range(count):
        x = (x * 6364136223846793005 + 1442695040888963407) % 2**64
        r = x >> 32
        found.append((1 + k // 1000, 0x0A000000 + r % 16, 64 + (r >> 20) % 1024))
    return found


class Program(Cases):
    def test_captures_are_reported(self) -> None:
        setup = (
            b"schema packet\nwidth 1000000000\nindex n len\nfilter f caplen<2 || len==60\naggregate a f len\n"
            b"trigger t a sum > 70\nask q find n 60 99\nask b between f 2 2\nask m measure a 1 2\nask e measure a 7 9\n"
            b"ask g fired t\ntally s kind len *\nask h groups a\nask k groups s\nlive q\n"
        )
        report = (
            "records 2\nask q find 1: 0\nask b between 1: 1\nask m measure count 2 sum 160 least 60 greatest 100\n"
            "ask e measure count 0 sum 0 least - greatest -\nask g fired 1: 2=100\n"
            "ask h groups 2: 1=1/60/60/60 2=1/100/100/100\nask k groups 1: 0=2/160/60/100\nalert t 2 100\norder 0*2\n"
        )
        for capture in (TWO, BIG, BLOCKS, changed(TWO, 20, 113)):
            self.check(RUN, 0, REPORT, s=SETUP, c=capture)
        self.check(RUN, 0, report, s=setup, c=TWO)
        for writers in ("1", "2", "4", "15"):
            self.check(("run", "--setup", "s", "--writers", writers, "c"), 0, NONE, s=SETUP, c=HEADER)

    def test_words(self) -> None:
        drawn = ("synth", "--setup", "x", "--seed", "1", "--count", "1")
        self.put(s=SETUP, c=HEADER)
        for words, answer in (
            ((), NO_COMMAND),
            (("run", "c"), NO_COMMAND),
            (("dump",), NO_COMMAND),
            (("run", "--setup", "x", "c"), MISSING),
            (("run", "x", "--setup", "s"), MISSING),
            (("dump", "x"), MISSING),
            (DUMP, (0, "records 0\n")),
            (("dump", "c", "--schema", "ipv6"), NO_COMMAND),
            (("synth", "--seed", "1", "--count", "1"), NO_COMMAND),
            (drawn, MISSING),
            (("watch", "c"), NO_COMMAND),
            (("watch", "--setup", "x", "c"), MISSING),
            (("watch", "--setup", "s", "x"), MISSING),
            (("snapshot", "--setup", "s", "--after", "0"), NO_COMMAND),
        ):
            self.assertEqual(self.answer(words), answer, words)

    def test_setups_are_refused(self) -> None:
        for setup, line_and_code in (
            (b"", "1 code 2"),
            (b"# rows\nschema records s:u64\n", "2 code 4"),
            (b"schema packet\nask a list nope>1\n", "2 code 11"),
            (b"schema packet\n\xff\n", "2 code 1"),
            (b"schema packet6 x\n", "1 code 3"),
            (b"schema packet\nask a list dport==65536\n", "2 code 13"),
            (b"schema packet\ntally s dmac len *\n", "2 code 8"),
            (b"schema packet\ntally s src len *\nask h top s sum 0\n", "3 code 7"),
            (b" " * 65_536, "2 code 2"),
            (b" " * 65_537, "0 code 9"),
        ):
            # before the capture is opened
            self.check(("run", "--setup", "s", "x"), 2, f"setup: line {line_and_code}\n", s=setup)
        self.check(("run", "--setup", "s", "x"), *MISSING, s=b"schema packet\nask a list dport==65535\n")
        for setup, line_and_code in (
            (b"\nschema records ts:u64,n:u32\nask a list n==1\n", "2 code 4"),
            (b"schema packet\n\tlive q\n", "2 code 1"),
        ):
            self.check(("watch", "--setup", "s", "c"), 2, f"setup: line {line_and_code}\n", s=setup, c=TWO)

    def test_long_setups(self) -> None:
        setup = b"schema packet\nask a list len>=100".ljust(60_000) + b"&& caplen==0\n"
        self.check(RUN, 0, "records 0\nask a list 0:\norder\n", s=setup, c=HEADER)
        atom = b"abcdefghijklmnop==0xffffffffffffffff"
        name = "a_name_of_thirty_two_characters_"
        setup = b"schema records ts:u64,abcdefghijklmnop:u64\nask %s list " % name.encode()
        rows = b"ts,abcdefghijklmnop\n0,1\n0,18446744073709551615\n"
        text = f"records 2\nask {name} list 1: 1\norder 0*2\n"
        self.check(RUN, 0, text, s=setup + b" && ".join([atom] * 32), c=rows)
        long = setup + b" && ".join([atom] * 32) + b" || " + atom
        self.check(RUN, 2, "setup: line 2 code 14\n", s=long, c=rows)

    def test_captures_that_end_anywhere(self) -> None:
        first, second = "capture: record 0 code 5\n", "capture: record 1 code 5\n"
        for start, end, status, text in (
            (0, 24, 3, first),
            (24, 25, 0, NONE),
            (25, 42, 3, first),
            (42, 43, 0, ONE),
            (43, 59, 3, second),
            (59, 60, 0, REPORT),
        ):
            for size in range(start, end):
                self.check(RUN, status, text, s=SETUP, c=TWO[:size])

    def test_faults_of_captures(self) -> None:
        for capture, text in (
            (changed(TWO, 0, 0x1F, 4), "0 code 1"),
            (changed(TWO, 6, 3), "0 code 2"),
            (changed(TWO, 20, 147), "0 code 3"),
            (changed(TWO, 34, 4, 40), "0 code 4"),
            (TWO[:50] + b"\xff" * 4 + TWO[54:58], "1 code 4"),
            (bytes(24), "0 code 1"),
            (changed(BLOCKS, 8, 0x4E), "0 code 21"),
            (changed(BLOCKS, 12, 2), "0 code 22"),
            (changed(BLOCKS, 36, 147), "0 code 23"),
            (changed(BLOCKS, 71, 1), "0 code 24"),
            (BLOCKS[:103], "1 code 25"),
            (BLOCKS[:4], "0 code 25"),
            (changed(BLOCKS, 32, 0x10), "0 code 27"),
            (changed(BLOCKS, 100, 0x15), "1 code 27"),
            (changed(BLOCKS, 56, 1), "0 code 28"),
            # what doesn't begin with a section header's type is read as pcap
            (BLOCKS[:3], "0 code 5"),
            (changed(BLOCKS, 3, 0x0B), "0 code 1"),
            (RAW6, "0 code 3"),
        ):
            for words in (RUN, DUMP):
                self.check(words, 3, f"capture: record {text}\n", s=SETUP, c=capture)

    def test_lengths_of_records_and_files(self) -> None:
        report = "records 1\nask big list 1: 0\norder 0*1\n"
        self.check(RUN, 0, report, s=SETUP, c=HEADER + record(bytes(262_144), 262_144))
        self.check(RUN, 3, "capture: record 0 code 4\n", s=SETUP, c=HEADER + record(bytes(262_145), 262_145))
        setup = b"schema records ts:u64,len:u32\nask twos list len==2\nask size total len *\n"
        rows = b"ts,len\n" + b"0,1\n" * 69_999 + b"0,2\n"
        words = ("run", "--setup", "s", "--writers", "1", "--segments", "2", "c")
        total = "ask size total count 70000 sum 70001 least 1 greatest 2\n"
        self.check(
            words, 0, f"records 70000\nask twos list 1: 69999\n{total}order 0*70000\n", s=setup, c=rows
        )
        self.check(words, 3, "capture: record 0 code 15\n", c=rows.ljust(1 << 24, b"\n"))
        words = ("run", "--setup", "s", "--writers", "1", "--capacity", "1000", "c")
        self.check(words, 6, "full: more than 1000 records\n", c=rows)
        self.check(words, 3, "capture: record 70000 code 14\n", c=rows + b"0,x\n")

    def test_capacity_nodes_and_faults_in_their_order(self) -> None:
        setup = b"schema packet\nindex n len\nfilter f *\naggregate a f len\nask m measure a 0 1\n"
        full, short = (6, "full: more than 4 records\n"), (7, "nodes: more than 6 nodes\n")
        for count, capacity, nodes, end, (status, text) in (
            (5, "4", "100", 6, (3, "capture: record 5 code 5\n")),
            (5, "4", "100", 0, full),
            (5, "4", "6", 0, full),
            (4096, "9000", "6", 6, (3, "capture: record 4096 code 5\n")),
            (4096, "9000", "6", 0, short),
            (5000, "4", "6", 6, (3, "capture: record 5000 code 5\n")),
            (5000, "4999", "6", 0, (6, "full: more than 4999 records\n")),
            (5000, "5000", "6", 0, short),
        ):
            words = ("run", "--setup", "s", "--capacity", capacity, "--nodes", nodes, "--writers", "1", "c")
            self.check(words, status, text, s=setup, c=empty(count) + bytes(end))
        for writers, nodes in (("1", "23"), ("4", "5"), ("15", "1"), ("15", "0")):
            words = ("run", "--setup", "s", "--writers", writers, "--nodes", nodes, "c")
            self.check(words, 7, f"nodes: more than {nodes} nodes\n", s=ADDRESSES_SETUP, c=ADDRESSES_CSV)
        # With more nodes than one writer has, and no more than all, the threads decide.
        for writers in ("4", "15"):
            status, text = self.answer(("run", "--setup", "s", "--writers", writers, "--nodes", "23", "c"))
            if status:
                self.assertEqual((status, text), (7, "nodes: more than 23 nodes\n"))
            else:
                self.assertTrue(text.startswith("records 4\nask a find 2: 1 2\norder "))
        words = ("run", "--setup", "s", "--writers", "1", "--nodes", "24", "c")
        self.check(words, 0, "records 4\nask a find 2: 1 2\norder 0*4\n")
        # A scan needs no node.
        words = (
            "run",
            "--setup",
            "s",
            "--writers",
            "1",
            "--capacity",
            "2",
            "--nodes",
            "0",
            "--live",
            "1",
            "c",
        )
        setup, rows = b"schema records ts:u64,len:u16\nask b list len>=100\n", b"ts,len\n0,60\n0,100\n"
        self.check(words, 0, "records 2\nask b list 1: 1\norder 0*2\n", s=setup, c=rows)

    def test_captures_of_several_batches(self) -> None:
        setup = b"schema packet\nfilter f *\naggregate a f len\nask m measure a 0 1\n"
        for count in (4095, 4096, 4097, 8192):
            measure = f"ask m measure count {count} sum {count * 200} least 200 greatest 200"
            self.check(RUN, 0, f"records {count}\n{measure}\norder 0*{count}\n", s=setup, c=empty(count))
        lines = "".join(line(number, 0, 0, 200) for number in range(5000))
        self.check(DUMP, 0, f"records 5000\n{lines}", c=empty(5000))
        places = " ".join(map(str, range(20)))
        self.put(s=SETUP, c=empty(20))
        for words in ((), ("--writers", "2"), ("--writers", "15", "--live", "1")):
            status, text = self.answer(("run", "--setup", "s", *words, "c"))
            self.assertEqual(status, 0)
            self.assertTrue(text.startswith(f"records 20\nask big list 20: {places}\norder "))

    def test_many_interfaces(self) -> None:
        setup = b"schema packet\nask size total len *\n"
        total = "ask size total count 3 sum 21 least 7 greatest 7\n"

        def packets(first: int, last: int) -> bytes:
            """Packets without bytes of these interfaces, that had 7."""
            return b"".join(struct.pack("<8I", 6, 32, it, 0, 0, 0, 7, 32) for it in range(first, last))

        def section(count: int) -> bytes:
            """A section of so many interfaces, with a packet of each of the last three."""
            return BLOCKS[:28] + BLOCKS[28:48] * count + packets(count - 3, count)

        for count in (3, 255, 256, 65_537):
            self.check(RUN, 0, f"records 3\n{total}order 0*3\n", s=setup, c=section(count))
            # One more names an interface that its section has not.
            capture = section(count) + packets(count, count + 1)
            self.check(RUN, 3, "capture: record 3 code 28\n", c=capture)
        for words, count, status, text in (
            (("--every", "0"), 65_536, 0, f"records 3\nwindow 0\n{total}"),
            (("--every", "0"), 65_537, 3, "capture: record 0 code 29\n"),
            (("--truncated",), 65_537, 3, "capture: record 0 code 29\n"),
        ):
            self.check(("watch", *words, "--setup", "s", "c"), status, text, c=section(count))

    def test_live_questions_over_three_segments(self) -> None:
        setup = (
            b"schema packet\nindex lengths len\nfilter every *\naggregate bytes every len\n"
            b"trigger busy bytes count > 8192\nask all list *\nask same find lengths 200 200\n"
            b"ask load measure bytes 0 0\nask when fired busy\nlive all\nlive same\nlive load\n"
        )
        self.put(s=setup, c=empty(8193))
        words = ("--writers", "2", "--capacity", "4096", "--segments", "3", "--live", "1")
        status, text = self.answer(("run", "--setup", "s", *words, "c"))
        places = " ".join(map(str, range(8193)))
        front = (
            f"records 8193\nask all list 8193: {places}\nask same find 8193: {places}\n"
            "ask load measure count 8193 sum 1638600 least 200 greatest 200\nask when fired 1: 0=8193\nalert busy 0 8193\n"
        )
        self.assertEqual(status, 0)
        self.assertTrue(text.startswith(front))
        lines = text[len(front) :].splitlines()
        self.assertEqual([it.split()[1] for it in lines[:-1]], ["all", "same", "load"] * 3)
        for it in lines[:-1]:
            # A live answer of places lists as many as it covers.
            covered, places = it.split("@")[1].split(" ", 1)
            if places.startswith(("list", "find")):
                self.assertEqual(places.split()[1], f"{covered}:")
                self.assertEqual(len(places.split()) - 2, int(covered))

    def test_dumps(self) -> None:
        tagged = ADDRESSES + bytes.fromhex("8100 2005")
        cooked = bytes.fromhex("0000 0001 0006 020000000002 0000")
        bare = ("000000000000", "000000000000")
        for link, front, text in (
            (1, ADDRESSES, line(0, 10**9, 54, 54, segment(PLACE))),
            (1, tagged, line(0, 10**9, 58, 58, segment(PLACE, 5))),
            (113, cooked, line(0, 10**9, 56, 56, segment(bare))),
        ):
            data = front + SEGMENT
            self.check(DUMP, 0, f"records 1\n{text}", c=header(link) + record(data, len(data), 1))
        times = line(0, 1_500_000_000, 2, 60) + line(1, 2_000_000_000, 1, 100)
        self.check(DUMP, 0, f"records 2\n{times}", c=TWO)
        self.check(DUMP, 0, f"records 2\n{times}", c=BLOCKS[:84] + ONE_BYTE)
        times = line(0, 1_500_000, 2, 60) + line(1, 0, 4, 100)
        self.check(DUMP, 0, f"records 2\n{times}", c=BLOCKS[:28] + NANOSECONDS + BLOCKS[48:])
        # The number of a VLAN is asked for as other attributes are.
        setup = b"schema packet\nindex v vlan\nask five find v 5 5\nask none list vlan==0\nask web list dport==80 && src in 10.0.0.0/24\n"
        data = tagged + SEGMENT
        report = "records 1\nask five find 1: 0\nask none list 0:\nask web list 1: 0\norder 0*1\n"
        self.check(RUN, 0, report, s=setup, c=HEADER + record(data, len(data), 1))

    def test_each_kind_of_frame_is_in_its_lists(self) -> None:
        frame = ADDRESSES + SEGMENT
        setup = (
            b"schema packet\n"
            b"ask segment list kind==2 && sport==40219 && dport==80\n"
            b"ask datagram list kind==3 && sport==40219 && dport==80\n"
            b"ask portless list kind==1 && src==10.0.0.12 && sport==0 && dport==0 && flags==0\n"
            b"ask headless list kind==0 && etype==2048 && src==0 && iplen==0\n"
            b"ask untyped list kind==0 && etype==0 && dmac==0x000000000000\n"
            b"ask nothing list caplen==0\n"
            b"ask total_0 list iplen==0 && ttl==64\n"
            b"ask total_20 list iplen==20\n"
        )
        report = (
            "records 15\nask segment list 3: 0 8 10\nask datagram list 1: 13\nask portless list 7: 1 2 3 9 11 12 14\n"
            "ask headless list 2: 4 5\nask untyped list 2: 6 7\nask nothing list 1: 7\nask total_0 list 1: 10\n"
            "ask total_20 list 1: 11\norder 0*15\n"
        )
        # How many bytes are captured, and two others at a place.
        cases = (
            (54, 0, "0200"),
            (53, 0, "0200"),  # the TCP header lacks a byte
            (37, 0, "0200"),  # the ports lack a byte
            (34, 0, "0200"),  # the IPv4 header alone
            (33, 0, "0200"),
            (14, 0, "0200"),  # the link header alone
            (13, 0, "0200"),
            (0, 0, "0200"),
            (54, 20, "2000"),  # the first of several fragments
            (54, 20, "0001"),  # a later one
            (54, 16, "0000"),  # total lengths of 0, 20 and 39
            (54, 16, "0014"),
            (54, 16, "0027"),
            (42, 22, "4011"),  # UDP
            (41, 22, "4011"),  # its header lacks a byte
        )
        capture = HEADER
        for size, place, others in cases:
            data = frame[:place] + bytes.fromhex(others) + frame[place + 2 :]
            capture += record(data[:size], 60, 1)
        self.check(RUN, 0, report, s=setup, c=capture)

    def test_packet6(self) -> None:
        setup = (
            b"schema packet6\nindex s src6\ntally t src6 len *\nask a find s 0x20010db800000000 0x20010db8ffffffff\n"
            b"ask b list dport==53 && dst6_low==2\nask h top t sum 1\n"
        )
        report = (
            "records 1\nask a find 1: 0\nask b list 1: 0\nask h top 1: 2306139568115548160=48\norder 0*1\n"
        )
        big = b"schema packet6\nask big list len>=100\n"
        dumped = (
            "records 1\n0 ts=1000000000 caplen=48 len=48 dmac=0x000000000000 smac=0x000000000000 etype=34525 kind=3 tos=0 "
            "iplen=48 ttl=64 proto=17 src=0.0.0.0 dst=0.0.0.0 sport=40000 dport=53 seq=0 ack=0 flags=0 win=0 vlan=0 "
            "src6=0x20010db800000000 src6_low=0x0000000000000001 dst6=0x20010db800000001 dst6_low=0x0000000000000002 "
            "payload=0 icmp_type=0 icmp_code=0 is_fin=0 is_syn=0 is_rst=0 is_ack=0 flow=7540538455228062231\n"
        )
        raw = changed(BLOCKS, 36, 101)
        for words, status, text, rules, capture in (
            (RUN, 0, report, setup, RAW6),
            (RUN, 0, REPORT, big, raw),
            (RUN, 3, "capture: record 0 code 23\n", SETUP, raw),
            (RUN, 0, REPORT, big, TWO),
            (("dump", "--schema", "packet6", "c"), 0, dumped, SETUP, RAW6),
            (("dump", "c", "--schema=packet"), 3, "capture: record 0 code 3\n", SETUP, RAW6),
        ):
            self.check(words, status, text, s=rules, c=capture)
        cut = ("snapshot", "--setup", "s", "--after", "4")
        for words, text in (
            ((*cut, "c", "c"), "cut 2\nhost 0 @1\nask a list 1: 0\nhost 1 @1\nask a list 1: 0\n"),
            (
                (*cut, "--truncated", "t", "c"),
                "cut 1\nhost 0 @0\nask a list 0:\ntruncated: record 0\nhost 1 @1\nask a list 1: 0\n",
            ),
            (
                ("run", "--setup", "s", "--truncated", "t"),
                "records 0\nask a list 0:\norder\ntruncated: record 0\n",
            ),
        ):
            rules = b"schema packet6\nask a list src6==0x20010db800000000\n"
            self.check(words, 0, text, s=rules, c=RAW6, t=RAW6[:87])

    def test_files_of_records(self) -> None:
        columns = b"schema records ts:u64,src:u32,len:u32\n"
        four = b"ts,src,len\n0,10.0.0.1,100\n0,10.0.0.2,70\n0,10.0.0.1,20\n0,10.0.0.3,70\n"
        five = b"ts,dport,len,proto\n0,80,101,6\n0,80,100,6\n0,53,60,17\n0,80,200,17\n0,443,500,6\n"
        for setup, rows, text in (
            (
                b"schema records ts:u64,dport:u16,len:u32,proto:u8\nask f list dport==80 && len>100 || proto==17\n",
                five,
                "records 5\nask f list 3: 0 2 3\norder 0*5\n",
            ),
            (
                ADDRESSES_SETUP + b"ask b list src in 10.0.0.0/8\nask c find s 2 1\n",
                ADDRESSES_CSV,
                "records 4\nask a find 2: 1 2\nask b list 2: 1 2\nask c find 0:\norder 0*4\n",
            ),
            (
                b"schema records ts:u64,dport:u16,len:u32,proto:u8\nwidth 10\nfilter f *\naggregate a f len\n"
                b"trigger t a count >= 1\ntrigger u a sum > 461\ntrigger v a least < 5\nask m measure a 0 1\n"
                b"ask o measure a 1 0\nask n measure a 7 9\nask b between f 1 1\nask g fired t\nask h fired u\nask i fired v\n",
                b"ts,dport,len,proto\n0,80,101,6\n0,80,100,6\n0,53,60,17\n9,80,200,17\n10,443,500,6\n",
                "records 5\nask m measure count 5 sum 961 least 60 greatest 500\n"
                "ask o measure count 0 sum 0 least - greatest -\nask n measure count 0 sum 0 least - greatest -\n"
                "ask b between 1: 4\nask g fired 2: 0=4 1=1\nask h fired 1: 1=500\nask i fired 0:\n"
                "alert t 0 4\nalert t 1 1\nalert u 1 500\norder 0*5\n",
            ),
            (
                b"schema records ts:u64,dport:u16\n",
                b'ts,dport\n0,"80"\n1,81\n2,82\n',
                "records 3\norder 0*3\n",
            ),
            (
                b"schema records ts:u64,dport:u16\nask a list *\n",
                b"ts,dport\n",
                "records 0\nask a list 0:\norder\n",
            ),
            (
                b"schema records ts:u64\nask a list *\n",
                b'ts\n1\n"2',
                "records 2\nask a list 2: 0 1\norder 0*2\n",
            ),
            (
                b"schema records ts:u64,len:u32\nwidth 1\nfilter f *\naggregate a f len\ntrigger t a least < 5\n"
                b"ask m measure a 7 9\nask g fired t\n",
                b"ts,len\n0,60\n",
                "records 1\nask m measure count 0 sum 0 least - greatest -\nask g fired 0:\norder 0*1\n",
            ),
            (
                columns
                + b"tally s src len *\nask h top s sum 2\nask c top s count 1000\nask l top s least 3\nask t total len len<=70\n",
                four,
                "records 4\nask h top 2: 167772161=120 167772162=70\nask c top 3: 167772161=2 167772162=1 167772163=1\n"
                "ask l top 3: 167772162=70 167772163=70 167772161=20\n"
                "ask t total count 3 sum 160 least 20 greatest 70\norder 0*4\n",
            ),
            (
                columns + b"tally s src len len>70\nask h top s count 1000\nask t total len len>100\n",
                four,
                "records 4\nask h top 1: 167772161=1\nask t total count 0 sum 0 least - greatest -\norder 0*4\n",
            ),
        ):
            self.check(RUN, 0, text, s=setup, c=rows)

    def test_faults_of_records(self) -> None:
        setup = b"schema records ts:u64,dport:u16\nask a list *\n"
        for rows, text in (
            (b"", "0 code 11"),
            (b'"', "0 code 12"),
            (b"dport,ts\n80,0\n", "0 code 12"),
            (b"0,80\n", "0 code 12"),
            (b'ts,dport\n0,"80"\n1,81\n2,82\n3\n', "3 code 13"),
            (b"ts,dport\n0\n1,65536\n", "0 code 13"),
            (b"ts,dport\n0,80\n1,65536\n", "1 code 14"),
            (b'ts,dport\n"', "0 code 13"),
            (b"ts,dport\n1,1\n-2,1\n", "1 code 14"),
        ):
            for words in (RUN, ("run", "--setup", "s", "--writers", "1", "--truncated", "c")):
                self.check(words, 3, f"capture: record {text}\n", s=setup, c=rows)

    def test_drawn_packets(self) -> None:
        setup = (
            b"schema packet\nfilter f *\naggregate a f len\nask m measure a 1 1\n"
            b"ask p list dport==80 && sport==40219 && src==10.0.0.12\n"
        )
        index = b"schema packet\nindex n len\n"
        full = "full: more than 2 records\n"
        for rules, words, status, text in (
            (
                setup,
                ("1",),
                0,
                "records 1\nask m measure count 1 sum 773 least 773 greatest 773\nask p list 1: 0\n",
            ),
            (b"schema packet\nask all list *\n", ("2",), 0, "records 2\nask all list 2: 0 1\n"),
            (b"schema packet\n", ("3", "--capacity", "2"), 6, full),
            (b"# rows\nschema records ts:u64\n", ("1",), 2, "setup: line 2 code 4\n"),
            (b"schema records ts:u64\nlive x\n", ("1",), 2, "setup: line 2 code 6\n"),
            (b"schema packet6\n", ("3", "--capacity", "2"), 2, "setup: line 1 code 4\n"),
            (index, ("1", "--nodes", "6"), 7, "nodes: more than 6 nodes\n"),
            (index, ("1", "--nodes", "7"), 0, "records 1\n"),
        ):
            self.check(
                ("synth", "--setup", "s", "--seed", "1", "--writers", "1", "--count", *words),
                status,
                text,
                s=rules,
            )
        setup = b"schema packet\nwidth 1000000000\nfilter f *\naggregate a f ttl\ntrigger t a count >= 1000\nask m measure a 1 50\n"
        text = "records 50000\nask m measure count 50000 sum 3200000 least 64 greatest 64\n"
        text += "".join(f"alert t {second} 1000\n" for second in range(1, 51))
        for writers in ("1", "15"):
            words = ("synth", "--setup", "s", "--seed", "1", "--count", "50000", "--writers", writers)
            self.check(words, 0, text, s=setup)

    def test_aggregates_by_a_key(self) -> None:
        alerts = "alert t 1/167772161 2\nalert u 1/167772161 80\nalert u 2/167772162 90\n"
        final = f"records 4\n{KEYED_ANSWERS}{alerts}"
        hosts = "".join(f"host {it} @4\n{KEYED_ANSWERS}" for it in range(2))
        self.put(s=KEYED_SETUP, c=KEYED)
        for words, text in (
            ("run --setup s --writers 1 c", f"{final}order 0*4\n"),
            ("run --setup s --long --writers 3 c", final),
            ("run --setup s --long --writers 1 --capacity 1 c", final),
            ("snapshot --setup s --after 9 c c", f"cut 8\n{hosts}"),
        ):
            self.assertEqual(self.answer(tuple(words.split())), (0, text), words)
        # Buckets ascend, and keys in them. The key of a packet without an address is 0.
        self.put(c=HEADER + sent(9, 3) + sent(0, 3) + record(b"", 5, 3) + sent(9, 2))
        groups = "2/167772169=1/60/60/60 3/0=1/5/5/5 3/167772160=1/60/60/60 3/167772169=1/60/60/60"
        text = f"records 4\nask x fired 0:\nask y fired 0:\nask g groups 4: {groups}\norder 0*4\n"
        self.assertEqual(self.answer(RUN), (0, text))
        # Keys of 64 bits.
        setup = b"schema records ts:u64,key:u64,n:u32\nwidth 1\nfilter f *\naggregate a f n by key\ntrigger t a sum >= 2\n"
        rows = b"ts,key,n\n18446744073709551615,18446744073709551615,1\n18446744073709551615,0,3\n0,18446744073709551615,2\n"
        text = "records 3\nalert t 0/18446744073709551615 2\nalert t 18446744073709551615/0 3\norder 0*3\n"
        self.check(RUN, 0, text, s=setup, c=rows)

    def test_aggregates_by_a_key_of_many_packets(self) -> None:
        setup = b"schema packet\nfilter f len>=200\naggregate a f len by src\ntrigger t a sum > 43000\nask g groups a\n"
        groups: dict[tuple[int, int], list[int]] = {}
        for second, source, length in drawn(7, 9000):
            if length >= 200:
                groups.setdefault((second, source), []).append(length)
        parts = sorted(groups.items())
        shown = "".join(
            f" {second}/{source}={len(it)}/{sum(it)}/{min(it)}/{max(it)}" for (second, source), it in parts
        )
        alerts = "".join(
            f"alert t {second}/{source} {sum(it)}\n" for (second, source), it in parts if sum(it) > 43_000
        )
        self.assertGreater(alerts.count("\n"), 5)
        text = f"records 9000\nask g groups {len(parts)}:{shown}\n{alerts}"
        for words in (("--writers", "1"), ("--writers", "15"), ("--capacity", "4096", "--segments", "3")):
            self.check(("synth", "--setup", "s", "--seed", "7", "--count", "9000", *words), 0, text, s=setup)

    def test_random_packets_by_two_keys(self) -> None:
        """As bench/plain_answers.py reads the capture and walks over all rows."""
        for seed in range(30):
            draw = random.Random(seed)
            keys = draw.sample(
                ["src", "dst", "dport", "proto", "etype", "vlan", "len", "src6", "flow", "payload", "ts"], 4
            )
            parts = draw.choices(["count", "sum", "least", "greatest"], k=4)
            lines = ["schema packet6", f"width {draw.choice([1, 1000, 500_000, 10**9])}"]
            lines += ["filter all *", "filter some caplen>20 && etype==0x0800 || kind==3"]
            for k, (key, part) in enumerate(zip(keys, parts)):
                over = draw.choice(["all", "some"])
                lines.append(f"aggregate a{k} {over} {draw.choice(['len', 'ttl', 'sport'])} by {key}")
                lines.append(
                    f"trigger t{k} a{k} {part} {draw.choice(['>', '>=', '<', '==', '!='])} {draw.randrange(4)}"
                )
                lines += [f"ask f{k} fired t{k}", f"ask g{k} groups a{k}"]
            setup = "".join(f"{it}\n" for it in lines).encode()
            capture = HEADER
            for _ in range(draw.choice([0, 1, 50, 400])):
                data, second = damage.frame(draw), draw.randrange(3)
                capture += record(
                    data, len(data) + draw.choice([0, 1, 1000]), second, draw.choice([0, 1, 999_999])
                )
            self.put(s=setup, c=capture)
            text = plain_answers.report(setup, capture)[1]
            for words in (
                ("--writers", "1"),
                ("--writers", "15"),
                ("--long", "--capacity", "16", "--writers", "2"),
            ):
                status, found = self.answer(("run", "--setup", "s", *words, "--nodes", "4096", "c"))
                order = "" if "--long" in words else found[found.rindex("order") :]
                self.assertEqual((status, found), (0, text + order), (seed, words))

    def test_segments(self) -> None:
        setup = b"schema packet\nwidth 1000000\nfilter f *\nask n between f 1000 1003\n"
        drawn = ("synth", "--setup", "s", "--seed", "1")
        for capacity, segments, nodes, status, text in (
            ("4096", "2", "288", 0, "records 8192\nask n between 4: 0 1 2 3\n"),
            ("4096", "2", "287", 7, "nodes: more than 287 nodes\n"),
            ("8192", "1", "288", 7, "nodes: more than 288 nodes\n"),
        ):
            words = ("--writers", "1", "--capacity", capacity, "--segments", segments, "--nodes", nodes)
            self.check((*drawn, "--count", "8192", *words), status, text, s=setup)
        setup = b"schema packet\nindex l len\nask none find l 0 63\n"
        for count, capacity, segments, status in (
            (4096, 4096, 1, 0),
            (4097, 4096, 1, 6),
            (4097, 4096, 2, 0),
            (8192, 4096, 2, 0),
            (8193, 4096, 2, 6),
            (65_537, 65_536, 1, 6),
            (200_000, 65_536, 4, 0),
        ):
            text = (
                f"full: more than {capacity * segments} records\n"
                if status
                else f"records {count}\nask none find 0:\n"
            )
            words = ("--count", str(count), "--capacity", str(capacity), "--segments", str(segments))
            self.check((*drawn, *words), status, text, s=setup)
        setup = (
            b"schema packet\nfilter every *\naggregate hops every ttl\nask all measure hops 0 4294967295\n"
        )
        # The hop limit of each is 64.
        text = "records 1048576\nask all measure count 1048576 sum 67108864 least 64 greatest 64\n"
        self.check((*drawn, "--count", "1048576", "--segments", "16", "--writers", "2"), 0, text, s=setup)

    def test_snapshots(self) -> None:
        self.put(
            s=SETUP,
            n=b"schema packet\nindex i len\nask q find i 0 99\n",
            c=TWO,
            b=BLOCKS,
            e=HEADER,
            f=bytes(24),
            l=TWO + bytes(8),
        )
        both = "cut 4\nhost 0 @2\nask big list 1: 1\nhost 1 @2\nask big list 1: 1\n"
        one = "cut 2\nhost 0 @1\nask big list 0:\nhost 1 @1\nask big list 0:\n"
        none = "cut 1\nhost 0 @0\nask q find 0:\nhost 1 @1\nask q find 1: 0\n"
        full, fault = (6, "full: more than 1 records\n"), (3, "capture: record 0 code 1\n")
        for words, answer in (
            ("s --after 1 c c", (0, one)),
            ("s --after 4 c c", (0, both)),
            ("s --after 4 c b", (0, both)),
            ("s --after 2 --turn 2 b c", (0, both)),
            ("n --after 0 --nodes 8 c c", (0, none)),
            ("s --after 9 e", (0, "cut 0\nhost 0 @0\nask big list 0:\n")),
            ("s --after 0 c c x", MISSING),
            ("x --after 0 f", MISSING),
            ("s --after 0 f x", fault),
            ("s --after 0 --capacity 1 c c", full),
            ("s --after 0 --capacity 1 c f", fault),
            # A fault is found behind the rows that are kept.
            ("s --after 0 --capacity 1 l", (3, "capture: record 2 code 5\n")),
            ("s --after 0 --capacity 1 --truncated l", full),
            # A host's nodes are wanted for all its rows, and not for those in the cut alone.
            ("n --after 0 --nodes 7 e c", (7, "nodes: more than 7 nodes\n")),
            ("n --after 0 --nodes 7 --capacity 1 c c", full),
        ):
            self.assertEqual(self.answer(("snapshot", "--setup", *words.split())), answer, words)
        setup = b"schema packet\nindex lengths len\nask none find lengths 0 199\nask size total len *\n"
        self.put(s=setup, c=empty(5000))
        for count in (3, 16):
            text = f"cut {count * 5000}\n"
            for host in range(count):
                text += f"host {host} @5000\nask none find 0:\nask size total count 5000 sum 1000000 least 200 greatest 200\n"
            words = ("--after", "1000000", "--turn", "2", "--capacity", "5000", *["c"] * count)
            self.assertEqual(self.answer(("snapshot", "--setup", "s", *words)), (0, text))

    def test_truncated(self) -> None:
        words = ("run", "--setup", "s", "--writers", "1", "--truncated", "c")
        few = ("run", "--setup", "s", "--truncated", "--capacity", "1", "c")
        cut, none_cut = f"{ONE}truncated: record 1\n", f"{NONE}truncated: record 0\n"
        for options, capture, status, text in (
            (words, TWO, 0, REPORT),
            (words, TWO[:58], 0, cut),
            (words, TWO[:42], 0, ONE),
            (words, TWO[:41], 0, none_cut),
            (words, TWO[:24], 0, NONE),
            (words, TWO[:23], 3, "capture: record 0 code 5\n"),
            (words, b"", 3, "capture: record 0 code 5\n"),
            (few, TWO[:58], 0, cut),
            (few, TWO, 6, "full: more than 1 records\n"),
            (words, BLOCKS, 0, REPORT),
            (words, BLOCKS[:103], 0, cut),
            (words, BLOCKS[:84], 0, ONE),
            (words, BLOCKS[:47], 0, none_cut),
            (words, BLOCKS[:27], 3, "capture: record 0 code 25\n"),
            (words, bytes(24), 3, "capture: record 0 code 1\n"),
            (
                ("dump", "c", "--truncated"),
                TWO[:58],
                0,
                f"records 1\n{line(0, 1_500_000_000, 2, 60)}truncated: record 1\n",
            ),
        ):
            self.check(options, status, text, s=SETUP, c=capture)
        self.put(c=TWO, t=TWO[:58])
        zero, one = "ask big list 0:\n", "ask big list 1: 1\n"
        for options, status, text in (
            (
                "--truncated --after 4 t c",
                0,
                f"cut 3\nhost 0 @1\n{zero}truncated: record 1\nhost 1 @2\n{one}",
            ),
            (
                "--truncated --after 4 c t",
                0,
                f"cut 3\nhost 0 @2\n{one}host 1 @1\n{zero}truncated: record 1\n",
            ),
            (
                "--truncated --after 0 t c",
                0,
                f"cut 1\nhost 0 @0\n{zero}truncated: record 1\nhost 1 @1\n{zero}",
            ),
            ("--after 0 t c", 3, "capture: record 1 code 5\n"),
        ):
            found = self.answer(("snapshot", "--setup", "s", *options.split()))
            self.assertEqual(found, (status, text), options)

    def test_captures_of_any_length(self) -> None:
        self.put(
            s=SETUP,
            l=b"schema packet\nask big list len>=100\nlive big\n",
            r=b"\nschema records ts:u64,len:u32\n",
            u=b"schema packet\nask q list nope==1\n",
            n=b"schema packet\nindex i len\nask q find i 0 99\n",
            c=TWO,
            o=BIG,
            b=BLOCKS,
            t=TWO[:58],
        )
        two, six = "records 2\nask big list 1: 1\n", "records 6\nask big list 3: 1 3 5\n"
        four = "records 4\nask big list 1: 2\ntruncated: capture 1 record 1\ntruncated: capture 3 record 1\n"
        for words, answer in (
            ("--setup l c", (0, two)),
            ("--setup s c c c", (0, six)),
            ("--setup s c --capacity 4 b o", (0, six)),
            ("--capacity 1 --setup s c b o", (0, six)),
            ("--setup n --capacity 2 c", (0, "records 2\nask q find 1: 0\n")),
            ("--setup s --truncated c", (0, two)),
            (
                "--setup s --truncated c t",
                (0, "records 3\nask big list 1: 1\ntruncated: capture 2 record 1\n"),
            ),
            ("--setup s --truncated t c t", (0, four)),
            ("--setup s --truncated t", (0, "records 1\nask big list 0:\ntruncated: record 1\n")),
            ("--setup s", NO_COMMAND),
            ("--segments 2 --setup s c", NO_COMMAND),
            ("--live 0 --setup s c", NO_COMMAND),
            ("--setup x c", MISSING),
            ("--setup u c", (2, "setup: line 2 code 11\n")),
            ("--setup r c", (2, "setup: line 2 code 4\n")),
            ("--setup s x", MISSING),
            ("--setup s c x t", (9, "capture 2: none of that name\n")),
            ("--setup s c t", (3, "capture 2: record 1 code 5\n")),
            ("--setup s t x", (3, "capture 1: record 1 code 5\n")),
            ("--setup s t", (3, "capture: record 1 code 5\n")),
        ):
            found = self.answer(("run", "--long", "--writers", "2", "--nodes", "8", *words.split()))
            self.assertEqual(found, answer, words)
        for words, answer in (
            ("run --setup s --long --writers 1 c", (0, two)),
            ("run --setup s c c", NO_COMMAND),
            ("synth --long --setup s --seed 1 --count 1", NO_COMMAND),
            ("run --long --writers 1 --nodes 7 --setup n c x", (7, "nodes: more than 7 nodes\n")),
        ):
            self.assertEqual(self.answer(tuple(words.split())), answer, words)

    def test_watches(self) -> None:
        setup = (
            b"schema packet\nfilter f *\naggregate a f len\ntrigger t a sum > 50\nask q list len>=1\nlive q\n"
        )
        each, never = ("watch", "--setup", "s", "--every", "1"), ("watch", "--setup", "s", "--every", "0")
        told = "alert t 1 60 @2\nalert t 2 100 @2\nlive q @0..2 list 2: 0 1\n"
        end = "records 2\nwindow 0\nask q list 2: 0 1\nalert t 1 60\nalert t 2 100\n"
        first = "alert t 1 60 @1\n"
        one = "records 1\nwindow 0\nask q list 1: 0\nalert t 1 60\n"
        fault = "capture: record 1 code 5\n"
        dropped = (
            f"{first}live q @0..1 list 1: 0\nalert t 2 100 @2\nlive q @1..2 list 1: 1\n"
            "records 2\nwindow 1\nask q list 1: 1\nalert t 1 60\nalert t 2 100\n"
        )
        blocks = "records 2\nwindow 0\nask q list 2: 0 1\nalert t 0 100\nalert t 1 60\n"
        for words, capture, status, text in (
            (each, TWO, 0, told + end),
            ((*each, "--beat", "1"), TWO, 0, f"{told}at 2 2\ntotal a count 2 sum 160\n{end}"),
            ((*each, "--capacity", "1", "--segments", "1"), TWO, 0, dropped),
            ((*each, "--truncated"), TWO, 0, told + end),
            (each, BLOCKS, 0, f"alert t 0 100 @2\nalert t 1 60 @2\nlive q @0..2 list 2: 0 1\n{blocks}"),
            (never, TWO[:58], 3, first + fault),
            ((*never, "--beat", "9"), TWO[:58], 3, f"{first}at 1 1\ntotal a count 1 sum 60\n{fault}"),
            ((*never, "--truncated"), TWO[:58], 0, f"{first}{one}truncated: record 1\n"),
            (never, BLOCKS[:103], 3, f"{first}capture: record 1 code 25\n"),
            (each, HEADER, 0, "records 0\nwindow 0\nask q list 0:\n"),
            (each, b"", 3, "capture: record 0 code 5\n"),
            ((*each, "--truncated"), BLOCKS[:3], 3, "capture: record 0 code 5\n"),
            (each, bytes([1, 2, 3, 4, 5]), 3, "capture: record 0 code 1\n"),
            (each, BLOCKS[:8] + bytes(16), 3, "capture: record 0 code 21\n"),
            # a record that no segment takes
            ((*each, "--nodes", "29"), TWO, 7, "nodes: more than 29 nodes\n"),
        ):
            self.check((*words, "c"), status, text, s=setup, c=capture)

    def test_what_is_new_in_live_answers(self) -> None:
        setup = b"schema packet\nfilter f *\naggregate a f len\ntrigger t a count > 1\nask g fired t\nask q list *\nlive g\nlive q\n"
        seconds = [at * 7 % 40 for at in range(5000)]
        self.put(s=setup, c=HEADER + b"".join(record(second=it) for it in seconds))
        status, text = self.answer(("run", "--setup", "s", "--writers", "1", "--live", "4", "c"))
        self.assertEqual(status, 0)
        lines = [it.split(" ", 3) for it in text.splitlines() if it.startswith(("live ", "new "))]
        known: set[str] = set()
        for word, name, tail, rest in lines:
            covered = int(tail[1:])
            counts = {it: seconds[:covered].count(it) for it in range(40)}
            marks = [f"{it}={count}" for it, count in counts.items() if count > 1]
            if word == "new":
                fresh = [it for it in marks if it.split("=")[0] not in known]
                self.assertEqual(rest, " ".join(["fired", f"{len(fresh)}:", *fresh]))
                known = {it.split("=")[0] for it in marks}
            elif name == "g":
                self.assertEqual(rest, " ".join(["fired", f"{len(marks)}:", *marks]))
            else:
                self.assertEqual(rest, " ".join(["list", f"{covered}:", *map(str, range(covered))]))
        # Four rounds beside each of two batches, of three lines each.
        self.assertEqual([it[:2] for it in lines], [["live", "g"], ["new", "g"], ["live", "q"]] * 8)

    def test_what_is_new_goes_by_bucket_and_key(self) -> None:
        setup = (
            b"schema records ts:u64,key:u8,n:u32\nwidth 1\nfilter f *\naggregate a f n by key\n"
            b"trigger t a count > 1\nask g fired t\nask p groups a\nlive g\nlive p\n"
        )
        rows = [(at * 7 % 40, at % 3) for at in range(5000)]
        self.put(s=setup, c=b"ts,key,n\n" + b"".join(b"%d,%d,1\n" % it for it in rows))
        status, text = self.answer(("run", "--setup", "s", "--writers", "1", "--live", "4", "c"))
        self.assertEqual(status, 0)
        known: set[tuple[int, int]] = set()
        told = [it.split(" ", 3) for it in text.splitlines() if it.startswith(("live ", "new "))]
        for word, name, tail, rest in told:
            seen = rows[: int(tail[1:])]
            counts = {it: seen.count(it) for it in sorted(set(seen))}
            marks = {it: count for it, count in counts.items() if count > 1}
            if name == "p":
                parts = [f"{bucket}/{key}={count}/{count}/1/1" for (bucket, key), count in counts.items()]
                self.assertEqual(rest, " ".join(["groups", f"{len(parts)}:", *parts]))
                continue
            if word == "new":
                marks = {it: count for it, count in marks.items() if it not in known}
                known |= set(marks)
            parts = [f"{bucket}/{key}={count}" for (bucket, key), count in marks.items()]
            self.assertEqual(rest, " ".join(["fired", f"{len(parts)}:", *parts]))
        self.assertEqual([it[:2] for it in told], [["live", "g"], ["new", "g"], ["live", "p"]] * 8)

    def test_watched_buckets(self) -> None:
        setup = b"schema packet\nfilter f len>=10\naggregate a f len\ntrigger t a sum >= 50\n"
        small = ("--every", "0", "--capacity", "64", "--nodes", "64", "c")
        lengths = ((0, 40), (1, 9), (1, 30), (1, 20))
        capture = HEADER + b"".join(record(b"", length, second) for second, length in lengths)
        text = "alert t 1 50 @4\nat 4 1\ntotal a count 3 sum 90\nrecords 4\nwindow 0\nalert t 1 50\n"
        self.check(("watch", "--setup", "s", "--beat", "9", *small), 0, text, s=setup, c=capture)
        # A bucket whose last record is not among those of the last 4,096 buckets begins anew when it comes back.
        seconds = [7, *range(100, 4196), 7]
        capture = HEADER + b"".join(record(b"", 60 if it == 7 else 10, it) for it in seconds)
        self.put(c=capture)
        status, text = self.answer(("watch", "--setup", "s", "--every", "0", "c"))
        alerts = [it for it in text.splitlines() if it.startswith("alert")]
        self.assertEqual((status, len(alerts)), (0, 3))
        self.assertEqual([it.split(" @")[0] for it in alerts], ["alert t 7 60"] * 3)

    def test_a_watch_by_key(self) -> None:
        setup = (
            b"schema packet\nfilter f *\nfilter g len>=10\naggregate a g len by src\ntrigger t a count >= 2\n"
            b"trigger u a sum < 100\nask x fired t\nask y groups a\nlive x\n"
        )
        told = "alert t 1/167772161 2 @5\nlive x @0..5 fired 1: 1/167772161=2\n"
        groups = "1/167772161=2/140/60/80 1/167772162=1/70/70/70 2/167772162=1/90/90/90"
        fired = "ask x fired 1: 1/167772161=2\n"
        final = "alert t 1/167772161 2\nalert u 1/167772162 70\nalert u 2/167772162 90\n"
        beat = "at 5 2\ntotal a count 4 sum 300\n"
        text = f"{told}{beat}records 5\nwindow 0\n{fired}ask y groups 3: {groups}\n{final}"
        words = ("watch", "--setup", "s", "--every", "5", "--beat", "5", "c")
        rows = ((1, 1, 60), (2, 1, 70), (1, 1, 80), (1, 1, 9), (2, 2, 90))
        self.check(words, 0, text, s=setup, c=HEADER + b"".join(sent(*it) for it in rows))
        # A mark that more records may undo waits for two later buckets, and is told before its bucket is forgotten.
        rows = [(5, second, 60) for second in range(1, 21)]
        self.put(c=HEADER + b"".join(sent(*it) for it in rows))
        status, text = self.answer(("watch", "--setup", "s", "--every", "0", "c"))
        lines = [it for it in text.splitlines() if it.startswith("alert")]
        early = [it for it in lines if "@" in it]
        self.assertEqual(
            (status, [it.split()[2] for it in early]), (0, [f"{it}/167772165" for it in range(1, 19)])
        )
        # With the ninth bucket the first is forgotten, of which a round told before; later rounds come every six.
        self.assertEqual([it.split("@")[1] for it in early], ["8"] * 6 + ["14"] * 6 + ["20"] * 6)
        self.assertEqual(lines[18:], [f"alert u {it}/167772165 60" for it in range(13, 21)])

    def test_a_watch_keeps_so_many_pairs(self) -> None:
        setup = b"schema packet\nfilter f *\naggregate a f len by src\ntrigger t a count >= 1\n"

        def one(source: int, second: int) -> bytes:
            packet = sent(0, second)
            return packet[:42] + source.to_bytes(4, "big") + packet[46:]

        # A round comes before the record of second 2, with which second 1 is forgotten. The last key of second 1 counted for nothing.
        many = b"".join(one(source, 1) for source in range(65537))
        self.put(s=setup, c=HEADER + many + one(8, 2))
        status, text = self.answer(("watch", "--setup", "s", "--every", "0", "--beat", "65538", "c"))
        self.assertEqual(status, 0)
        lines = text.splitlines()
        told = [it for it in lines if it.startswith("alert") and "@" in it]
        wanted = [f"alert t 1/{source} 1" for source in range(65536)]
        self.assertEqual([it.split(" @")[0] for it in told], [*wanted, "alert t 2/8 1"])
        self.assertEqual(told[-1], "alert t 2/8 1 @65538")
        self.assertEqual([it for it in lines if it.startswith("crowded")], ["crowded a 1 @65537"])
        totals = ["at 65538 2", "total a count 65538 sum 3932280"]
        self.assertEqual(lines[-5:], [*totals, "records 65538", "window 0", "alert t 2/8 1"])
        # It is told once; later records of other keys count for nothing too, and those of kept keys go on.
        self.put(
            s=setup.replace(b">= 1", b"> 1"), c=HEADER + many + one(70000, 1) + one(9, 1) * 2 + one(70001, 1)
        )
        status, text = self.answer(("watch", "--setup", "s", "--every", "0", "--beat", "65541", "c"))
        end = ["crowded a 1 @65541", "alert t 1/9 3 @65541", "at 65541 1", "total a count 65541 sum 3932460"]
        self.assertEqual(
            (status, text.splitlines()), (0, [*end, "records 65541", "window 0", "alert t 1/9 3"])
        )

    def test_questions_of_a_watch_see_its_window(self) -> None:
        setup = (
            b"schema packet\nwidth 10000\nindex k caplen\nfilter f *\naggregate a f len\n"
            b"ask q find k 2 2\nask m measure a 0 9\n"
        )
        records = (record(bytes(2 if at == 4 else 1), at, micro=5 * at) for at in range(8))
        self.put(s=setup, c=HEADER + b"".join(records))
        for segments, text in (
            ("1", "window 6\nask q find 0:\nask m measure count 2 sum 13 least 6 greatest 7\n"),
            ("2", "window 3\nask q find 1: 4\nask m measure count 5 sum 25 least 3 greatest 7\n"),
            ("3", "window 0\nask q find 1: 4\nask m measure count 8 sum 28 least 0 greatest 7\n"),
        ):
            words = ("watch", "--setup", "s", "--every", "0", "--capacity", "3", "--segments", segments, "c")
            self.assertEqual(self.answer(words), (0, f"records 8\n{text}"))

    def test_each_second_is_told_before_it_is_forgotten(self) -> None:
        setup = b"schema packet\nfilter f *\naggregate a f len\ntrigger t a count >= 1\n"
        self.put(s=setup)
        for seconds in (range(1, 5001), range(5000, 0, -1)):
            self.put(c=HEADER + b"".join(record(second=second) for second in seconds))
            status, text = self.answer(("watch", "--setup", "s", "--every", "0", "c"))
            alerts = [it for it in text.splitlines() if it.startswith("alert t ")]
            self.assertEqual(status, 0)
            self.assertEqual(sorted(int(it.split()[2]) for it in alerts if "@" in it), list(range(1, 5001)))
            last = sorted(seconds[-4096:])
            self.assertEqual([it for it in alerts if "@" not in it], [f"alert t {it} 1" for it in last])


if __name__ == "__main__":
    unittest.main()
