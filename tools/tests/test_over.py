"""What is said of many captures is what one run over all of them says."""

import csv
import gzip
import io
import json
import os
import pathlib
import random
import shutil
import signal
import struct
import subprocess
import sys
import tempfile
import time
import unittest
from typing import Any
from unittest import mock

from cases import CAPTURES
from support import EXAMPLES, ROOT, TOOLS, block, confluo, frame, frame6, needs_program, pcap, tagged, tool

from confluo_report.errors import Complaint
from confluo_report.over_dask import words_of
from confluo_report.over_find import find, natural
from confluo_report.over_part import PACKERS, Running, Work, answer
from confluo_report.over_setup import Sum, plan_of, report_of, sum_of
from confluo_report.over_split import guesses_of
from confluo_report.program import program
from confluo_report.progress import Parts
from confluo_report.reports import Pair, Top, lines_of

SETUP = """\
# All kinds of questions.
schema packet
width 2000000000
index i src
filter f dport==80
aggregate a f len
tally t src len *
trigger many a count >= 3
trigger few a count < 2
trigger much a sum > 200
ask l list dport==81
ask n find i 10.0.0.1 10.0.0.2
ask w between f 0 1
ask m measure a 0 9
ask g fired few
  ask h top t sum 2
ask s groups a
ask o total len *
live l
"""
PART = """\
schema packet
width 2000000000
index i src
filter f dport==80
aggregate a f len
tally t src len *
trigger many a count >= 1
trigger much a sum >= 0
ask l list dport==81
ask n find i 10.0.0.1 10.0.0.2
ask w between f 0 1
ask m measure a 0 9
ask h groups t
ask s groups a
ask o total len *
"""
# The reports of two parts, and the one over both.
REPORTS = (
    """\
records 3
ask l list 1: 1
ask n find 2: 0 2
ask w between 1: 0
ask m measure count 2 sum 120 least 54 greatest 66
ask h groups 2: 167772161=2/120/54/66 167772163=1/54/54/54
ask s groups 2: 0=1/54/54/54 2=1/66/66/66
ask o total count 3 sum 174 least 54 greatest 66
alert many 0 1
alert many 2 1
alert much 0 54
alert much 2 66
order 0*3
""",
    """\
records 2
ask l list 0:
ask n find 1: 1
ask w between 0:
ask m measure count 2 sum 154 least 54 greatest 100
ask h groups 2: 167772161=1/54/54/54 167772164=1/100/100/100
ask s groups 1: 2=2/154/54/100
ask o total count 2 sum 154 least 54 greatest 100
alert many 2 2
alert much 2 154
order 0*2
""",
)
BOTH = """\
records 5
ask l list 1: 1
ask n find 3: 0 2 4
ask w between 1: 0
ask m measure count 4 sum 274 least 54 greatest 100
ask g fired 1: 0=1
ask h top 2: 167772161=174 167772164=100
ask s groups 2: 0=1/54/54/54 2=3/220/54/100
ask o total count 5 sum 328 least 54 greatest 100
alert many 2 3
alert few 0 1
alert much 2 220
"""


class Sums(unittest.TestCase):
    def test_the_setup_of_a_part(self) -> None:
        self.assertEqual(plan_of(SETUP.encode()).text.decode(), PART)
        lines = "schema packet\nfilter f *\naggregate a f len\naggregate b f win\n"
        for triggers, told in (
            ("a sum > 5;a sum < 3;a least == 9", "a sum >= 0;;a least >= 0"),
            ("a greatest != 1;b greatest > 1", "a greatest >= 0;b greatest >= 0"),
            ("b count <= 7", "b count >= 1"),
        ):
            text, wanted = (
                lines + "".join(f"trigger t{at} {it}\n" for at, it in enumerate(its.split(";")) if it)
                for its in (triggers, told)
            )
            self.assertEqual(plan_of(text.encode()).text.decode(), wanted)

    def test_parts_are_added_up_in_any_order(self) -> None:
        plan = plan_of(SETUP.encode())
        for order in ((0, 1), (1, 0)):
            total = Sum()
            for at in order:
                total.add(sum_of(plan, (at, 0), REPORTS[at], "part"), plan)
            self.assertEqual("\n".join(lines_of(report_of(plan, total))) + "\n", BOTH)

    def test_parts_with_many_keys_are_added_up(self) -> None:
        plan = plan_of(SETUP.encode())
        keys = " ".join(f"{it}=1/60/60/60" for it in range(3000))
        many = REPORTS[1].replace(
            "groups 2: 167772161=1/54/54/54 167772164=1/100/100/100", f"groups 3000: {keys}"
        )
        total = sum_of(plan, (0, 0), many, "part")
        total.add(sum_of(plan, (0, 1), many.replace("2999=1/60/60/60", "2999=1/61/61/61"), "part"), plan)
        self.assertEqual(len(total.groups["h"]), 3000)
        found = {it.name: it.body for it in report_of(plan, total).asks}["h"]
        self.assertEqual(found, Top((Pair(2999, 121), Pair(0, 120))))


def cut_small(least: int = 200, reach: int = 100) -> Any:
    """Pieces of few bytes, and few that must look like packets around a cut."""
    return mock.patch.multiple("confluo_report.over_split", LEAST=least, BEFORE=reach, BEHIND=reach)


def cut_wrong(least: int = 200) -> Any:
    """Pieces of so many bytes, wherever that cuts them."""
    return mock.patch.multiple(
        "confluo_report.over_split", LEAST=least, _begin_near=lambda file, head, size, at: at
    )


def begins(data: bytes) -> list[int]:
    """Where the records of a little-endian capture begin, and its end."""
    found = [24]
    while found[-1] < len(data):
        found.append(found[-1] + 16 + struct.unpack_from("<I", data, found[-1] + 8)[0])
    return found


class Cuts(unittest.TestCase):
    """Where a classic capture is cut, without the program that says whether that is right."""

    def setUp(self) -> None:
        place = tempfile.NamedTemporaryFile()
        self.addCleanup(place.close)
        self.path = place.name

    def cuts(self, data: bytes, jobs: int = 1) -> list[int]:
        """The ends of the pieces, which follow one another, with the capture's header before each."""
        pathlib.Path(self.path).write_bytes(data)
        its = list(guesses_of(self.path, 0, jobs) or ())
        if len(its) > 1:
            self.assertEqual([it.piece[3] for it in its], [data[:24]] * len(its))
            self.assertEqual([it.piece[1] for it in its], [24, *(it.piece[2] for it in its[:-1])])
        self.assertEqual([it.is_guess for it in its], [True] * (len(its) - 1) + [False])
        return [it.piece[2] or len(data) for it in its]

    def test_cuts_are_between_records(self) -> None:
        draw, most = random.Random(1), 0
        for _ in range(50):
            data = pcap(drawn_frames(draw, draw.randrange(60)))
            with cut_small(300):
                cuts = self.cuts(data, draw.randrange(1, 9))
            self.assertLessEqual(set(cuts), set(begins(data)))
            self.assertEqual(cuts[-1], len(data))
            most = max(most, len(cuts))
        self.assertGreater(most, 5)

    def test_pieces_become_smaller(self) -> None:
        data = pcap([(1, frame())] * 1000)
        with cut_small(1000):
            ends = self.cuts(data, 2)
        sizes = [high - low for low, high in zip([24, *ends], ends)]
        self.assertGreater(sizes[0], len(data) // 5)
        self.assertEqual(sorted(sizes[:-1], reverse=True), sizes[:-1])
        self.assertLess(sizes[-2], 1200)

    def test_a_capture_in_packets_is_not_cut(self) -> None:
        inner = pcap([(1, frame())] * 9)[24:]
        data = pcap([(1, frame(1) + inner), (1, frame(1))] * 40)
        with cut_small(900, len(inner)):
            cuts = self.cuts(data)
        self.assertLessEqual(set(cuts), set(begins(data)))
        self.assertGreater(len(cuts), 4)

    def test_what_is_not_cut(self) -> None:
        data = pcap([(1, frame())] * 40)
        zeros = data[:24] + bytes(2000)
        for its, reach in ((data, 2000), (zeros, 10), (data[:23], 10), (b"hello, world" * 99, 10), (b"", 10)):
            with cut_small(300, reach):
                self.assertEqual(self.cuts(its), [len(its)])
        self.assertIsNone(guesses_of(str(EXAMPLES / "formats/sections.pcapng"), 0, 1))


class KilledWorker(Exception):
    """By the name of Dask's own."""


class Workers(unittest.TestCase):
    def test_a_task_without_a_result_in_words(self) -> None:
        for result, why in (
            ((KilledWorker, KilledWorker("key"), None), "several workers died while it ran this"),
            (ValueError("odd"), "on a worker: ValueError: odd"),
        ):
            self.assertIn(why, words_of(result))


class Finding(unittest.TestCase):
    def test_words_name_captures(self) -> None:
        with tempfile.TemporaryDirectory() as name:
            folder = pathlib.Path(name)
            for path in ("ring/b10.pcap", "ring/b9.pcap", "ring/a/x.pcap0", "ring/.hidden", "one.pcap"):
                (folder / path).parent.mkdir(parents=True, exist_ok=True)
                (folder / path).write_bytes(pcap([]))
            for path, data in (
                ("ring/notes.txt", b"no capture"),
                ("ring/c.pcap.gz", PACKERS[0][0] + b"\x08\0"),
                ("ring/log.gz", PACKERS[0][0] + b"\x08\0"),
                ("csv/x.csv", b"ts\n1\n"),
            ):
                (folder / path).parent.mkdir(parents=True, exist_ok=True)
                (folder / path).write_bytes(data)
            ring = ["ring/b9.pcap", "ring/b10.pcap", "ring/c.pcap.gz", "ring/a/x.pcap0"]
            for words, is_packet, captures, others in (
                (["one.pcap"], True, ["one.pcap"], 0),
                (["ring"], True, ring, 2),
                (["one.pcap", "ring/b*.pcap"], True, ["one.pcap", *ring[:2]], 0),
                (["**/*.pcap0", "one.pcap", "one.pcap"], True, ["ring/a/x.pcap0", "one.pcap", "one.pcap"], 0),
                (["csv"], False, ["csv/x.csv"], 0),
            ):
                found = find([str(folder / it) for it in words], is_packet)
                self.assertEqual([os.path.relpath(it, folder) for it in found.captures], captures, words)
                self.assertEqual(found.others, others, words)
            for word, why in (
                ("csv", "has no capture"),
                ("nothing", "no file has that name"),
                ("no*", "no file has that name"),
            ):
                with self.assertRaisesRegex(Complaint, why):
                    find([str(folder / word)])
            os.mkfifo(folder / "pipe")
            for word, why in (("-", "standard input"), (str(folder / "pipe"), "neither a file nor a folder")):
                with self.assertRaisesRegex(Complaint, why):
                    find([word])

    def test_numbers_are_ordered_as_numbers(self) -> None:
        names = ["r10", "r9", "r", "r9b", "q1"]
        self.assertEqual(sorted(names, key=natural), ["q1", "r", "r9", "r9b", "r10"])


class Progress(unittest.TestCase):
    def test_what_is_said(self) -> None:
        parts = Parts("of 200 captures", 8 * 10**9, io.StringIO())
        parts.done(10**9)
        self.assertEqual(parts.text(5), "1 of 200 captures, 200.0 MB/s, 35 s left")
        self.assertEqual(parts.out.getvalue(), "")

    def test_a_terminal_has_a_line_that_is_cleared(self) -> None:
        out = io.StringIO()
        with mock.patch.object(out, "isatty", lambda: True), mock.patch("confluo_report.progress.REST", 0):
            with Parts("of 2 captures", 1000, out) as parts:
                parts.done(400)
        self.assertRegex(
            out.getvalue(), r"\A\r\x1b\[K1 of 2 captures, [0-9.]+ MB/s, [0-9]+ s left\r\x1b\[K\Z"
        )


EXPRESSIONS = (
    "*",
    "dport==80",
    "len>60 || dport==443",
    "src in 10.0.0.0/30",
    "flags!=2 && len<=70",
    "len>99",
)
NUMBERS = {"count": 4, "sum": 300, "least": 60, "greatest": 80}


def drawn_setup(draw: random.Random) -> str:
    """A setup with questions of all kinds."""
    lines = [f"schema {draw.choice(('packet', 'packet6'))}", f"width {draw.choice((10**9, 3 * 10**9))}"]
    key, top = draw.choice((("src", 167772163), ("dport", 443), ("len", 70), ("etype", 2048)))
    lines += [f"index i {key}"]
    lines += [f"filter f{it} {draw.choice(EXPRESSIONS)}" for it in range(2)]
    lines += [
        f"aggregate a{it} f{draw.randrange(2)} {draw.choice(('len', 'caplen', 'ttl'))}" for it in range(2)
    ]
    lines.append(f"aggregate a2 f{draw.randrange(2)} len by {draw.choice(('src', 'dport', 'ts'))}")
    lines += [
        f"tally t{it} {draw.choice(('src', 'dport', 'ts'))} len {draw.choice(EXPRESSIONS)}" for it in range(2)
    ]
    triggers = draw.randrange(1, 17)
    for it in range(triggers):
        part = draw.choice(tuple(NUMBERS))
        limit = draw.randrange(NUMBERS[part] * 2)
        sign = draw.choice(("==", "!=", "<", "<=", ">", ">="))
        lines.append(f"trigger g{it} a{draw.randrange(3)} {part} {sign} {limit}")
    low, high = draw.randrange(8), draw.randrange(12)
    asks = [f"list {it}" for it in draw.sample(EXPRESSIONS, 3)]
    asks += [f"find i {low} {top}", f"between f0 {low} {high}", f"measure a0 {low} {high}"]
    asks += [f"fired g{draw.randrange(triggers)}", f"total len {draw.choice(EXPRESSIONS)}"]
    asks += [f"top t{at} {part} {draw.randrange(1, 9)}" for at in range(2) for part in NUMBERS]
    asks += ["groups a0", "groups a2", "groups t1"]
    draw.shuffle(asks)
    return "\n".join([*lines, *(f"ask q{at} {it}" for at, it in enumerate(asks))]) + "\n"


def drawn_frames(draw: random.Random, count: int) -> list[tuple[int, bytes]]:
    kinds = (lambda: frame(draw.randrange(9), draw.choice((80, 81, 443)), 54, draw.choice((2, 16))), frame6)
    return [(draw.randrange(12), draw.choice(kinds)() + bytes(draw.randrange(50))) for _ in range(count)]


class Drawn:
    """A setup and captures in a folder, and what one run over all of these says."""

    def __init__(self, folder: pathlib.Path, seed: int) -> None:
        draw = random.Random(seed)
        self.setup = folder / f"{seed}.setup"
        self.setup.write_text(drawn_setup(draw))
        parts = [drawn_frames(draw, draw.choice((0, 1, 7, 40))) for _ in range(draw.randrange(1, 6))]
        self.captures = [folder / f"{seed}_{at}.pcap" for at in range(len(parts))]
        for path, its in zip(self.captures, parts):
            path.write_bytes(pcap(its))
        self.whole = folder / f"{seed}.pcap"
        self.whole.write_bytes(pcap([it for its in parts for it in its]))
        self.sizes = [len(its) for its in parts]

    def expected(self) -> str:
        ran = confluo("run", "--long", "--setup", self.setup, "--writers", "1", *self.captures)
        assert ran.status == 0, ran
        return ran.out

    def numbered(self, read: dict) -> dict[str, list[int]]:
        """The records that each question found, numbered through all captures, of the JSON."""
        starts = {str(it): sum(self.sizes[:at]) for at, it in enumerate(self.captures)}
        return {
            ask["name"]: [starts[part["capture"]] + it for part in ask["parts"] for it in part["records"]]
            for ask in read["asks"]
            if "parts" in ask
        }


def found_by(text: str) -> dict[str, list[int]]:
    """The records that each question of a report found."""
    words = [it.split() for it in text.splitlines() if it.startswith("ask ")]
    return {it[1]: list(map(int, it[4:])) for it in words if it[2] in ("list", "find", "between")}


class Case(unittest.TestCase):
    def setUp(self) -> None:
        place = tempfile.TemporaryDirectory()
        self.addCleanup(place.cleanup)
        self.folder = pathlib.Path(place.name)


@needs_program
class Runs(Case):
    def test_drawn_captures_are_answered_as_one(self) -> None:
        for seed in range(12):
            drawn = Drawn(self.folder, seed)
            words = ("over", "--setup", drawn.setup, "--jobs", "2", *drawn.captures)
            ended = tool(*words, "--format", "report")
            self.assertEqual((ended.status, ended.out, ended.err), (0, drawn.expected(), ""), seed)
            read = json.loads(tool(*words, "--format", "json").out)
            self.assertEqual(drawn.numbered(read), found_by(ended.out), seed)

    def test_drawn_captures_are_split(self) -> None:
        for seed in range(30, 39):
            drawn = Drawn(self.folder, seed)
            words = ("over", "--split", "--setup", drawn.setup, "--jobs", "2", "--format", "report")
            # (where all cuts are wrong, captures are walked)
            for cut in (cut_small(), cut_wrong()):
                with mock.patch("confluo_report.over.EACH", 5), cut:
                    for captures in (drawn.captures, [drawn.whole]):
                        ended = tool(*words, *captures)
                        self.assertEqual(
                            (ended.status, ended.out, ended.err), (0, drawn.expected(), ""), seed
                        )

    def test_pieces_of_a_file_of_blocks_are_the_whole(self) -> None:
        draw, path = random.Random(1), self.folder / "blocks.pcapng"
        data = b""
        for order in "<><":
            kinds = (lambda: block(6, packet(draw.randrange(2)), order), lambda: block(5, bytes(12), order))
            front = [
                block(0x0A0D0D0A, struct.pack(order + "IHHq", 0x1A2B3C4D, 1, 0, -1), order),
                block(1, struct.pack(order + "HHI", 1, 0, 0), order),
                block(1, struct.pack(order + "HHI", 113, 0, 0), order),
            ]

            def packet(interface: int) -> bytes:
                data = frame(draw.randrange(5))
                return struct.pack(order + "IIIII", interface, 0, 10**6, len(data), len(data)) + data

            data += b"".join([*front, *(draw.choice(kinds)() for _ in range(20)), front[1]])
        path.write_bytes(data)
        whole = self.over("--format", "report", path)
        for each in (1, 2, 7, 100):
            with mock.patch("confluo_report.over.EACH", each):
                self.assertEqual(self.over("--format", "report", "--split", path), whole, each)
        self.assertEqual(whole[0], 0)

    def test_a_fault_of_a_piece_is_that_of_the_whole(self) -> None:
        path, good = self.folder / "faulty", self.folder / "good.pcap"
        good.write_bytes(pcap([(1, frame())] * 3))
        for data, record, code, _ in CAPTURES:
            path.write_bytes(data)
            for words in ((path,), ("--truncated", path), ("--keep-going", path, good)):
                words = ("--format", "report", "--jobs", "2", *words)
                whole = self.over(*words)
                for cut in (cut_small(70, 30), cut_wrong(70)):
                    with mock.patch("confluo_report.over.EACH", 1), cut:
                        self.assertEqual(self.over("--split", *words), whole, (code, record))

    def test_a_fault_far_in_a_capture_is_that_of_the_whole(self) -> None:
        frames, path, others = [(1, frame())] * 60, self.folder / "faulty.pcap", self.folder / "other.pcap"
        good = pcap(frames)
        others.write_bytes(good)
        at = begins(good)[40]
        long = good[: at + 8] + struct.pack("<I", 2**18 + 1) + good[at + 12 :]
        for data in (good, long, good[:-7], good[:-60], long[:-7]):
            path.write_bytes(data)
            for words in (
                (path,),
                (others, path, others),
                ("--truncated", path),
                ("--keep-going", path, others),
            ):
                words = ("--format", "report", "--jobs", "2", *words)
                whole = self.over(*words)
                for cut in (cut_small(), cut_wrong(500)):
                    with mock.patch("confluo_report.over.EACH", 7), cut:
                        self.assertEqual(self.over("--split", *words), whole, (len(data), words))

    def test_a_piece_that_is_not_there_any_more_is_no_answer(self) -> None:
        path, data = self.folder / "s.setup", pcap([(1, frame())] * 3)
        (self.folder / "c.pcap").write_bytes(data)
        path.write_text(SETUP)
        work = Work(plan_of(SETUP.encode()).text, (("--writers", "1"),), program())
        size = len(data)
        for end, status, why in ((size, 0, ""), (size + 70, None, "it became shorter while it was read")):
            ended = answer(Running(), work, (str(self.folder / "c.pcap"), 24, end, data[:24]))
            self.assertEqual((ended[0], ended[2]), (status, why))

    def test_packed_captures_and_files_of_records(self) -> None:
        whole = pcap([(1, frame(1)), (2, frame(2))])
        for name, data in (
            ("a.pcap.gz", gzip.compress(whole)),
            ("-b\udcff.pcap", whole),
            ("broken.pcap.gz", gzip.compress(whole)[:-9]),
            ("x.csv", b"ts,src,len\n0,10.0.0.1,100\n0,10.0.0.2,70\n"),
            ("y.csv", b"ts,src,len\n0,10.0.0.1,20\n0,10.0.0.3,70\n"),
        ):
            (self.folder / name).write_bytes(data)
        records = "schema records ts:u64,src:u32,len:u32\ntally s src len *\nask h top s sum 2\nask t total len len<=70\n"
        answers = (
            "ask h top 2: 167772161=120 167772162=70\nask t total count 3 sum 160 least 20 greatest 70\n"
        )
        for setup, words, status, out, err in (
            (SETUP, ("a.pcap.gz", "-b\udcff.pcap"), 0, "records 4\n", ""),
            (SETUP, ("broken.pcap.gz",), 2, "", "broken.pcap.gz: gzip could not unpack it (status 1)"),
            (records, ("x.csv", "y.csv"), 0, f"records 4\n{answers}", ""),
            (records, (".",), 0, f"records 4\n{answers}", "4 other files"),
        ):
            paths = [self.folder / it for it in words]
            ended = self.over("--format", "report", *paths, setup=setup)
            self.assertEqual(ended[0], status, (words, ended))
            self.assertTrue(ended[1].startswith(out), (words, ended))
            self.assertIn(err, ended[2], words)

    def captures(self) -> list[pathlib.Path]:
        """A good one, one that is cut off, and one that is none."""
        paths = [self.folder / it for it in ("good.pcap", "cut.pcap", "text.pcap")]
        whole = pcap([(1, frame(1)), (2, frame(2))])
        for path, data in zip(paths, (whole, whole[:-3], b"hello, world")):
            path.write_bytes(data)
        return paths

    def over(self, *words: object, setup: str = SETUP) -> "tuple[int, str, str]":
        path = self.folder / "s.setup"
        path.write_text(setup)
        ended = tool("over", "--setup", path, *words)
        return (
            ended.status,
            ended.out.replace(f"{self.folder}/", ""),
            ended.err.replace(f"{self.folder}/", ""),
        )

    def test_a_part_that_fails_is_named(self) -> None:
        good, cut, text = self.captures()
        for words, status, out, err in (
            ((good, cut), 2, "", "cut.pcap: the file ends within a packet or its header"),
            ((good, cut), 2, "", "at record 1 (status 3)\n--keep-going"),
            (
                (text, "--keep-going"),
                2,
                "",
                "no capture could be answered\ntext.pcap: the file is not a capture",
            ),
            (
                (good, text, "--keep-going"),
                1,
                "records 2\n",
                "left out: text.pcap: the file is not a capture",
            ),
            ((good, cut, "--truncated"), 0, "truncated: capture 2 record 1\n", ""),
            ((cut, "--truncated"), 0, "truncated: record 1\n", ""),
            ((good, good), 0, "records 4\n", ""),
            ((good, "--jobs", "0"), 2, "", "--jobs is at least 1"),
            ((good, "--jobs", "1", "--scheduler", "x"), 2, "", "not allowed with"),
        ):
            ended = self.over("--format", "report", *words)
            self.assertEqual(ended[0], status, words)
            self.assertIn(out, ended[1], words)
            self.assertIn(err, ended[2], words)

    def test_what_confluo_refuses_is_said_in_words(self) -> None:
        good = self.captures()[0]
        for script, why in (
            (
                "echo 'full: more than 4294967295 records'; exit 6",
                "it has more than 4294967295 records (status 6)",
            ),
            ("echo 'nodes: more than 65536 nodes'; exit 7", "even in small segments.* (status 7)"),
            ("echo 'words: not a command'; exit 1", "it is another version (status 1)"),
            ("echo 'setup: line 3 code 2'; exit 2", "at line 3 with code 2 (status 2)"),
            ("exit 8", "there was not enough memory (status 8)"),
            ("kill -9 $$", "confluo was ended by signal 9 (status -9)"),
            ("echo nonsense", "this is not a report|cannot be read"),
        ):
            with mock.patch.dict(os.environ, {"CONFLUO": str(self.script(script))}):
                status, _, err = self.over(good)
            self.assertEqual(status, 2)
            self.assertRegex(err, why.replace("(", r"\(").replace(")", r"\)"))

    def script(self, text: str) -> pathlib.Path:
        path = self.folder / "confluo.sh"
        path.write_text(f"#!/bin/sh\n{text}\n")
        path.chmod(0o755)
        return path

    def test_formats(self) -> None:
        good, _, text = self.captures()
        setup = SETUP.replace("dport==81", "len>9")
        words = ("--keep-going", good, good, text)
        shown = self.over(*words, setup=setup)[1].splitlines()
        for line in (
            "4 packets of 2 captures",
            "left out: text.pcap: the file is not a capture: its first bytes are not those of pcap or pcapng, "
            "at record 0 (status 3)",
            "l  packets with len>9: 4",
            "  in good.pcap: 2",
        ):
            self.assertIn(line, shown)
        read = json.loads(self.over(*words, "--format", "json", setup=setup)[1])
        self.assertEqual(read["captures"], [{"capture": "good.pcap", "records": 2}] * 2)
        self.assertEqual(read["left_out"][0]["capture"], "text.pcap")
        self.assertEqual(read["left_out"][0]["status"], 3)
        self.assertEqual(read["asks"][0]["parts"], [{"capture": "good.pcap", "records": [0, 1]}] * 2)
        rows = list(csv.reader(io.StringIO(self.over(*words, "--format", "csv", setup=setup)[1])))
        for row in (
            ["capture", "good.pcap", "", "", "", "", "", "2"],
            ["ask", "", "l", "list", "", "", "", "4"],
            ["ask", "good.pcap", "l", "list", "", "3", "1", ""],
            ["ask", "", "h", "top", "", "0", "10.0.0.1", "108"],
        ):
            self.assertIn(row, rows)
        metrics = self.over(*words, "--format", "prometheus", setup=setup)[1]
        for line in (
            "confluo_captures 2",
            "confluo_left_out_captures 1",
            'confluo_found_records{ask="l",kind="list"} 4',
        ):
            self.assertIn(f"{line}\n", metrics)

    def test_packets_that_are_not_parsed_are_counted(self) -> None:
        one, two = self.folder / "one.pcap", self.folder / "two.pcap"
        one.write_bytes(pcap([(1, frame()), (2, frame6()), (3, tagged())]))
        two.write_bytes(pcap([(1, frame6()), (2, frame())]))
        said = (
            "2 of 5 packets are IPv6, and 1 has a second VLAN tag or a service tag: these were not parsed (addresses and "
            "ports are 0): write `schema packet6`"
        )
        plain = "schema packet\nask q list dport==80\n"
        # The tool's own questions have names that the setup does not give.
        for setup in (plain, f"{plain}filter ipv6 *\nask ipv6_ list *\nask tagged total len *\n"):
            for words in ((), ("--split",)):
                out = self.over(one, two, *words, setup=setup)[1].splitlines()
                self.assertEqual(out[:2], ["5 packets of 2 captures", said])
                self.assertIn("q  packets with dport==80: 2", out)
                self.assertEqual(sum("ipv6" in it for it in out), len(setup.split("ask ipv6_")) - 1, out)
        full = plain + "".join(f"ask q{at} list *\n" for at in range(30))
        out = self.over(one, two, setup=full)[1].splitlines()
        self.assertIn("`confluo-report check --capture FILE` says how many", out[1])
        self.assertNotIn("not parsed", self.over(one, two, setup=plain.replace("packet", "packet6"))[1])
        good = self.captures()[0]
        self.assertNotIn("pars", self.over(good, setup=plain)[1])

    def test_json_meets_its_schema(self) -> None:
        try:
            import jsonschema
        except ImportError:
            self.skipTest("the Python package jsonschema is missing: apt-get install python3-jsonschema")
        good, cut, text = self.captures()
        schema = json.loads((ROOT / "docs" / "report.schema.json").read_text())
        for words in ((good,), (good, cut, text, "--keep-going"), (cut, cut, "--truncated")):
            jsonschema.validate(json.loads(self.over("--format", "json", *words)[1]), schema)

    def test_interrupted_it_leaves_no_process(self) -> None:
        good, log = self.captures()[0], self.folder / "log"
        path = self.folder / "s.setup"
        path.write_text(SETUP)
        environment = os.environ | {"CONFLUO": str(self.script(f"echo $$ >> {log}; exec sleep 60"))}
        words = [
            sys.executable,
            TOOLS / "confluo-report",
            "over",
            "--setup",
            path,
            "--jobs",
            "2",
            *[good] * 9,
        ]
        for number in (signal.SIGINT, signal.SIGTERM):
            with subprocess.Popen(words, env=environment, stderr=subprocess.PIPE, text=True) as process:
                ids = wait_for_lines(log, 2)
                process.send_signal(number)
                self.assertIn("interrupted", process.communicate(timeout=60)[1])
            self.assertEqual(process.returncode, 128 + number)
            self.assertEqual([it for it in ids if is_alive(it)], [])
            log.unlink()


def wait_for_lines(path: pathlib.Path, count: int) -> list[int]:
    """The numbers in the lines of a file, once there are so many."""
    for _ in range(3600):
        lines = path.read_text().split() if path.exists() else []
        if len(lines) >= count:
            return list(map(int, lines))
        time.sleep(0.05)
    raise AssertionError(f"{path} has fewer than {count} lines after three minutes")


def is_alive(number: int) -> bool:
    return pathlib.Path(f"/proc/{number}").exists()


PYTHONS = (sys.executable, "/usr/bin/python3")


def python_with(modules: str) -> "str | None":
    """A Python that has them: Debian's packages are for the system's own."""
    for it in PYTHONS:
        words = [it, "-c", f"import {modules}"]
        if os.path.exists(it) and subprocess.run(words, capture_output=True).returncode == 0:
            return it
    return None


def is_installable() -> bool:
    """Whether apt would find Dask."""
    try:
        said = subprocess.run(["apt-cache", "show", "python3-distributed"], capture_output=True)
    except OSError:
        return False
    return said.returncode == 0 and bool(said.stdout)


@needs_program
class Clusters(Case):
    """By a cluster of two processes, whose program can be held back."""

    python = ""

    @classmethod
    def setUpClass(cls) -> None:
        found = python_with("distributed, cloudpickle")
        if not found:
            why = "Dask is missing: apt-get install python3-distributed"
            if os.environ.get("CI") and is_installable():
                raise AssertionError(why)
            raise unittest.SkipTest(why)
        cls.python = found
        place = tempfile.TemporaryDirectory()
        cls.addClassCleanup(place.cleanup)
        cls.shared = pathlib.Path(place.name)
        cls.log, cls.held = cls.shared / "log", cls.shared / "held"
        script = cls.shared / "confluo.sh"
        script.write_text(
            f'#!/bin/sh\necho $$ >> {cls.log}\n[ ! -e {cls.held} ] || exec sleep 60\nexec {program()} "$@"\n'
        )
        script.chmod(0o755)
        cls.cluster = subprocess.Popen(
            [found, "-B", TOOLS / "tests" / "local_cluster.py"],
            env=os.environ | {"CONFLUO": str(script)},
            cwd=cls.shared,
            stdin=subprocess.PIPE,
            stdout=subprocess.PIPE,
            stderr=subprocess.PIPE,
            text=True,
        )
        cls.addClassCleanup(cls.cluster.communicate)
        cls.address, *workers = (cls.cluster.stdout.readline().strip() for _ in range(3))
        cls.workers = list(map(int, workers))

    def setUp(self) -> None:
        super().setUp()
        self.log.unlink(missing_ok=True)

    def start(self, *words: object, each: int = 0) -> "subprocess.Popen[str]":
        """The tool with the scheduler, as it is run, or with pieces of so many packets."""
        front: list[object] = [TOOLS / "confluo-report"]
        if each:
            small = f"over.EACH = {each}; over_split.LEAST = 200; over_split.BEFORE = over_split.BEHIND = 100"
            code = f"sys.path.insert(0, {str(TOOLS)!r}); from confluo_report import cli, over, over_split; {small}"
            front = ["-c", f"import sys; {code}; sys.exit(cli.main())"]
        front = [self.python, "-B", *front, "over", "--scheduler", self.address]
        return subprocess.Popen([*front, *words], stdout=subprocess.PIPE, stderr=subprocess.PIPE, text=True)

    def over(self, *words: object, each: int = 0) -> "tuple[int, str, str]":
        with self.start(*words, each=each) as process:
            out, err = process.communicate(timeout=120)
        return process.returncode, out, err

    def test_drawn_captures_are_answered_as_one(self) -> None:
        for seed, each, split in ((20, 0, ()), (21, 5, ("--split",))):
            drawn = Drawn(self.folder, seed)
            words = ("--setup", drawn.setup, "--format", "report", *split, *drawn.captures)
            status, out, err = self.over(*words, each=each)
            self.assertEqual((status, out), (0, drawn.expected()), (seed, err))
            self.assertRegex(err, r"\Aconfluo-report: Dask's dashboard: http://\S+\n\Z")

    def test_a_part_that_fails_is_named(self) -> None:
        setup, good, bad = (self.folder / it for it in ("s.setup", "good.pcap", "bad.pcap"))
        setup.write_text(SETUP)
        good.write_bytes(pcap([(1, frame())]))
        bad.write_bytes(b"hello, world")
        words = ("--setup", setup, "--format", "report", good, bad, good)
        status, out, err = self.over(*words)
        self.assertEqual((status, out), (2, ""))
        self.assertIn("bad.pcap: the file is not a capture", err)
        status, out, err = self.over("--keep-going", *words)
        self.assertEqual((status, out.splitlines()[0]), (1, "records 2"))
        self.assertIn("left out: " + str(bad), err)

    def test_a_worker_that_dies_is_tried_again(self) -> None:
        captures = [it for it in sorted(EXAMPLES.rglob("*.pcap*")) if it.name != "cut_off.pcap"]
        self.assertGreater(len(captures), 9)
        repeated = (captures * 200)[:200]
        setup = self.folder / "s.setup"
        setup.write_text(SETUP.replace("schema packet\n", "schema packet6\n"))
        words = ("--setup", setup, "--format", "report", *repeated)
        with self.start(*words) as process:
            wait_for_lines(self.log, 40)
            os.kill(self.workers.pop(), signal.SIGKILL)
            out, err = process.communicate(timeout=300)
        self.assertEqual(process.returncode, 0, err)
        self.assertEqual(out, tool("over", "--jobs", "2", *words).out)
        self.assertGreater(len(self.log.read_text().split()), 200)

    def test_interrupted_it_leaves_no_process(self) -> None:
        setup, good = self.folder / "s.setup", self.folder / "good.pcap"
        setup.write_text(SETUP)
        good.write_bytes(pcap([(1, frame())]))
        self.held.touch()
        self.addCleanup(self.held.unlink)
        with self.start("--setup", setup, *[good] * 9) as process:
            ids = wait_for_lines(self.log, 2)
            process.send_signal(signal.SIGINT)
            self.assertIn("interrupted", process.communicate(timeout=60)[1])
        self.assertEqual(process.returncode, 130)
        # (they were killed, and the worker may not have waited for them yet)
        late = time.monotonic() + 60
        while any(map(is_alive, ids)) and time.monotonic() < late:
            time.sleep(0.05)
        self.assertEqual([it for it in ids if is_alive(it)], [])

    def test_a_scheduler_that_is_not_there_is_named(self) -> None:
        setup, good = self.folder / "s.setup", self.folder / "good.pcap"
        setup.write_text(SETUP)
        good.write_bytes(pcap([]))
        words = ["over", "--setup", setup, "--scheduler", "tcp://127.0.0.1:9", good]
        ran = subprocess.run(
            [self.python, "-B", TOOLS / "confluo-report", *words], capture_output=True, text=True
        )
        self.assertEqual((ran.returncode, ran.stdout), (2, ""))
        self.assertIn("no Dask scheduler answers at tcp://127.0.0.1:9", ran.stderr)
        self.assertEqual(len(ran.stderr.splitlines()), 1)


FRAMES = """
import json, pathlib, sys
from types import SimpleNamespace as Has
import confluo
setup, *captures = map(pathlib.Path, sys.argv[1:])
answered = confluo.over(setup, captures, jobs=2, keep_going=True)
same = confluo.over(setup.read_text(), list(map(str, captures[:1])))
try:
    confluo.over(setup, captures)
    why = ""
except RuntimeError as error:
    why = str(error)
others = answered.captures, answered.alerts, answered.left_out, same["l"], same.captures
addresses = [confluo.over.__globals__["_address"](it) for it in ("a", Has(scheduler_address="b"), Has(scheduler=Has(address="c")))]
rows = lambda frame: json.loads(frame.drop(columns="time", errors="ignore").to_json(orient="values"))
told = {name: [list(it.columns), rows(it)] for name, it in answered.items()}
print(json.dumps([told, answered.records, list(map(rows, others)), str(answered["g"]["time"][0]), addresses, why]))
"""


@needs_program
@unittest.skipUnless(shutil.which("cc"), "cc is missing, with which the library's stand-in is made")
class Frames(Case):
    """What `confluo.over` of the Python package answers."""

    def test_frames_by_question(self) -> None:
        python = python_with("pandas")
        if not python:
            self.skipTest("pandas is missing: apt-get install python3-pandas")
        subprocess.run([TOOLS / "deb" / "stand_in.sh", self.folder], check=True)
        setup, good, bad = (self.folder / it for it in ("s.setup", "good.pcap", "bad.pcap"))
        text = SETUP.replace("dport==81", "len>9").replace("few a count < 2", "few a count == 2")
        text += "aggregate b f len by src\ntrigger each b count >= 2\nask e fired each\nask k groups b\n"
        setup.write_text(text)
        good.write_bytes(pcap([(1, frame(1)), (2, frame(2))]))
        bad.write_bytes(b"hello, world")
        named = {"CONFLUO_LIBRARY": str(self.folder / "libconfluo.so.0"), "CONFLUO": program()}
        ran = subprocess.run(
            [python, "-B", "-c", FRAMES, setup, good, good, bad],
            env=os.environ | named,
            cwd=ROOT / "bindings" / "python",
            capture_output=True,
            text=True,
        )
        self.assertEqual((ran.returncode, ran.stderr), (0, ""))
        told, records, others, time_of_first, addresses, why = json.loads(ran.stdout)
        one, two = str(good), str(bad)
        by_key = [
            [0, 167772161, "10.0.0.1", 2, 108, 54, 54],
            [1, 167772162, "10.0.0.2", 2, 108, 54, 54],
        ]
        self.assertEqual(
            told,
            {
                "l": [["capture", "record"], [[one, 0], [one, 1]] * 2],
                "n": [["capture", "record"], [[one, 0], [one, 1]] * 2],
                "w": [["capture", "record"], [[one, 0], [one, 1]] * 2],
                "m": [["count", "sum", "least", "greatest"], [[4, 216, 54, 54]]],
                "g": [["bucket", "time", "value"], [[0, 2], [1, 2]]],
                "h": [["key", "text", "value"], [[167772161, "10.0.0.1", 108], [167772162, "10.0.0.2", 108]]],
                "s": [
                    ["key", "text", "count", "sum", "least", "greatest"],
                    [
                        [0, "1970-01-01 00:00:00Z", 2, 108, 54, 54],
                        [1, "1970-01-01 00:00:02Z", 2, 108, 54, 54],
                    ],
                ],
                "o": [["count", "sum", "least", "greatest"], [[4, 216, 54, 54]]],
                "e": [["bucket", "time", "key", "text", "value"], [it[:4] for it in by_key]],
                "k": [
                    ["bucket", "time", "key", "text", "count", "sum", "least", "greatest"],
                    by_key,
                ],
            },
        )
        self.assertEqual((records, time_of_first), (4, "1970-01-01 00:00:00+00:00"))
        captures, alerts, left_out, alone, counted = others
        self.assertEqual(captures, [[one, 2, None]] * 2)
        few = [["few", 0, None, None, 2], ["few", 1, None, None, 2]]
        self.assertEqual(alerts, [*few, *(["each", *it[:4]] for it in by_key)])
        self.assertEqual([left_out[0][0], left_out[0][2]], [two, 3])
        self.assertEqual((alone, counted), ([[one, 0], [one, 1]], [[one, 2, None]]))
        self.assertEqual(addresses, ["a", "b", "c"])
        self.assertIn("bad.pcap: the file is not a capture", why)


if __name__ == "__main__":
    unittest.main()
