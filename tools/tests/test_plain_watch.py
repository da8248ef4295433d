"""The plain watch of bench/ writes what is written by hand here, and its end is that of a run over the window."""

import random
import subprocess
import sys
import tempfile
import pathlib
import unittest

from support import ROOT, block, enhanced, frame, interface, pcap, section

sys.path.append(str(ROOT / "bench"))

import damage  # noqa: E402
import plain  # noqa: E402
import plain_answers  # noqa: E402
import plain_watch  # noqa: E402
import speed  # noqa: E402

C2 = bytes.fromhex(
    "d4c3b2a1 0200 0400 00000000 00000000 ffff0000 01000000"
    "01000000 20a10700 02000000 3c000000 aabb 02000000 00000000 01000000 64000000 cc"
)
LANES = b"schema packet\nfilter f *\naggregate a f len\ntrigger t a sum > 50\n"
S = LANES + b"ask q list len>=1\nlive q\n"
END = "records 2 / window 0 / ask q list 2: 0 1 / alert t 1 60 / alert t 2 100"
# Setup, capture, reads, options, status, and the lines that each read gives rise to and that the end does.
ROWS = (
    (S, C2, [59], {"every": 1}, 0, ["alert t 1 60 @2 / alert t 2 100 @2 / live q @0..2 list 2: 0 1"], END),
    (
        S,
        C2,
        [42, 17],
        {"every": 1},
        0,
        ["alert t 1 60 @1 / live q @0..1 list 1: 0", "alert t 2 100 @2 / live q @0..2 list 2: 0 1"],
        END,
    ),
    (
        S,
        C2,
        [59],
        {"every": 1, "capacity": 1, "segments": 1},
        0,
        [
            "alert t 1 60 @1 / live q @0..1 list 1: 0 / alert t 2 100 @2 / live q @1..2 list 1: 1",
        ],
        "records 2 / window 1 / ask q list 1: 1 / alert t 1 60 / alert t 2 100",
    ),
    # A beat ends a round, and comes before the line of a refusal.
    (
        S,
        C2,
        [42, 17],
        {"every": 0, "beat": 2},
        0,
        ["alert t 1 60 @1", "alert t 2 100 @2 / at 2 2 / total a count 2 sum 160"],
        END,
    ),
    (
        S,
        C2[:-1],
        [58],
        {"every": 0, "beat": 5},
        3,
        ["alert t 1 60 @1"],
        "at 1 1 / total a count 1 sum 60 / capture: record 1 code 5",
    ),
    (S, C2[:-1], [58], {"every": 0}, 3, ["alert t 1 60 @1"], "capture: record 1 code 5"),
    (
        S,
        C2[:-1],
        [58],
        {"every": 0, "truncated": True},
        0,
        ["alert t 1 60 @1"],
        "records 1 / window 0 / ask q list 1: 0 / alert t 1 60 / truncated: record 1",
    ),
    (S, C2[:24], [24], {}, 0, [""], "records 0 / window 0 / ask q list 0:"),
    (S, b"", [1], {}, 3, [], "capture: record 0 code 5"),
    (S, b"", [1], {"truncated": True}, 3, [], "capture: record 0 code 5"),
    # Two live questions less than `every` records apart; nothing is said twice.
    (
        S,
        C2,
        [42, 17],
        {"every": 2},
        0,
        ["alert t 1 60 @1", "alert t 2 100 @2 / live q @0..2 list 2: 0 1"],
        END,
    ),
    # One record more than may be; the window's two are told before.
    (S, C2, [59], {"most": 1}, 6, ["alert t 1 60 @1 / full: more than 1 records"], ""),
    # A bucket has 15 nodes above its leaf, in each of two lanes; bucket 2 has the same.
    (S, C2, [59], {"nodes": 29}, 7, ["nodes: more than 29 nodes"], ""),
    (S, C2, [59], {"nodes": 30, "every": 0}, 0, ["alert t 1 60 @2 / alert t 2 100 @2"], END),
    # A fault of the first four bytes is there before the record.
    (S, b"abcd", [4], {}, 3, ["capture: record 0 code 1"], ""),
    (b"schema packet\nask q list len>\n", C2, [59], {}, 2, [], "setup: line 2 code 10"),
    (b"# x\n schema records ts:u64\n", C2, [59], {}, 2, [], "setup: line 2 code 4"),
    (b"schema records ts:u64\nask q list nope==1\n", C2, [59], {}, 2, [], "setup: line 2 code 11"),
)
# A trigger whose marks more records may undo: it waits for two later buckets.
FEW = LANES.replace(b"sum > 50", b"count < 3") + b"ask g fired t\nlive g\n"


def lines(text: str) -> str:
    return "".join(f"{it}\n" for it in text.split(" / ") if it)


class Rows(unittest.TestCase):
    def test_rows(self) -> None:
        for setup, capture, reads, options, status, texts, end in ROWS:
            with self.subTest(reads=reads, options=options, end=end):
                found = plain_watch.watch(setup, capture, reads, **options)
                self.assertEqual(found, (status, [lines(it) for it in texts], lines(end)))

    def test_marks_that_may_be_undone_wait_for_two_later_buckets(self) -> None:
        seconds = (1, 4_000_000_000, 2, 3, 4)
        capture = pcap([(second, frame()) for second in seconds])
        size = (len(capture) - 24) // len(seconds)
        status, texts, end = plain_watch.watch(FEW, capture, [24] + [size] * 5, every=0)
        self.assertEqual(status, 0)
        self.assertEqual(
            texts, ["", "", "", "alert t 1 1 @3\n", "alert t 4000000000 1 @4\n", "alert t 2 1 @5\n"]
        )
        fired = "".join(f" {it}=1" for it in sorted(seconds))
        alerts = "".join(f"alert t {it} 1\n" for it in sorted(seconds))
        self.assertEqual(end, f"records 5\nwindow 0\nask g fired 5:{fired}\n{alerts}")

    def test_a_bucket_longer_than_the_window_is_told_once(self) -> None:
        setup = LANES.replace(b"sum > 50", b"count > 5") + b"ask g fired t\n"
        capture = pcap([(1, frame())] * 100)
        _, texts, end = plain_watch.watch(setup, capture, [2**20], capacity=2, segments=2)
        self.assertEqual(texts, ["alert t 1 6 @6\n"])
        self.assertEqual(end, "records 100\nwindow 96\nask g fired 1: 1=100\nalert t 1 100\n")

    def test_what_was_not_told_is_told_before_it_is_forgotten(self) -> None:
        setup = LANES.replace(b"sum > 50", b"count >= 1")
        for seconds in (range(5000), range(5000, 0, -1)):
            capture = pcap([(second, frame()) for second in seconds])
            _, texts, end = plain_watch.watch(setup, capture, [2**22], every=0)
            told = [it.split()[2] for it in "".join(texts).splitlines()]
            self.assertEqual(sorted(told, key=int), [str(it) for it in sorted(seconds)])
            alerts = [it.split()[2] for it in end.splitlines()[2:]]
            self.assertEqual(alerts, [str(it) for it in sorted(list(seconds)[-4096:])])

    def test_keys_of_a_bucket_are_told_apart(self) -> None:
        setup = b"schema packet\nfilter f *\naggregate a f len by src\ntrigger t a count >= 2\nask g fired t\nlive g\n"
        sent = ((1, 1), (2, 1), (1, 1), (2, 1), (2, 2), (1, 2), (1, 2))
        capture = pcap([(second, frame(source)) for source, second in sent])
        size = (len(capture) - 24) // len(sent)
        status, texts, end = plain_watch.watch(setup, capture, [24 + size * 3, size * 4], every=3)
        first, second = "1/167772161", "1/167772162"
        self.assertEqual(texts[0], f"alert t {first} 2 @3\nlive g @0..3 fired 1: {first}=2\n")
        fired = f"fired 3: {first}=2 {second}=2 2/167772161=2"
        later = f"alert t {second} 2 @7\nalert t 2/167772161 2 @7\nlive g @0..7 {fired}\n"
        self.assertEqual((status, texts[1]), (0, later))
        alerts = f"alert t {first} 2\nalert t {second} 2\nalert t 2/167772161 2\n"
        self.assertEqual(end, f"records 7\nwindow 0\nask g {fired}\n{alerts}")

    def test_so_many_pairs_are_kept(self) -> None:
        kept = plain_watch.KeptApart()
        for key in range(plain_watch.MOST_PAIRS - 1):
            kept.take(60, 1, key)
        # One more of another bucket goes in, and with the next the first bucket is forgotten.
        kept.take(60, 2, 0)
        self.assertEqual((kept.forgotten(1, 7), kept.forgotten(2, 1), kept.forgotten(3, 0)), (None, 1, 1))
        # A record of a kept pair moves its bucket to the end.
        kept.take(60, 1, 7)
        self.assertEqual((kept.forgotten(3, 0), kept.forgotten(2, 1), kept.forgotten(1, 70000)), (2, 1, 2))
        kept.take(60, 1, 70000)
        self.assertEqual((list(kept.buckets), kept.crowds()), ([1], []))
        kept.take(60, 1, 70001)
        self.assertEqual(
            (len(kept.buckets[1]), kept.crowds(), kept.count), (plain_watch.MOST_PAIRS, [1], 65539)
        )
        kept.take(60, 5, 0)
        self.assertEqual((list(kept.buckets), kept.crowds()), ([5], []))
        for bucket in range(6, 13):
            kept.take(60, bucket, 0)
        self.assertEqual((kept.forgotten(13, 0), kept.forgotten(5, 1)), (5, None))

    def test_nodes_open_a_segment(self) -> None:
        setup = b"schema packet\nindex i src\nask q find i 0 4294967295\nlive q\n"
        # Each source is a node apart from 6 that all share: 10.0.0.1 and 10.0.0.17 differ in their last digit but one.
        capture = pcap([(1, frame(1)), (1, frame(2)), (1, frame(17))])
        status, texts, end = plain_watch.watch(setup, capture, [999], nodes=7, segments=1, every=1)
        self.assertEqual(texts, ["live q @0..2 find 2: 0 1\nlive q @2..3 find 1: 2\n"])
        self.assertEqual((status, end), (0, "records 3\nwindow 2\nask q find 1: 2\n"))
        _, texts, _ = plain_watch.watch(setup, capture, [999], nodes=8, segments=1, every=1)
        self.assertEqual(texts, ["live q @0..3 find 3: 0 1 2\n"])

    def test_packet_blocks_and_sections_that_follow_one_another(self) -> None:
        one = section() + interface() + enhanced(frame(1)) + block(5, bytes(8)) + enhanced(frame(2))
        two = section(order=">") + section() + interface(1) + interface(113) + enhanced(frame(3))
        setup = b"schema packet\nask q list *\nlive q\n"
        whole = plain_watch.watch(setup, one + two, [1], every=1)
        self.assertEqual(whole[0], 0)
        said = [it for it in whole[1] if it]
        self.assertEqual(said, [f"live q @0..{k} list {k}: {' '.join('012'[:k])}\n" for k in (1, 2, 3)])
        at = [place for place, it in enumerate(whole[1], 1) if it]
        ends = [len(section() + interface() + enhanced(frame(1))), len(one), len(one + two)]
        self.assertEqual(at, ends)
        # An end within each block.
        for cut in range(len(one + two)):
            status, texts, end = plain_watch.watch(setup, (one + two)[:cut], [7], every=0, truncated=True)
            read = plain.read((one + two)[:cut], {1, 113}, True)
            self.assertEqual((status, "".join(texts) + end), wanted_end(read))


def wanted_end(read: plain.Read) -> tuple[int, str]:
    count = len(read.frames)
    if read.code:
        return 3, f"capture: record {count} code {read.code}\n"
    numbers = " ".join([f"list {count}:", *map(str, range(count))])
    cut = f"truncated: record {count}\n" * read.is_cut
    return 0, f"records {count}\nwindow 0\nask q {numbers}\n{cut}"


def final_of_window(setup: bytes, rows: list, first: int) -> list[str]:
    """The final part by the answers of a run over the window's rows, and the alerts of one over all."""
    whole = plain_answers.Answers(plain_watch.parse_setup(setup), rows)
    window = plain_watch.Window(plain_watch.parse_setup(setup), first, rows[first:], whole.marks)
    return [f"records {len(rows)}", f"window {first}", *list(window.lines())[1:]]


class Drawn(unittest.TestCase):
    def test_reads_change_nothing_but_when_things_are_said(self) -> None:
        setup = S + b"index i src\ntally y dport len *\nask top top y sum 3\nask who find i 0 4294967295\n"
        for seed in range(150):
            draw = random.Random(seed)
            data = draw.choice([damage.pcap, damage.pcapng])(draw)
            if draw.random() < 0.5:
                data = damage.damaged(draw, data)
            options = {
                "capacity": draw.randrange(1, 5),
                "segments": draw.randrange(1, 4),
                "every": draw.randrange(4),
            }
            options["truncated"] = draw.random() < 0.5
            options["beat"] = draw.randrange(4)
            sizes = [draw.randrange(1, 200) for _ in range(1 + draw.randrange(40))]
            status, texts, end = plain_watch.watch(setup, data, sizes, **options)
            read = plain.read(data, plain.LINKS["packet"], options["truncated"])
            rows = [tuple(plain.row(it, "packet").values()) for it in read.frames]
            said = ("".join(texts) + end).splitlines()
            if read.code:
                self.assertEqual((status, said[-1]), (3, f"capture: record {len(rows)} code {read.code}"))
                continue
            first = 0
            while len(rows) - first > options["capacity"] * options["segments"]:
                first += options["capacity"]
            final = final_of_window(setup, rows, first) + [f"truncated: record {len(rows)}"] * read.is_cut
            self.assertEqual((status, said[-len(final) :]), (0, final))
            self.must_have_told(said, rows)

    def must_have_told(self, said: list[str], rows: list) -> None:
        """Each bucket whose sum is above 50 in some window is told, with a sum that the capture can have."""
        sums: dict[int, int] = {}
        for row in rows:
            sums[row[0] // 10**9] = sums.get(row[0] // 10**9, 0) + row[2]
        told = [it.split() for it in said if it.startswith("alert t ") and "@" in it]
        for _, _, bucket, value, _ in told:
            self.assertLessEqual(int(value), sums[int(bucket)])
        heavy = {row[0] // 10**9 for row in rows if row[2] > 50}
        self.assertLessEqual(heavy, {int(it[2]) for it in told})


class Long(unittest.TestCase):
    def test_a_window_of_200_000_records(self) -> None:
        with tempfile.TemporaryDirectory() as folder:
            path = pathlib.Path(folder, "c")
            speed.write_capture(path, 7, 200_000)
            data = path.read_bytes()
        setup = S.replace(b"live q\n", b"")
        # The end does not depend on the reads; long ones are fewer rounds.
        status, _, end = plain_watch.watch(setup, data, [2**22], capacity=4096, segments=3)
        rows = [tuple(plain.row(it, "packet").values()) for it in plain.read(data, {1}).frames]
        answers = list(plain_answers.Answers(plain_watch.parse_setup(setup), rows[188_416:]).lines())
        alerts = [
            it
            for it in plain_answers.Answers(plain_watch.parse_setup(setup), rows).lines()
            if it.startswith("alert")
        ]
        numbers = " ".join(str(188_416 + k) for k in range(11_584))
        self.assertEqual(answers[0], "records 11584")
        self.assertEqual(
            end.splitlines(),
            ["records 200000", "window 188416", f"ask q list 11584: {numbers}", *alerts],
        )
        self.assertEqual(status, 0)


class AsAProgram(unittest.TestCase):
    def test_words(self) -> None:
        with tempfile.TemporaryDirectory() as folder:
            place = pathlib.Path(folder)
            (place / "s").write_bytes(S)
            (place / "c").write_bytes(C2)
            for words, status, out in (
                (f"watch --setup {place}/s --every 1 {place}/c", 0, None),
                (
                    f"--reads 42,17 watch --setup {place}/s --every 1 {place}/c",
                    0,
                    lines(" / ".join(ROWS[1][5]) + " / " + END),
                ),
                (f"watch --setup {place}/s --writers 1 {place}/c", 1, "words: not a command\n"),
                (
                    f"watch --setup {place}/s --capacity 65536 --segments 17 {place}/c",
                    1,
                    "words: not a command\n",
                ),
                (f"watch --setup {place}/no {place}/c", 9, "file: none of that name\n"),
                (f"watch --setup {place}/s {place}/no", 9, "file: none of that name\n"),
            ):
                done = subprocess.run(
                    [ROOT / "bench" / "plain_watch.py", *words.split()], capture_output=True, text=True
                )
                wanted = lines(ROWS[0][5][0] + " / " + END) if out is None else out
                self.assertEqual((done.returncode, done.stdout, done.stderr), (status, wanted, ""), words)


if __name__ == "__main__":
    unittest.main()
