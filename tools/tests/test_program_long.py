"""`run --long` on many packets: files of several formats as one, segments and writers of any number, and memory that does not grow."""

from __future__ import annotations

import hashlib
import itertools
import pathlib
import struct
import subprocess
import sys
import tempfile
import unittest
from collections import Counter

from support import ROOT, confluo, needs_program

from confluo_report.program import find_program

sys.path.append(str(ROOT / "bench"))

import speed  # noqa: E402

SETUP = f"""{speed.USUAL}tally senders src len *
ask most top senders sum 5
ask each groups bytes
ask all total len *
"""
SECOND = 10**9
# The packets of one capture in the test of memory, how often it is read, and how many bytes a packet more may take.
EACH, TIMES, MOST = 100_000, 30, 100


def drawn(seed: int, count: int) -> list[tuple[bytes, int]]:
    """The frames that `synth` draws, with their lengths on the wire."""
    return [speed.packet(num, draw) for num, draw in zip(range(count), speed.draws(seed))]


def classic(frames: list[tuple[int, bytes, int]], order: str, unit: int) -> bytes:
    """A classic capture in that byte order, whose fractions of a second have so many nanoseconds."""
    magic = {1000: 0xA1B2C3D4, 1: 0xA1B23C4D}[unit]
    found = [struct.pack(f"{order}IHHIIII", magic, 2, 4, 0, 0, 65535, 1)]
    for time, frame, length in frames:
        head = (time // SECOND, time % SECOND // unit, len(frame), length)
        found += [struct.pack(f"{order}4I", *head), frame]
    return b"".join(found)


def block(kind: int, body: bytes) -> bytes:
    body += bytes(-len(body) % 4)
    return struct.pack("<II", kind, len(body) + 12) + body + struct.pack("<I", len(body) + 12)


def blocks(frames: list[tuple[int, bytes, int]]) -> bytes:
    """The same as pcapng, with times in nanoseconds."""
    found = [block(0x0A0D0D0A, struct.pack("<IHHq", 0x1A2B3C4D, 1, 0, -1))]
    found.append(block(1, struct.pack("<HHI", 1, 0, 0) + struct.pack("<HHB3xHH", 9, 1, 9, 0, 0)))
    for time, frame, length in frames:
        head = struct.pack("<IIIII", 0, time >> 32, time & 0xFFFFFFFF, len(frame), length)
        found.append(block(6, head + frame))
    return b"".join(found)


# Runs the words, and says on standard error how many kilobytes they took at most: at least as many as the process that starts them.
MEASURE = """
import os, sys
pid = os.posix_spawn(sys.argv[1], sys.argv[1:], os.environ)
_, status, usage = os.wait4(pid, 0)
print(usage.ru_maxrss, file=sys.stderr)
sys.exit(os.waitstatus_to_exitcode(status))
"""


def peak(out: pathlib.Path, *words: object) -> int:
    """The most memory, in bytes, of a run that writes to the file."""
    named = find_program()
    assert named
    with out.open("wb") as file:
        measured = [sys.executable, "-S", "-c", MEASURE, named, *map(str, words)]
        done = subprocess.run(measured, stdout=file, stderr=subprocess.PIPE, check=True)
    return 1024 * int(done.stderr)


@needs_program
class Long(unittest.TestCase):
    def setUp(self) -> None:
        place = tempfile.TemporaryDirectory()
        self.addCleanup(place.cleanup)
        self.folder = pathlib.Path(place.name)
        self.setup = self.folder / "setup"
        self.setup.write_text(SETUP)

    def long(self, *words: object) -> str:
        ended = confluo("run", "--long", "--setup", self.setup, *words)
        self.assertEqual((ended.status, ended.err), (0, ""), words)
        return ended.out

    def test_files_of_three_formats_are_one_capture(self) -> None:
        frames = [(SECOND + at * 1_000_000, *it) for at, it in enumerate(drawn(3, 900))]
        first, second, third, whole = (self.folder / it for it in ("first", "second", "third", "whole"))
        first.write_bytes(classic(frames[:300], "<", 1000))
        second.write_bytes(blocks(frames[300:600]))
        third.write_bytes(classic(frames[600:], ">", 1))
        whole.write_bytes(classic(frames, "<", 1))
        wanted = confluo("run", "--setup", self.setup, whole).out
        found = self.long("--capacity", 250, first, second, third)
        self.assertEqual(found, wanted[: wanted.rindex("order")])
        self.assertIn("ask all total count 900 ", found)

    def test_small_segments_and_any_writers_find_the_same(self) -> None:
        capture = self.folder / "capture"
        speed.write_capture(capture, 7, 200_000)
        wanted = confluo("run", "--segments", "4", "--setup", self.setup, capture).out
        for writers in (1, 4, 15):
            found = self.long("--capacity", 1000, "--writers", writers, capture)
            self.assertEqual(found, wanted[: wanted.rindex("order")], writers)

    def test_many_packets_take_little_memory(self) -> None:
        """3,000,000 packets, as 30 captures that are one file: what a walk over all finds, and at most 100 bytes a packet more."""
        capture, out = self.folder / "capture", self.folder / "out"
        speed.write_capture(capture, 1, EACH)
        words = ("run", "--long", "--writers", 4, "--setup", self.setup)
        few = peak(out, *words, capture)
        many = peak(out, *words, *[capture] * TIMES)
        self.assertLess((many - few) / (EACH * (TIMES - 1)), MOST)
        found = dict(it.split(": ", 1) for it in out.read_text().splitlines() if ": " in it)
        lengths = [length for _, length in drawn(1, EACH)]
        sources = [draw % 16 for _, draw in zip(range(EACH), speed.draws(1))]
        big = [at for at, length in enumerate(lengths) if length > 1080]
        host = [at for at, source in enumerate(sources) if source == 7]
        for name, places in (("ask big list", big), ("ask host find", host)):
            every = (time * EACH + at for time in range(TIMES) for at in places)
            digest = hashlib.sha256(" ".join(map(str, every)).encode()).digest()
            shown = found[f"{name} {TIMES * len(places)}"]
            self.assertEqual(hashlib.sha256(shown.encode()).digest(), digest, name)
        buckets: Counter[int] = Counter()
        for at, length in enumerate(lengths):
            buckets[1 + at // 1000] += TIMES * length
        marks = [(bucket, value) for bucket, value in sorted(buckets.items()) if value > 570_000]
        shown = " ".join(f"{bucket}={value}" for bucket, value in marks)
        self.assertEqual(found[f"ask when fired {len(marks)}"], shown)
        least, greatest, total = min(lengths), max(lengths), TIMES * sum(lengths)
        quad = f"count {TIMES * EACH} sum {total} least {least} greatest {greatest}"
        lines = out.read_text().splitlines()
        self.assertEqual(lines[0], f"records {TIMES * EACH}")
        self.assertIn(f"ask all total {quad}", lines)
        alerts = [f"alert busy {bucket} {value}" for bucket, value in marks]
        self.assertEqual(list(itertools.dropwhile(lambda it: not it.startswith("alert"), lines)), alerts)


if __name__ == "__main__":
    unittest.main()
