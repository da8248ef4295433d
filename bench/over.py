#!/usr/bin/env python3
"""Times `confluo-report over --split` on one long capture beside `confluo run --long` by one writer.

    bench/over.py [--records N] [--rounds N] [--jobs N] [--setup FILE]

Both answer the usual setup of speed.py (or FILE) about RECORDS (16,777,216) packets, ROUNDS (5) times by turns; the reports must be equal.
It prints each one's median, and how many seconds of processors it took. With JOBS (4) processes, `over` may take 0.35 times the time of
`run`. Needs an idle machine with as many processors. CONFLUO may name the program. It ends with 1 if something is not so. It is not part
of the gate.
"""

import argparse
import os
import pathlib
import resource
import statistics
import subprocess
import sys
import tempfile
import time

sys.dont_write_bytecode = True

import speed  # noqa: E402

ROOT = pathlib.Path(__file__).resolve().parent.parent
PROGRAM = os.environ.get("CONFLUO", str(ROOT / "crates/confluo/out/confluo"))
STEP = 2**20
AIM = 0.35


def write_capture(path, count):
    """The packets of seed 1, again and again. They are not held in memory, for the same reason as in speed.py."""
    speed.write_capture(path, 1, min(count, STEP))
    end = path.stat().st_size
    with path.open("ab") as file, path.open("rb") as first:
        for _ in range(count // STEP - 1):
            first.seek(24)
            while piece := first.read(min(65536, end - first.tell())):
                file.write(piece)


def spent():
    """Seconds of processors of all processes that have ended."""
    usage = resource.getrusage(resource.RUSAGE_CHILDREN)
    return usage.ru_utime + usage.ru_stime


def timed(words):
    """The text of a command, its seconds, and those of processors."""
    begun, before = time.perf_counter(), spent()
    done = subprocess.run(list(map(str, words)), stdout=subprocess.PIPE, check=True, env=os.environ | {"CONFLUO": PROGRAM})
    return done.stdout, time.perf_counter() - begun, spent() - before


def main():
    parser = argparse.ArgumentParser(description=__doc__, formatter_class=argparse.RawDescriptionHelpFormatter)
    for name, default in (("records", 16 * STEP), ("rounds", 5), ("jobs", 4)):
        parser.add_argument(f"--{name}", type=int, default=default)
    parser.add_argument("--setup", type=pathlib.Path)
    given = parser.parse_args()
    if given.records > STEP and given.records % STEP:
        parser.error(f"above {STEP:,} --records is a multiple of it")
    with tempfile.TemporaryDirectory() as folder:
        setup, capture = pathlib.Path(folder, "s"), pathlib.Path(folder, "c.pcap")
        setup.write_bytes(given.setup.read_bytes() if given.setup else speed.USUAL.encode())
        write_capture(capture, given.records)
        tool = [sys.executable, "-B", ROOT / "tools/confluo-report", "over", "--split", "--format", "report"]
        ways = {
            "run --long, 1 writer": [PROGRAM, "run", "--long", "--writers", "1", "--setup", setup, capture],
            f"over --split, {given.jobs} processes": [*tool, "--jobs", given.jobs, "--setup", setup, capture],
        }
        found = {name: [] for name in ways}
        for _ in range(given.rounds):
            for name, words in ways.items():
                found[name].append(timed(words))
    texts = {it[0] for its in found.values() for it in its}
    medians = {name: [statistics.median(it[at] for it in its) for at in (1, 2)] for name, its in found.items()}
    for name, (seconds, processors) in medians.items():
        print(f"{name}: {given.records:,} packets in {seconds:.2f} seconds, {processors:.2f} of processors")
    one, several = (seconds for seconds, _ in medians.values())
    print(f"over takes {several / one:.2f} times the time of run")
    if len(texts) > 1:
        print("wrong: the reports differ")
    return 1 if len(texts) > 1 or several > AIM * one else 0


if __name__ == "__main__":
    sys.exit(main())
