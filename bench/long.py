#!/usr/bin/env python3
"""Times `confluo run --long` on a long capture by one, two and four writers, and how much memory it takes.

    bench/long.py [--records N] [--rounds N] [--setup usual|widest|FILE ..] [--alone]

It answers the usual setup of speed.py and the widest one (16 lanes, 16 triggers, 32 questions) about RECORDS (16,777,216) packets,
and beside it, unless --alone is given, about the first 1,048,576 of them: `confluo run --segments 16` by as many writers, and
`tcpdump -n -S -r` and `tshark -n -r` where they are installed, which print them. All take turns, ROUNDS (5) times. For each it prints
a row of a table in Markdown: the medians of the seconds, of the microseconds a packet and of the peak of memory in millions of bytes.
The reports of all writers must be equal.

With all 16,777,216 packets the usual setup is meant to take at most 40 MB by one writer and 60 MB by four, and a packet a seventh of
the time of tcpdump and a twenty-fifth of that of tshark by one writer. Needs an idle machine and 2.5 GB in the temporary folder.
CONFLUO may name the program. It ends with 1 if something is not so. It is not part of the gate.
"""

import argparse
import hashlib
import os
import pathlib
import shutil
import statistics
import sys
import tempfile
import time

sys.dont_write_bytecode = True

import over  # noqa: E402
import speed  # noqa: E402

MOST = 16 * over.STEP
WRITERS = (1, 2, 4)
READERS = {"tcpdump -n -S -r": ["tcpdump", "-n", "-S", "-r"], "tshark -n -r": ["tshark", "-n", "-r"]}
# For the usual setup and MOST packets: bytes by the number of writers, and how many times as fast as another reader.
MEMORY = {1: 40_000_000, 4: 60_000_000}
TIMES = {"tcpdump -n -S -r": 7, "tshark -n -r": 25}
PORTS = [53, 80, 443, 8080]
# What the generated packets have of each attribute is a sixteenth of them, less, or none.
FINDS = {
    "src": "10.0.0.7 10.0.0.7",
    "dst": "10.0.1.7 10.0.1.7",
    "sport": "40007 40007",
    "dport": "81 442",
    "proto": "1 5",
    "ttl": "1 63",
    "tos": "1 255",
    "len": "1080 1087",
}
FILTERS = ["*", "len>1080", "dport==53", "src==10.0.0.7"]
PARTS = ["count", "sum", "least", "greatest"]


def widest():
    """A setup with 16 lanes, 16 triggers and 32 questions, which do not find most of the packets."""
    lines = ["schema packet"]
    lines += [f"index i{k} {attribute}" for k, attribute in enumerate(FINDS)]
    lines += [f"filter f{k} {expression}" for k, expression in enumerate(FILTERS)]
    lines += [f"aggregate a{k} f{k} len" for k in range(4)]
    lines += [f"trigger t{k} a{k % 4} {PARTS[k // 4]} > {50 + k}" for k in range(16)]
    lines += [f"ask q{k} find i{k} {bounds}" for k, bounds in enumerate(FINDS.values())]
    lines += [f"ask q{8 + k} between f{k} 10 12" for k in range(4)]
    lines += [f"ask q{12 + k} measure a{k} 5 60" for k in range(4)]
    lines += [f"ask q{16 + k} fired t{k}" for k in range(12)]
    lines += [f"ask q{28 + k} list dport=={port} && len<72" for k, port in enumerate(PORTS)]
    return "\n".join(lines) + "\n"


def digest_of(path):
    """It is not read as a whole: the peak that is told of a command is at least that of the process that starts it."""
    found = hashlib.sha256()
    with path.open("rb") as file:
        while piece := file.read(65536):
            found.update(piece)
    return found.hexdigest()


class Timed:
    """A command over so many packets, and what its runs took: seconds, and bytes of memory."""

    def __init__(self, name, words, count):
        self.name, self.words, self.count = name, [str(it) for it in words], count
        self.seconds, self.memory, self.texts = [], [], set()

    def run(self, out):
        with out.open("wb") as file:
            begun = time.perf_counter()
            pid = os.posix_spawnp(
                self.words[0],
                self.words,
                os.environ,
                file_actions=[(os.POSIX_SPAWN_DUP2, file.fileno(), 1), (os.POSIX_SPAWN_OPEN, 2, os.devnull, os.O_WRONLY, 0)],
            )
            _, status, usage = os.wait4(pid, 0)
            self.seconds.append(time.perf_counter() - begun)
        if status:
            sys.exit(f"{' '.join(self.words)}: ended with {os.waitstatus_to_exitcode(status)}")
        self.memory.append(usage.ru_maxrss * 1024)
        self.texts.add(digest_of(out))

    def each(self):
        """Microseconds a packet."""
        return statistics.median(self.seconds) / self.count * 1e6

    def peak(self):
        return statistics.median(self.memory)

    def row(self, setup):
        cells = [setup, self.name, f"{self.count:,}", f"{statistics.median(self.seconds):.3g}", f"{self.each():.2f}"]
        return f"| {' | '.join([*cells, f'{self.peak() / 1e6:.0f}'])} |"


def answering(folder, text, count, first, is_alone):
    """The commands of confluo for a setup, those of `run --long` first."""
    setup = folder / f"{hashlib.sha256(text.encode()).hexdigest()}.setup"
    setup.write_text(text)
    ways = [(["--long"], "all", count)]
    if not is_alone:
        ways.append((["--segments", "16"] if first > speed.CAPACITY else [], "first", first))
    return [
        Timed(
            " ".join(["run", *options]) + f", {writers} writer{'s' * (writers > 1)}",
            [over.PROGRAM, "run", *options, "--setup", setup, "--writers", writers, folder / capture],
            packets,
        )
        for options, capture, packets in ways
        for writers in WRITERS
    ]


def missed(usual, readers):
    """Which aims are missed, in words."""
    for writers, most in MEMORY.items():
        found = usual[WRITERS.index(writers)].peak()
        if found > most:
            yield f"{found / 1e6:.0f} MB by {writers} writer{'s' * (writers > 1)}, more than {most / 1e6:.0f}"
    for it in readers:
        times = it.each() / usual[0].each()
        if times < TIMES[it.name]:
            yield f"{times:.1f} times as fast as {it.name}, less than {TIMES[it.name]}"


def main():
    parser = argparse.ArgumentParser(description=__doc__, formatter_class=argparse.RawDescriptionHelpFormatter)
    parser.add_argument("--records", type=int, default=MOST)
    parser.add_argument("--rounds", type=int, default=5)
    parser.add_argument("--setup", nargs="+", default=["usual", "widest"])
    parser.add_argument("--alone", action="store_true")
    given = parser.parse_args()
    if given.records > over.STEP and given.records % over.STEP:
        parser.error(f"above {over.STEP:,} --records is a multiple of it")
    known = {"usual": speed.USUAL, "widest": widest()}
    setups = {it: known[it] if it in known else pathlib.Path(it).read_text() for it in given.setup}
    first = min(given.records, over.STEP)
    with tempfile.TemporaryDirectory() as name:
        folder = pathlib.Path(name)
        over.write_capture(folder / "all", given.records)
        speed.write_capture(folder / "first", 1, first)
        commands = {name: answering(folder, text, given.records, first, given.alone) for name, text in setups.items()}
        readers = [
            Timed(it, [*words, folder / "first"], first) for it, words in READERS.items() if shutil.which(words[0]) and not given.alone
        ]
        for _ in range(given.rounds):
            for it in [*(it for its in commands.values() for it in its), *readers]:
                it.run(folder / "out")
    return told(given, commands, readers)


def told(given, commands, readers):
    print(f"Medians of {given.rounds} runs.\n")
    print("| Setup | Command | Packets | Seconds | Microseconds a packet | Peak MB |\n|---|---|---|---|---|---|")
    for name, its in commands.items():
        print("\n".join(it.row(name) for it in its))
    print("\n".join([*(it.row("") for it in readers), ""]))
    wrong = []
    for name, its in commands.items():
        for at, one in enumerate(its[: len(WRITERS)]):
            for other in its[at + len(WRITERS) :: len(WRITERS)]:
                print(f"{name}, {one.name}: a packet takes {one.each() / other.each():.2f} times the time of {other.name}")
        for other in readers:
            print(f"{name}, {its[0].name}: {other.each() / its[0].each():.1f} times as fast as {other.name}")
        if len(set().union(*(it.texts for it in its[: len(WRITERS)]))) > 1:
            wrong.append(f"{name}: the reports differ")
    if given.records == MOST and "usual" in commands:
        wrong += missed(commands["usual"], readers)
    for it in wrong:
        print(f"wrong: {it}")
    return 1 if wrong else 0


if __name__ == "__main__":
    sys.exit(main())
