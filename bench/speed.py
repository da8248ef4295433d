#!/usr/bin/env python3
"""How fast confluo loads and answers, beside other readers of captures, on generated packets.

Run it from anywhere after `make run` has built the program:

    bench/speed.py [--rounds N] [--short] [--alone] [--table FILE] [--plot FILE.svg]

It writes the generated capture to a temporary file, the same bytes that `confluo synth --seed 1` draws, and times whole commands:

 - `confluo run` and `confluo synth` by one, two and four writers, with setups of no, one, four and sixteen lanes;
 - a usual setup (one index, one aggregate, one trigger, four questions) by `confluo run`, and `tcpdump` and `tshark` on the same file
   where they are installed, with and without a filter that a fifth of the packets pass, the file read once by this script, and the
   plain twin of the log's own steps (bench/plain_twin.c) if there is a C compiler;
 - live questions beside two writers, each by the time of a run that asks it 1,024 times less that of the same run without;
 - final questions by one, two and four processors, each by the time of a run that asks it 32 times less that of one that asks it once;
 - with --alone nothing but this: one final list or total by itself. The capture comes through a pipe, and the time from its end to the
   report without the question is taken from that with it. So it is what a reader waits for one question, which threads share. It takes
   some 30 rounds and a machine with nothing else to do.

Each command runs N times (default 5), and the shortest time counts, as other work on the machine only lengthens a
run. The peak of memory is the least of the runs'. Captures have 65,536 packets, and 1,048,576 over 16 segments unless --short is
given. --table writes the tables in Markdown, --plot draws the first of them, which needs matplotlib (`apt-get install
python3-matplotlib`). CONFLUO may name another build of the program. It is not part of the gate.
"""

import argparse
import dataclasses
import os
import pathlib
import shutil
import struct
import subprocess
import sys
import tempfile
import time

COUNT = 2**16
LONG = 2**20
CAPACITY = 2**16
# What an index over different numbers needs; all others have enough with the default.
NODES = 16384
ATTRIBUTES = ["src", "dst", "sport", "dport", "proto", "ttl", "tos", "flags", "kind", "etype", "win", "iplen", "len", "seq", "ack", "caplen"]
PLAIN = "schema packet\nask all list len>1080\n"
USUAL = """schema packet
index source src
filter every *
aggregate bytes every len
trigger busy bytes sum > 570000
ask host find source 10.0.0.7 10.0.0.7
ask load measure bytes 0 1000000
ask when fired busy
ask big list len>1080
"""
# An index, a filter and an aggregate.
USUAL_LANES = 3
QUESTIONS = {
    "one key of an index": "index s seq\nask q find s 12345 12345\n",
    "a scan for that key": "index s seq\nask q list seq==12345\n",
    "a bucket's aggregate": "filter f *\naggregate a f len\nask q measure a 40 40\n",
    "a scan of a bucket": "filter f *\naggregate a f len\nask q list ts in 40000000000..40000000010\n",
    "a trigger's marks": "filter f *\naggregate a f len\ntrigger t a sum > 4294967295\nask q fired t\n",
    "the ten heaviest of 16 keys": "tally a src len *\nask q top a sum 10\n",
    "the ten heaviest of 49,000 keys": "tally a seq len *\nask q top a sum 10\n",
}
RECORDS = "schema records ts:u64,key:u16,len:u32\ntally keys key len *\n"
FINALS = {
    "a list": ("schema packet\n", "list len>1080", LONG),
    "a total": ("schema packet\n", "total len len>1080", LONG),
    "the ten heaviest of 65,536 keys": (RECORDS, "top keys sum 10", COUNT),
}
# What a fifth of the packets pass: lengths run evenly from 64 to 1,087.
READERS = {
    "tcpdump -n -r": ["tcpdump", "-n", "-r"],
    "tcpdump -n -r, a fifth of the packets": ["tcpdump", "-n", "greater", "883", "-r"],
    "tshark -n -r": ["tshark", "-n", "-r"],
    "tshark -n -r -Y, a fifth of the packets": ["tshark", "-n", "-Y", "frame.len >= 883", "-r"],
}
ROUNDS_A_BATCH = 64
BATCH = 4096
ASKED = 32
ALONE = {"a list": "list len>1080", "a total": "total len len>1080"}
# What comes last through the pipe, and how long the rest may take to be loaded.
END = 64
SETTLED = 0.5
# What two runs of one command may differ by, in seconds.
NOISE = 0.02


def draws(seed):
    """The high halves of a linear congruential generator's states (Knuth's MMIX)."""
    state = seed
    while True:
        state = (state * 6364136223846793005 + 1442695040888963407) % 2**64
        yield state >> 32


def packet(num, draw):
    """The headers of one TCP or UDP packet, and its length on the wire."""
    length = 64 + (draw >> 20) % 1024
    udp = (draw >> 8) % 4 == 0
    link = bytes([2, 0, 0, 0, 0, 1, 2, 0, 0, 0, 0, 2]) + b"\x08\x00"
    network = struct.pack(">BBHI", 0x45, 0, length - 14, 0)
    network += bytes([64, 17 if udp else 6, 0, 0, 10, 0, 0, draw % 16, 10, 0, 1, draw // 16 % 16])
    port = [53, 80, 443, 8080][(draw >> 18) % 4]
    transport = struct.pack(">HH", 40000 + (draw >> 10) % 256, port)
    if udp:
        transport += struct.pack(">HH", length - 34, 0)
    else:
        transport += struct.pack(">IIBBHI", num, 0, 0x50, 0x10, 1024, 0)
    return link + network + transport, length


def write_capture(path, seed, count):
    """A file in the classic libpcap format 2.4. It is not held in memory, as the peak that is told of a command is at least that
    of the process that starts it."""
    with open(path, "wb") as file:
        file.write(struct.pack("<IHHIIII", 0xA1B2C3D4, 2, 4, 0, 0, 65535, 1))
        for num, draw in zip(range(count), draws(seed)):
            frame, length = packet(num, draw)
            file.write(struct.pack("<IIII", 1 + num // 1000, num % 1000 * 1000, len(frame), length))
            file.write(frame)


def lanes(count):
    """A setup with so many indexes, each over an attribute of its own."""
    return PLAIN + "".join(f"index i{k} {name}\n" for k, name in enumerate(ATTRIBUTES[:count]))


@dataclasses.dataclass
class Cost:
    """What the shortest of some runs took: seconds by the clock and on processors, and the peak of memory in bytes."""

    seconds: float
    work: float
    memory: int


def measured(command, rounds):
    """The cost of a command, whose output is thrown away."""
    costs = []
    for _ in range(rounds):
        start = time.perf_counter()
        process = subprocess.Popen(command, stdout=subprocess.DEVNULL, stderr=subprocess.DEVNULL)
        _, status, usage = os.wait4(process.pid, 0)
        seconds = time.perf_counter() - start
        if status != 0:
            sys.exit(f"{' '.join(command)}: ended with {os.waitstatus_to_exitcode(status)}")
        costs.append(Cost(seconds, usage.ru_utime + usage.ru_stime, usage.ru_maxrss * 1024))
    return Cost(min(it.seconds for it in costs), min(it.work for it in costs), min(it.memory for it in costs))


class Sitting:
    """One sitting: the program, its files, and how often each command runs."""

    def __init__(self, program, folder, rounds):
        self.program, self.rounds = program, rounds
        self.setup = str(pathlib.Path(folder) / "setup")
        self.folder = pathlib.Path(folder)

    def file(self, count):
        """The capture of so many packets, made where it isn't there yet."""
        path = self.folder / f"{count}.pcap"
        if not path.exists():
            write_capture(path, 1, count)
        return str(path)

    def records(self, count):
        """A file of so many records, each with a key of its own."""
        path = self.folder / f"{count}.csv"
        if not path.exists():
            path.write_text("ts,key,len\n" + "".join(f"{num},{num * 40503 % 65536},{num % 1500}\n" for num in range(count)))
        return str(path)

    def words(self, command, text, count, writers, live=0):
        """The words of a command over so many packets, whose paths have all the nodes that they need."""
        pathlib.Path(self.setup).write_text(text)
        words = [self.program, command, "--setup", self.setup, "--writers", str(writers)]
        if "seq" in text or "key" in text:
            words += ["--nodes", str(NODES)]
        if count > CAPACITY:
            words += ["--segments", str(-(-count // CAPACITY))]
        if command == "synth":
            return words + ["--seed", "1", "--count", str(count)]
        file = self.records(count) if text.startswith(RECORDS) else self.file(count)
        return words + ["--live", str(live), file]

    def cost(self, command, text, count, writers, live=0):
        return measured(self.words(command, text, count, writers, live), self.rounds)


def table(title, heads, rows):
    """A table in Markdown."""
    lines = [f"**{title}**", "", "| " + " | ".join(heads) + " |", "|" + "---|" * len(heads)]
    lines += ["| " + " | ".join(row) + " |" for row in rows]
    return "\n".join(lines) + "\n"


def time_loads(sitting, count):
    """Records loaded a second, by the number of lanes and of writers, and the peak of memory a record."""
    rows = []
    for command in ("run", "synth"):
        for lane_count in (0, 1, 4, 16):
            costs = [sitting.cost(command, lanes(lane_count), count, writers) for writers in (1, 2, 4)]
            speeds = [f"{count / it.seconds / 1000:,.0f}" for it in costs]
            rows.append([command, str(lane_count), *speeds, f"{costs[0].memory / count:,.0f}"])
            print(*rows[-1], flush=True)
    heads = ["command", "lanes", "1 writer", "2 writers", "4 writers", "peak bytes a record, 1 writer"]
    return table(f"{count:,} packets, in thousands a second", heads, rows)


def read_once(file):
    """The seconds that it takes to read the file once by pieces of 65,536 bytes."""
    start = time.perf_counter()
    with open(file, "rb", buffering=0) as opened:
        while opened.read(65536):
            pass
    return time.perf_counter() - start


def time_twin(sitting, count):
    """The seconds of the log's own steps in plain C for so many records and the lanes of the usual setup, by one, two and four writers."""
    compiler = shutil.which("cc")
    if compiler is None:
        return {}
    twin = sitting.folder / "plain_twin"
    source = pathlib.Path(__file__).parent / "plain_twin.c"
    subprocess.run([compiler, "-std=c11", "-O2", "-pthread", "-o", twin, source], check=True)
    times = {}
    for writers in (1, 2, 4):
        words = [twin, "--records", str(count), "--lanes", str(USUAL_LANES), "--writers", str(writers)]
        runs = [subprocess.run(words, check=True, capture_output=True, text=True) for _ in range(sitting.rounds)]
        times[f"plain twin, {writers} writer{'s' * (writers > 1)}"] = min(float(run.stdout.split()[-1]) for run in runs)
    return times


def time_readers(sitting, count):
    """The seconds of one reading of the capture, by each reader that is installed."""
    file = sitting.file(count)
    times = {"reading the file once": min(read_once(file) for _ in range(sitting.rounds))}
    times |= time_twin(sitting, count)
    for writers in (1, 2, 4):
        times[f"confluo run, {writers} writer{'s' * (writers > 1)}"] = sitting.cost("run", USUAL, count, writers).seconds
    for name, words in READERS.items():
        if shutil.which(words[0]):
            times[name] = measured([*words, file], sitting.rounds).seconds
    return times


def reader_table(times, count):
    base = times["confluo run, 1 writer"]
    rows = [[name, f"{seconds:.3f}", f"{count / seconds / 1000:,.0f}", f"{seconds / base:.2f}"] for name, seconds in times.items()]
    for row in rows:
        print(*row, flush=True)
    return table(f"{count:,} packets, a usual setup", ["reader", "seconds", "thousand packets a second", "times the time of one writer"], rows)


def time_questions(sitting):
    """Live questions answered beside two writers, by the wall clock and by the work of processors."""
    asked = ROUNDS_A_BATCH * COUNT // BATCH
    rows = []
    for name, question in QUESTIONS.items():
        text = "schema packet\n" + question + "live q\n"
        busy, quiet = sitting.cost("run", text, COUNT, 2, ROUNDS_A_BATCH), sitting.cost("run", text, COUNT, 2)
        seconds, work = busy.seconds - quiet.seconds, busy.work - quiet.work
        speed = f"{asked / seconds:,.0f}" if seconds > NOISE else f"{asked / NOISE:,.0f} or more"
        rows.append([name, speed, f"{max(work, 0) * 1e6 / asked:,.1f}"])
        print(*rows[-1], flush=True)
    return table("Live questions beside two writers", ["question", "answers a second", "microseconds of work each"], rows)


def time_final(sitting, text, question, count, processors):
    """The seconds that one more final question takes, where the run may use these processors."""
    seconds = []
    for asked in (1, ASKED):
        words = sitting.words("run", text + "".join(f"ask q{k} {question}\n" for k in range(asked)), count, 1)
        seconds.append(measured(["taskset", "-c", processors, *words], sitting.rounds).seconds)
    return (seconds[1] - seconds[0]) / (ASKED - 1)


def time_finals(sitting, most):
    """Final questions, by how many processors the run may use."""
    rows = []
    for name, (text, question, wanted) in FINALS.items():
        count = min(wanted, most)
        costs = [time_final(sitting, text, question, count, processors) for processors in ("0", "0,1", "0-3")]
        rows.append([name, f"{count:,}", *(f"{it * 1000:,.2f}" for it in costs)])
        print(*rows[-1], flush=True)
    return table("Final questions, in milliseconds each", ["question", "records", "1 processor", "2 processors", "4 processors"], rows)


def seconds_to_report(command, pipe, capture):
    """The seconds from the end of the capture, of which all but the end was read before, to the first byte of the report."""
    process = subprocess.Popen([*command, pipe], stdout=subprocess.PIPE, stderr=subprocess.DEVNULL)
    with open(pipe, "wb") as file:
        file.write(capture[:-END])
        file.flush()
        time.sleep(SETTLED)
        file.write(capture[-END:])
        file.flush()
        start = time.perf_counter()
    process.stdout.read(1)
    seconds = time.perf_counter() - start
    process.communicate()
    if process.returncode != 0:
        sys.exit(f"{' '.join(command)}: ended with {process.returncode}")
    return seconds


def time_alone(sitting):
    """One final question by itself, by how many processors the run may use."""
    capture = pathlib.Path(sitting.file(COUNT)).read_bytes()
    pipe = str(sitting.folder / "pipe")
    os.mkfifo(pipe)
    rows = []
    for name, question in ALONE.items():
        costs = []
        for processors in ("0", "0,1", "0-3"):
            seconds = {"": [], f"ask q {question}\n": []}
            for _ in range(sitting.rounds):
                for ask, times in seconds.items():
                    *words, _file = sitting.words("run", "schema packet\n" + ask, COUNT, 1)
                    times.append(seconds_to_report(["taskset", "-c", processors, *words], pipe, capture))
            without, with_one = seconds.values()
            costs.append(f"{(min(with_one) - min(without)) * 1000:,.2f} of {min(with_one) * 1000:,.2f}")
        rows.append([name, *costs])
        print(*rows[-1], flush=True)
    heads = ["question", "1 processor", "2 processors", "4 processors"]
    return table(f"One final question alone on {COUNT:,} records, in milliseconds, of the time to the report", heads, rows)


def plot(times, count, out):
    """Bars of the readers' speeds, on a scale of powers of ten."""
    import matplotlib

    matplotlib.use("svg")
    matplotlib.rcParams["svg.hashsalt"] = "confluo"
    import matplotlib.pyplot as pyplot

    names = list(times)[::-1]
    figure, axes = pyplot.subplots(figsize=(9, 0.45 * len(names) + 1.2))
    colours = ["tab:blue" if name.startswith("confluo") else "tab:grey" for name in names]
    axes.barh(names, [count / times[name] for name in names], color=colours)
    axes.set_xscale("log")
    axes.set_xlabel(f"packets a second, of {count:,}")
    figure.tight_layout()
    figure.savefig(out, metadata={"Date": None})


def main():
    parser = argparse.ArgumentParser()
    parser.add_argument("--rounds", type=int, default=5)
    parser.add_argument("--table")
    parser.add_argument("--plot")
    parser.add_argument("--short", action="store_true")
    parser.add_argument("--alone", action="store_true")
    given = parser.parse_args()
    built = pathlib.Path(__file__).parent.parent / "crates/confluo/out/confluo"
    program = os.environ.get("CONFLUO", str(built))
    with tempfile.TemporaryDirectory() as folder:
        sitting = Sitting(program, folder, given.rounds)
        count = COUNT if given.short else LONG
        if given.alone:
            times, tables = {}, [time_alone(sitting)]
        else:
            times = time_readers(sitting, count)
            tables = [reader_table(times, count)]
            tables += [time_loads(sitting, it) for it in sorted({COUNT, count})]
            tables += [time_finals(sitting, count), time_questions(sitting)]
    if given.table:
        text = f"{os.cpu_count()} processors; each time is the shortest of {given.rounds} runs.\n\n" + "\n".join(tables)
        pathlib.Path(given.table).write_text(text)
    if given.plot and times:
        plot(times, count, given.plot)


if __name__ == "__main__":
    main()
