#!/usr/bin/env python3
"""`confluo watch` on a pipe: whether it writes what plain_watch.py does, and how it fares in long and awkward streams.

Run it from anywhere after `make run` has built the program; CONFLUO may name another build:

    bench/watch.py [--seeds N] [--records N] [--rounds N] [--short] [PART ..]

 - drawn: N drawn setups and captures, whole and damaged, by drawn reads. Before each further piece the lines of the one before
   must have come, so that a line which is written after the next read is found.
 - cuts: one small capture of each format, cut into two reads at every byte.
 - window: 200,000 packets of seed 7, capacity 4096, three segments: the end is plain_watch.py's.
 - long: N packets (10 million) on a pipe with a beat each thousand, the program's memory sampled: it must be flat behind the first
   tenth, and the last beat must count all packets.
 - latency: from a packet's write to its alert's line, 500 packets one after another.
 - turns: the same about the turns of segments of 65,536 packets, the one that begins a segment beside the 39 around it.
 - ends: SIGTERM, a reader that goes away, a reader that stops reading for a while, a disk without room.
 - speed: packets a second from a file and from a pipe beside `confluo run` with one writer, on the usual setup of speed.py; each
   time is the shortest of N runs. A pipe may take 1.3 times the time of `run`.

Without a PART all are tried. Ends with 1 if something is not so. It is not part of the gate.
"""

import argparse
import fcntl
import os
import pathlib
import random
import select
import signal
import struct
import subprocess
import sys
import tempfile
import termios
import threading
import time

sys.dont_write_bytecode = True

import damage  # noqa: E402
import plain_watch  # noqa: E402
import speed  # noqa: E402

ROOT = pathlib.Path(__file__).resolve().parent.parent
PROGRAM = os.environ.get("CONFLUO", str(ROOT / "crates/confluo/out/confluo"))
SECONDS = 20
EACH = b"schema packet\nwidth 1\nfilter f *\naggregate a f len\ntrigger t a count >= 1\n"
S = b"schema packet\nfilter f *\naggregate a f len\ntrigger t a sum > 50\nask q list len>=1\n"
HEADER = struct.pack("<IHHIIII", 0xA1B2C3D4, 2, 4, 0, 0, 65535, 1)


class Wrong(Exception):
    """What is not as it has to be."""


class Watched:
    """The program with its pipes."""

    def __init__(self, folder, setup, *options, **more):
        path = pathlib.Path(folder, "watch.setup")
        path.write_bytes(setup)
        words = [PROGRAM, "watch", "--setup", str(path), *map(str, options), "/dev/stdin"]
        self.process = subprocess.Popen(words, stdin=subprocess.PIPE, stdout=more.get("stdout", subprocess.PIPE), bufsize=0)
        self.out = b""

    def write(self, piece):
        """Writes; answers whether there was a reader."""
        try:
            while piece:
                piece = piece[self.process.stdin.write(piece) :]
        except BrokenPipeError:
            return False
        return True

    def left(self):
        """How many bytes are in the pipe, unread."""
        return struct.unpack("i", fcntl.ioctl(self.process.stdin, termios.FIONREAD, bytes(4)))[0]

    def read(self, seconds):
        """What comes within so many seconds, added to `out`; answers whether more may come."""
        ready, _, _ = select.select([self.process.stdout], [], [], seconds)
        if not ready:
            return True
        piece = os.read(self.process.stdout.fileno(), 65536)
        self.out += piece
        return bool(piece)

    def until(self, holds, what):
        """Reads until it holds, or the program ends; answers whether it still runs."""
        late = time.monotonic() + SECONDS
        while not holds():
            if time.monotonic() > late:
                raise Wrong(f"{what} did not come to be in {SECONDS} seconds; there is\n{self.out.decode()}")
            if not self.read(0.002):
                return False
        return True

    def end(self):
        """Closes the stream; the status and all that was written."""
        self.process.stdin.close()
        while self.read(SECONDS):
            pass
        return self.process.wait(SECONDS), self.out.decode("ascii", "replace")

    def __enter__(self):
        return self

    def __exit__(self, *_):
        self.process.kill()
        self.process.wait()
        for it in (self.process.stdin, self.process.stdout):
            if it and not it.closed:
                it.close()


def options_of(words):
    """The words of options for plain_watch."""
    flags = [f"--{name}={value}" for name, value in words.items() if name != "truncated"]
    return flags + ["--truncated"] * bool(words.get("truncated"))


def compared(folder, setup, data, sizes, words):
    """Feeds the capture by these reads; a Wrong if the program writes something else or later than plain_watch.py."""
    run = plain_watch.Run(plain_watch.setup_of(setup), words.get("truncated", False), **numbers(words))
    wanted = ""
    with Watched(folder, setup, *options_of(words)) as it:
        for piece in plain_watch.pieces(data, sizes):
            wanted += run.read(piece)
            if not it.write(piece) or run.status is not None:
                break
            if not it.until(lambda: it.left() == 0 and len(it.out) >= len(wanted), "the lines of a read"):
                break
        if run.status is None:
            # If the program ended before, its text differs.
            wanted += run.end()
        status, out = it.end()
    if (status, out) != (run.status, wanted):
        raise Wrong(f"status {status}, wanted {run.status}\n{out}\nwanted\n{wanted}")


def numbers(words):
    return {name: value for name, value in words.items() if name != "truncated"}


def drawn_setup(draw):
    """A lawful setup over packets."""
    lines = ["schema packet"] + [f"width {draw.choice([1000, 10**6, 10**9, 2**63])}"] * draw.randrange(2)
    expressions = ["*", "len>100", "proto==6 || proto==17", "src in 10.0.0.0/29 && len<200", "kind==0"]
    filters = [f"f{k}" for k in range(draw.randrange(1, 3))]
    lines += [f"filter {name} {draw.choice(expressions)}" for name in filters]
    lines += [f"aggregate a {draw.choice(filters)} {draw.choice(['len', 'ttl', 'caplen'])}"]
    lines += ["index i src", "tally y dport len *"]
    keyed = draw.choice(["a", "k"])
    if keyed == "k":
        lines += [f"aggregate k {draw.choice(filters)} {draw.choice(['len', 'ttl'])} by {draw.choice(['src', 'sport', 'proto', 'ts'])}"]
    for k in range(draw.randrange(1, 4)):
        part = draw.choice(["count", "sum", "least", "greatest"])
        compared_by = draw.choice([">", ">=", "<", "<=", "==", "!="])
        lines.append(f"trigger t{k} {draw.choice(['a', keyed])} {part} {compared_by} {draw.choice([1, 2, 50, 100, 500])}")
    asks = [
        f"list {draw.choice(expressions)}",
        "find i 10.0.0.0 10.0.0.7",
        f"between {draw.choice(filters)} 0 {draw.choice([0, 3, 10**7])}",
        "measure a 0 18446744073709551615",
        "fired t0",
        f"top y {draw.choice(['sum', 'count', 'least'])} {draw.choice([1, 3, 1000])}",
        "total len len>60",
        f"groups {keyed}",
    ]
    draw.shuffle(asks)
    names = [f"q{k}" for k in range(draw.randrange(len(asks) + 1))]
    lines += [f"ask {name} {ask}" for name, ask in zip(names, asks)]
    lines += [f"live {name}" for name in draw.sample(names, draw.randrange(len(names) + 1))]
    return "\n".join(lines).encode() + b"\n"


def drawn(given, folder):
    """Drawn setups, captures and reads."""
    for seed in range(given.seeds):
        draw = random.Random(seed)
        data = draw.choice([damage.pcap, damage.pcapng])(draw)
        data = damage.damaged(draw, data) if draw.random() < 0.4 else data
        words = {"capacity": draw.choice([1, 2, 5, 65536]), "segments": draw.choice([1, 2, 4]), "every": draw.randrange(5)}
        words |= {"beat": draw.randrange(5)}
        words |= {"nodes": draw.choice([65536, 65536, 60, 90, 200]), "truncated": draw.random() < 0.5}
        sizes = [draw.choice([1, 16, 60, 200, 4000]) for _ in range(60)]
        try:
            compared(folder, drawn_setup(draw), data, sizes, words)
        except Wrong as wrong:
            raise Wrong(f"seed {seed}, {words}: {wrong}") from wrong
    print(f"drawn: {given.seeds} streams as plain_watch.py has them")


def cuts(given, folder):
    """Two reads, at each byte."""
    setup = S + b"live q\n"
    for make in (damage.pcap, damage.pcapng):
        data = next(it for it in (make(random.Random(k)) for k in range(999)) if 300 < len(it) < 500)
        for at in range(1, len(data)):
            compared(folder, setup, data, [at, len(data)], {"every": 1, "capacity": 2, "segments": 2})
    print("cuts: at each byte as plain_watch.py has it")


def window(given, folder):
    """The end of a stream that is longer than the window."""
    count = 20_000 if given.short else 200_000
    path = pathlib.Path(folder, "c.pcap")
    speed.write_capture(path, 7, count)
    data = path.read_bytes()
    _, _, wanted = plain_watch.watch(S, data, [2**22], capacity=4096, segments=3)
    with Watched(folder, S, "--capacity", 4096, "--segments", 3) as it:
        feeder = threading.Thread(target=it.write, args=(data,))
        feeder.start()
        while feeder.is_alive():
            it.read(0.1)
        status, out = it.end()
    if status or not out.endswith("\n" + wanted):
        raise Wrong(f"status {status}, and the end is not that of plain_watch.py")
    print(f"window: {count:,} packets end in {' and '.join(wanted.splitlines()[:2])}")


def many(count):
    """The bytes of so many packets of seed 1, by pieces, each with the lengths of its packets together."""
    parts, length = [HEADER], 0
    for num, draw in zip(range(count), speed.draws(1)):
        frame, its = speed.packet(num % 2**32, draw)
        parts.append(struct.pack("<IIII", 1 + num // 1000, num % 1000 * 1000, len(frame), its) + frame)
        length += its
        if len(parts) == 900:
            yield b"".join(parts), length
            parts, length = [], 0
    yield b"".join(parts), length


def memory_of(pid):
    """The resident bytes of a process now."""
    for line in pathlib.Path(f"/proc/{pid}/status").read_text().splitlines():
        if line.startswith("VmRSS:"):
            return int(line.split()[1]) * 1024
    return 0


def long(given, folder):
    """Memory of a stream that is far longer than the window."""
    sizes, sent, length, begun = [], 0, 0, time.monotonic()
    step = max(given.records // 100, 900)
    out = pathlib.Path(folder, "out")
    with out.open("wb") as file, Watched(folder, speed.USUAL.encode(), "--every", 0, "--beat", 1000, stdout=file) as it:
        for piece, its in many(given.records):
            it.write(piece)
            sent, length = sent + 900, length + its
            if sent % step < 900:
                sizes.append(memory_of(it.process.pid))
        it.process.stdin.close()
        status = it.process.wait(600)
    seconds = time.monotonic() - begun
    lines = out.read_text().splitlines()
    beats = [at for at, line in enumerate(lines) if line.startswith("at ")]
    # The window of 4 segments of 65,536 is full after 262,144 packets. While a segment is replaced, memory is less for a moment.
    full = sizes[len(sizes) // 10 :]
    print(
        f"long: {given.records:,} packets in {seconds:.0f} seconds, {len(beats):,} beats; "
        f"{min(full) / 1e6:.1f} to {max(full) / 1e6:.1f} MB"
    )
    half = len(full) // 2
    if status or max(full[half:]) > max(full[:half]) * 1.01 + 1e6:
        raise Wrong(f"status {status}; memory after every hundredth, in MB: {[round(it / 1e6, 1) for it in sizes]}")
    last = lines[beats[-1] : beats[-1] + 2]
    wanted = [f"at {given.records} {1 + (given.records - 1) // 1000}", f"total bytes count {given.records} sum {length}"]
    must(last == wanted, f"the last beat is {last}, wanted {wanted}")


def latency(given, folder):
    """From the write of a packet to the line of its alert."""
    times = []
    frame, length = speed.packet(0, 0)
    with Watched(folder, EACH) as it:
        it.write(HEADER)
        for num in range(500):
            time.sleep(0.002)
            before = len(it.out)
            start = time.perf_counter()
            it.write(struct.pack("<IIII", 1 + num, 0, len(frame), length) + frame)
            while it.out.count(b"\n", before) == 0:
                if time.perf_counter() - start > SECONDS:
                    raise Wrong(f"no alert of packet {num}")
                it.read(1)
            times.append(time.perf_counter() - start)
        status, out = it.end()
    if status or out.count("@") != 500:
        raise Wrong(f"status {status}, {out.count('@')} alerts")
    times.sort()
    middle, late, last = (times[at] * 1e3 for at in (250, 495, 499))
    print(f"latency: in milliseconds {middle:.2f} in the middle, {late:.2f} at 99 of 100, {last:.2f} at most")


def turns(given, folder):
    """From the write of a packet to the line of its alert, where a segment is full."""
    frame, length = speed.packet(0, 0)
    size, half, second = 65536, 20, 1
    plain, turning = [], []

    def packet(seconds):
        return struct.pack("<IIII", seconds, 0, len(frame), length) + frame

    with Watched(folder, EACH) as it:
        it.write(HEADER)
        for turn in range(1, 4 if given.short else 13):
            # These packets are in the second of the last ones, and so have no alert of their own.
            it.write(packet(second) * (size - half - (0 if turn == 1 else half)))
            it.until(lambda: it.left() == 0, "the packets of a segment")
            time.sleep(0.2)
            while select.select([it.process.stdout], [], [], 0)[0]:
                it.read(0)
            for num in range(2 * half):
                second += 1
                before = len(it.out)
                start = time.perf_counter()
                it.write(packet(second))
                it.until(lambda: it.out.count(b"\n", before), "the alert of a packet")
                (turning if num == half else plain).append((time.perf_counter() - start) * 1e3)
                time.sleep(0.002)
        status, _ = it.end()
    must(status == 0, f"status {status}")
    for name, times in (("that begins a segment", turning), ("around it", plain)):
        times.sort()
        print(f"turns: a packet {name}: {times[len(times) // 2]:.2f} milliseconds in the middle, {times[-1]:.2f} at most of {len(times)}")


def packets(first, last):
    """Packets of these numbers, each in a second of its own."""
    frame, length = speed.packet(0, 0)
    return b"".join(struct.pack("<IIII", 1 + num, 0, len(frame), length) + frame for num in range(first, last))


def alerts(count, prefix):
    return "".join(f"alert t {10**9 * (1 + num)} 1 @{prefix}\n" for num in range(count))


def ends(given, folder):
    """How it ends, and whether it waits for its reader."""
    with Watched(folder, EACH) as it:
        it.write(HEADER + packets(0, 3))
        it.until(lambda: it.out.decode() == alerts(3, 3), "three alerts")
        it.process.send_signal(signal.SIGTERM)
        status, out = it.end()
        must(status == -signal.SIGTERM and out == alerts(3, 3), f"SIGTERM: status {status}\n{out}")
    with Watched(folder, EACH) as it:
        it.write(HEADER)
        it.process.stdout.close()
        it.write(packets(0, 1))
        status = it.process.wait(SECONDS)
        must(status in (5, -signal.SIGPIPE), f"a reader that is gone: status {status}")
        must(not it.write(packets(1, 2)), "a reader that is gone: it still reads")
    with open("/dev/full", "wb") as full, Watched(folder, EACH, stdout=full) as it:
        it.write(HEADER + packets(0, 1))
        status = it.process.wait(SECONDS)
        must(status == 5, f"no room: status {status}")
    stopped_reader(folder)
    print("ends: SIGTERM, a reader that is gone, no room, and a reader that stops are as they should be")


def stopped_reader(folder):
    """The reader stops; the program waits, and nothing is lost."""
    count = 8_000
    with Watched(folder, EACH, "--segments", 1) as it:
        feeder = threading.Thread(target=it.write, args=(HEADER + packets(0, count),))
        feeder.start()
        feeder.join(3)
        must(feeder.is_alive(), "it read on though nobody read its lines")
        must(it.process.poll() is None, "it ended though its reader may read on")
        while feeder.is_alive():
            it.read(0.1)
        status, out = it.end()
    told = [line.rsplit(" ", 1)[0] for line in out.splitlines() if "@" in line]
    wanted = [line.rsplit(" ", 1)[0] for line in alerts(count, 0).splitlines()]
    must(status == 0 and told == wanted, f"a reader that stops: status {status}, {len(told)} alerts of {count}")


def must(holds, why):
    if not holds:
        raise Wrong(why)


def timed(words, path, through):
    """The seconds of a command over a capture, by name or through a pipe."""
    start = time.perf_counter()
    if not through:
        done = subprocess.run([*words, str(path)], stdout=subprocess.DEVNULL)
        status = done.returncode
    else:
        with open(path, "rb") as file:
            source = subprocess.Popen(["cat"], stdin=file, stdout=subprocess.PIPE)
            status = subprocess.run([*words, "/dev/stdin"], stdin=source.stdout, stdout=subprocess.DEVNULL).returncode
            source.stdout.close()
            source.wait()
    if status:
        raise Wrong(f"{' '.join(words)}: status {status}")
    return time.perf_counter() - start


def speeds(given, folder):
    """Packets a second beside `run`."""
    count = 2**14 if given.short else 2**20
    path, setup = pathlib.Path(folder, "c.pcap"), pathlib.Path(folder, "s")
    speed.write_capture(path, 1, count)
    setup.write_text(speed.USUAL + "live load\n")
    watch, times = [PROGRAM, "watch", "--setup", str(setup)], {}
    for name, words, through in (
        ("run", [PROGRAM, "run", "--setup", str(setup), "--writers", "1", "--nodes", "16384", "--segments", "16"], False),
        ("watch, a file", watch, False),
        ("watch, a pipe", watch, True),
        ("watch, a pipe, 16 segments", [*watch, "--segments", "16"], True),
    ):
        if name == "run" and PROGRAM.endswith("plain_watch.py"):
            continue
        times[name] = min(timed(words, path, through) for _ in range(given.rounds))
        beside = f", {times[name] / times['run']:.2f} times run's" if "run" in times else ""
        print(f"speed: {name}: {times[name]:.3f} seconds, {count / times[name] / 1000:,.0f} thousand packets a second{beside}")
    if "run" in times and times["watch, a pipe"] > 1.3 * times["run"]:
        raise Wrong("a pipe takes more than 1.3 times the time of run")


PARTS = {"drawn": drawn, "cuts": cuts, "window": window, "long": long, "latency": latency, "turns": turns, "ends": ends, "speed": speeds}


def main():
    parser = argparse.ArgumentParser(description=__doc__.split("\n")[0])
    parser.add_argument("--seeds", type=int, default=300)
    parser.add_argument("--records", type=int, default=10_000_000)
    parser.add_argument("--rounds", type=int, default=5)
    parser.add_argument("--short", action="store_true", help="fewer packets in window and speed")
    parser.add_argument("parts", nargs="*", metavar="PART")
    given = parser.parse_args()
    status = 0
    for name in given.parts or PARTS:
        try:
            with tempfile.TemporaryDirectory() as folder:
                PARTS[name](given, folder)
        except Wrong as wrong:
            print(f"wrong: {name}: {wrong}")
            status = 1
    sys.exit(status)


if __name__ == "__main__":
    main()
