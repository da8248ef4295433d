#!/usr/bin/env python3
"""The widest setups and the deepest trees, on 65,536 generated packets, and how long each run takes.

Run it from anywhere after `make run` has built the program:

    bench/wide.py [SECONDS]

Each run has to end within SECONDS (default 180) with its status, and is timed once:

- 16 lanes, 16 triggers and 32 questions, all asked live 64 times beside each batch, by 15 writers;
- a capture in which every packet has one key, by its index, its filter and its aggregate;
- a capture in which every packet has a key of its own, with as many nodes as that takes, and with one node too few.

CONFLUO may name another build of the program. It is not part of the gate.
"""

import os
import pathlib
import struct
import subprocess
import sys
import tempfile
import time

PROGRAM = pathlib.Path(os.environ.get("CONFLUO", pathlib.Path(__file__).parent.parent / "crates/confluo/out/confluo"))
COUNT = 65536
INDEXED = ["src", "dst", "sport", "dport", "proto", "ttl", "tos", "len"]
OPERATORS = ["<", "<=", "==", "!=", ">=", ">"]
PARTS = ["count", "sum", "least", "greatest"]


def packet(num, source, destination_port, length):
    """A TCP packet's headers, captured whole at num milliseconds."""
    link = bytes([2, 0, 0, 0, 0, 1, 2, 0, 0, 0, 0, 2]) + b"\x08\x00"
    network = struct.pack(">BBHIBBHII", 0x45, 0, length - 14, 0, 64, 6, 0, source, 0x0A000100)
    transport = struct.pack(">HHIIBBHHH", 40000 + num % 1000, destination_port, num, 0, 0x50, 2, 1024, 0, 0)
    frame = link + network + transport
    return struct.pack("<IIII", num // 1000, num % 1000 * 1000, len(frame), max(length, len(frame))) + frame


def capture(path, source_of):
    """COUNT packets in the classic libpcap format, packet k from the source that source_of gives."""
    with open(path, "wb") as out:
        out.write(struct.pack("<IHHIIII", 0xA1B2C3D4, 2, 4, 0, 0, 262144, 1))
        for num in range(COUNT):
            out.write(packet(num, source_of(num), [53, 80, 443, 8080][num % 4], 64 + num % 1024))


def widest():
    """A setup with 16 lanes, 16 triggers and 32 questions, all of them live."""
    lines = ["schema packet", "width 1000000000"]
    lines += [f"index i{k} {attribute}" for k, attribute in enumerate(INDEXED)]
    lines += [f"filter f{k} len>{100 * k}" for k in range(4)]
    lines += [f"aggregate a{k} f{k} len" for k in range(4)]
    lines += [f"trigger t{k} a{k % 4} {PARTS[k // 4]} {OPERATORS[k % 6]} {50 + k}" for k in range(16)]
    lines += [f"ask q{k} find i{k} 0 255" for k in range(8)]
    lines += [f"ask q{8 + k} between f{k} 10 12" for k in range(4)]
    lines += [f"ask q{12 + k} measure a{k} 5 60" for k in range(4)]
    lines += [f"ask q{16 + k} fired t{k}" for k in range(12)]
    lines += [f"ask q{28 + k} list dport=={[53, 80, 443, 8080][k]} && len<100" for k in range(4)]
    lines += [f"live q{k}" for k in range(32)]
    return "\n".join(lines) + "\n"


def run(folder, name, setup, options, status, limit):
    """One run: its seconds and the size of its text. It fails where the status is another or the time is up."""
    (folder / "setup").write_text(setup)
    begun = time.monotonic()
    done = subprocess.run([PROGRAM, "run", "--setup", folder / "setup", *options], capture_output=True, timeout=limit)
    seconds = time.monotonic() - begun
    if done.returncode != status:
        sys.exit(f"{name}: status {done.returncode} and not {status}: {done.stdout[:200]!r} {done.stderr[:200]!r}")
    print(f"{name:<58} status {status}  {seconds:7.2f} s  {len(done.stdout):>11} bytes of text")


def nodes_for_all_keys():
    """How many nodes an index of 65,536 keys takes, whose 16 last bits differ: one of each of their proper prefixes."""
    return sum(16 ** max(level - 4, 0) for level in range(1, 8))


def main():
    limit = float(sys.argv[1]) if len(sys.argv) > 1 else 180
    with tempfile.TemporaryDirectory() as name:
        folder = pathlib.Path(name)
        capture(folder / "one", lambda num: 0x0A000001)
        capture(folder / "all", lambda num: 0x0A000000 + num)
        wide = ["--writers", "15", "--live", "64", "--nodes", "65536", folder / "all"]
        run(folder, "16 lanes, 16 triggers, 32 questions, 64 rounds, 15 writers", widest(), wide, 0, limit)
        keyed = "schema packet\nindex s src\nask q find s 10.0.0.0 10.255.255.255\nask m find s 10.0.18.52 10.0.18.52\n"
        one = keyed + "filter f *\naggregate a f len\nask b between f 0 0\nask c measure a 0 65\n"
        few, most = nodes_for_all_keys() - 1, nodes_for_all_keys()
        for writers in ["1", "4", "15"]:
            options = ["--writers", writers]
            run(folder, f"one key, {writers} writers", one, [*options, folder / "one"], 0, limit)
            run(folder, f"all keys different, {writers} writers", keyed, [*options, "--nodes", str(most), folder / "all"], 0, limit)
        run(folder, "all keys different, one node too few, 1 writer", keyed, ["--writers", "1", "--nodes", str(few), folder / "all"], 7, limit)


if __name__ == "__main__":
    main()
