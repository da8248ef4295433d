#!/usr/bin/env python3
"""A day of packets through `confluo watch --beat` and `confluo-report stream`: are the alerts those of a plain reading?

    bench/day.py [--seconds N] [--rate N] [--beat N] [--faults N]

A generator writes SECONDS (86,400) seconds with RATE (50) packets each into a pipe. At FAULTS (24) even distances there is a burst of
thrice as many, a second of resets, a second with one packet and a second without any. The plain reading adds up each second. Told
must be: each second that meets a trigger, once; at the end the marks of the last 4,096 seconds with packets; and at the last beat the
totals of all packets. The memory of `watch` is sampled, and must be flat once its window is full. CONFLUO may name the program. It ends
with 1 if something is not so. It is not part of the gate.
"""

import argparse
import json
import os
import pathlib
import re
import struct
import subprocess
import sys
import tempfile
import threading
import time

ROOT = pathlib.Path(__file__).resolve().parent.parent
PROGRAM = os.environ.get("CONFLUO", str(ROOT / "crates/confluo/out/confluo"))
BEGIN = 1_700_000_000
KEPT = 4096
# Packets that fill the window, and a little more.
FULL = 4 * 65536 + 50000
SETUP = """\
schema packet
filter every *
filter resets flags==4
aggregate sent every len
aggregate broken resets len
trigger burst sent count > {much}
trigger refused broken count >= 3
trigger few sent count < 2
"""
# Of each trigger, whether its second is told.
TRIGGERS = {
    "burst": lambda count, resets, rate: count > 2 * rate,
    "refused": lambda count, resets, rate: resets >= 3,
    "few": lambda count, resets, rate: count == 1,
}
AGGREGATES = ("sent", "broken")


def frame(flags):
    """The first 54 bytes of a TCP segment."""
    link = bytes(12) + b"\x08\x00"
    ip = struct.pack(">BBHIBBHII", 0x45, 0, 40, 0, 64, 6, 0, 0x0A000001, 0x0A000002)
    return link + ip + struct.pack(">HHIIBBHI", 40000, 80, 0, 0, 0x50, flags, 1024, 0)


ACK, RESET = frame(16), frame(4)


def packets_of(second, rate, faults, seconds):
    """How many packets a second has, and how many of them are resets."""
    place = second % max(seconds // faults, 8)
    return {1: (3 * rate, 0), 3: (rate, 5), 5: (1, 0), 7: (0, 0)}.get(place, (rate, 0))


def written(second, count, resets):
    """The records of a second, at even distances."""
    moment = BEGIN + second
    step = 1_000_000 // max(count, 1)
    its = [RESET if at < resets else ACK for at in range(count)]
    return b"".join(
        struct.pack("<IIII", moment, at * step, len(it), 60 + second % 1000) + it for at, it in enumerate(its)
    )


class Plain:
    """Each second's packets, and what is told of them."""

    def __init__(self, words):
        self.words, self.seconds = words, []
        self.totals = {name: [0, 0] for name in AGGREGATES}

    def take(self, second, count, resets):
        if count:
            self.seconds.append((BEGIN + second, count, resets))
        for name, its in zip(AGGREGATES, (count, resets)):
            self.totals[name][0] += its
            self.totals[name][1] += its * (60 + second % 1000)

    def told(self, seconds):
        return sorted(
            (name, bucket)
            for bucket, count, resets in seconds
            for name, fires in TRIGGERS.items()
            if fires(count, resets, self.words.rate)
        )


def memory_of(pid):
    """The program's resident memory in megabytes."""
    found = re.search(r"VmRSS:\s+(\d+)", pathlib.Path(f"/proc/{pid}/status").read_text())
    return int(found.group(1)) / 1024 if found else 0.0


def feed(plain, pipe, sizes, pid):
    """Writes the day."""
    words = plain.words
    pipe.write(struct.pack("<IHHIIII", 0xA1B2C3D4, 2, 4, 0, 0, 65535, 1))
    for second in range(words.seconds):
        count, resets = packets_of(second, words.rate, words.faults, words.seconds)
        pipe.write(written(second, count, resets))
        plain.take(second, count, resets)
        if second % max(words.seconds // 40, 1) == 0:
            sizes.append((plain.totals["sent"][0], memory_of(pid)))
    pipe.close()


def compare(plain, lines, sizes):
    """What is not so."""
    found = [json.loads(it) for it in lines]
    alerts = [(it["trigger"], it["bucket"]) for it in found if it["kind"] == "alert"]
    if sorted(alerts) != plain.told(plain.seconds):
        missing = set(plain.told(plain.seconds)) - set(alerts)
        yield f"{len(alerts)} alerts, {len(set(alerts))} different; {len(plain.told(plain.seconds))} wanted, {len(missing)} missing"
    report = next((it for it in found if it["kind"] == "report"), None)
    if report is None:
        yield "there is no final part"
        return
    final = sorted((it["trigger"], it["bucket"]) for it in report["alerts"])
    # Of each aggregate the seconds that have a record of it, the last ones.
    kept = {
        name: [it for it in plain.seconds if it[place]][-KEPT:] for place, name in enumerate(AGGREGATES, 1)
    }
    its = {"burst": "sent", "few": "sent", "refused": "broken"}
    wanted = sorted(it for name, at in its.items() for it in plain.told(kept[at]) if it[0] == name)
    if final != wanted:
        yield f"{len(final)} alerts at the end, {len(wanted)} wanted"
    totals = {it["name"]: [it["count"], it["sum"]] for it in found if it["kind"] == "total"}
    if totals != plain.totals:
        yield f"totals {totals}, wanted {plain.totals}"
    if report["records"] != plain.totals["sent"][0]:
        yield f"{report['records']} packets, {plain.totals['sent'][0]} wanted"
    full = [it for count, it in sizes if count > FULL]
    early, late = full[:3], full[-3:]
    if full and max(late) > 1.05 * max(early) + 2:
        yield f"memory grows from {max(early):.0f} to {max(late):.0f} MB"


def main():
    parser = argparse.ArgumentParser(
        description=__doc__, formatter_class=argparse.RawDescriptionHelpFormatter
    )
    for name, default in (("seconds", 86400), ("rate", 50), ("beat", 1000), ("faults", 24)):
        parser.add_argument(f"--{name}", type=int, default=default)
    words = parser.parse_args()
    plain, sizes, begun = Plain(words), [], time.monotonic()
    with tempfile.TemporaryDirectory() as folder:
        setup = pathlib.Path(folder, "s")
        setup.write_text(SETUP.format(much=2 * words.rate))
        beat = ["--beat", str(words.beat)] if words.beat else []
        watch = subprocess.Popen(
            [PROGRAM, "watch", "--setup", setup, *beat, "/dev/stdin"],
            stdin=subprocess.PIPE,
            stdout=subprocess.PIPE,
        )
        tool = subprocess.Popen(
            [ROOT / "tools/confluo-report", "stream", "--json", "--beats", "--setup", setup],
            stdin=watch.stdout,
            stdout=subprocess.PIPE,
            text=True,
        )
        watch.stdout.close()
        writer = threading.Thread(target=feed, args=(plain, watch.stdin, sizes, watch.pid))
        writer.start()
        lines = tool.stdout.readlines()
        writer.join()
        statuses = watch.wait(), tool.wait()
    wrong = list(compare(plain, lines, sizes)) + [f"statuses {statuses}"] * any(statuses)
    for it in wrong:
        print(f"wrong: {it}")
    count, spent = plain.totals["sent"][0], time.monotonic() - begun
    print(
        f"{count:,} packets, {len(plain.told(plain.seconds)):,} alerts, {spent:.0f} seconds, at most {max(it for _, it in sizes):.0f} MB"
    )
    return 1 if wrong else 0


if __name__ == "__main__":
    sys.exit(main())
