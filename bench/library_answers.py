#!/usr/bin/env python3
"""Whether the library for C answers as the program does, and as a plain walk over all rows.

    bench/library_answers.py [CASES [FIRST]]

Each capture under examples/ and CASES drawn ones (default 1,000), seeded from FIRST (1) on, go into a log of the
Python package by one to four threads, one frame or several in a call. The final part of the report is made of the answers,
whose names, rows and triggers the library gives, and must be what bench/plain_answers.py finds; so must be what `confluo run`
prints, if CONFLUO names the program or it is built. CONFLUO_LIBRARY may name the shared object. It is not part of the gate;
`make check-bindings` runs a few cases.
"""

import os
import pathlib
import random
import struct
import subprocess
import sys
import tempfile
import threading

sys.dont_write_bytecode = True
ROOT = pathlib.Path(__file__).resolve().parent.parent
sys.path[:0] = [str(ROOT / "bindings" / "python"), str(ROOT / "bench")]
os.environ.setdefault("CONFLUO_LIBRARY", str(ROOT / "bindings" / "out" / "libconfluo.so.0"))

import confluo  # noqa: E402
import damage  # noqa: E402
import plain  # noqa: E402
import plain_answers  # noqa: E402

PROGRAM = os.environ.get("CONFLUO") or str(ROOT / "crates" / "confluo" / "out" / "confluo")
# Attributes for keys, each with values that some frames have.
KEYS = {
    "src": range(0x0A000000, 0x0A000010),
    "dst": [0, 0x0A000100],
    "len": range(14, 200, 20),
    "caplen": range(14, 100, 10),
    "ttl": [0, 64],
    "proto": [0, 1, 6, 17],
    "kind": range(4),
    "etype": [0, 0x0800, 0x0806, 0x86DD],
    "iplen": [0, 20, 40, 60, 1500],
    "vlan": [0, 100, 4095],
}
RANGES = {"index": "find", "filter": "between", "aggregate": "measure"}
SMALL = ["len", "caplen", "iplen", "ttl", "sport", "src"]
EXPRESSIONS = ["*", "*", "kind==2", "kind>0 && len>60", "src in 10.0.0.0/29", "etype==0x86dd || etype==0x806", "ttl!=64", "len<0"]
PARTS = ["count", "sum", "least", "greatest"]
OPERATORS = ["==", "!=", "<", "<=", ">", ">="]


def drawn_asks(draw, lanes):
    """What is asked of these lanes, each given as its kind, its name, and its key."""
    yield f"list {draw.choice(EXPRESSIONS)}"
    yield f"total {draw.choice(SMALL)} {draw.choice(EXPRESSIONS)}"
    for kind, name, key in lanes:
        low, high = sorted([draw.choice([0, 1, 2, 50]), draw.choice([1, 3, 100, 10**6])])
        if kind == "index":
            low, high = draw.choice(KEYS[key]), draw.choice(KEYS[key])
        if kind == "trigger":
            yield f"fired {name}"
        elif kind == "tally":
            yield f"top {name} {draw.choice(PARTS)} {draw.choice([1, 2, 10, 1000])}"
        else:
            yield f"{RANGES[kind]} {name} {low} {high}"
        if kind in ("aggregate", "tally"):
            yield f"groups {name}"


def drawn_setup(draw):
    """The text of a setup over packets."""
    lines = [f"schema {draw.choice(['packet', 'packet6'])}", f"width {draw.choice([10**7, 10**9, 60 * 10**9])}"]
    lanes = []

    def add(kind, name, words, key=None):
        lanes.append((kind, name, key))
        lines.append(f"{kind} {name} {words}")

    for k in range(draw.randrange(4)):
        key = draw.choice(list(KEYS))
        add("index", f"i{k}", key, key)
    for k in range(draw.randrange(3)):
        add("filter", f"f{k}", draw.choice(EXPRESSIONS))
        for n in range(draw.randrange(3)):
            add("aggregate", f"a{k}{n}", f"f{k} {draw.choice(SMALL)}")
            number = draw.choice([0, 1, 2, 54, 200, 5000])
            add("trigger", f"g{k}{n}", f"a{k}{n} {draw.choice(PARTS)} {draw.choice(OPERATORS)} {number}")
    for k in range(draw.randrange(3)):
        add("tally", f"t{k}", f"{draw.choice(list(KEYS))} {draw.choice(SMALL)} {draw.choice(EXPRESSIONS)}")
    asks = list(drawn_asks(draw, lanes))
    return "".join(f"{it}\n" for it in lines + [f"ask q{k} {it}" for k, it in enumerate(asks)])


def drawn_capture(draw):
    """A classic capture of up to 300 frames, a hundredth of a second apart more or less; some are late."""
    link = draw.choice([1, 1, 1, 113])
    parts = [struct.pack("<IHHIIII", 0xA1B23C4D, 2, 4, 0, 0, 65535, link)]
    for k in range(draw.choice([0, 1, 10, 60, 300])):
        data = damage.frame(draw)
        data = data if link == 1 else bytes(14) + data[12:]
        ns = max(0, k + draw.choice([0, 0, 0, -50])) * 10**7 + draw.randrange(10**7)
        parts.append(struct.pack("<IIII", ns // 10**9, ns % 10**9, len(data), len(data) + draw.randrange(100)) + data)
    return b"".join(parts)


def program_answer(setup, data):
    """What `confluo run` prints of the final part, or None if there is no program."""
    if not os.access(PROGRAM, os.X_OK):
        return None
    with tempfile.TemporaryDirectory() as folder:
        place = pathlib.Path(folder)
        (place / "s").write_bytes(setup)
        (place / "c").write_bytes(data)
        words = [PROGRAM, "run", "--setup", "s", "--writers", "2", "--nodes", "65536", "--live", "0", "c"]
        text = subprocess.run(words, cwd=folder, capture_output=True, check=True).stdout.decode()
    return "".join(it for it in text.splitlines(keepends=True) if it.split(" ")[0] in ("records", "ask", "alert"))


def loaded(setup, frames, writers, batch):
    """A reader of a log that has the frames, frame k by writer k mod `writers`, `batch` of them in a call."""
    log = confluo.Log(setup, writers=writers, nodes=65536 if len(frames) > 1000 else 4096)
    faults = []

    def append(writer, mine):
        try:
            for k in range(0, len(mine), batch):
                if batch == 1:
                    writer.append(*mine[k])
                else:
                    faults.extend(filter(None, [writer.append_many(mine[k : k + batch]).refused]))
        except confluo.Error as fault:
            faults.append(fault)

    threads = []
    for part in range(writers):
        mine = [confluo.Frame(k, it.ts, it.data, it.length, it.link) for k, it in enumerate(frames) if k % writers == part]
        threads.append(threading.Thread(target=append, args=(log.writer(), mine)))
    for thread in threads:
        thread.start()
    for thread in threads:
        thread.join()
    if faults:
        raise faults[0] if isinstance(faults[0], Exception) else RuntimeError(faults[0])
    return log.reader()


def quad_text(quad):
    ends = f"least {quad.least} greatest {quad.greatest}" if quad.count else "least - greatest -"
    return f"count {quad.count} sum {quad.sum} {ends}"


def body(reader, question, answer):
    """An answer as the report has it: rows by their numbers."""
    if answer.kind == confluo.Kind.QUAD:
        return f"{question.kind} {quad_text(answer.rows[0])}"
    if answer.kind == confluo.Kind.PLACES:
        found = sorted(reader.row(it).number for it in answer.words)
    elif answer.kind == confluo.Kind.GROUPS:
        found = [f"{key}=" + "/".join(map(str, quad)) for key, *quad in answer.rows]
    elif answer.kind == confluo.Kind.KEYED_GROUPS:
        found = [f"{bucket}/{key}=" + "/".join(map(str, quad)) for bucket, key, *quad in answer.rows]
    elif answer.kind == confluo.Kind.KEYED_MARKS:
        found = [f"{bucket}/{key}={value}" for bucket, key, value in answer.rows]
    else:
        found = [f"{key}={value}" for key, value in answer.rows]
    return " ".join([f"{question.kind} {len(found)}:", *map(str, found)])


def marks(reader, trigger):
    """The buckets in which a trigger fires, by the groups of its aggregate, or by a question if that has a key beside them."""
    if any(it.name == trigger.aggregate and it.kind == "aggregate by" for it in reader.names.lanes):
        for bucket, key, value in reader.ask_text(f"ask marks_of_it fired {trigger.name}").rows:
            yield f"alert {trigger.name} {bucket}/{key} {value}"
        return
    compare = {"==": int.__eq__, "!=": int.__ne__, "<": int.__lt__, "<=": int.__le__, ">": int.__gt__, ">=": int.__ge__}
    for bucket, *quad in reader.groups(trigger.aggregate).rows:
        value = confluo.Quad(*quad)._asdict()[trigger.part]
        if compare[trigger.operator](value, trigger.number):
            yield f"alert {trigger.name} {bucket} {value}"


def library_answer(setup, frames, writers, batch):
    """The final part of a report, of the library's answers at one tail."""
    reader = loaded(setup, frames, writers, batch)
    lines = [f"records {reader.tail()}"]
    for it in reader.names.questions:
        lines.append(f"ask {it.name} {body(reader, it, reader.ask_seen(it.name))}")
    for it in reader.names.triggers:
        lines += marks(reader, it)
    return "".join(f"{it}\n" for it in lines)


def fault_of(name, setup, data, writers, batch):
    """What is wrong with the library's answers about a capture, if anything is."""
    schema = "packet6" if b"schema packet6" in setup else "packet"
    frames, code, _ = plain.read(data, plain.LINKS[schema])
    if code:
        return None
    found = library_answer(setup, frames, writers, batch)
    for other, wanted in (("a plain walk", plain_answers.report(setup, data)[1]), ("confluo run", program_answer(setup, data))):
        if wanted is not None and found != wanted:
            pairs = zip(found.splitlines() + ["end"], wanted.splitlines() + ["end"])
            first = next((f"{a!r} in place of {b!r}" for a, b in pairs if a != b), "another end")
            return f"{name}, {writers} writers, {batch} frames a call: {first} by {other}"
    return None


def examples():
    """Each setup under examples/ with its captures."""
    for setup in sorted(ROOT.glob("examples/**/*.setup")):
        for capture in sorted(setup.parent.glob("*.pcap*")):
            text = setup.read_bytes()
            if capture.stem.startswith(setup.stem) and (b"schema packet\n" in text or b"schema packet6\n" in text):
                yield str(capture.relative_to(ROOT)), text, capture.read_bytes()


def drawn(seed):
    """A drawn setup and capture."""
    draw = random.Random(seed)
    return f"seed {seed}", drawn_setup(draw).encode(), drawn_capture(draw)


def main():
    cases = int(sys.argv[1]) if len(sys.argv) > 1 else 1000
    first = int(sys.argv[2]) if len(sys.argv) > 2 else 1
    found, count = [], 0
    for number, case in enumerate([*examples(), *map(drawn, range(first, first + cases))]):
        fault = fault_of(*case, writers=1 + number % 4, batch=(1, 2, 7, 64)[number // 4 % 4])
        count += 1
        if fault:
            found.append(fault)
            print(fault)
    beside = "and `confluo run`" if os.access(PROGRAM, os.X_OK) else "alone: there is no program"
    print(f"{count} captures, {len(found)} wrong, beside a plain walk {beside}")
    sys.exit(1 if found else 0)


if __name__ == "__main__":
    main()
