#!/usr/bin/env python3
"""How fast the library for C appends and answers, beside the plain twins in C and in Rust.

    bench/library_speed.py [--rounds N] [--threads 1,2,4]

It builds bench/library_speed.c against bindings/out/libconfluo.a, bench/plain_twin.c, and, if there is a rustc, bench/plain_twin.rs, and runs them N
times (default 9) in turn, so that other work on the machine meets all of them. The tables have medians in thousands a second,
in Markdown: 65,536 records appended as rows of 20 numbers with no and four indexes, and as frames under the usual setup, one or 256 in a call;
and answers about them. It is not part of the gate.
"""

import argparse
import math
import os
import pathlib
import shutil
import statistics
import subprocess
import tempfile

ROOT = pathlib.Path(__file__).resolve().parent.parent
RECORDS = 65536
QUESTIONS = ["find", "measure", "fired", "list"]
CALLED = {
    "find": "find the 4,100 records of one sender",
    "measure": "measure all buckets",
    "fired": "a trigger's marks",
    "list": "list by a scan",
}


def build(folder):
    """The commands that can be built, by their names."""
    here = ROOT / "bench"
    flags = ["cc", "-std=c11", "-O2", "-pthread"]
    library = ROOT / "bindings" / "out" / "libconfluo.a"
    subprocess.run(
        [*flags, f"-I{ROOT / 'bindings'}", here / "library_speed.c", library, "-o", folder / "library"],
        check=True,
    )
    subprocess.run([*flags, here / "plain_twin.c", "-o", folder / "twin"], check=True)
    built = {"library": folder / "library", "C twin": folder / "twin"}
    if shutil.which("rustc"):
        words = ["rustc", "--edition", "2021", "-O", here / "plain_twin.rs", "-o", folder / "rust"]
        subprocess.run(words, check=True, stderr=subprocess.DEVNULL)
        built["Rust twin"] = folder / "rust"
    return built


def loads(built):
    """Each load by its name, with the command of each program that has it; THREADS stands for their number."""
    both = [name for name in built if name != "C twin"]
    for lanes in ("0", "4"):
        yield f"rows, {lanes} indexes", {
            "C twin": ["--lanes", lanes, "--writers", "THREADS", "--batch", str(RECORDS)],
            **{name: ["rows", lanes, "THREADS"] for name in both},
        }
    yield "frames, one a call", {name: ["frames", "0", "THREADS"] for name in both}
    yield "frames, 256 a call", {
        "C twin": ["--lanes", "1", "--chains", "16", "--finds", "500", "--writers", "THREADS"],
        **{name: ["frames", "0", "THREADS", "256"] for name in both},
    }


def run(name, path, words, threads):
    """Calls a second of each part: `append`, and the questions of all readers. The C twin finds by one thread, and has no frames."""
    words = [str(threads) if it == "THREADS" else it for it in words]
    text = subprocess.run([path, *words], capture_output=True, text=True, check=True).stdout
    if name == "C twin" and "--finds" in words:
        fields = text.split()
        return {"find": int(fields[1]) / float(fields[5])} if threads == 1 else {}
    if name == "C twin":
        return {"append": RECORDS / float(text.split()[-1])}
    found = {}
    for line in text.splitlines():
        part, seconds, calls = line.split()
        found[part] = int(calls) * (1 if part == "append" else threads) / float(seconds)
    return found


def rounded(number):
    """The number with three digits that count."""
    return f"{float(f'{number:.3g}'):,.{max(0, 2 - int(math.floor(math.log10(number))))}f}"


def main():
    parser = argparse.ArgumentParser(description=__doc__.split("\n")[0])
    parser.add_argument("--rounds", type=int, default=9)
    parser.add_argument("--threads", default="1,2,4")
    words = parser.parse_args()
    counts = [int(it) for it in words.threads.split(",")]
    times = {}
    with tempfile.TemporaryDirectory() as folder:
        built = build(pathlib.Path(folder))
        for _ in range(words.rounds):
            for threads in counts:
                for load, commands in loads(built):
                    for name in built.keys() & commands.keys():
                        for part, rate in run(name, built[name], commands[name], threads).items():
                            times.setdefault((load, part, name, threads), []).append(rate)
    print(f"load of the machine: {os.getloadavg()[0]:.1f} at the end, {os.cpu_count()} processors")
    names = [name for name in ("library", "C twin", "Rust twin") if name in built]
    heads = [f"{name}, {threads}" for name in names for threads in counts]
    print("\n| Thousands a second | " + " | ".join(heads) + " |\n|" + "---|" * (len(heads) + 1))

    def line(title, load, part):
        cells = []
        for name in names:
            for threads in counts:
                found = times.get((load, part, name, threads))
                cells.append(rounded(statistics.median(found) / 1000) if found else "")
        print(f"| {title} | " + " | ".join(cells) + " |")

    for load, _ in loads(built):
        line(f"append {load}", load, "append")
    for part in QUESTIONS:
        line(CALLED[part], "frames, 256 a call", part)


if __name__ == "__main__":
    main()
