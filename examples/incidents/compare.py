#!/usr/bin/env python3
"""Compares the reports of the incidents with those that lie beside them.

    examples/incidents/compare.py PROGRAM

Makes each capture anew and compares its bytes with the stored file, and runs `PROGRAM run` over each setup, with one, four and
fifteen writers. The part of the report up to the last `alert` must be the stored one; what follows depends on threads. What
`PROGRAM snapshot` prints must be the stored text as it is. Ends with 1 if something differs. tools/check_documents.py compares
README.md here with the stored reports.
"""

import pathlib
import subprocess
import sys

sys.dont_write_bytecode = True

import make_captures

HERE = pathlib.Path(__file__).resolve().parent
SNAPSHOTS = {"lost": ("240", ["lost_before", "lost_behind"])}
# what is asked of several captures by `run --long`
LONG = {"idle": list(make_captures.RING)}
# what a run needs beside its setup
OPTIONS = {"cut_off": ["--truncated"], "many_addresses": ["--nodes", "2048"]}
SHARED = {it for _, captures in SNAPSHOTS.values() for it in captures}
CAPTURE_OF = {name: name for name in make_captures.CAPTURES if name not in SHARED} | {"port_scan_stranger": "port_scan"}


def final_part(report):
    """The lines up to the last `ask` or `alert`."""
    return "".join(it for it in report.splitlines(True) if not it.startswith(("live ", "new ", "order")))


def printed(words):
    """What the program prints, or what it says of a refusal."""
    ran = subprocess.run(words, stdout=subprocess.PIPE, text=True)
    return ran.stdout if ran.returncode == 0 else f"status {ran.returncode}: {ran.stdout}"


def report_of(program, name, writers):
    """The report of a capture."""
    words = ["run", "--setup", str(HERE / f"{name}.setup"), "--writers", str(writers), *OPTIONS.get(name, [])]
    captures = [f"{CAPTURE_OF[name]}.pcap"] if name in CAPTURE_OF else LONG[name]
    return printed([program, *words, *["--long"] * (name in LONG), *(str(HERE / it) for it in captures)])


def snapshot_of(program, name):
    """The text of a snapshot."""
    after, captures = SNAPSHOTS[name]
    return printed([program, "snapshot", "--setup", str(HERE / f"{name}.setup"), "--after", after] + [str(HERE / f"{it}.pcap") for it in captures])


def main():
    if len(sys.argv) != 2:
        sys.exit(__doc__)
    wrong = [name for name, made in make_captures.FILES.items() if (HERE / name).read_bytes() != made()]
    for name in (*CAPTURE_OF, *LONG):
        wanted = (HERE / f"{name}.report").read_text()
        wrong += [f"{name} by {writers} writers" for writers in (1, 4, 15) if final_part(report_of(sys.argv[1], name, writers)) != wanted]
    for name in SNAPSHOTS:
        wanted = (HERE / f"{name}.report").read_text()
        wrong += [name] if snapshot_of(sys.argv[1], name) != wanted else []
    for it in wrong:
        print(f"differs: {it}")
    print(f"{len(CAPTURE_OF) + len(LONG) + len(SNAPSHOTS)} reports, {len(wrong)} differences")
    sys.exit(1 if wrong else 0)


if __name__ == "__main__":
    main()
