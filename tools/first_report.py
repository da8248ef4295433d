#!/usr/bin/env python3
"""Asks confluo about a capture before anything is proved.

    tools/first_report.py [SETUP CAPTURE]

Without names it asks the example, shows what the report should look like and says whether it did. `make try SETUP=.. CAPTURE=..`
calls it; a setup of one's own is checked before, and the report is shown as tables too. `rt try` builds the program without proofs
and with checks as it runs, which takes some minutes at every call, and keeps nothing. It ends with 0 if there is a report, for the
example the expected one, else with confluo's own status, with 1 if nothing ran, or with 2 if the setup is not valid. Needs the kit,
and of Python the standard library only.
"""

import pathlib
import re
import subprocess
import sys
import tempfile
import time

sys.dont_write_bytecode = True

import check_documents  # noqa: E402

ROOT = pathlib.Path(__file__).resolve().parent.parent
EXAMPLE = [ROOT / "examples" / it for it in ("web_and_dns.setup", "web_and_dns.pcap")]
EXPECTED = ROOT / "examples" / "web_and_dns.report"
# Of the example, live questions are asked too. The sizes for other captures suit nearly each of up to 1,048,576 packets.
EXAMPLE_OPTIONS = ["--writers", "4", "--live", "2"]
OPTIONS = ["--writers", "1", "--segments", "16", "--nodes", "16384"]
# How long the program may run, once it is built.
SECONDS = 600
ENDED = re.compile(r"\brun=ended status=(\d+)")


def shown(report):
    return "".join(f"    {line}\n" for line in report)


def build_and_run(setup, capture, options):
    """What the program printed as lines, what `rt try` said, and the program's status, None if it did not end by itself."""
    words = [
        "rt",
        "try",
        "--seconds",
        str(SECONDS),
        "--data",
        f"s={setup.resolve()}",
        "--data",
        f"c={capture.resolve()}",
    ]
    words += ["--", "run", "--setup", "s", *options, "c"]
    with tempfile.TemporaryFile() as out, tempfile.TemporaryFile() as err:
        try:
            run = subprocess.Popen(
                words, cwd=ROOT / "crates" / "confluo", stdin=subprocess.DEVNULL, stdout=out, stderr=err
            )
        except FileNotFoundError:
            sys.exit("There is no rt on the path: README.md says what the kit is and how to get it.")
        wait_for(run)
        printed, said = (read_all(it) for it in (out, err))
    ended = ENDED.search(said)
    return printed.splitlines(), said, int(ended.group(1)) if ended else None


def wait_for(run):
    """Waits, and says on a terminal how long it has taken."""
    began = time.monotonic()
    try:
        while run.poll() is None:
            time.sleep(0.2)
            if sys.stdout.isatty():
                print(f"\r{time.monotonic() - began:4.0f} seconds gone", end="", flush=True)
    except KeyboardInterrupt:
        run.terminate()
        run.wait()
        sys.exit("\nInterrupted: nothing is left behind.")
    if sys.stdout.isatty():
        print("\r\x1b[K", end="")


def read_all(file):
    file.seek(0)
    return file.read().decode("utf-8", "replace")


def tool(*words, report=()):
    """Runs confluo-report with the words, and the report as standard input; its status."""
    sys.stdout.flush()
    text = "".join(f"{it}\n" for it in report)
    return subprocess.run(
        [sys.executable, ROOT / "tools" / "confluo-report", *words], input=text, text=True
    ).returncode


def main(words):
    if len(words) not in (0, 2) or any(it.startswith("-") for it in words):
        sys.exit("usage: make try [SETUP=questions.setup CAPTURE=capture.pcap]: both or none")
    setup, capture = map(pathlib.Path, words or EXAMPLE)
    for it in (setup, capture):
        if not it.is_file():
            sys.exit(f"There is no file {it}.")
    if words and tool("check", "--capture", capture, setup):
        print("Nothing was built: the setup is not valid.")
        return 2
    name = capture if words else capture.relative_to(ROOT)
    print(f"This builds confluo without its proofs and asks it about {name}.")
    print("It takes 1 to 4 minutes, prints the report at the end, and leaves nothing behind.")
    if not words:
        expected = EXPECTED.read_text().splitlines()
        print(
            "The report should look like this (threads decide numbers in the lines `live`, `new` and `order`):"
        )
        print(shown(expected), end="")
    sys.stdout.flush()
    report, said, status = build_and_run(setup, capture, OPTIONS if words else EXAMPLE_OPTIONS)
    if status is None:
        print(said, end="")
        print(
            "There is no report: the program was not built or did not end. The lines above are what `rt try` says."
        )
        return 1
    print("confluo prints:")
    print(shown(report), end="")
    if status:
        tool("explain", "--status", str(status), "--setup", setup, "--capture", capture, report=report)
        print(f"confluo refused (status {status}), for the reason above.")
        return status
    if words:
        print("As tables, which `confluo-report show` makes of it:")
        tool("show", "--setup", setup, report=report)
    elif not check_documents.agrees(expected, report):
        print("WRONG: this is another report than the expected one.")
        return 1
    print(f"OK: {'the report is as expected' if not words else 'this is the report'}. {PROOF}")
    return 0


PROOF = "It comes from the program's text without the proofs; `make run` proves and builds the program that stays."

if __name__ == "__main__":
    sys.exit(main(sys.argv[1:]))
