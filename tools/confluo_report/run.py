"""`confluo-report run ..`: confluo's own run, with its report on standard output and a refusal in words on standard error."""

from __future__ import annotations

import errno
import os
import shutil
import subprocess
import sys
import tempfile
from typing import BinaryIO, Sequence

from .captures import packer_of
from .commands import WordsFault, parse_words
from .errors import Complaint
from .explain import Case, explain
from .program import Named, is_utf8, program
from .reports import refusal_of

CANNOT_WRITE = 5
HELP = """\
usage: confluo-report run --setup FILE [--writers W] [--capacity N] [--segments G] [--nodes M] [--live R]
                          [--truncated] CAPTURE
       confluo-report run --long --setup FILE [--writers W] [--capacity N] [--nodes M] [--truncated] CAPTURE ..

Runs `confluo run` with these words. The report goes to standard output. If the run is refused, nothing goes there: standard error
says why in words, and the status is confluo's. The capture may be packed by gzip or zstd, and - is standard input.
`confluo-report explain --help` is about runs that were refused before; confluo(1) has the options.
"""


def _run(words: Sequence[str], out: BinaryIO) -> int:
    """The status; what is printed goes to the file."""
    named = program()
    stdin = sys.stdin.fileno() if sys.stdin else subprocess.DEVNULL
    words = ["run", *words]
    try:
        return subprocess.run([named, *map(os.fsencode, words)], stdin=stdin, stdout=out).returncode
    except OSError as error:
        raise Complaint(f"{named} cannot be run: {error.strerror}") from error


def _piped(words: Sequence[str]) -> list[str]:
    """The captures that must come through a pipe."""
    try:
        captures = parse_words(["run", *words]).captures
    except WordsFault:
        return []
    return [
        it
        for it in captures
        if it == "-" or os.path.isfile(it) and not (is_utf8(it) and packer_of(it) is None)
    ]


def _run_over(words: Sequence[str], out: BinaryIO) -> int:
    piped = _piped(words)
    paths = [it for it in piped if it != "-"]
    with Named(paths) as named:
        # (a capture may be named twice)
        names = {"-": ["/dev/stdin"] * piped.count("-")}
        for path, name in zip(paths, named.names):
            names.setdefault(path, []).append(name)
        return _run([names[it].pop(0) if names.get(it) else it for it in words], out)


def run(words: Sequence[str]) -> int:
    """Runs confluo with the words, and answers its status."""
    with tempfile.TemporaryFile(prefix="confluo-report-") as out:
        status = _run_over(words, out)  # type: ignore[arg-type]
        out.seek(0)
        if status == 0:
            return _copied(out)  # type: ignore[arg-type]
        text = out.read().decode("ascii", "replace")
    if status < 0:
        print(f"confluo-report: confluo was ended by signal {-status}", file=sys.stderr)
        return 128 - status
    print("\n".join(_said(status, text, words)), file=sys.stderr)
    return status


def _copied(out: BinaryIO) -> int:
    """0, or confluo's status where standard output cannot be written."""
    try:
        shutil.copyfileobj(out, sys.stdout.buffer)
        sys.stdout.buffer.flush()
    except OSError as error:
        os.dup2(os.open(os.devnull, os.O_WRONLY), sys.stdout.fileno())
        if error.errno != errno.EPIPE:
            print(f"confluo-report: standard output: {error.strerror}", file=sys.stderr)
        return CANNOT_WRITE
    return 0


def _said(status: int, text: str, words: Sequence[str]) -> list[str]:
    """The refusal in words, or as it is where that fails."""
    refusal = refusal_of(text)
    case = Case(words=["run", *words])
    try:
        return explain(refusal, None if refusal else status, case)
    except Complaint as complaint:
        return [text.strip() or f"confluo ended with status {status}", f"confluo-report: {complaint}"]
