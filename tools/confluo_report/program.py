"""Finds and runs the program confluo."""

from __future__ import annotations

import os
import pathlib
import shutil
import subprocess
import tempfile
import threading
from dataclasses import dataclass
from typing import BinaryIO, Iterator, Sequence

from . import captures
from .errors import Complaint
from .progress import printed

HERE = pathlib.Path(__file__).resolve().parent
PLACES = (HERE.parent.parent / "crates/confluo/out/confluo", HERE.parent.parent.parent / "bin/confluo")


@dataclass(frozen=True)
class Ran:
    """What a run ended with and printed."""

    status: int
    text: str


def find_program() -> str | None:
    """$CONFLUO, else the built program of this repository or installation, else confluo on the path."""
    named = os.environ.get("CONFLUO")
    if named:
        return named
    built = [str(it) for it in PLACES if os.access(it, os.X_OK) and it.is_file()]
    return built[0] if built else shutil.which("confluo")


def program() -> str:
    """The program's path; a Complaint where there is none."""
    found = find_program()
    if not found:
        raise Complaint(
            "the program confluo is needed for this, and there is none on the path: "
            "`make run` builds it; CONFLUO=FILE names one that is elsewhere"
        )
    return found


def run(
    words: Sequence[str],
    stdin: BinaryIO | None = None,
    watched: Sequence[str] = (),
) -> Ran:
    """Runs the program with these words. On a terminal it is said how much of the `watched` files was read."""
    named = program()
    try:
        process = subprocess.Popen([named, *words], stdin=stdin or subprocess.DEVNULL, stdout=subprocess.PIPE)
    except OSError as error:
        raise Complaint(f"{named} cannot be run: {error.strerror}") from error
    with process:
        try:
            text = printed(process, watched)
        except BaseException:
            process.kill()
            raise
    return Ran(process.returncode, text.decode("ascii", "replace"))


def lines(words: Sequence[str]) -> Iterator[str]:
    """The lines that the program prints, as they come; a Complaint if it does not end with 0."""
    named = program()
    with subprocess.Popen(
        [named, *words], stdin=subprocess.DEVNULL, stdout=subprocess.PIPE, encoding="ascii"
    ) as process:
        assert process.stdout
        yield from process.stdout
    if process.returncode:
        raise Complaint(f"`confluo {words[0]}` ended with status {process.returncode}")


def is_utf8(word: str) -> bool:
    """Whether confluo takes the word: it refuses what is not UTF-8."""
    try:
        word.encode("utf-8")
    except UnicodeEncodeError:
        return False
    return True


def run_over(words: Sequence[str], path: str) -> Ran:
    """Runs the program over the capture, which comes by a pipe where it is packed or its name is not UTF-8."""
    packer = captures.packer_of(path)
    if packer is None and is_utf8(path):
        return run([*words, f"./{path}" if path.startswith("-") else path], watched=[path])
    with captures.opened(path) as pipe:
        return run([*words, "/dev/stdin"], pipe)


def run_over_all(words: Sequence[str], paths: Sequence[str]) -> Ran:
    """Runs the program over these captures end to end, which it opens one after another."""
    with Named(paths) as named:
        return run([*words, *named.names], watched=paths)


class Named:
    """The names by which the program opens captures: of packed ones those of pipes, and each is unpacked once its pipe is opened."""

    def __init__(self, paths: Sequence[str]) -> None:
        self.place = tempfile.TemporaryDirectory(prefix="confluo-report-")
        self.packed: list[tuple[str, str, str]] = []
        self.names = [self._name_of(at, path) for at, path in enumerate(paths)]
        self.at, self.is_over = 0, False
        self.trouble: Complaint | None = None
        self.thread = threading.Thread(target=self._unpack, daemon=True)

    def _name_of(self, at: int, path: str) -> str:
        packer, name = captures.packer_of(path), os.path.join(self.place.name, str(at))
        if packer is not None:
            os.mkfifo(name)
            self.packed.append((name, path, packer))
        elif is_utf8(path):
            return f"./{path}" if path.startswith("-") else path
        else:
            os.symlink(os.path.abspath(path), name)
        return name

    def _unpack(self) -> None:
        try:
            for self.at, (name, path, packer) in enumerate(self.packed):
                # (this waits for the program)
                with open(name, "wb") as pipe:
                    if self.is_over:
                        return
                    child = captures.start_packer(path, packer, pipe)
                captures.end_packer(child, path, packer)
        except Complaint as complaint:
            self.trouble = complaint

    def __enter__(self) -> Named:
        self.thread.start()
        return self

    def __exit__(self, kind: object, *_: object) -> None:
        self.is_over = True
        while self.thread.is_alive():
            # A pipe that waits for a reader has one for a moment.
            reader = os.open(self.packed[self.at][0], os.O_RDONLY | os.O_NONBLOCK)
            self.thread.join(0.05)
            os.close(reader)
        self.place.cleanup()
        if self.trouble and kind is None:
            raise self.trouble
