"""Runs confluo over one capture, with more tree nodes if it asks for them.

A worker of Dask is handed this module by value, so it needs only the standard library, and what goes in
and comes out is plain.
"""

from __future__ import annotations

import contextlib
import fcntl
import os
import shutil
import socket
import subprocess
import tempfile
import threading
from dataclasses import dataclass
from typing import Any, Optional, Sequence, Tuple

PACKERS = ((b"\x1f\x8b", "gzip"), (b"\x28\xb5\x2f\xfd", "zstd"))
TOO_FEW_NODES = 7
# The status, what was printed, and, if there is no status, why confluo did not run to its end.
Ended = Tuple[Optional[int], str, str]
# A capture's path, and of a piece of it where that begins and ends, and what is to be read before it.
Piece = Tuple[str, int, Optional[int], bytes]
# The bytes that a pipe holds, and that the kernel takes at once.
PIPE = 2**20
MOST_SENT = 2**30
# Parts are short, and much of their time is for new pages of memory: large ones are fewer.
LARGE_PAGES = {"GLIBC_TUNABLES": "glibc.malloc.hugetlb=1"}


@dataclass(frozen=True)
class Work:
    """What is the same for every part: the setup's bytes, the options to try one after another, and the client's program."""

    setup: bytes
    tries: tuple[tuple[str, ...], ...]
    program: str | None = None


class Stopped(Exception):
    """No process is started any more."""


class Running:
    """The processes that run now, which are ended all at once."""

    def __init__(self) -> None:
        self.lock = threading.Lock()
        self.held: list[subprocess.Popen[bytes]] = []
        self.is_over = False

    def start(self, words: Sequence[str], **streams: Any) -> subprocess.Popen[bytes]:
        with self.lock:
            if self.is_over:
                raise Stopped
            environment = {**LARGE_PAGES, **os.environ}
            process = subprocess.Popen(list(map(os.fsencode, words)), env=environment, **streams)
            self.held.append(process)
            return process

    def wait(self, process: subprocess.Popen[bytes]) -> tuple[int, str]:
        """Its status, and what it printed if that was not read yet."""
        out = b""
        if process.stdout and not process.stdout.closed:
            with process.stdout as pipe:
                out = pipe.read()
        status = process.wait()
        with self.lock:
            self.held.remove(process)
        return status, out.decode("ascii", "replace")

    def stop(self) -> None:
        with self.lock:
            self.is_over = True
            for it in self.held:
                it.kill()


def program_of(known: str | None) -> str | None:
    """$CONFLUO of this machine, else the client's program if it is here too, else confluo on the path."""
    there = known if known and shutil.which(known) else None
    return os.environ.get("CONFLUO") or there or shutil.which("confluo")


def _packer_of(capture: str) -> str | None:
    with open(capture, "rb") as file:
        head = file.read(4)
    return next((name for magic, name in PACKERS if head.startswith(magic)), None)


def _run_packed(running: Running, words: list[str], capture: str, packer: str) -> Ended:
    unpacking = running.start([packer, "-dc", capture], stdout=subprocess.PIPE, stderr=subprocess.DEVNULL)
    assert unpacking.stdout
    try:
        with unpacking.stdout as pipe:
            process = running.start([*words, "/dev/stdin"], stdin=pipe, stdout=subprocess.PIPE)
    except BaseException:
        unpacking.kill()
        running.wait(unpacking)
        raise
    status, out = running.wait(process)
    unpacked, _ = running.wait(unpacking)
    # (confluo may end before its input does: then the packer ends by SIGPIPE)
    if unpacked not in (0, -13):
        return None, "", f"{packer} could not unpack it (status {unpacked})"
    return status, out, ""


def _feed(pipe: Any, piece: Piece, missing: list[str]) -> None:
    """Writes a piece until nobody reads any more; says if the file does not have all of it."""
    path, at, end, front = piece
    try:
        with pipe, open(path, "rb") as file:
            _enlarge(pipe)
            pipe.write(front)
            pipe.flush()
            # (the kernel hands its own pages on, and no other thread waits for this one meanwhile)
            while end is not None and at < end:
                sent = os.sendfile(pipe.fileno(), file.fileno(), at, min(end - at, MOST_SENT))
                if not sent:
                    missing.append("it became shorter while it was read")
                    break
                at += sent
    except BrokenPipeError:
        pass
    except OSError as error:
        missing.append(f"{error.strerror}")


def _enlarge(pipe: Any) -> None:
    """Gives the pipe more room, if the system has it."""
    with contextlib.suppress(OSError, AttributeError):
        fcntl.fcntl(pipe.fileno(), fcntl.F_SETPIPE_SZ, PIPE)


def _run_piece(running: Running, words: list[str], piece: Piece) -> Ended:
    process = running.start([*words, "/dev/stdin"], stdin=subprocess.PIPE, stdout=subprocess.PIPE)
    missing: list[str] = []
    feeding = threading.Thread(target=_feed, args=(process.stdin, piece, missing))
    feeding.start()
    status, out = running.wait(process)
    feeding.join()
    return (None, "", missing[0]) if missing else (status, out, "")


def _run(running: Running, words: list[str], piece: Piece) -> Ended:
    capture, _, end, _ = piece
    if end is not None:
        return _run_piece(running, words, piece)
    packer = _packer_of(capture)
    if packer:
        return _run_packed(running, words, capture, packer)
    with open(capture, "rb") as file:
        # By standard input, since confluo refuses names that are not UTF-8.
        process = running.start([*words, "/dev/stdin"], stdin=file, stdout=subprocess.PIPE)
    return (*running.wait(process), "")


def answer(running: Running, work: Work, piece: Piece) -> Ended:
    """How confluo ended over the capture, or the piece of it."""
    program = program_of(work.program)
    if program is None:
        return None, "", "there is no program confluo; CONFLUO=FILE names one"
    ended: Ended = None, "", "there are no options to try"
    try:
        with tempfile.TemporaryDirectory(prefix="confluo-report-") as folder:
            setup = os.path.join(folder, "part.setup")
            with open(setup, "wb") as file:
                file.write(work.setup)
            for options in work.tries:
                ended = _run(running, [program, "run", "--setup", setup, *options], piece)
                if ended[0] != TOO_FEW_NODES:
                    break
    except OSError as error:
        return None, "", f"{os.fsdecode(error.filename or program)}: {error.strerror}"
    return ended


def running_of(worker: Any, token: str) -> Running:
    """The processes of one run of the tool on a worker of Dask, which keeps them."""
    kept: dict[str, Running] = worker.__dict__.setdefault("confluo_running", {})
    return kept.setdefault(token, Running())


def answer_on_worker(
    token: str, setup: bytes, tries: Sequence[tuple[str, ...]], program: str | None, piece: Piece
) -> Ended:
    """The same on a worker of Dask."""
    from distributed import get_worker  # type: ignore[import]

    status, out, why = answer(running_of(get_worker(), token), Work(setup, tuple(tries), program), piece)
    return status, out, f"{why}, on {socket.gethostname()}" if why else ""


def stop_on_worker(token: str, dask_worker: Any) -> None:
    """Ends what runs on the worker for that run of the tool, and lets nothing more begin."""
    running_of(dask_worker, token).stop()
