"""The captures that words name: files, folders with all that is below them, and patterns."""

from __future__ import annotations

import glob
import os
import re
from dataclasses import dataclass
from typing import Iterator, Sequence

from .captures import MAGICS, PACKED
from .errors import Complaint

BLOCKS = b"\n\r\r\n"
PACKED_NAMES = re.compile(r".*\.(?:p?cap|pcapng)[^/]*\.(?:gz|zst)", re.IGNORECASE)
CSV_NAMES = re.compile(r".*\.csv(?:\.gz|\.zst)?", re.IGNORECASE)


@dataclass(frozen=True)
class Found:
    """The captures in their order, and how many other files the folders have."""

    captures: tuple[str, ...]
    others: int = 0


def find(words: Sequence[str], is_packet: bool = True) -> Found:
    """The captures of the words in order; a Complaint where one names none."""
    captures: list[str] = []
    others = 0
    for word in words:
        for path in _named(word):
            if not os.path.isdir(path):
                captures.append(path)
                continue
            below = list(_below(path))
            its = [it for it in below if _is_capture(it, is_packet)]
            captures += its
            others += len(below) - len(its)
            if not its:
                raise Complaint(f"the folder {path} has no {'capture' if is_packet else 'file .csv'}")
    return Found(tuple(captures), others)


def _named(word: str) -> list[str]:
    """The file or folder itself, or those that the pattern names, if there are such."""
    if word == "-":
        raise Complaint("standard input is not one of many captures: give files, folders or patterns")
    if os.path.lexists(word):
        if os.path.exists(word) and not (os.path.isfile(word) or os.path.isdir(word)):
            raise Complaint(
                f"{word} is neither a file nor a folder, and a capture may be read more than once"
            )
        return [word]
    matching = sorted(glob.glob(word, recursive=True), key=natural)
    if not matching:
        raise Complaint(f"{word}: no file has that name or matches that pattern")
    return matching


def natural(path: str) -> list[tuple[bool, int, str]]:
    """Orders `ring10` behind `ring9`."""
    return [(it.isdigit(), int(it) if it.isdigit() else 0, it) for it in re.split(r"([0-9]+)", path)]


def _below(folder: str) -> Iterator[str]:
    """The files below the folder, by their names; hidden ones are passed over."""
    for place, folders, files in os.walk(folder, followlinks=True):
        folders[:] = sorted((it for it in folders if not it.startswith(".")), key=natural)
        for name in sorted((it for it in files if not it.startswith(".")), key=natural):
            path = os.path.join(place, name)
            if os.path.isfile(path):
                yield path


def _is_capture(path: str, is_packet: bool) -> bool:
    """Whether a file in a folder is meant: by its first bytes, or its name if it is packed or CSV."""
    if not is_packet:
        return bool(CSV_NAMES.fullmatch(path))
    try:
        with open(path, "rb") as file:
            head = file.read(4)
    except OSError:
        # (a capture that cannot be read is not left out silently)
        return True
    packed = any(head.startswith(it) for it in PACKED)
    return head in MAGICS or head == BLOCKS or packed and bool(PACKED_NAMES.fullmatch(path))
