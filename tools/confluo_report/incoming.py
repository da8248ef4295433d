"""The text of `confluo watch`, which comes by pieces."""

from __future__ import annotations

import re
from dataclasses import dataclass
from typing import Iterator

from .errors import Complaint
from .matching import must_be_told, must_match
from .reports import Refusal, Report, Rounds, Told, is_told, parse, refusal_of
from .setups import Setup

MOST_LINE = 2**24
BEAT = re.compile(rb"at [0-9]+ [0-9]+|total [a-z0-9_]+ count [0-9]+ sum [0-9]+")


@dataclass(frozen=True)
class Ending:
    """How the stream ended: by the final part, by a refusal, or by neither, and then why."""

    report: Report | None = None
    refusal: Refusal | None = None
    line: str = ""
    why: str = ""


class Incoming:
    """Reads the pieces. Without `has_all_beats` only the last beat of a piece is handed on."""

    def __init__(self, source: str, setup: Setup | None = None, has_all_beats: bool = True) -> None:
        self.source, self.setup, self.has_all_beats = source, setup, has_all_beats
        self.rounds, self.number = Rounds(), 0
        self.rest, self.final = bytearray(), list[str]()

    def feed(self, piece: bytes) -> Iterator[Told]:
        """The lines of rounds that end in the piece."""
        begin = len(self.rest)
        self.rest += piece
        end = self.rest.rfind(b"\n", begin)
        if end < 0:
            self._must_not_be_long()
            return
        lines = bytes(self.rest[:end]).split(b"\n")
        del self.rest[: end + 1]
        last = 0 if self.has_all_beats else _last_beat(lines)
        for at, line in enumerate(lines):
            if at < last and BEAT.fullmatch(line) and not self.final:
                self.number += 1
                continue
            told = self._line(line)
            if told:
                yield told

    def _must_not_be_long(self) -> None:
        if len(self.rest) > MOST_LINE:
            raise Complaint(
                f"{self.source}: line {self.number + 1} has no end; this is not what `watch` writes"
            )

    def _line(self, line: bytes) -> Told | None:
        self.number += 1
        try:
            text = line.decode("ascii")
        except UnicodeDecodeError as error:
            raise Complaint(f"{self.source}: line {self.number} is not ASCII") from error
        if self.final or not is_told(text):
            self.final.append(text)
            self._must_begin_an_end()
            return None
        told = self.rounds.take_line(text, self.number, self.source)
        if self.setup:
            must_be_told(told, self.setup, self.source)
        return told

    def _must_begin_an_end(self) -> None:
        """What comes behind the rounds is a final part or a refusal: other lines are no text of `watch`."""
        first = self.final[0]
        if not first.startswith("records ") and refusal_of(first) is None:
            shown = first if len(first) <= 76 else first[:73] + "..."
            raise Complaint(f"{self.source}: line {self.number} is not one that `watch` writes:\n    {shown}")

    def end(self) -> Ending:
        """How the text ended, when no more comes."""
        if self.rest:
            return Ending(why="the last line is cut off")
        if not self.final:
            return Ending(why="there is no final part")
        text = "".join(f"{it}\n" for it in self.final)
        refusal = refusal_of(text)
        if refusal:
            return Ending(refusal=refusal, line=self.final[0])
        try:
            report = parse(text, self.source)
            assert isinstance(report, Report)
            if self.setup:
                must_match(report, self.setup, self.source)
        except Complaint as complaint:
            return Ending(why=f"the final part is cut off, or is none: {complaint}")
        if report.window is None:
            raise Complaint(f"{self.source} is a report of `confluo run`: `confluo-report show` shows it")
        return Ending(report)


def _last_beat(lines: list[bytes]) -> int:
    """Where the last beat of the lines begins; 0 if there is none."""
    return next((at for at in range(len(lines) - 1, -1, -1) if lines[at].startswith(b"at ")), 0)
