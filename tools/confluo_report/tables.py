"""Tables of text, and colours on a terminal."""

from __future__ import annotations

import os
from dataclasses import dataclass
from typing import Sequence, TextIO


@dataclass(frozen=True)
class Style:
    """How marked text is written: with colours, or plain."""

    colours: bool = False

    def _in(self, code: str, text: str) -> str:
        return f"\x1b[{code}m{text}\x1b[0m" if self.colours and text else text

    def title(self, text: str) -> str:
        return self._in("1", text)

    def high(self, text: str) -> str:
        return self._in("31", text)

    def low(self, text: str) -> str:
        return self._in("36", text)

    def faint(self, text: str) -> str:
        return self._in("2", text)


def style_for(stream: TextIO) -> Style:
    """Colours on a terminal, and never with NO_COLOR or a dumb terminal."""
    plain = os.environ.get("NO_COLOR") or os.environ.get("TERM") == "dumb"
    return Style(stream.isatty() and not plain)


def table(head: Sequence[str], rows: Sequence[Sequence[str]], style: Style, right: str = "") -> list[str]:
    """The lines of a table, two spaces before each; columns whose letter in `right` is r end at one place."""
    widths = [max(len(row[at]) for row in [head, *rows]) for at in range(len(head))]

    def line(cells: Sequence[str]) -> str:
        texts = [
            cell.rjust(width) if right[at : at + 1] == "r" else cell.ljust(width)
            for at, (cell, width) in enumerate(zip(cells, widths))
        ]
        return "  " + "  ".join(texts).rstrip()

    return [style.faint(line(head)), *(_marked(line(row), row, style) for row in rows)]


def _marked(line: str, row: Sequence[str], style: Style) -> str:
    if row[-1] == MOST:
        return style.high(line)
    return style.low(line) if row[-1] == FEWEST else line


MOST, FEWEST = "most", "fewest"


def marks(values: Sequence[int], has_most: bool = True, has_fewest: bool = True) -> list[str]:
    """For each value whether it is the one greatest or the one least, of three or more."""
    if len(values) < 3:
        return [""] * len(values)
    high, low = max(values), min(values)
    most = high if has_most and values.count(high) == 1 else None
    fewest = low if has_fewest and values.count(low) == 1 else None
    return [MOST if it == most else FEWEST if it == fewest else "" for it in values]
