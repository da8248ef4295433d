"""What calls refuse."""

from __future__ import annotations

import ctypes
import enum
from typing import Optional, Union

from .calls import Fault, call


class Code(enum.IntEnum):
    """What calls answer."""

    OK = 0
    MEMORY = 1
    SIZES = 2
    SETUP = 3
    NOTHING = 4
    NO_WRITER = 5
    FULL = 6
    NODES = 7
    UNFIT = 8
    FRAME = 9
    NO_QUESTION = 10
    NO_LANE = 11
    NO_ROW = 12
    NO_NAME = 13
    NO_GROUPS = 14
    BUSY = 15
    UNLIKE = 16
    ONE_LOG = 17


# The rule that a line of a setup breaks, by the code of its fault (docs/FORMATS.md).
RULES = {
    1: "each byte of a line is printed ASCII",
    2: "the first word begins a statement; the schema comes first and once, `width` at most once",
    3: "a statement has its words, its fixed words are spelled as shown, and a new name is a name",
    4: "the list of `schema records` is NAME:KIND with commas between, at most 24, and has `ts:u64`",
    5: "no name is given twice, and a question is `live` once",
    6: "a name stands for an attribute, or for a thing of that kind on a line above",
    7: "a number or value has its form and range",
    8: "an index, a tally and `by` are over numbers; measured are numbers below 2^32",
    9: "at most 16 indexes, filters, aggregates and tallies, 16 triggers, 32 questions, 65536 bytes",
    10: "the expression can be read: comparisons joined by && and ||, no parentheses",
    11: "the names in an expression are attributes",
    12: "the operators suit: == != < <= > >= in, not in; of bytes only == and !=",
    13: "the values in an expression are in their attribute's range",
    14: "an expression has at most 32 comparisons",
}


def message_of(code: int) -> str:
    """The library's text for a code."""
    text = ctypes.create_string_buffer(64)
    length = call("message")(code, 0, text, 64)
    return text.raw[:length].decode("ascii")


def code_of(code: int) -> Union[Code, int]:
    """The Code of a number; the number itself if a later library answers one that is not known here."""
    try:
        return Code(code)
    except ValueError:
        return code


class Error(Exception):
    """A call that was refused, with its Code, or the number that a later library answers."""

    code: Union[Code, int]

    def __init__(self, code: int) -> None:
        self.code = code_of(code)
        super().__init__(message_of(code))


class SetupError(Error):
    """A faulty setup: its first faulty `line`, from 1 (0: the whole text is too long), the code of its `fault` in docs/FORMATS.md, and
    the `rule` that the line breaks. Of `ask_text` the line is 1."""

    def __init__(self, line: int, fault: int) -> None:
        super().__init__(Code.SETUP)
        self.line, self.fault = line, fault
        self.rule = RULES.get(fault, "")

    def __str__(self) -> str:
        said = f"{super().__str__()}: line {self.line}, code {self.fault}"
        return f"{said}: {self.rule}" if self.rule else said


def wanted(code: int, fault: Optional[Fault] = None) -> None:
    """Raises what a call refused, if it did."""
    if code == Code.SETUP and fault is not None:
        raise SetupError(fault.line, fault.code)
    if code != Code.OK:
        raise Error(code)
