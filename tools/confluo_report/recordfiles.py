"""Reads CSV files of typed records, as docs/FORMATS.md says, and finds the first faulty record."""

from __future__ import annotations

import re
from dataclasses import dataclass
from typing import Iterator, Sequence

from .captures import CaptureFault
from .expressions import Attribute, Value, value_of, values_of_kind

MOST_BYTES = 2**24
MARK = "\xef\xbb\xbf"


@dataclass(frozen=True)
class Record:
    """The fields of a record and the byte where it begins."""

    fields: tuple[str, ...]
    at: int


class _Field:
    """A field that is being read: its text, and whether a quote is open or was just closed."""

    def __init__(self) -> None:
        self.text: list[str] = []
        self.state = "begin"


def _plain(text: str, begin: int) -> Iterator[Record]:
    """The records of a text without quotes."""
    for it in re.finditer(r"[^\r\n]+", text[begin:]):
        yield Record(tuple(it[0].split(",")), begin + it.start())


def _step(field: _Field, letter: str) -> bool:
    """Takes a letter into the field; False where it is a comma or a line end outside quotes."""
    if field.state == "open":
        if letter == '"':
            field.state = "closed"
        else:
            field.text.append(letter)
        return True
    if field.state == "closed" and letter == '"':
        field.text.append(letter)
        field.state = "open"
        return True
    if letter in ",\r\n":
        return False
    if field.state == "begin" and letter == '"':
        field.state = "open"
        return True
    field.text.append(letter)
    field.state = "within"
    return True


def _quoted(text: str, begin: int) -> Iterator[Record]:
    """The records of any text."""
    fields: list[str] = []
    field, start = _Field(), begin
    for at in range(begin, len(text)):
        letter = text[at]
        if _step(field, letter):
            continue
        is_blank = not fields and field.state == "begin" and letter != ","
        if not is_blank:
            fields.append("".join(field.text))
        if letter != "," and not is_blank:
            yield Record(tuple(fields), start)
            fields = []
        if letter != ",":
            start = at + 1
        field = _Field()
    if fields or field.state != "begin":
        yield Record((*fields, "".join(field.text)), start)


def records(data: bytes) -> Iterator[Record]:
    """All records, the first being the names."""
    text = data.decode("latin-1")
    begin = len(MARK) if text.startswith(MARK) else 0
    return _quoted(text, begin) if '"' in text else _plain(text, begin)


def _values(schema: Sequence[Attribute], number: int, record: Record) -> tuple[Value, ...]:
    if len(record.fields) != len(schema):
        wanted = f"{len(schema)} fields, as the schema has attributes"
        raise CaptureFault(13, number, record.at, wanted, f"{len(record.fields)}")
    values: list[Value] = []
    for attribute, text in zip(schema, record.fields):
        value = value_of(attribute.kind, text)
        if value is None:
            wanted = f"a value of `{attribute.name}`: {values_of_kind(attribute.kind)}"
            raise CaptureFault(14, number, record.at, wanted, f"`{text}`")
        values.append(value)
    return tuple(values)


def record_rows(schema: Sequence[Attribute], data: bytes) -> Iterator[tuple[Value, ...]]:
    """The rows of the file; a CaptureFault at the first record that breaks a rule."""
    if len(data) >= MOST_BYTES:
        raise CaptureFault(15, 0, MOST_BYTES, "fewer than 16777216 bytes", f"{len(data)}")
    found = records(data)
    names = next(found, None)
    wanted = ",".join(it.name for it in schema)
    if names is None:
        raise CaptureFault(11, 0, 0, f"a first line with the names `{wanted}`", "no record at all")
    if ",".join(names.fields) != wanted or len(names.fields) != len(schema):
        raise CaptureFault(12, 0, names.at, f"the names `{wanted}`", f"`{','.join(names.fields)}`")
    for number, record in enumerate(found):
        yield _values(schema, number, record)
