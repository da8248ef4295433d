"""Values and filter expressions, as docs/FORMATS.md defines them."""

from __future__ import annotations

import difflib
import re
from dataclasses import dataclass
from typing import Callable, Sequence, Union

Value = Union[int, bytes]
NUMBER_BITS = {"u8": 8, "u16": 16, "u32": 32, "u64": 64}
OPERATORS = ("==", "!=", "<", "<=", ">", ">=")
RANGES = ("in", "not in")
SYNTAX, UNKNOWN_NAME, BAD_OPERATOR, VALUE_RANGE, TOO_LONG = 10, 11, 12, 13, 14
MOST_ATOMS = 32

DECIMAL = re.compile(r"[0-9]{1,20}")
HEXADECIMAL = re.compile(r"0x[0-9a-fA-F]{1,32}")
DOTTED = re.compile(r"[0-9]{1,3}(?:\.[0-9]{1,3}){3}")
WORD = re.compile(r"[a-z][a-z0-9_]*")
SIGNS = re.compile(r"[=!<>]+")
VALUE = re.compile(r"[0-9A-Za-z./]+")
COMPARE: dict[str, Callable[[Value, Value], bool]] = {
    "==": lambda a, b: a == b,
    "!=": lambda a, b: a != b,
    "<": lambda a, b: a < b,  # type: ignore[operator]
    "<=": lambda a, b: a <= b,  # type: ignore[operator]
    ">": lambda a, b: a > b,  # type: ignore[operator]
    ">=": lambda a, b: a >= b,  # type: ignore[operator]
}


@dataclass(frozen=True)
class Attribute:
    """An attribute of a schema; its kind is u8, u16, u32, u64 or b1 to b16."""

    name: str
    kind: str

    @property
    def is_number(self) -> bool:
        return self.kind in NUMBER_BITS


@dataclass(frozen=True)
class Atom:
    """One comparison; `in` and `not in` have both ends, the others their value as `low`."""

    attribute: int
    operator: str
    low: Value
    high: Value

    def holds(self, row: Sequence[Value]) -> bool:
        value = row[self.attribute]
        if self.operator in RANGES:
            return (self.low <= value <= self.high) == (self.operator == "in")  # type: ignore[operator]
        return COMPARE[self.operator](value, self.low)


@dataclass(frozen=True)
class Expression:
    """Conjunctions of atoms; a row is meant where all atoms of one of them hold."""

    text: str
    conjunctions: tuple[tuple[Atom, ...], ...]

    def holds(self, row: Sequence[Value]) -> bool:
        return any(all(atom.holds(row) for atom in it) for it in self.conjunctions)


class ExpressionFault(Exception):
    """The first fault of an expression: its code in a setup, its place in the text and why."""

    def __init__(self, code: int, place: int, why: str) -> None:
        super().__init__(why)
        self.code, self.place, self.why = code, place, why


def is_form(text: str) -> bool:
    """Whether the text is decimal, hexadecimal or dotted."""
    return any(it.fullmatch(text) for it in (DECIMAL, HEXADECIMAL, DOTTED))


def value_of(kind: str, text: str) -> Value | None:
    """The value of that kind that the text is, if it is one."""
    if kind not in NUMBER_BITS:
        fits = HEXADECIMAL.fullmatch(text) and len(text) == 2 + 2 * int(kind[1:])
        return bytes.fromhex(text[2:]) if fits else None
    if DECIMAL.fullmatch(text):
        number = int(text)
    elif HEXADECIMAL.fullmatch(text) and len(text) <= 18:
        number = int(text, 16)
    elif kind == "u32" and DOTTED.fullmatch(text):
        parts = [int(it) for it in text.split(".")]
        if max(parts) > 255:
            return None
        number = int.from_bytes(bytes(parts), "big")
    else:
        return None
    return number if number < 1 << NUMBER_BITS[kind] else None


def values_of_kind(kind: str) -> str:
    """The values of a kind, in words."""
    if kind not in NUMBER_BITS:
        digits = 2 * int(kind[1:])
        return f"`0x` and exactly {digits} hexadecimal digits"
    most = (1 << NUMBER_BITS[kind]) - 1
    dotted = ", or an address as 10.0.0.1" if kind == "u32" else ""
    return f"a number from 0 to {most}{dotted}"


HALVES = ("src6", "src6_low", "dst6", "dst6_low")
# The others that only `schema packet6` has.
MORE = tuple(
    Attribute(*it.split(":"))
    for it in "payload:u32 icmp_type:u8 icmp_code:u8 is_fin:u8 is_syn:u8 is_rst:u8 is_ack:u8 flow:u64".split()
)


def unknown_attribute(
    schema: Sequence[Attribute], name: str, remedy: str = "", others: Sequence[str] = ()
) -> str:
    """That no attribute has the name, and what may have been meant: one, or one of the other words that may be there.

    The remedy is for an attribute of `packet6`.
    """
    names = [it.name for it in schema]
    if name in (*HALVES, *(it.name for it in MORE)) and Attribute("etype", "u16") in schema:
        why = f"`{name}` is an attribute that only `schema packet6` has"
        if name in HALVES:
            why = f"`{name}` is an attribute of IPv6, which only `schema packet6` has"
        return f"{why}: {remedy}" if remedy else why
    near = difflib.get_close_matches(name, [*names, *others], 1, 0.6)
    meant = f"; is `{near[0]}` meant?" if near else ""
    return f"no attribute is called `{name}`{meant}; there are {', '.join(names)}"


class _Reader:
    """Reads an expression from the left."""

    def __init__(self, schema: Sequence[Attribute], text: str) -> None:
        self.schema, self.text, self.at, self.atoms = schema, text, 0, 0
        self.skip()

    def skip(self) -> None:
        while self.at < len(self.text) and self.text[self.at] == " ":
            self.at += 1

    def token(self, form: re.Pattern[str]) -> str:
        """The longest token of that form here, or nothing."""
        found = form.match(self.text, self.at)
        return found[0] if found else ""

    def pass_over(self, token: str) -> None:
        self.at += len(token)
        self.skip()

    def fail(self, code: int, why: str) -> None:
        raise ExpressionFault(code, self.at, why)

    def here(self) -> str:
        """What stands here, in words."""
        rest = self.text[self.at :].split(" ")[0]
        return f"`{rest}`" if rest else "the end of the line"

    def expression(self) -> Expression:
        if self.text.startswith("*", self.at):
            self.pass_over("*")
            if self.at < len(self.text):
                self.fail(SYNTAX, "`*` means every record, and nothing may follow it")
            return Expression(self.text.strip(" "), ((),))
        conjunctions = [[self.atom()]]
        while self.at < len(self.text):
            connective = self.text[self.at : self.at + 2]
            if connective not in ("&&", "||"):
                self.fail(SYNTAX, f"expected `&&`, `||` or the end here, not {self.here()}")
            self.pass_over(connective)
            if self.atoms == MOST_ATOMS:
                self.fail(TOO_LONG, f"an expression has at most {MOST_ATOMS} comparisons")
            if connective == "||":
                conjunctions.append([])
            conjunctions[-1].append(self.atom())
        return Expression(self.text.strip(" "), tuple(map(tuple, conjunctions)))

    def atom(self) -> Atom:
        self.atoms += 1
        place = self.attribute()
        attribute = self.schema[place]
        operator = self.operator(attribute)
        low, high = self.range(attribute) if operator in RANGES else self.value(attribute)
        return Atom(place, operator, low, high)

    def attribute(self) -> int:
        name, names = self.token(WORD), [it.name for it in self.schema]
        if not name:
            why = f"expected the name of an attribute here, not {self.here()}"
            self.fail(
                SYNTAX, f"{why}; there are no parentheses and no `not`" if self.here()[1:2] in "(!" else why
            )
        if name == "not":
            why = "there is no `not` before a comparison: write the opposite one, as `!=` for `==`"
            self.fail(UNKNOWN_NAME, why)
        if name not in names:
            self.fail(UNKNOWN_NAME, unknown_attribute(self.schema, name))
        self.pass_over(name)
        return names.index(name)

    def operator(self, attribute: Attribute) -> str:
        operator = self.token(SIGNS) or self.token(WORD)
        if not operator:
            self.fail(SYNTAX, f"expected `==` or another operator here, not {self.here()}")
        if operator not in (*OPERATORS, "in", "not"):
            why = f"`{operator}` is not one of == != < <= > >= in"
            self.fail(BAD_OPERATOR, why)
        if not attribute.is_number and operator not in ("==", "!="):
            why = f"`{attribute.name}` is bytes, which compare only by == and !="
            self.fail(BAD_OPERATOR, why)
        self.pass_over(operator)
        return self.outside() if operator == "not" else operator

    def outside(self) -> str:
        """`not in`, of which `not` was read."""
        operator = self.token(SIGNS) or self.token(WORD)
        if operator != "in":
            code = BAD_OPERATOR if operator else SYNTAX
            self.fail(code, f"expected `in` after `not`, not {self.here()}")
        self.pass_over(operator)
        return "not in"

    def value(self, attribute: Attribute) -> tuple[Value, Value]:
        token = self.token(VALUE)
        if not is_form(token):
            self.fail(SYNTAX, f"expected a value here, not {self.here()}")
        value = value_of(attribute.kind, token)
        if value is None:
            self.fail(VALUE_RANGE, _no_value(attribute, token))
            raise AssertionError
        self.pass_over(token)
        return value, value

    def range(self, attribute: Attribute) -> tuple[Value, Value]:
        token = self.token(VALUE)
        low, dots, high = token.partition("..")
        address, slash, bits = token.partition("/")
        if dots and is_form(low) and is_form(high):
            ends = self.ends(attribute, low, high)
        elif slash and DOTTED.fullmatch(address) and DECIMAL.fullmatch(bits):
            ends = self.network(attribute, address, int(bits))
        else:
            why = f"expected a range like 60..99 or 10.0.0.0/8 here, not {self.here()}"
            self.fail(SYNTAX, why)
            raise AssertionError
        self.pass_over(token)
        return ends

    def ends(self, attribute: Attribute, low: str, high: str) -> tuple[Value, Value]:
        values = value_of(attribute.kind, low), value_of(attribute.kind, high)
        for text, value in zip((low, high), values):
            if value is None:
                self.fail(VALUE_RANGE, _no_value(attribute, text))
        if values[0] > values[1]:  # type: ignore[operator]
            self.fail(VALUE_RANGE, f"the range begins at {low}, above its end {high}")
        return values  # type: ignore[return-value]

    def network(self, attribute: Attribute, address: str, bits: int) -> tuple[Value, Value]:
        number = value_of("u32", address)
        if attribute.kind != "u32":
            self.fail(VALUE_RANGE, f"`{attribute.name}` is not an address, so it has no networks")
        if not isinstance(number, int):
            self.fail(VALUE_RANGE, _no_value(attribute, address))
            raise AssertionError
        if bits > 32:
            self.fail(VALUE_RANGE, f"a network has 0 to 32 bits after the slash, and not {bits}")
        rest = (1 << (32 - bits)) - 1
        return number & ~rest, number | rest


def _no_value(attribute: Attribute, text: str) -> str:
    wanted = values_of_kind(attribute.kind)
    return f"`{text}` is not a value of `{attribute.name}`, which is {wanted}"


def parse_expression(schema: Sequence[Attribute], text: str) -> Expression:
    """The expression that the text is over the schema, or its first fault from the left."""
    return _Reader(schema, text).expression()
