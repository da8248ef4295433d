"""The conditions of `ask`, and the same in the program's form of an expression.

`ask` takes `and`, `or`, `not` and parentheses, networks and addresses of all kinds, and names of services. The program
takes comparisons joined by `&&` and `||`. What comes out selects the same records.
"""

from __future__ import annotations

import ipaddress
import re
from dataclasses import dataclass
from typing import Callable, Sequence, Union

from .atoms import (
    Conjunction,
    Literal,
    conjoined,
    conjunctions_of,
    crossed,
    literal_of,
    opposite_of,
    reduced,
    size_of,
    text_of,
    weight_of,
)
from .expressions import (
    MOST_ATOMS,
    OPERATORS,
    Attribute,
    ExpressionFault,
    is_form,
    parse_expression,
    unknown_attribute,
)

TOKEN = re.compile(r"&&|\|\||==|!=|<=|>=|=>|=<|[()<>=!]|[0-9A-Za-z_.:/-]+")
SAME = {"=": "==", "=>": ">=", "=<": "<="}
AND, OR, NOT = ("and", "&&", "AND"), ("or", "||", "OR"), ("not", "!", "NOT")
MAC = re.compile(r"[0-9a-fA-F]{2}(?:[:-][0-9a-fA-F]{2}){5}")
# By the register of IANA; DNS is called `domain` there.
SERVICES = {
    "ftp": 21,
    "ssh": 22,
    "telnet": 23,
    "smtp": 25,
    "domain": 53,
    "dns": 53,
    "http": 80,
    "pop3": 110,
    "ntp": 123,
    "imap": 143,
    "snmp": 161,
    "ldap": 389,
    "https": 443,
    "syslog": 514,
    "imaps": 993,
    "mysql": 3306,
    "rdp": 3389,
    "postgresql": 5432,
}
# Words of tcpdump's filters that are no attribute.
MEANT = {
    "tcp": "proto==6",
    "udp": "proto==17",
    "icmp": "proto==1",
    "icmp6": "proto==58",
    "ip": "etype==0x0800",
    "ip6": "etype==0x86dd",
    "arp": "etype==0x0806",
}
# Such words that stand for either end: its attributes, and a value for an example.
ENDS = {
    "port": ("sport", "dport", "53"),
    "host": ("src", "dst", "10.0.0.1"),
    "net": ("src", "dst", "10.0.0.0/8"),
}
HALF = 2**64
MOST_CONJUNCTIONS = 256
MOST_READ = 1000
MOST_DEPTH = 100


class ConditionFault(Exception):
    """The first fault of a condition: its place in the text, and why."""

    def __init__(self, place: int, why: str) -> None:
        super().__init__(why)
        self.place, self.why = place, why


class TooLong(Exception):
    """The program's form has so many comparisons, more than it takes."""

    def __init__(self, count: int) -> None:
        super().__init__(count)
        self.count = count


@dataclass(frozen=True)
class Join:
    """All or any of the parts."""

    is_all: bool
    parts: tuple[Node, ...]


Node = Union[Literal, Join]


@dataclass(frozen=True)
class _Token:
    text: str
    place: int


def opposite(node: Node) -> Node:
    """What holds of the records of which the node does not."""
    if isinstance(node, Literal):
        return opposite_of(node)
    return Join(not node.is_all, tuple(map(opposite, node.parts)))


class _Reader:
    """Reads a condition from the left."""

    def __init__(self, schema: Sequence[Attribute], text: str) -> None:
        self.schema, self.text = schema, text.rstrip(" ")
        self.names = [it.name for it in schema]
        self.tokens: list[_Token] = []
        at = len(text) - len(text.lstrip(" "))
        while at < len(self.text):
            found = TOKEN.match(self.text, at)
            if not found:
                raise ConditionFault(at, _stray(self.text[at]))
            self.tokens.append(_Token(found[0], at))
            at = found.end()
            at += len(self.text[at:]) - len(self.text[at:].lstrip(" "))
        self.tokens.append(_Token("", len(self.text)))
        self.at = self.depth = 0

    def next(self) -> _Token:
        return self.tokens[self.at]

    def take(self) -> _Token:
        token = self.tokens[self.at]
        self.at += bool(token.text)
        return token

    def fail(self, wanted: str, token: _Token) -> ConditionFault:
        there = f"`{token.text}`" if token.text else "the end"
        return ConditionFault(token.place, f"expected {wanted} here, not {there}")

    def whole(self) -> Node:
        node = self.any()
        if self.next().text == ")":
            raise ConditionFault(self.next().place, "no parenthesis is open that this one closes")
        if self.next().text:
            raise self.fail("`and`, `or` or the end", self.next())
        return node

    def any(self) -> Node:
        return self.joined(False, OR, self.all)

    def all(self) -> Node:
        return self.joined(True, AND, self.one)

    def joined(self, is_all: bool, words: Sequence[str], part: Callable[[], Node]) -> Node:
        """Parts with one of the words between them."""
        parts = [part()]
        while self.next().text in words:
            self.take()
            parts.append(part())
        return parts[0] if len(parts) == 1 else Join(is_all, tuple(parts))

    def one(self) -> Node:
        """A comparison or a group, or its opposite."""
        token = self.next()
        if token.text not in (*NOT, "("):
            return self.comparison()
        self.take()
        self.depth += 1
        if self.depth > MOST_DEPTH:
            raise ConditionFault(token.place, f"`not` and parentheses are nested at most {MOST_DEPTH} deep")
        if token.text in NOT:
            node = opposite(self.one())
            self.depth -= 1
            return node
        node = self.any()
        self.depth -= 1
        if self.next().text != ")":
            raise self.fail(f"`and`, `or` or the `)` of the `(` at place {token.place + 1}", self.next())
        self.take()
        return node

    def comparison(self) -> Node:
        name = self.take()
        if not re.fullmatch(r"[a-z][a-z0-9_]*", name.text) or name.text in (*AND, *OR, "in"):
            raise self.fail("a comparison like `dport==443`", name)
        if name.text not in self.names:
            meant = self.meant(name) if "etype" in self.names else ""
            why = f"there is no attribute `{name.text}`: {meant}" if meant else ""
            raise ConditionFault(
                name.place, why or unknown_attribute(self.schema, name.text, "leave out `--schema packet`")
            )
        operator = self.take()
        is_meant = operator.text not in NOT
        if not is_meant:
            operator = self.take()
            if operator.text != "in":
                raise self.fail("`in`", operator)
        node = self.compared(name, operator, self.value(operator))
        return node if is_meant else opposite(node)

    def meant(self, name: _Token) -> str:
        """What to write for a word of tcpdump's filters, with the value that follows it, if one does."""
        if name.text not in ENDS:
            return f"write `{MEANT[name.text]}`" if name.text in MEANT else ""
        one, other, example = ENDS[name.text]
        sign = SAME.get(self.next().text, self.next().text)
        if sign in ("==", "!=", "in"):
            self.take()
        value = self.next().text
        how = "write"
        if not re.match(r"[0-9A-Za-z:]", value) or value in (*AND, *OR, *NOT):
            how, value = "write, for example,", example
        is_range = "/" in value or ".." in value
        if sign == "!=":
            parts = f"{{}} not in {value}" if is_range else f"{{}}!={value}"
        else:
            parts = f"{{}} in {value}" if is_range else f"{{}}=={value}"
        both = " and " if sign == "!=" else " or "
        return f"{how} `({both.join(parts.format(it) for it in (one, other))})`"

    def value(self, operator: _Token) -> _Token:
        """What is behind the operator."""
        if operator.text not in (*OPERATORS, *SAME, "in"):
            raise self.fail("one of == != < <= > >= in", operator)
        token = self.take()
        if not re.match(r"[0-9A-Za-z.:]", token.text) or token.text in (*AND, *OR, *NOT):
            raise self.fail(
                "a range like 60..99 or 10.0.0.0/8" if operator.text == "in" else "a value", token
            )
        return token

    def compared(self, name: _Token, operator: _Token, value: _Token) -> Node:
        sign = SAME.get(operator.text, operator.text)
        if name.text in ("src", "dst", "src6", "dst6") and "src6" in self.names and ":" in value.text:
            return self.address6(f"{name.text[:3]}6", sign, value)
        if "/" in value.text and sign in ("==", "!="):
            network = self.atom(name, "in", value.text, value)
            return network if sign == "==" else opposite(network)
        text = value.text if sign == "in" else _plain(name.text, value.text)
        return self.atom(name, sign, text, value, operator)

    def atom(
        self, name: _Token, sign: str, value: str, token: _Token, operator: _Token | None = None
    ) -> Literal:
        """The comparison as the program reads it; its faults are at the places of the tokens."""
        text = f"{name.text} in {value}" if sign == "in" else f"{name.text}{sign}{value}"
        try:
            return literal_of(self.schema, parse_expression(self.schema, text))
        except ExpressionFault as fault:
            is_sign = operator is not None and fault.place == len(name.text) + (sign == "in")
            raise ConditionFault(
                operator.place if operator and is_sign else token.place, fault.why
            ) from fault

    def address6(self, name: str, sign: str, value: _Token) -> Node:
        """An address of IPv6 or a network of it, as its halves."""
        try:
            network = ipaddress.IPv6Network(value.text, strict=False)
        except ValueError as error:
            why = f"`{value.text}` is not an address or a network of IPv6"
            raise ConditionFault(value.place, why) from error
        if sign not in ("==", "!=", "in"):
            raise ConditionFault(value.place, "whole addresses of IPv6 compare only by ==, != and in")
        if not int(network.network_address):
            why = f"`{value.text}` has the address ::, which every packet has that is not IPv6: write {name}==0 and {name}_low==0"
            raise ConditionFault(value.place, why)
        first, last = int(network.network_address), int(network.broadcast_address)
        parts: list[Node] = []
        for half, low, high in (
            (name, first // HALF, last // HALF),
            (f"{name}_low", first % HALF, last % HALF),
        ):
            if (low, high) != (0, HALF - 1):
                text = f"=={low:#018x}" if low == high else f" in {low:#018x}..{high:#018x}"
                parts.append(literal_of(self.schema, parse_expression(self.schema, half + text)))
        node = parts[0] if len(parts) == 1 else Join(True, tuple(parts))
        return opposite(node) if sign == "!=" else node


def _stray(letter: str) -> str:
    if letter == "*":
        return "`*` means every packet, and nothing may follow it"
    mask = (
        ": there are no masks; single flags are `is_syn==1`, `is_ack==1`, `is_rst==1` and `is_fin==1`"
        if letter == "&"
        else ""
    )
    return f"`{letter}` is not part of a condition{mask}"


def _plain(name: str, text: str) -> str:
    """A value in one of the program's forms, where it is a service or an address of Ethernet."""
    if is_form(text):
        return text
    if name in ("sport", "dport") and text in SERVICES:
        return str(SERVICES[text])
    if name in ("smac", "dmac") and MAC.fullmatch(text):
        return "0x" + re.sub("[:-]", "", text)
    return text


def _comparisons(node: Node) -> int:
    return 1 if isinstance(node, Literal) else sum(map(_comparisons, node.parts))


def _written_out(node: Node) -> tuple[int, int]:
    """How many conjunctions the node is if nothing is left out, and how many comparisons."""
    if isinstance(node, Literal):
        return size_of(node)
    sizes = [_written_out(it) for it in node.parts]
    if node.is_all:
        return crossed(sizes)
    return sum(count for count, _ in sizes), sum(atoms for _, atoms in sizes)


def _conjunctions(node: Node) -> list[Conjunction] | None:
    """The node as conjunctions one of which must hold; nothing where there are too many."""
    if isinstance(node, Literal):
        return conjunctions_of(node)
    found: list[Conjunction] = [{}] if node.is_all else []
    for part in map(_conjunctions, node.parts):
        if part is None:
            return None
        found = reduced(
            [it for a in found for b in part for it in conjoined(a, b)] if node.is_all else found + part
        )
        if len(found) > MOST_CONJUNCTIONS:
            return None
    return found


def program_form(schema: Sequence[Attribute], text: str) -> str:
    """The condition as an expression of the program, which selects the same records.

    A ConditionFault if it is not a condition, and TooLong if that has more comparisons than the program takes.
    """
    try:
        parse_expression(schema, text)
        return text.strip(" ")
    except ExpressionFault:
        node = _Reader(schema, text).whole()
    found = _conjunctions(node) if _comparisons(node) <= MOST_READ else None
    count = _written_out(node)[1] if found is None else weight_of(found)
    if found is None or count > MOST_ATOMS:
        raise TooLong(count)
    if not found:
        return nothing(schema)
    return text_of(found) if all(found) else "*"


def nothing(schema: Sequence[Attribute]) -> str:
    """An expression that no record meets."""
    return f"{next(it.name for it in schema if it.is_number)}<0"
