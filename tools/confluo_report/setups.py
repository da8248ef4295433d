"""Reads a setup, and finds its first faulty line with the code, the place and the reason.

The rules and their codes are those of docs/FORMATS.md, "Setups". A line's code is the least of those
whose rule the line breaks, so each statement gathers all of its faults.
"""

from __future__ import annotations

import difflib
import re
from dataclasses import dataclass, field, replace
from typing import Callable, Iterator

from .expressions import (
    HALVES,
    MORE,
    OPERATORS,
    Attribute,
    Expression,
    ExpressionFault,
    Value,
    parse_expression,
    unknown_attribute,
    value_of,
    values_of_kind,
)
from .rephrase import SAME, is_of_ask, rephrased, too_long

SECOND = 10**9
PARTS = ("count", "sum", "least", "greatest")
MOST = {"lane": 16, "trigger": 16, "ask": 32}
MOST_BYTES = 65536
NAME = re.compile(r"[a-z][a-z0-9_]{0,31}")
ATTRIBUTE_NAME = re.compile(r"[a-z][a-z0-9_]{0,15}")
KIND = re.compile(r"u8|u16|u32|u64|b(?:[1-9]|1[0-6])")
PACKET = tuple(
    Attribute(*it.split(":"))
    for it in (
        "ts:u64 caplen:u32 len:u32 dmac:b6 smac:b6 etype:u16 kind:u8 tos:u8 iplen:u16 ttl:u8 "
        "proto:u8 src:u32 dst:u32 sport:u16 dport:u16 seq:u32 ack:u32 flags:u8 win:u16 vlan:u16"
    ).split()
)
PACKETS = {"packet": PACKET, "packet6": PACKET + tuple(Attribute(it, "u64") for it in HALVES) + MORE}


@dataclass(frozen=True)
class Lane:
    """An index, filter, aggregate or tally. `key` is an attribute's place, or None for the bucket.

    `by` is the place of the attribute whose values keep an aggregate's records of a bucket apart, if there is one.
    """

    name: str
    family: str
    select: Expression
    key: int | None = None
    measure: int | None = None
    # Of an aggregate, the name of its filter.
    over: str = ""
    by: int | None = None


@dataclass(frozen=True)
class Trigger:
    """A watch on each bucket of an aggregate, or on each bucket and key."""

    name: str
    aggregate: Lane
    part: str
    operator: str
    number: int


@dataclass(frozen=True)
class Question:
    """An `ask`: its kind, what it goes by, and its range or count."""

    name: str
    kind: str
    text: str
    expression: Expression | None = None
    lane: Lane | None = None
    trigger: Trigger | None = None
    part: str = ""
    low: int = 0
    high: int = 0
    attribute: int = 0


@dataclass
class Setup:
    """What a setup states."""

    schema: tuple[Attribute, ...] = ()
    # packet, packet6 or records
    source: str = "packet"
    width: int | None = None
    lanes: list[Lane] = field(default_factory=list)
    triggers: list[Trigger] = field(default_factory=list)
    asks: list[Question] = field(default_factory=list)
    lives: list[str] = field(default_factory=list)
    # Names of faulty lines, of which nothing more is known.
    broken: set[str] = field(default_factory=set)

    def copy(self) -> Setup:
        """The same, to which lines can be added."""
        lists = {it: list(getattr(self, it)) for it in ("lanes", "triggers", "asks", "lives")}
        return replace(self, **lists, broken=set(self.broken))

    @property
    def is_packet(self) -> bool:
        """Whether its rows are captured packets."""
        return self.source in PACKETS

    @property
    def nanoseconds(self) -> int:
        """The width of a bucket."""
        return SECOND if self.width is None else self.width

    def lane(self, name: str, *families: str) -> Lane | None:
        """The lane of one of the families with that name."""
        return next((it for it in self.lanes if it.name == name and it.family in families), None)

    def trigger(self, name: str) -> Trigger | None:
        return next((it for it in self.triggers if it.name == name), None)

    def question(self, name: str) -> Question | None:
        return next((it for it in self.asks if it.name == name), None)

    def place_of(self, name: str) -> int | None:
        """The place of the attribute with that name."""
        return next((at for at, it in enumerate(self.schema) if it.name == name), None)

    def names(self) -> set[str]:
        return {it.name for it in (*self.lanes, *self.triggers, *self.asks)} | self.broken

    def what_is(self, name: str) -> str:
        """What the name stands for."""
        lanes = {it.name: it.family for it in self.lanes}
        kinds = {it.name: "question" for it in self.asks} | {it.name: "trigger" for it in self.triggers}
        return _with_article((kinds | lanes).get(name, "line"))


def _with_article(word: str) -> str:
    return f"an {word}" if word[0] in "ai" else f"a {word}"


@dataclass(frozen=True)
class Fault:
    """A broken rule: its code, the place in the line, why, and a right line that means the same, if one is known.

    `is_of_ask`: the expression is one for `ask`.
    """

    code: int
    place: int
    why: str
    right: str = ""
    is_of_ask: bool = False


class SetupFault(Exception):
    """The first faulty line: its number from 1, or 0 for the whole text, its text and the fault."""

    def __init__(self, line: int, text: str, fault: Fault) -> None:
        super().__init__(fault.why)
        self.line, self.text, self.fault = line, text, fault


@dataclass(frozen=True)
class _Word:
    text: str
    place: int


class _Statement:
    """One statement that is being read: its words, and the faults that were found."""

    def __init__(self, setup: Setup, line: str) -> None:
        self.setup, self.line, self.faults = setup, line, list[Fault]()
        self.words = [_Word(it[0], it.start()) for it in re.finditer(r"[^ ]+", line)]
        self.end = len(line.rstrip(" "))

    def word(self, number: int) -> _Word:
        """The word of that number, an empty one at the line's end where there are fewer."""
        return self.words[number] if number < len(self.words) else _Word("", self.end)

    def rest(self, number: int) -> _Word:
        """What begins with that word and goes to the end of the line."""
        begin = self.word(number).place
        return _Word(self.line[begin : self.end], begin)

    def fault(self, code: int, word: _Word, why: str, right: str = "") -> None:
        self.faults.append(Fault(code, word.place, why, right))

    def must_have(self, count: int, form: str) -> bool:
        """Whether there are that many words; `form` shows them."""
        if len(self.words) == count:
            return True
        word = self.word(min(count, len(self.words)))
        much = "too many" if len(self.words) > count else "too few"
        self.fault(3, word, f"there are {much} words; the form is `{form}`")
        return False

    def must_begin(self, count: int, form: str) -> bool:
        """Whether there are at least that many words, before an expression."""
        if len(self.words) >= count:
            return True
        self.fault(3, self.word(count), f"there are too few words; the form is `{form}`")
        return False

    def must_be_one_of(self, number: int, words: tuple[str, ...], form: str) -> bool:
        word = self.word(number)
        if word.text in words:
            return True
        wanted = f"{', '.join(words[:-1])} or {words[-1]}" if len(words) > 1 else f"`{words[0]}`"
        why = f"`{word.text}` is not {wanted}; the form is `{form}`"
        meant = SAME.get(word.text, "")
        self.fault(3, word, why, self.with_word(number, meant) if meant in words else "")
        return False

    def new_name(self, number: int = 1) -> str:
        """The new name, which must be a name (3) and new (5)."""
        word = self.word(number)
        if not NAME.fullmatch(word.text):
            why = f"`{word.text}` is not a name: a letter a to z, then letters a to z, digits and _, at most 32 in all"
            self.fault(3, word, why)
        elif word.text in self.setup.names():
            there = self.setup.what_is(word.text)
            why = (
                f"the name `{word.text}` is that of {there} on a line above; "
                "indexes, filters, aggregates, tallies, triggers and questions all have different names"
            )
            self.fault(5, word, why, self.with_word(number, fresh(self.setup, word.text[:28])))
        return word.text

    def with_word(self, number: int, text: str) -> str:
        """The line with another word there."""
        word = self.word(number)
        return self.line[: word.place] + text + self.line[word.place + len(word.text) :]

    def attribute(self, number: int) -> int | None:
        """The attribute's place; 6 where there is none."""
        word = self.word(number)
        place = self.setup.place_of(word.text)
        if place is None:
            self.fault(6, word, unknown_attribute(self.setup.schema, word.text))
        return place

    def thing(self, number: int, what: str, found: object, there: list[str]) -> None:
        """Faults with 6 where nothing of that kind was found."""
        word = self.word(number)
        if found is not None or word.text in self.setup.broken:
            return
        known = f"; there are {', '.join(there)}" if there else ""
        self.fault(6, word, f"no line above has {_with_article(what)} called `{word.text}`{known}")

    def lane(self, number: int, *families: str, by_keys: bool = False) -> Lane | None:
        """The lane of one of the families; 6 where there is none, or one that goes by keys too and may not."""
        word = self.word(number)
        found = self.setup.lane(word.text, *families)
        if found and found.by is not None and not by_keys:
            why = f"`{word.text}` is an aggregate by `{self.setup.schema[found.by].name}`, which only `trigger` and `groups` take"
            self.fault(6, word, why)
            return None
        there = [it.name for it in self.setup.lanes if it.family in families and (by_keys or it.by is None)]
        self.thing(number, " or ".join(families), found, there)
        return found

    def number(self, number: int, low: int = 0, high: int = 2**64 - 1) -> int:
        word = self.word(number)
        value = value_of("u64", word.text)
        if not isinstance(value, int) or not low <= value <= high:
            why = f"`{word.text}` is not a number from {low} to {high}, decimal or as 0x1f"
            self.fault(7, word, why)
            return 0
        return value

    def value(self, number: int, attribute: Attribute) -> Value:
        word = self.word(number)
        value = value_of(attribute.kind, word.text)
        if value is None:
            wanted = values_of_kind(attribute.kind)
            why = f"`{word.text}` is not a value of `{attribute.name}`, which is {wanted}"
            self.fault(7, word, why)
            return 0
        return value

    def must_be_measurable(self, number: int, place: int | None) -> None:
        """8 where the attribute is bytes or may have 64 bits."""
        if place is None:
            return
        kind = self.setup.schema[place].kind
        if kind not in ("u8", "u16", "u32"):
            word = self.word(number)
            why = f"`{word.text}` is {_of_kind(kind)}; only numbers below 2^32 (u8, u16, u32) are measured"
            self.fault(8, word, why)

    def must_be_a_key(self, number: int, place: int | None) -> None:
        if place is not None and not self.setup.schema[place].is_number:
            word = self.word(number)
            why = (
                f"`{word.text}` is bytes; an index, a tally and `by` take numbers "
                f"(`ask NAME list {word.text}==0x..` finds one)"
            )
            self.fault(8, word, why)

    def must_have_room(self, what: str, there: int) -> None:
        if there >= MOST[what]:
            things = {
                "lane": "indexes, filters, aggregates and tallies",
                "trigger": "triggers",
                "ask": "questions",
            }[what]
            why = f"there are at most {MOST[what]} {things}; drop one, or ask in two setups"
            self.fault(9, self.word(0), why)

    def expression(self, number: int) -> Expression:
        rest = self.rest(number)
        try:
            return parse_expression(self.setup.schema, rest.text)
        except ExpressionFault as fault:
            found = rephrased(self.setup.schema, rest.text)
            right = f"{self.line[: rest.place].rstrip(' ')} {found}" if found else ""
            long = too_long(self.setup.schema, rest.text)
            why = f"{fault.why}; {long}" if long and fault.code != 14 else fault.why
            self.faults.append(
                Fault(fault.code, rest.place + fault.place, why, right, bool(right) and is_of_ask(rest.text))
            )
        return Expression("*", ((),))


def _of_kind(kind: str) -> str:
    return "a u64" if kind == "u64" else "bytes"


def fresh(setup: Setup, name: str) -> str:
    """A name that stands for nothing yet."""
    names = (name, *(f"{name}_{it}" for it in range(2, 100)))
    return next(it for it in names if it not in setup.names())


def _schema(it: _Statement) -> None:
    form = "schema packet`, `schema packet6` or `schema records LIST"
    if not it.must_be_one_of(1, (*PACKETS, "records"), form):
        return
    name = it.word(1).text
    if name in PACKETS:
        if it.must_have(2, f"schema {name}"):
            it.setup.schema, it.setup.source = PACKETS[name], name
        return
    if it.must_have(3, "schema records LIST"):
        it.setup.schema = _attributes(it, it.word(2))
        it.setup.source = "records"


def _attributes(it: _Statement, word: _Word) -> tuple[Attribute, ...]:
    found: list[Attribute] = []
    place = word.place
    for item in word.text.split(","):
        name, _, kind = item.partition(":")
        at = _Word(item, place)
        place += len(item) + 1
        if not ATTRIBUTE_NAME.fullmatch(name):
            it.fault(
                4,
                at,
                f"`{item}` is not NAME:KIND; a name is a letter, then letters a to z, digits and _, at most 16",
            )
        elif not KIND.fullmatch(kind):
            it.fault(4, at, f"`{item}` is not NAME:KIND; a kind is u8, u16, u32, u64 or b1 to b16")
        elif name in [known.name for known in found]:
            it.fault(4, at, f"two attributes are called `{name}`")
        else:
            found.append(Attribute(name, kind))
    if it.faults:
        return ()
    if len(found) > 24:
        it.fault(4, word, f"there are {len(found)} attributes, and 24 are the most")
    elif Attribute("ts", "u64") not in found:
        it.fault(4, word, "one of the attributes is `ts:u64`, the time in nanoseconds")
    return tuple(found)


def _width(it: _Statement) -> None:
    if it.must_have(2, "width NANOSECONDS"):
        it.setup.width = it.number(1, 1, 2**63)


def _index(it: _Statement) -> None:
    if not it.must_have(3, "index NAME ATTRIBUTE"):
        return
    name, place = it.new_name(), it.attribute(2)
    it.must_be_a_key(2, place)
    it.must_have_room("lane", len(it.setup.lanes))
    it.setup.lanes.append(Lane(name, "index", Expression("*", ((),)), place))


def _filter(it: _Statement) -> None:
    if not it.must_begin(2, "filter NAME EXPRESSION"):
        return
    name = it.new_name()
    it.must_have_room("lane", len(it.setup.lanes))
    it.setup.lanes.append(Lane(name, "filter", it.expression(2)))


def _aggregate(it: _Statement) -> None:
    by = None
    if len(it.words) > 4:
        form = "aggregate NAME FILTER ATTRIBUTE by KEY"
        if not it.must_be_one_of(4, ("by",), form) or not it.must_have(6, form):
            return
        by = it.attribute(5)
        it.must_be_a_key(5, by)
    elif not it.must_have(4, "aggregate NAME FILTER ATTRIBUTE [by KEY]"):
        return
    name, over, place = it.new_name(), it.lane(2, "filter"), it.attribute(3)
    it.must_be_measurable(3, place)
    it.must_have_room("lane", len(it.setup.lanes))
    select = over.select if over else Expression("*", ((),))
    it.setup.lanes.append(Lane(name, "aggregate", select, None, place, it.word(2).text, by))


def _tally(it: _Statement) -> None:
    if not it.must_begin(4, "tally NAME ATTRIBUTE MEASURE EXPRESSION"):
        return
    name, place, measure = it.new_name(), it.attribute(2), it.attribute(3)
    it.must_be_a_key(2, place)
    it.must_be_measurable(3, measure)
    it.must_have_room("lane", len(it.setup.lanes))
    it.setup.lanes.append(Lane(name, "tally", it.expression(4), place, measure))


def _trigger(it: _Statement) -> None:
    form = "trigger NAME AGGREGATE PART OPERATOR NUMBER"
    if not it.must_have(6, form):
        return
    it.must_be_one_of(3, PARTS, form)
    it.must_be_one_of(4, OPERATORS, form)
    name, over = it.new_name(), it.lane(2, "aggregate", by_keys=True)
    number = it.number(5)
    it.must_have_room("trigger", len(it.setup.triggers))
    if over:
        it.setup.triggers.append(Trigger(name, over, it.word(3).text, it.word(4).text, number))


def _ask(it: _Statement) -> None:
    kinds: dict[str, Callable[[_Statement, str], Question | None]]
    kinds = {
        "list": _ask_list,
        "find": _ask_find,
        "between": _ask_buckets,
        "measure": _ask_buckets,
        "fired": _ask_fired,
        "top": _ask_top,
        "groups": _ask_groups,
        "total": _ask_total,
    }
    if not it.must_begin(3, "ask NAME KIND .."):
        return
    if not it.must_be_one_of(2, tuple(kinds), "ask NAME KIND .."):
        return
    question = kinds[it.word(2).text](it, it.word(2).text)
    if question:
        it.must_have_room("ask", len(it.setup.asks))
        it.setup.asks.append(question)


def _ask_list(it: _Statement, kind: str) -> Question | None:
    return Question(it.new_name(), kind, it.rest(2).text, it.expression(3))


def _ask_find(it: _Statement, kind: str) -> Question | None:
    if not it.must_have(6, "ask NAME find INDEX LOW HIGH"):
        return None
    name, index = it.new_name(), it.lane(3, "index")
    low = high = 0
    if index and index.key is not None:
        attribute = it.setup.schema[index.key]
        ends = it.value(4, attribute), it.value(5, attribute)
        low, high = (end if isinstance(end, int) else 0 for end in ends)
    return Question(name, kind, it.rest(2).text, lane=index, low=low, high=high)


def _ask_buckets(it: _Statement, kind: str) -> Question | None:
    family = "filter" if kind == "between" else "aggregate"
    if not it.must_have(6, f"ask NAME {kind} {family.upper()} FROM TO"):
        return None
    name, lane = it.new_name(), it.lane(3, family)
    return Question(name, kind, it.rest(2).text, lane=lane, low=it.number(4), high=it.number(5))


def _ask_fired(it: _Statement, kind: str) -> Question | None:
    if not it.must_have(4, "ask NAME fired TRIGGER"):
        return None
    name, trigger = it.new_name(), it.setup.trigger(it.word(3).text)
    it.thing(3, "trigger", trigger, [known.name for known in it.setup.triggers])
    return Question(name, kind, it.rest(2).text, trigger=trigger)


def _ask_top(it: _Statement, kind: str) -> Question | None:
    form = "ask NAME top TALLY PART COUNT"
    if not it.must_have(6, form):
        return None
    it.must_be_one_of(4, PARTS, form)
    name, tally = it.new_name(), it.lane(3, "tally")
    count = it.number(5, 1, 1000)
    return Question(name, kind, it.rest(2).text, lane=tally, part=it.word(4).text, high=count)


def _ask_groups(it: _Statement, kind: str) -> Question | None:
    if not it.must_have(4, "ask NAME groups LANE"):
        return None
    name, lane = it.new_name(), it.lane(3, "aggregate", "tally", by_keys=True)
    return Question(name, kind, it.rest(2).text, lane=lane)


def _ask_total(it: _Statement, kind: str) -> Question | None:
    if not it.must_begin(4, "ask NAME total ATTRIBUTE EXPRESSION"):
        return None
    name, place = it.new_name(), it.attribute(3)
    it.must_be_measurable(3, place)
    return Question(name, kind, it.rest(2).text, it.expression(4), attribute=place or 0)


def _live(it: _Statement) -> None:
    if not it.must_have(2, "live ASK"):
        return
    name = it.word(1).text
    it.thing(1, "question", it.setup.question(name), [known.name for known in it.setup.asks])
    if name in it.setup.lives:
        it.fault(5, it.word(1), f"`{name}` is live already")
    it.setup.lives.append(name)


STATEMENTS: dict[str, Callable[[_Statement], None]] = {
    "schema": _schema,
    "width": _width,
    "index": _index,
    "filter": _filter,
    "aggregate": _aggregate,
    "tally": _tally,
    "trigger": _trigger,
    "ask": _ask,
    "live": _live,
}


def _misplaced(setup: Setup, it: _Statement) -> str:
    """Why the statement may not stand here, if it may not."""
    first = it.words[0].text
    if first not in STATEMENTS:
        return f"no statement begins with `{first}`; they begin with {', '.join(STATEMENTS)}"
    if not setup.schema and first != "schema":
        return "the first statement is `schema packet`, `schema packet6` or `schema records LIST`"
    if setup.schema and first == "schema":
        return "there is a schema on a line above"
    if first == "width" and setup.width is not None:
        return "there is a width on a line above"
    return ""


def _unprinted(line: str) -> Fault | None:
    """The first byte that is not printed ASCII; where all such are white space, spaces mean the same."""
    for place, letter in enumerate(line):
        if not " " <= letter <= "~":
            why = f"byte {ord(letter):#04x} is not printed ASCII; a tab, for one, becomes a space"
            spaced = re.sub(r"\s", " ", line)
            return Fault(1, place, why, spaced if re.fullmatch(r"[ -~]*", spaced) else "")
    return None


def _take(setup: Setup, line: str) -> list[Fault]:
    """Takes what the line states, and answers its faults, the one of the least code first."""
    unprinted = _unprinted(line)
    if unprinted:
        return [unprinted]
    statement = _Statement(setup, line)
    first = statement.words[0]
    why = _misplaced(setup, statement)
    if why:
        near = difflib.get_close_matches(first.text, [it for it in STATEMENTS if it != "schema"], 1, 0.75)
        meant = near and first.text not in STATEMENTS
        return [Fault(2, first.place, why, statement.with_word(0, near[0]) if meant else "")]
    STATEMENTS[first.text](statement)
    return sorted(statement.faults, key=lambda it: it.code)


def _take_whole(setup: Setup, line: str) -> list[Fault]:
    """The same; a line that is offered is valid, and a faulty line's name is known all the same."""
    before = setup.copy()
    faults = _take(setup, line)
    words = line.split() or [""]
    if faults and words[0] in ("index", "filter", "aggregate", "tally", "trigger", "ask") and len(words) > 1:
        if NAME.fullmatch(words[1]) and words[1] not in setup.names():
            setup.broken.add(words[1])
    return [replace(it, right="") if it.right and _take(before.copy(), it.right) else it for it in faults]


def _lines(data: bytes) -> list[str]:
    pieces = data.decode("latin-1").split("\n")
    last = pieces.pop()
    return [it.removesuffix("\r") for it in pieces] + ([last] if last else [])


def _faults(data: bytes, setup: Setup) -> Iterator[SetupFault]:
    """Takes what the bytes state, and answers the faults of lines; behind a faulty schema nothing is judged."""
    if len(data) > MOST_BYTES:
        why = f"a setup has at most {MOST_BYTES} bytes, and this one has {len(data)}"
        yield SetupFault(0, "", Fault(9, 0, why))
        return
    lines = _lines(data)
    for number, line in enumerate(lines, 1):
        bare = line.strip(" ")
        if bare and not bare.startswith("#"):
            for fault in _take_whole(setup, line):
                yield SetupFault(number, line, fault)
            if not setup.schema:
                return
    if not setup.schema:
        yield SetupFault(len(lines) + 1, "", Fault(2, 0, "there is no statement; the first is the schema"))


def parse_setup(data: bytes) -> Setup:
    """What the bytes state, or a SetupFault with the first faulty line."""
    setup = Setup()
    for fault in _faults(data, setup):
        raise fault
    return setup


def faults_of(data: bytes) -> list[SetupFault]:
    """All faults, the first of which the program reports."""
    return list(_faults(data, Setup()))
