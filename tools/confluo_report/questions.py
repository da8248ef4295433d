"""Questions as a person types them, and the setup that asks them.

    top [N] ATTRIBUTE by MEASURE      the values with the most
    top [N] UNIT by MEASURE           the seconds, minutes, .. with the most
    top [N] KEY, KEY by MEASURE       the pairs of values with the most
    top [N] KEY by different KEY      the values with the most different others
    scans [N]                         who sent SYNs to the most different ports
    share [N] ATTRIBUTE [by MEASURE]  each value's part of the whole in percent
    flows [N] [by MEASURE]            the conversations with the most
    unanswered [N]                    connections with SYNs and no SYN-ACK
    pings [N]                         echo requests, with how many answers
    list CONDITION                    the packets
    find ATTRIBUTE VALUE|LOW..HIGH    the packets
    between TIME and TIME             the packets of these seconds
    count [CONDITION]                 how many packets and bytes
    total ATTRIBUTE                   number, sum, least, greatest
    per UNIT MEASURE                  each second, minute, ..
    over N [MEASURE] in a UNIT        the units with more; under N ..: with less
    over N [MEASURE] in a UNIT by KEY the same of each value

    All but list, find and count may end with: where CONDITION

    CONDITION   comparisons with and, or, not and parentheses (or &&, ||, !)
    comparison  ATTRIBUTE OPERATOR VALUE, or ATTRIBUTE [not] in RANGE
    OPERATOR    == != < <= > >=
    VALUE       80, 0x1f90, https, 10.0.0.1, 2001:db8::1, 02:00:00:00:00:01
    RANGE       60..99, 10.0.0.0/8, 2001:db8::/32
    ATTRIBUTE   len, dport, ..; src and dst are addresses of IPv4 and IPv6,
                src6 and dst6 those of IPv6, src6/64 and dst6/64 its networks
    KEY         an attribute but flow, dmac, smac; the first may be a UNIT
    MEASURE     bytes, packets, an attribute (its sum), least ttl, greatest win
    UNIT        second, minute, hour, millisecond, ..; but for top: 10 seconds
    TIME        2026-11-28T13:00:05, in UTC, or seconds since 1970
"""

from __future__ import annotations

import datetime
import re
from dataclasses import dataclass, field, replace
from typing import Sequence

from .conditions import ConditionFault, TooLong, program_form
from .errors import Complaint
from .expressions import MOST_ATOMS, Attribute, is_form, unknown_attribute
from .setups import PACKETS, SECOND
from .values import UNITS

VERBS = (
    *("top", "share", "flows", "scans", "unanswered", "pings"),
    *("list", "find", "count", "total", "between", "per", "over", "under"),
)
# Of each conversation two kinds of packets are counted; a condition is on the first.
ANSWERS4 = "icmp_type==0 && proto==1 && kind==1 && etype==0x0800"
SYN = "is_syn==1 && is_ack==0"
PAIRS = {
    "unanswered": (SYN, "is_syn==1 && is_ack==1"),
    "pings": (
        "icmp_type==8 && proto==1 || icmp_type==128 && proto==58",
        f"{ANSWERS4} || icmp_type==129 && proto==58",
    ),
}
# Of two attributes: addresses of both families, and of IPv6; and the packets whose addresses are single numbers, or not.
BOTH, WHOLE = ("src", "dst"), ("src6", "dst6")
IPV6, NO_IPV6, OTHERS = "kind>=1 and etype==0x86dd", "kind>=1 and etype!=0x86dd", "kind==0 or etype==0x86dd"
MOST_TOP = 1000
# The tool's own questions: the buckets with a packet, and by `schema packet` what is not parsed.
SPAN = "span"
UNPARSED = {"ipv6": "etype==0x86dd", "tagged": "etype==0x8100 || etype==0x88a8"}
MEASURE = r"(?:(?P<part>count|sum|least|greatest)(?: of)? )?(?P<measure>[a-z][a-z0-9_]*)"
UNIT = r"(?:a |an )?(?:(?P<times>[1-9][0-9]*) )?(?P<unit>[a-z]+?)s?"
WHERE = r"(?: where (?P<where>.+))?"
KEY = r"(?:(?P<count>[0-9]+) )?(?P<key>[a-z][a-z0-9_]*)(?P<bits>/[0-9]+)?"
WORD = r"[a-z][a-z0-9_]*"
SECOND_KEY = rf"(?:(?:,| and|) (?P<second>{WORD}))?"
FORMS = {
    "top": (
        re.compile(rf"top {KEY}{SECOND_KEY} by (?:different (?P<different>{WORD})|{MEASURE}){WHERE}"),
        "top [N] ATTRIBUTE[, ATTRIBUTE] by MEASURE [where CONDITION]",
        "top 10 src by bytes where dport==443",
    ),
    "share": (
        re.compile(rf"share {KEY}(?: by {MEASURE})?{WHERE}"),
        "share [N] ATTRIBUTE [by MEASURE] [where CONDITION]",
        "share proto by packets",
    ),
    "flows": (
        re.compile(rf"flows(?: (?P<count>[0-9]+))?(?: by {MEASURE})?{WHERE}"),
        "flows [N] [by MEASURE] [where CONDITION]",
        "flows 5 by packets where dport==443",
    ),
    "scans": (
        re.compile(rf"scans(?: (?P<count>[0-9]+))?{WHERE}"),
        "scans [N] [where CONDITION]",
        "scans where dst in 10.0.0.0/8",
    ),
    "unanswered": (
        re.compile(rf"unanswered(?: (?P<count>[0-9]+))?{WHERE}"),
        "unanswered [N] [where CONDITION]",
        "unanswered where dport==443",
    ),
    "pings": (
        re.compile(rf"pings(?: (?P<count>[0-9]+))?{WHERE}"),
        "pings [N] [where CONDITION]",
        "pings where src in 10.0.0.0/8",
    ),
    "list": (re.compile(r"list (?:where )?(?P<where>.+)"), "list CONDITION", "list kind==2 and flags==20"),
    "find": (
        re.compile(r"find (?P<key>[a-z][a-z0-9_]*) (?P<value>\S+)"),
        "find ATTRIBUTE VALUE, or find ATTRIBUTE LOW..HIGH",
        "find dst 10.0.0.53",
    ),
    "count": (re.compile(r"count(?: (?:where )?(?P<where>.+))?"), "count [CONDITION]", "count dport==53"),
    "total": (
        re.compile(rf"total (?P<measure>[a-z][a-z0-9_]*){WHERE}"),
        "total ATTRIBUTE [where CONDITION]",
        "total len where dport==443",
    ),
    "between": (
        re.compile(rf"between (?P<low>\S+) and (?P<high>\S+){WHERE}"),
        "between TIME and TIME [where CONDITION]",
        "between 2026-11-28T13:00:00 and 2026-11-28T13:00:05 where dport==53",
    ),
    "per": (
        re.compile(rf"per {UNIT} {MEASURE}{WHERE}"),
        "per UNIT MEASURE [where CONDITION]",
        "per second bytes where dport==443",
    ),
    "over": (
        re.compile(
            rf"(?:over|under) (?P<number>[0-9]+)(?: {MEASURE})? (?:in|per) {UNIT}(?: by (?P<second>{WORD}))?{WHERE}"
        ),
        "over N [MEASURE] in a UNIT [by KEY] [where CONDITION]",
        "over 100 packets in a second by src where dport==443",
    ),
}
FORMS["under"] = FORMS["over"]


@dataclass(frozen=True)
class Query:
    """One typed question; `expression` is its condition in the program's form."""

    text: str
    verb: str
    condition: str = "*"
    expression: str = "*"
    key: str = ""
    # The attribute beside it, or beside a unit of time, of pairs or of different values.
    second: str = ""
    # The key is an address of IPv6, of which the program's `key` is the high half.
    is_whole: bool = False
    # The key is an address of IPv4 or IPv6, and the program's `key` that of IPv4.
    is_of_both: bool = False
    part: str = ""
    measure: str = "len"
    count: int = 10
    number: int = 0
    width: int = 0
    low: str = ""
    high: str = ""

    @property
    def is_timed(self) -> bool:
        """Whether it goes by time buckets and their width."""
        return self.is_of_buckets or self.verb == "between" or self.is_timed_pair

    @property
    def is_timed_pair(self) -> bool:
        """Whether it goes by time buckets and the values of an attribute."""
        return bool(self.width and self.second)

    @property
    def is_of_buckets(self) -> bool:
        """Whether its answer is a list of time buckets."""
        return not self.second and (self.verb in ("per", "over", "under") or self.is_peak)

    @property
    def is_peak(self) -> bool:
        """Whether it is `top` of time buckets."""
        return self.verb == "top" and bool(self.width) and not self.second

    @property
    def bound(self) -> str:
        """The part by which the program ranks; of whole addresses one that no address of a network is above."""
        return "greatest" if self.is_whole and self.part == "least" else self.part

    @property
    def is_ranked(self) -> bool:
        """Whether it ranks values of an attribute."""
        return self.verb in ("top", "share", "flows") and not (self.is_peak or self.second)

    @property
    def is_paired(self) -> bool:
        """Whether it counts two kinds of packets of each conversation."""
        return self.verb in PAIRS

    @property
    def lists_all(self) -> bool:
        """Whether a bucket without a packet is missed in the answer."""
        return self.verb in ("per", "under")

    @property
    def operator(self) -> str:
        return {"over": ">", "under": "<"}.get(self.verb, ">=")

    def fires(self, value: int) -> bool:
        """Whether a bucket of that value is meant."""
        return {">": value > self.number, "<": value < self.number}.get(self.operator, True)


def is_question(word: str) -> bool:
    """Whether a word of the command line is a question and no file."""
    return word.split(" ")[0] in VERBS


def _width(times: str | None, unit: str) -> int:
    sizes = {name: size for size, name in UNITS.items()}
    if unit not in sizes:
        raise Complaint(f"`{unit}` is not a unit of time: {', '.join(sizes)}")
    return int(times or 1) * sizes[unit]


def _measure(part: str | None, measure: str | None) -> tuple[str, str]:
    """The part and the attribute that are meant."""
    if measure in (None, "bytes"):
        return part or "sum", "len"
    if measure == "packets":
        return "count", "len"
    return part or "sum", measure or "len"


def _six_digits(text: str) -> str:
    """The time as every Python reads it: with six digits behind the seconds, and an offset in place of Z."""
    fraction = re.search(r"\.([0-9]{1,9})", text)
    if fraction:
        text = text.replace(fraction[0], f".{fraction[1]:0<6.6}")
    return re.sub(r"Z$", "+00:00", text)


def time_of(text: str) -> int:
    """The time in nanoseconds since 1970."""
    if text.isdigit():
        return int(text) * SECOND
    try:
        moment = datetime.datetime.fromisoformat(_six_digits(text))
    except ValueError as error:
        raise Complaint(
            f"`{text}` is not a time as 2026-11-28T13:00:05, in UTC, or seconds since 1970"
        ) from error
    if moment.tzinfo is None:
        moment = moment.replace(tzinfo=datetime.timezone.utc)
    since = moment - datetime.datetime(1970, 1, 1, tzinfo=datetime.timezone.utc)
    return (since.days * 86400 + since.seconds) * SECOND + since.microseconds * 1000


def parse_question(text: str, schema: Sequence[Attribute] = PACKETS["packet6"]) -> Query:
    """The question that the text is; a Complaint shows the form that it should have."""
    text = " ".join(text.split())
    verb = text.split(" ")[0]
    if verb not in FORMS:
        raise Complaint(f"Cannot read `{text}`. Questions begin with {', '.join(VERBS)}.")
    form, shape, example = FORMS[verb]
    found = form.fullmatch(text)
    if not found:
        one = "It ranks one attribute, not two together.\n" if re.match(r"share [^,]*,", text) else ""
        raise Complaint(f"Cannot read `{text}`. {one}Expected:\n    {shape}\nFor example:\n    {example}")
    words = found.groupdict()
    if verb == "find":
        return _finding(text, words["key"] or "", words["value"] or "", schema)
    _check_names(found, schema)
    condition = words.get("where") or "*"
    query = Query(text, verb, condition, key=words.get("key") or "")
    if condition != "*":
        query = replace(query, expression=_form(schema, query, condition, found.start("where")))
    if verb in ("flows", *PAIRS):
        query = _of_conversations(query, schema)
    second = words.get("second") or words.get("different") or ""
    if verb == "scans" or second:
        query = _of_two(query, second, schema)
        if words.get("second") and words.get("different"):
            raise Complaint(f"`{text}`: different values are counted of one attribute, not of two together")
    return _filled(_keyed(query, words.get("bits"), schema), words)


def _check_names(found: re.Match[str], schema: Sequence[Attribute]) -> None:
    """A word that is no attribute is shown in the question, if nothing else of the form is called so."""
    names = [it.name for it in schema]
    others = {"measure": ("bytes", "packets")} | dict.fromkeys(("key", "second"), tuple(UNITS.values()))
    for group in ("key", "second", "different", "measure"):
        word = found.groupdict().get(group)
        its = others.get(group, ())
        if not word or word in (*names, *its) or (group != "measure" and unit_of(word)):
            continue
        why = unknown_attribute(schema, word, "leave out `--schema packet`", its)
        text = found.string
        raise Complaint(f"`{text}` cannot be asked: {why}\n    {text}\n    {' ' * found.start(group)}^")


def _form(schema: Sequence[Attribute], query: Query, condition: str, begin: int) -> str:
    """The condition in the program's form; a fault is shown in the question, where it begins there."""
    try:
        return program_form(schema, condition)
    except ConditionFault as fault:
        place = max(begin + fault.place, query.text.index(" ") + 1)
        why = f"{fault.why}\n    {query.text}\n    {' ' * place}^"
    except TooLong as fault:
        why = (
            f"without parentheses and `not` its condition has {fault.count} comparisons, and the program takes "
            f"{MOST_ATOMS}: ask for parts of it"
        )
    raise Complaint(f"`{query.text}` cannot be asked: {why}")


def narrowed(query: Query, narrower: str) -> str:
    """The question's condition and a narrower one, in the program's form."""
    condition = narrower if query.expression == "*" else f"({query.expression}) and ({narrower})"
    return _form(PACKETS["packet6"], query, condition, 0)


def _of_conversations(query: Query, schema: Sequence[Attribute]) -> Query:
    if tuple(schema) != PACKETS["packet6"]:
        raise Complaint(f"`{query.text}`: only `schema packet6` has conversations")
    narrower = PAIRS[query.verb][0] if query.is_paired else "kind>=1"
    return replace(query, key="flow", expression=narrowed(query, narrower))


def parts_of(query: Query) -> tuple[str, str]:
    """Of a question over two attributes the expressions of the packets whose values are single numbers, and of those that must be listed.

    Where there are none of a kind it is empty.
    """
    keys = (query.key, query.second)
    try:
        if any(it in WHOLE for it in keys):
            return "", beside(query.expression, IPV6)
        if any(it in BOTH for it in keys):
            return beside(query.expression, NO_IPV6), beside(query.expression, OTHERS)
    except TooLong:
        return "", query.expression
    return query.expression, ""


def beside(expression: str, narrower: str) -> str:
    """Both conditions, in the program's form."""
    condition = narrower if expression == "*" else f"({expression}) and ({narrower})"
    return program_form(PACKETS["packet6"], condition)


def _of_two(query: Query, second: str, schema: Sequence[Attribute]) -> Query:
    """With both attributes, which are numbers."""
    if tuple(schema) != PACKETS["packet6"]:
        raise Complaint(f"`{query.text}`: two attributes are counted together only with `schema packet6`")
    if query.verb == "scans":
        return replace(query, key="src", second="dport", expression=narrowed(query, SYN))
    if query.verb == "under":
        raise Complaint(
            f"`{query.text}`: what has no packet has less too, and is in no list: ask with `over`"
        )
    numbers = [it.name for it in schema if it.is_number and it.name != "flow"]
    if unit_of(second) and query.verb == "top" and " by different " not in query.text:
        query, second = replace(query, key=second), query.key
    width = unit_of(query.key)
    for it in (second,) if width or query.verb == "over" else (query.key, second):
        if it not in numbers:
            known = ", ".join(numbers)
            raise Complaint(
                f"`{query.text}`: `{it}` is not one of the numbers that are counted together: {known}"
            )
    if query.key == second:
        raise Complaint(f"`{query.text}`: it needs two attributes, and both are `{second}`")
    return replace(query, second=second, width=width)


def unit_of(word: str) -> int:
    """The width that a word names, as `seconds`; 0 if it names none."""
    return {name: size for size, name in UNITS.items()}.get(word.removesuffix("s"), 0)


def _finding(text: str, key: str, value: str, schema: Sequence[Attribute]) -> Query:
    """By an index, where the program takes the ends; else the packets are listed by a condition."""
    low, dots, high = value.partition("..")
    query = Query(text, "list", f"{key} in {value}" if dots else f"{key}=={value}")
    # The value has the same place in both; a fault of the key is moved to it.
    begin = len("find ") + (-3 if dots else -1)
    query = replace(query, expression=_form(schema, query, query.condition, begin))
    is_number = all(it.is_number for it in schema if it.name == key)
    if is_number and is_form(low) and (is_form(high) if dots else True):
        return replace(query, verb="find", key=key, low=low, high=high or low)
    return query


def _keyed(query: Query, bits: str | None, schema: Sequence[Attribute]) -> Query:
    """With what the key is: of IPv6, whole addresses or networks."""
    is_packet6 = tuple(schema) == PACKETS["packet6"]
    is_six = is_packet6 and query.key in ("src6", "dst6")
    if bits and (not is_six or bits != "/64" or query.second):
        raise Complaint(f"`{query.text}`: only src6/64 and dst6/64 are ranked by network, and not in pairs")
    if query.second:
        return query
    is_of_both = is_packet6 and query.key in ("src", "dst")
    return replace(query, is_whole=is_six and not bits, is_of_both=is_of_both)


def _filled(query: Query, words: dict[str, str | None]) -> Query:
    part, measure = _measure(words.get("part"), words.get("measure"))
    if query.verb == "scans" or words.get("different"):
        part = "different"
    if query.is_paired:
        part = "count"
    count = int(words.get("count") or 10)
    if not 1 <= count <= MOST_TOP:
        raise Complaint(f"`{query.text}`: {query.verb} lists from 1 to {MOST_TOP} keys, and not {count}")
    if query.verb == "share" and part not in ("sum", "count"):
        raise Complaint(
            f"`{query.text}`: there are shares of bytes, packets or a sum, and not of what is {part}"
        )
    number = int(words.get("number") or 0)
    if number >= 2**64:
        raise Complaint(f"`{query.text}`: {number} is above 2^64 - 1")
    width = _width(words.get("times"), words.get("unit") or "") if words.get("unit") else 0
    if query.verb == "top":
        width = query.width if query.second else unit_of(query.key)
    low = words.get("low") or ""
    found = replace(query, part=part, measure=measure, count=count, number=number, width=width)
    return replace(found, low=low, high=words.get("high") or low)


@dataclass
class _Writer:
    """The lines of a setup, with one lane for the same filter or tally."""

    lines: list[str]
    named: dict[str, str] = field(default_factory=dict)
    counts: dict[str, int] = field(default_factory=dict)

    def thing(self, what: str, rest: str) -> str:
        """The name of the lane or trigger that the line states; the line is written once."""
        known = f"{what} {rest}"
        if known not in self.named:
            self.counts[what] = self.counts.get(what, 0) + 1
            self.named[known] = f"{what}{self.counts[what]}"
            self.lines.append(f"{what} {self.named[known]} {rest}")
        return self.named[known]


def width_of(query: Query) -> int | None:
    """The width of the buckets that the question needs, None where any does."""
    return (query.width or SECOND) if query.is_timed else None


def by_width(queries: Sequence[Query]) -> list[list[Query]]:
    """The questions that one setup can ask together, which has one width of buckets."""
    widths = dict.fromkeys(it for it in map(width_of, queries) if it) or {SECOND: None}
    first = next(iter(widths))
    return [[it for it in queries if (width_of(it) or first) == width] for width in widths]


def _one_width(queries: Sequence[Query]) -> int:
    """The width of the buckets; a Complaint where two questions want different ones."""
    groups = by_width(queries)
    if len(groups) > 1:
        both = "\n    ".join(next(it.text for it in group if it.is_timed) for group in groups)
        raise Complaint(f"These questions use different time units; ask them separately:\n    {both}")
    return next((it for it in map(width_of, queries) if it), SECOND)


def _ask(writer: _Writer, query: Query, width: int, every: bool) -> str:
    """The question's statement behind `ask NAME`."""
    if query.is_ranked:
        tally = writer.thing("tally", f"{query.key} {query.measure} {query.expression}")
        return f"top {tally} {query.bound} {MOST_TOP if every else query.count}"
    if query.second:
        expression, listed = parts_of(query) if every else (query.expression, "")
        if not expression:
            return f"list {listed}"
        if not query.is_timed_pair:
            return f"groups {writer.thing('tally', f'{query.key} {query.measure} {expression}')}"
        lane = writer.thing("filter", expression)
        lane = writer.thing("aggregate", f"{lane} {query.measure} by {query.second}")
        if query.verb != "over" or every:
            return f"groups {lane}"
        return f"fired {writer.thing('trigger', f'{lane} {query.part} > {query.number}')}"
    if query.is_paired:
        return f"top {writer.thing('tally', f'flow len {query.expression}')} count {MOST_TOP}"
    if query.verb == "list":
        return f"list {query.expression}"
    if query.verb == "find":
        index = writer.thing("index", query.key)
        return f"find {index} {query.low} {query.high}"
    if query.verb in ("count", "total"):
        return f"total {query.measure} {query.expression}"
    lane = writer.thing("filter", query.expression)
    if query.verb == "between":
        return f"between {lane} {time_of(query.low) // width} {time_of(query.high) // width}"
    lane = writer.thing("aggregate", f"{lane} {query.measure}")
    compared = ">= 0" if every else f"{query.operator} {query.number}"
    return f"fired {writer.thing('trigger', f'{lane} {query.part} {compared}')}"


def _extras(writer: _Writer, queries: Sequence[Query], schema: str) -> None:
    """Questions of the tool's own: where the packets are in time, and how many `schema packet` does not parse."""
    if any(it.lists_all for it in queries):
        lane = writer.thing("aggregate", f"{writer.thing('filter', '*')} len")
        writer.lines.append(f"ask {SPAN} fired {writer.thing('trigger', f'{lane} count >= 0')}")
    if schema == "packet":
        writer.lines += [f"ask {name} total len {expression}" for name, expression in UNPARSED.items()]


def name_of(number: int) -> str:
    """The name of the question of that number, from 0."""
    return f"q{number + 1}"


def whole_of(number: int) -> str:
    """The name of the question for the whole of which that question gives the shares."""
    return f"{name_of(number)}_whole"


def answers_of(number: int) -> str:
    """The name of the question for the packets that answer those of that question."""
    return f"{name_of(number)}_answers"


def _ask_beside(writer: _Writer, number: int, query: Query) -> None:
    """What else the first run says for a question over two attributes."""
    expression, listed = parts_of(query)
    if expression and not query.is_timed_pair:
        tally = writer.thing("tally", f"{query.second} {query.measure} {expression}")
        writer.lines.append(f"ask {second_of(number)} groups {tally}")
    if expression and listed:
        writer.lines.append(f"ask {listed_of(number)} list {listed}")


def second_of(number: int) -> str:
    """The name of the question for the values of that question's second attribute."""
    return f"{name_of(number)}_second"


def listed_of(number: int) -> str:
    """The name of the question for the packets of that question that are listed."""
    return f"{name_of(number)}_listed"


def write_setup(
    queries: Sequence[Query], schema: str = "packet6", every: bool = False, extras: bool = False
) -> str:
    """The setup that asks the questions, and with `extras` also what the tool wants to know.

    With `every` triggers fire in every bucket and tops list as many keys as can be: what the answers are made of.
    """
    width = _one_width(queries)
    writer = _Writer([f"schema {schema}"])
    if width != SECOND:
        writer.lines.append(f"width {width}")
    for number, query in enumerate(queries):
        writer.lines.append(f"# {query.text}")
        statement = _ask(writer, query, width, every)
        writer.lines.append(f"ask {name_of(number)} {statement}")
    for number, query in enumerate(queries):
        if query.is_paired:
            tally = writer.thing("tally", f"flow len {PAIRS[query.verb][1]}")
            writer.lines.append(f"ask {answers_of(number)} top {tally} count {MOST_TOP}")
        if query.verb == "share":
            writer.lines.append(f"ask {whole_of(number)} total {query.measure} {query.expression}")
        if query.second and every:
            _ask_beside(writer, number, query)
    if extras:
        _extras(writer, queries, schema)
    return "\n".join(writer.lines) + "\n"
