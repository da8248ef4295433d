"""Questions over two attributes: rankings of pairs and of how many different others a value is seen with."""

from __future__ import annotations

import csv
import io
import json
import pathlib
import random
import tempfile
import unittest
from typing import Iterator, Sequence
from unittest import mock

from support import EXAMPLES, INCIDENTS, frame, frame6, needs_program, pcap, tool

from confluo_report.doubled import Asker, Cell, Doubled, Firsts, Listed, Row, doubled, texts_of
from confluo_report.errors import Complaint
from confluo_report.expressions import parse_expression
from confluo_report.questions import Query, parse_question, parts_of
from confluo_report.reports import Group
from confluo_report.rows import rows_of
from confluo_report.setups import PACKETS, parse_setup
from confluo_report.values import utc

SCHEMA = PACKETS["packet6"]
NAMES = [it.name for it in SCHEMA]
CAPTURE = EXAMPLES / "dual_stack" / "dual_stack.pcap"
SIX = 0x20010DB8 << 96


def drawn_rows(draw: random.Random, count: int, spread: int) -> list[dict[str, int]]:
    """Packets of IPv4, of IPv6 and of neither, few of which are alike."""
    rows = []
    for _ in range(count):
        row = dict.fromkeys(NAMES, 0)
        family = draw.choice((4, 4, 4, 4, 6, 7))
        row |= {
            "ts": draw.randrange(4 * 10**9),
            "len": draw.randrange(60, 70),
            "dport": draw.choice((53, 80, *range(1, spread))),
        }
        row |= {"is_syn": draw.randrange(2), "ttl": draw.choice((1, 64)), "kind": 0 if family == 7 else 2}
        sides = [min(draw.randrange(spread), draw.randrange(spread)) for _ in "sd"]
        if family == 4:
            row |= {"etype": 0x0800, "src": sides[0], "dst": 0x0A000000 + sides[1]}
        elif family == 6:
            row |= {"etype": 0x86DD}
            for name, it in zip(("src6", "dst6"), sides):
                row |= {name: SIX >> 64, f"{name}_low": it}
        else:
            row |= {"etype": draw.choice((0x0806, 0x86DD))}
        rows.append(row)
    return rows


def holding(rows: Sequence[dict[str, int]], expression: str) -> Iterator[dict[str, int]]:
    found = parse_expression(SCHEMA, expression)
    return (it for it in rows if found.holds(tuple(it[name] for name in NAMES)))


def grouped(rows: Sequence[dict[str, int]], query: Query, key: str, expression: str) -> list[Group]:
    """The groups of the rows of the expression, by time too where the question is."""
    values: dict[tuple[int, ...], list[int]] = {}
    for it in holding(rows, expression):
        place = (it["ts"] // query.width, it[key]) if query.width else (it[key],)
        values.setdefault(place, []).append(it["len"])
    return [
        Group(place[0], len(its), sum(its), min(its), max(its), *place[1:]) for place, its in values.items()
    ]


def answer_over(query: Query, rows: Sequence[dict[str, int]], runs: list[int]) -> Doubled:
    """The answer where the program says what it would; `runs` has for each further run how many lanes it has, 0 for a listing."""

    def groups(asked: Sequence[tuple[str, str]]) -> list[Sequence[Group]]:
        runs.append(len(asked))
        return [grouped(rows, query, *it) for it in asked]

    def listed(expression: str) -> Listed:
        return lambda names: (tuple(it[name] for name in names) for it in holding(rows, expression))

    def listed_again(expression: str) -> Listed:
        runs.append(0)
        return listed(expression)

    expression, others = parts_of(query)
    key = query.second if query.width else query.key
    both = [grouped(rows, query, it, expression) if expression else [] for it in (key, query.second)]
    firsts = Firsts(both[0], both[1], listed(others) if others else no_listing)
    return doubled(query, firsts, Asker(groups, listed_again))


def no_listing(_: Sequence[str]) -> Iterator[tuple[int, ...]]:
    raise AssertionError


def cell_of(key: str, row: dict[str, int]) -> Cell:
    """The value of a packet."""
    if key not in ("src", "dst", "src6", "dst6"):
        return 4, row[key]
    if row["kind"] == 0:
        return 7, 0
    if row["etype"] == 0x86DD:
        return 6, (row[f"{key[:3]}6"] << 64) + row[f"{key[:3]}6_low"]
    return 4, row[key]


def expected(query: Query, rows: Sequence[dict[str, int]]) -> list[tuple[int, tuple[Cell, ...]]]:
    """The first rows with their values, in one pass over all packets."""
    pairs: dict[tuple[Cell, Cell], list[int]] = {}
    for it in holding(rows, query.expression):
        first = (4, it["ts"] // query.width) if query.width else cell_of(query.key, it)
        pair = first, cell_of(query.second, it)
        is_whole = any(key in ("src6", "dst6") for key in (query.key, query.second))
        if not is_whole or (it["kind"] and it["etype"] == 0x86DD):
            pairs.setdefault(pair, []).append(it["len"])
    if query.part == "different":
        firsts = [first for first, _ in pairs]
        values: dict[tuple[Cell, ...], int] = {(it,): firsts.count(it) for it in set(firsts)}
    else:
        join = {"sum": sum, "count": len, "least": min, "greatest": max}[query.part]
        values = {pair: join(its) for pair, its in pairs.items()}
    if query.verb == "over":
        return sorted(
            ((-value, it) for it, value in values.items() if value > query.number), key=lambda it: it[1]
        )
    return sorted((-value, cells) for cells, value in values.items())


QUESTIONS = (
    "scans {n}",
    "scans {n} where ttl==64",
    "top {n} src, dst by bytes",
    "top {n} src dst by packets where dport>=53",
    "top {n} dport and src by least len",
    "top {n} dport, len by greatest len",
    "top {n} ttl, dport by bytes",
    "top {n} dport by different src",
    "top {n} src by different dst where is_syn==1",
    "top {n} dst by different ttl",
    "top {n} len by different dport",
    "top {n} src6, dport by packets",
    "top {n} src by different dst6",
    "top {n} seconds, src by bytes",
    "top {n} dport and minute by greatest len where ttl==64",
    "top {n} second, dst6 by packets",
    "top {n} seconds by different src",
    "over 2 packets in a second by src",
    "over 80 in 2 seconds by dport where kind==2",
)


class Answers(unittest.TestCase):
    def test_they_are_exact(self) -> None:
        for seed in range(30):
            draw = random.Random(seed)
            rows = drawn_rows(draw, draw.choice((0, 1, 30, 200)), draw.choice((2, 6, 40)))
            lanes, runs = draw.choice((1, 3, 16)), draw.choice((1, 2, 4))
            with mock.patch.dict("confluo_report.doubled.MOST", lane=lanes), mock.patch(
                "confluo_report.doubled.MOST_RUNS", runs
            ):
                for text in QUESTIONS:
                    query = parse_question(text.format(n=draw.choice((1, 3, 10))))
                    answer = answer_over(query, rows, [])
                    wanted = expected(query, rows)
                    found = [(-it.value, it.cells) for it in answer.rows]
                    most = len(wanted) if query.verb == "over" else query.count
                    self.assertEqual(found, wanted[:most], (seed, query.text))
                    if answer.is_all:
                        self.assertEqual(len(wanted), len(found), (seed, query.text))

    def test_what_stands_out_is_found_without_a_list(self) -> None:
        rows = drawn_rows(random.Random(1), 0, 2)
        for sender in range(1, 300):
            row = dict.fromkeys(NAMES, 0) | {
                "kind": 2,
                "etype": 0x0800,
                "is_syn": 1,
                "src": sender,
                "len": 60,
            }
            rows += [row | {"dport": port} for port in (range(1, 90) if sender == 7 else (80,))]
        runs: list[int] = []
        query = parse_question("scans 1")
        answer = answer_over(query, rows, runs)
        self.assertEqual([(it.cells, it.value, it.packets) for it in answer.rows], [(((4, 7),), 89, 89)])
        self.assertEqual(runs, [16])
        self.assertFalse(answer.is_all)

    def test_conditions_that_are_too_long_are_listed(self) -> None:
        rows = drawn_rows(random.Random(2), 200, 6)
        condition = " or ".join(f"dport=={it}" for it in range(1, 30))
        for keys in ("src, dport", "src6, dport", "dport, len", "second, dst"):
            query = parse_question(f"top {keys} by bytes where {condition}")
            answer = answer_over(query, rows, [])
            self.assertEqual([(-it.value, it.cells) for it in answer.rows], expected(query, rows)[:10], keys)


BAD = (
    ("top src, dst by different dport", "of one attribute, not of two"),
    ("top src, src by bytes", "it needs two attributes"),
    ("top src by different src", "it needs two attributes"),
    ("top flow, dport by bytes", "`flow` is not one of the numbers"),
    ("top src by different dmac", "`dmac` is not one of the numbers"),
    ("top second, minute by bytes", "`second` is not one of the numbers"),
    ("top second, flow by bytes", "`flow` is not one of the numbers"),
    ("top src by different second", "`second` is not one of the numbers"),
    ("under 5 in a second by src", "ask with `over`"),
    ("over 5 in a second by flow", "`flow` is not one of the numbers"),
    ("over 5 in a fortnight by src", "is not a unit of time"),
    ("top src, dst, dport by bytes", "Cannot read"),
    ("share src, dst by bytes", "It ranks one attribute"),
    ("top src6/64, dport by bytes", "not in pairs"),
    ("scans by bytes", "Cannot read"),
)


class Questions(unittest.TestCase):
    def test_bad_questions(self) -> None:
        for text, why in BAD:
            with self.subTest(text=text), self.assertRaisesRegex(Complaint, why):
                parse_question(text)
        for schema in ("packet", "records"):
            with self.assertRaisesRegex(Complaint, "only .*`schema packet6`"):
                parse_question("scans", PACKETS.get(schema, ()))

    def test_the_setup_that_begins_it(self) -> None:
        ended = tool("ask", "--setup-only", "scans", "top 3 src, dst by least ttl")
        self.assertEqual(
            ended.out.splitlines()[1:],
            [
                "# scans",
                "tally tally1 src len is_syn==1 && is_ack==0",
                "ask q1 groups tally1",
                "# top 3 src, dst by least ttl",
                "tally tally2 src ttl *",
                "ask q2 groups tally2",
            ],
        )
        ended = tool("ask", "--setup-only", "over 9 packets in a minute by src", "top minutes, src by bytes")
        self.assertEqual(
            [it for it in ended.out.splitlines()[1:] if it[0] != "#"],
            [
                "width 60000000000",
                "filter filter1 *",
                "aggregate aggregate1 filter1 len by src",
                "trigger trigger1 aggregate1 count > 9",
                "ask q1 fired trigger1",
                "ask q2 groups aggregate1",
            ],
        )


@needs_program
class Runs(unittest.TestCase):
    def setUp(self) -> None:
        place = tempfile.TemporaryDirectory()
        self.addCleanup(place.cleanup)
        self.folder = pathlib.Path(place.name)

    def test_a_scan(self) -> None:
        ended = tool("ask", INCIDENTS / "port_scan.pcap", "scans 2")
        lines = [
            "184 packets",
            "",
            "scans 2",
            "      src           different dport  SYNs",
            "  1.  203.0.113.77               70    70",
            "  2.  192.0.2.33                  2     2",
        ]
        self.assertEqual((ended.status, ended.out.splitlines()), (0, lines))

    def test_real_traffic_as_in_one_pass_over_all_packets(self) -> None:
        setup = parse_setup(b"schema packet6\n")
        rows = [dict(zip(NAMES, it)) for it in rows_of(setup, str(CAPTURE))]
        texts = [it.format(n=5) for it in QUESTIONS]
        answers = json.loads(tool("ask", "--json", CAPTURE, *texts[:8]).out)["answers"]
        answers += json.loads(tool("ask", "--json", CAPTURE, *texts[8:]).out)["answers"]
        for text, answer in zip(texts, answers):
            query = parse_question(text)
            wanted = expected(query, rows)
            found = [(-it["value"], it["text"]) for it in answer["keys"]]
            shown = [
                (value, ", ".join(texts_of(setup, query, Row(cells, 0, 0), utc))) for value, cells in wanted
            ]
            self.assertEqual(found, shown if query.verb == "over" else shown[:5], text)

    def test_a_flood_by_each_source(self) -> None:
        path = self.folder / "a.pcap"
        frames = [(1, frame(1)), (1, frame(1)), (1, frame(2)), (2, frame(2)), (2, frame6()), (2, frame6())]
        path.write_bytes(pcap(frames))
        ended = tool(
            "ask",
            path,
            "over 1 packets in a second by src",
            "top 1 src, minute by packets",
            "top 1 second by different src",
        )
        lines = [
            "6 packets",
            "",
            "over 1 packets in a second by src",
            "  second (UTC)         src          number of packets",
            "  1970-01-01 00:00:01  10.0.0.1                     2",
            "  1970-01-01 00:00:02  2001:db8::1                  2",
            "",
            "top 1 src, minute by packets",
            "      minute (UTC)         src       number of packets",
            "  1.  1970-01-01 00:00:00  10.0.0.1                  2",
            "",
            "top 1 second by different src",
            "      second (UTC)         different src  packets",
            "  1.  1970-01-01 00:00:01              2        3",
        ]
        self.assertEqual((ended.status, ended.out.splitlines()), (0, lines))
        read = json.loads(tool("ask", "--json", path, "over 1 packets in a second by src").out)["answers"][0]
        key = {
            "text": "1970-01-01 00:00:01Z, 10.0.0.1",
            "value": 2,
            "texts": ["1970-01-01 00:00:01Z", "10.0.0.1"],
        }
        self.assertEqual((read["kind"], read["keys"][0], len(read["keys"])), ("over", key, 2))

    def test_both_families_and_several_captures(self) -> None:
        first, second = self.folder / "a.pcap", self.folder / "b.pcap"
        first.write_bytes(pcap([(1, frame(1, 80)), (1, frame6(2, 443)), (2, frame(1, 81, flags=2))]))
        second.write_bytes(pcap([(3, frame(1, 80)), (4, frame6(2, 444)), (5, frame(2, 80, flags=2))]))
        texts = ("top 2 src, dport by bytes", "scans", "top dst by different src where dport!=81")
        for words in ((first, second), ("--as-one", first, second)):
            ended = tool("ask", "--json", *words, *texts)
            answers = json.loads(ended.out)["answers"]
            pairs = [
                {"text": "10.0.0.1, 80", "value": 108, "texts": ["10.0.0.1", "80"]},
                {"text": "2001:db8::1, 443", "value": 74, "texts": ["2001:db8::1", "443"]},
            ]
            self.assertEqual(answers[0], {"question": texts[0], "kind": "top", "keys": pairs, "all": False})
            scans = [
                {"text": "2001:db8::1", "value": 2, "packets": 2},
                {"text": "10.0.0.1", "value": 1, "packets": 1},
                {"text": "10.0.0.2", "value": 1, "packets": 1},
            ]
            self.assertEqual(answers[1], {"question": "scans", "kind": "scans", "keys": scans, "all": True})
            self.assertEqual([it["value"] for it in answers[2]["keys"]], [2, 1])
        rows = list(csv.reader(io.StringIO(tool("ask", "--csv", first, second, *texts).out)))
        self.assertIn(["top 2 src, dport by bytes", "", "1", "10.0.0.1, 80", "108", ""], rows)

    def test_none(self) -> None:
        path = self.folder / "a.pcap"
        path.write_bytes(pcap([(1, frame())]))
        out = tool("ask", path, "scans", "top src6, dport by bytes").out
        self.assertEqual(
            out.splitlines()[1:], ["", "scans", "  none", "", "top src6, dport by bytes", "  none"]
        )


if __name__ == "__main__":
    unittest.main()
