"""The whole addresses of IPv6 with the most, which the program is asked for network by network."""

import ipaddress
import json
import pathlib
import random
import re
import struct
import tempfile
import unittest
from typing import Sequence
from unittest import mock

from support import EXAMPLES, INCIDENTS, confluo, frame, needs_words, pcap, tool

from confluo_report import addresses, ask
from confluo_report.addresses import Again, Answer, Asker, whole_addresses
from confluo_report.expressions import parse_expression
from confluo_report.questions import Query, parse_question
from confluo_report.reports import Pair, Top
from confluo_report.setups import PACKETS
from confluo_report.show import percent

HALF = 2**64
SCHEMA = PACKETS["packet6"]
PLACES = {it.name: at for at, it in enumerate(SCHEMA)}
PARTS = {
    "count": len,
    "sum": sum,
    "least": min,
    "greatest": max,
}
MEASURES = {"packets": "count", "bytes": "sum", "least ttl": "least", "greatest ttl": "greatest"}
MOST = 6
needs_packet6 = needs_words("--schema", "packet6")


class Store:
    """Packets with an address and a number each, and answers about them as the program gives them."""

    def __init__(self, packets: list[tuple[int, int]]) -> None:
        self.packets, self.asked, self.read = packets, 0, 0

    def top(self, key: str, part: str, expression: str) -> Answer:
        return self.first(key, part, expression, MOST)

    def first(self, key: str, part: str, expression: str, most: int) -> Answer:
        holds = parse_expression(SCHEMA, expression).holds
        found: dict[int, list[int]] = {}
        for address, value in self.packets:
            row = [0] * len(SCHEMA)
            row[PLACES["src6"]], row[PLACES["src6_low"]] = divmod(address, HALF)
            row[PLACES["etype"]], row[PLACES["kind"]] = 0x86DD, 1
            if holds(row):
                found.setdefault(row[PLACES[key]], []).append(value)
        pairs = sorted(
            (Pair(it, PARTS[part](its)) for it, its in found.items()), key=lambda it: (-it.value, it.key)
        )
        return Answer(Top(tuple(pairs[:most])))

    def again(self, asked: Sequence[Again]) -> list[Answer]:
        assert 1 <= len(asked) <= 16
        self.asked += len(asked)
        return [self.top(*it) for it in asked]

    def values(self, query: Query, expression: str) -> dict[int, int]:
        self.read += 1
        assert expression == "kind>=1 && etype==0x86dd"
        return {address: -value for value, address in self.ranked(query.part)}

    def asker(self) -> Asker:
        return Asker(self.again, self.values)

    def ranked(self, part: str) -> list[tuple[int, int]]:
        found: dict[int, list[int]] = {}
        for address, value in self.packets:
            found.setdefault(address, []).append(value)
        return sorted((-PARTS[part](its), it) for it, its in found.items())


def drawn(draw: random.Random) -> list[tuple[int, int]]:
    """Packets of few or many networks with few or many addresses."""
    networks = [draw.getrandbits(64) for _ in range(draw.choice((1, 3, 20, 60)))] + [0]
    lows, most = draw.choice((1, 2, 9)), draw.choice((1, 3, 200))
    count = draw.choice((1, 30, 200))
    return [
        (draw.choice(networks) * HALF + draw.randrange(lows), 1 + draw.randrange(most)) for _ in range(count)
    ]


class Addresses(unittest.TestCase):
    def test_the_first_addresses_are_right(self) -> None:
        draw, read = random.Random(7), 0
        with mock.patch.object(addresses, "MOST_TOP", MOST):
            for _ in range(120):
                store = Store(drawn(draw))
                for measure, part in MEASURES.items():
                    count = draw.randrange(1, MOST)
                    query = parse_question(f"top {count} src6 by {measure}")
                    first = store.top("src6", query.bound, "*")
                    ranked = whole_addresses(query, first, store.asker())
                    wanted = store.ranked(part)
                    found = [(-it.value, it.key) for it in ranked.top.keys]
                    self.assertEqual(found, wanted[:count], (measure, count))
                    self.assertTrue(not ranked.is_all or len(found) == len(wanted))
                read += store.read
        self.assertGreater(read, 10)

    def test_only_networks_that_matter_are_asked(self) -> None:
        # One network has more than any other, and its addresses have more than the others' networks.
        packets = [(5 * HALF + it, 100) for it in range(4)] + [((10 + it) * HALF, 99) for it in range(40)]
        store = Store(packets)
        query = parse_question("top 3 src6 by bytes")
        with mock.patch.object(addresses, "MOST", {"lane": 2}):
            ranked = whole_addresses(query, Answer(Top((Pair(5, 400), Pair(10, 99)))), store.asker())
        self.assertEqual([it.key for it in ranked.top.keys], [5 * HALF, 5 * HALF + 1, 5 * HALF + 2])
        self.assertEqual((store.asked, store.read, ranked.is_all), (2, 0, False))

    def test_packets_are_read_if_too_many_networks_could_matter(self) -> None:
        packets = [(net * HALF + low, 1) for net in range(1, 4 * 16 + 5) for low in range(2)]
        store = Store(packets[1:])
        with mock.patch.object(Store, "top", lambda *it: Store.first(*it, most=1000)):
            query = parse_question("top 3 src6 by packets")
            ranked = whole_addresses(query, store.top("src6", "count", "*"), store.asker())
        # The address with the lowest number is in the network that has the least.
        self.assertEqual([it.key for it in ranked.top.keys], [HALF + 1, 2 * HALF, 2 * HALF + 1])
        self.assertEqual((store.asked, store.read), (64, 1))

    def test_networks_and_whole_addresses(self) -> None:
        self.assertTrue(parse_question("top dst6 by packets").is_whole)
        self.assertFalse(parse_question("top dst6/64 by packets").is_whole)
        self.assertFalse(parse_question("top src6_low by packets").is_whole)
        for text in ("top src/64 by packets", "top src6/48 by packets"):
            self.assertIn("only src6/64 and dst6/64", tool("ask", "--setup-only", text).err)


ARP = bytes.fromhex("ffffffffffff 020000000002 0806") + bytes(28)
# From 0.0.0.0, as a host that has no address yet.
NOBODY = frame()[:26] + bytes(4) + frame()[30:]


@needs_packet6
class Answers(unittest.TestCase):
    def setUp(self) -> None:
        draw = random.Random(8)
        networks = [0x20010DB8 << 32 | it for it in range(40)] + [0]
        self.sent: dict[str, list[int]] = {}
        frames = [self.one("10.0.0.1", frame()), self.one("not IP", ARP), self.one("0.0.0.0", NOBODY)]
        frames += [self.one("10.0.0.2", frame(2)) for _ in range(60)]
        for _ in range(900):
            address = draw.choice(networks) * HALF + draw.choice((0, 2, 2**63 + 5))
            rest = draw.randrange(900)
            head = struct.pack(">IHBB", 6 << 28, rest, 59, 64)
            ends = struct.pack(">QQQQ", address // HALF, address % HALF, networks[0], 9)
            data = bytes.fromhex("020000000001 020000000002 86dd") + head + ends + bytes(rest)
            frames.append(self.one(str(ipaddress.IPv6Address(address)), data))
        draw.shuffle(frames)
        place = tempfile.TemporaryDirectory()
        self.addCleanup(place.cleanup)
        self.captures = [pathlib.Path(place.name, it) for it in ("a", "b")]
        self.captures[0].write_bytes(pcap(frames[:400]))
        self.captures[1].write_bytes(pcap(frames[400:]))
        self.whole = pathlib.Path(place.name, "whole")
        self.whole.write_bytes(pcap(frames))

    def one(self, source: str, data: bytes) -> tuple[int, bytes]:
        self.sent.setdefault(source, []).append(len(data))
        return 1, data

    def asked(self, *words: object) -> str:
        ended = tool("ask", *words)
        self.assertEqual((ended.status, ended.err), (0, ""))
        return ended.out

    def rows(self, out: str) -> list[tuple[str, int]]:
        found = re.findall(r"(?m)^ +\d+\.  (not IP|\S+) +([\d,]+)", out)
        return [(it, int(value.replace(",", ""))) for it, value in found]

    def wanted(self, part: str, count: int, families: tuple[int, ...]) -> list[tuple[str, int]]:
        """The first sources of IPv4, IPv6 or no IP (7)."""
        rows = []
        for it, sizes in self.sent.items():
            address = None if it == "not IP" else ipaddress.ip_address(it)
            family = address.version if address else 7
            if family in families:
                rows.append((-PARTS[part](sizes), family, int(address or 0), it))
        return [(it, -value) for value, _, _, it in sorted(rows)[:count]]

    def test_one_capture(self) -> None:
        for measure, part in (("bytes", "sum"), ("packets", "count"), ("least len", "least")):
            for key, families in (("src6", (6,)), ("src", (4, 6, 7))):
                for count in (7, 1000):
                    out = self.asked(self.whole, f"top {count} {key} by {measure} where not len<42")
                    self.assertEqual(self.rows(out), self.wanted(part, count, families), (key, measure))
                    self.assertNotIn("Note", out)
                    self.assertNotIn("stands for", out)

    def test_several_captures(self) -> None:
        for key, families in (("src6", (6,)), ("src", (4, 6, 7))):
            out = self.asked(*self.captures, f"top 7 {key} by bytes")
            self.assertEqual(self.rows(out), self.wanted("sum", 7, families))

    def test_where_all_is_ipv4_nothing_is_asked_again(self) -> None:
        with mock.patch.object(ask, "both_families", side_effect=addresses.both_families) as asked:
            with mock.patch.object(ask, "again_of", side_effect=AssertionError):
                out = self.asked(self.whole, "top src by packets where src in 10.0.0.0/8")
        self.assertEqual((asked.call_count, self.rows(out)), (1, [("10.0.0.2", 60), ("10.0.0.1", 1)]))

    def test_shares(self) -> None:
        words = (
            "share 2 src6 by packets",
            "share 1 etype",
            "share proto by packets where len==54 and src==10.0.0.1",
        )
        out = self.asked(self.whole, *words)
        first = self.wanted("count", 2, (6,))
        self.assertEqual(self.rows(out)[:2], first)
        rest = 963 - sum(value for _, value in first)
        self.assertRegex(out, rf"all others +{rest} +{100 * rest / 963:.1f}\n +together +963 +100\.0\n")
        self.assertRegex(out, r"0x86dd \(IPv6\) +[\d,]+ +99\.\d\n +all others +3,390 +0\.\d\n")
        self.assertRegex(out, r"6 \(TCP\) +1 +100\.0\n +together +1 +100\.0\n")
        self.assertIn("  none\n", self.asked(self.whole, "share src where len<5"))


@needs_packet6
class Reports(unittest.TestCase):
    def test_whole_addresses_of_a_report(self) -> None:
        setup, capture = INCIDENTS / "many_addresses.setup", INCIDENTS / "many_addresses.pcap"
        report = confluo("run", "--setup", setup, "--nodes", "2048", "--writers", "1", capture).out
        first = ["2001:db8:0:1::20", "2001:db8:0:1::25", "2001:db8:0:2::21"]
        words = ("--setup", setup, "--capture", capture)
        out = tool("show", *words, stdin=report).out
        rows = "".join(f"  {at}.  {it}                  1\n" for at, it in enumerate(first, 1))
        self.assertIn("  1.  2001:db8:0:42::/64                 96\n", out)
        self.assertIn(f"  Whole addresses:\n      src6              number of packets\n{rows}", out)
        asks = json.loads(tool("json", *words, stdin=report).out)["asks"]
        found = {it["name"]: it["addresses"] for it in asks if "addresses" in it}
        self.assertEqual(found, {"by_network": [{"text": it, "value": 1} for it in first]})
        out = tool("csv", *words, stdin=report).out
        self.assertIn(f"address,,by_network,top,,2,{first[2]},1\n", out)
        self.assertNotIn("address,", tool("csv", "--setup", setup, stdin=report).out)
        words = ("--setup", setup, "--capture", INCIDENTS / "full_link.pcap")
        ended = tool("json", *words, stdin=report)
        self.assertEqual((ended.status, ended.out), (2, ""))
        self.assertIn("full_link.pcap is not the capture of the report", ended.err)

    def test_only_networks_have_them(self) -> None:
        capture = EXAMPLES / "web_and_dns.pcap"
        setup = EXAMPLES / "web_and_dns.setup"
        report = confluo("run", "--setup", setup, "--writers", "1", capture).out
        with mock.patch("confluo_report.report_addresses.asker_of", side_effect=AssertionError):
            self.assertNotIn(
                "addresses", tool("json", "--setup", setup, "--capture", capture, stdin=report).out
            )
        ended = tool("json", "--capture", capture, stdin="cut 0\nhost 0 @0\n")
        self.assertIn("--capture is for a report of `run`", ended.err)


class Percents(unittest.TestCase):
    def test_little_is_not_nothing(self) -> None:
        for value, whole, text in (
            (0, 9, "0.0"),
            (1, 9000, "<0.1"),
            (1, 3, "33.3"),
            (2, 3, "66.7"),
            (8999, 9000, ">99.9"),
            (9, 9, "100.0"),
            (0, 0, "-"),
            (1, 2000, "0.1"),
        ):
            self.assertEqual(percent(value, whole), text)


if __name__ == "__main__":
    unittest.main()
