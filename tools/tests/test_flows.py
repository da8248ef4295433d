"""Conversations: by their endpoints, and what of them is not answered."""

import csv
import io
import json
import pathlib
import random
import struct
import tempfile
import unittest
from unittest import mock

from support import EXAMPLES, INCIDENTS, ROOT, confluo, frame, frame6, needs_program, pcap, tool

from confluo_report.errors import Complaint
from confluo_report.questions import parse_question, write_setup
from confluo_report.setups import PACKETS, parse_setup

DUAL_STACK = EXAMPLES / "dual_stack" / "dual_stack.pcap"
SYN, ANSWER = "is_syn==1 && is_ack==0", "is_syn==1 && is_ack==1"
SETUPS = (
    ("flows", ["tally tally1 flow len kind>=1", "ask q1 top tally1 sum 10"]),
    (
        "flows 3 by packets where dport==443",
        ["tally tally1 flow len dport==443 && kind>=1", "ask q1 top tally1 count 3"],
    ),
    (
        "unanswered 3 where dport==443",
        [
            f"tally tally1 flow len dport==443 && {SYN}",
            "ask q1 top tally1 count 1000",
            f"tally tally2 flow len {ANSWER}",
            "ask q1_answers top tally2 count 1000",
        ],
    ),
    (
        "pings",
        [
            "tally tally1 flow len icmp_type==8 && proto==1 || icmp_type==128 && proto==58",
            "ask q1 top tally1 count 1000",
            "tally tally2 flow len icmp_type==0 && proto==1 && kind==1 && etype==0x0800 || icmp_type==129 && proto==58",
            "ask q1_answers top tally2 count 1000",
        ],
    ),
)


def tcp(source: int, target: int, port: int, flags: int, dport: int = 443) -> bytes:
    """A packet of TCP between hosts of 10.0.0.0/24; a SYN-ACK goes back."""
    if flags == 18:
        source, target = target, source
    ip = struct.pack(">BBHHHBBHII", 0x45, 0, 40, 0, 0, 64, 6, 0, 0x0A000000 + source, 0x0A000000 + target)
    ports = (dport, port) if flags == 18 else (port, dport)
    return frame()[:14] + ip + struct.pack(">HHIIBBHI", *ports, 0, 0, 0x50, flags, 1024, 0)[:20]


def echo(source: int, target: int, kind: int, place: int = 0) -> bytes:
    """A packet of ICMP between them, or a fragment of one."""
    head = struct.pack(">BBHHHBBH", 0x45, 0, 28, 0, place, 64, 1, 0)
    return frame()[:14] + head + struct.pack(">IIII", 0x0A000000 + source, 0x0A000000 + target, kind << 24, 0)


class Questions(unittest.TestCase):
    def test_each_with_its_setup(self) -> None:
        for text, lines in SETUPS:
            setup = write_setup([parse_question(text)])
            self.assertEqual(
                [it for it in setup.splitlines() if not it.startswith("#")], ["schema packet6", *lines]
            )
            self.assertEqual(len(parse_setup(setup.encode()).asks), len(lines) // 2)

    def test_bad_ones(self) -> None:
        for text, why in (
            ("flows 0", "from 1 to 1000"),
            ("flows by", "Cannot read"),
            ("pings by packets", "Cannot read"),
            ("unanswered dport==443", "Cannot read"),
            ("pings where (src==10.0.0.1", r"not the end\n.*\n {26,}\^"),
        ):
            with self.assertRaisesRegex(Complaint, why):
                parse_question(text)
        with self.assertRaisesRegex(Complaint, "only .*`schema packet6`"):
            parse_question("flows", PACKETS["packet"])


@needs_program
class Answers(unittest.TestCase):
    def setUp(self) -> None:
        place = tempfile.TemporaryDirectory()
        self.addCleanup(place.cleanup)
        self.folder = pathlib.Path(place.name)

    def capture(self, name: str, frames: list[bytes]) -> str:
        path = self.folder / f"{name}.pcap"
        path.write_bytes(pcap(list(enumerate(frames))))
        return str(path)

    def asked(self, *words: object) -> list[str]:
        ended = tool("ask", *words)
        self.assertEqual((ended.status, ended.err), (0, ""))
        return [" ".join(it.split()) for it in ended.out.splitlines()]

    def answer(self, *words: object) -> "dict[str, object]":
        (found,) = json.loads("\n".join(self.asked("--json", *words)))["answers"]
        return found

    def test_conversations_have_their_endpoints(self) -> None:
        one = self.capture("one", [frame(1), frame(2) + bytes(20), frame()[:14] + bytes(40), frame6()])
        two = self.capture("two", [frame(3, 53), frame(1), frame6(18)])
        lines = self.asked(one, two, "flows", "flows 1 by packets where src==10.0.0.2", "top flow by packets")
        for line in (
            "1. TCP [2001:db8::1]:40000 > [2001:db8::2]:443 148 most",
            "2. TCP 10.0.0.1:40001 > 10.0.1.10:80 108",
            "3. TCP 10.0.0.2:40002 > 10.0.1.10:80 74",
            "4. TCP 10.0.0.3:40003 > 10.0.1.10:53 54 fewest",
            "1. TCP 10.0.0.2:40002 > 10.0.1.10:80 1",
            "not IP 1",
        ):
            self.assertTrue(any(line in it for it in lines), (line, lines))
        self.assertEqual(lines[0], "7 packets of 2 captures")
        self.assertIn(lines[4].removesuffix(" most"), self.asked("--as-one", one, two, "flows 1"))
        keys = self.answer(one, "flows 2 by packets")["keys"]
        self.assertEqual(keys[0]["value"], 1)
        self.assertRegex(keys[0]["text"], "^TCP .* > ")

    def test_more_than_one_setup_takes(self) -> None:
        path = self.capture("many", [tcp(1, 2, port, 2) for port in range(1, 100)])
        texts = [it["text"] for it in self.answer(path, "flows 70 by packets")["keys"]]
        self.assertEqual(len(set(texts)), 70)
        self.assertTrue(
            all(it.startswith("TCP 10.0.0.1:") and it.endswith(" > 10.0.0.2:443") for it in texts)
        )

    def test_attributes_of_packet6_are_asked_for(self) -> None:
        path = self.capture("one", [frame(1) + bytes(6), frame(2, 443, 60, 2), frame(3, 443, 60, 18)])
        lines = self.asked(
            path, "count is_syn==1 and not is_ack==1", "top src by payload", "total payload where payload>0"
        )
        self.assertIn("1 54 54 54", lines)
        self.assertIn("1. 10.0.0.2 6", lines)
        self.assertIn("2 12 6 6", lines)

    def test_unanswered_connections(self) -> None:
        draw = random.Random(3)
        drawn = [
            tcp(1, 2, draw.randrange(60), draw.choice((2, 2, 18, 16)), draw.choice((80, 443)))
            for _ in range(120)
        ]
        paths = [self.capture("a", drawn[:50]), self.capture("b", drawn[50:])]
        for where, meant in (("", (80, 443)), (" where dport==443", (443,))):
            syns = [ports_of(it) for it in drawn if ports_of(it)[2] == 2 and ports_of(it)[1] in meant]
            answered = {(a, b) for a, b, _ in map(ports_back, drawn)}
            texts = [f"TCP 10.0.0.1:{a} > 10.0.0.2:{b}" for a, b, _ in syns if (a, b) not in answered]
            wanted = {it: texts.count(it) for it in texts}
            whole = len({it[:2] for it in syns})
            self.assertTrue(0 < len(wanted) < whole)
            for most in (1000, 5):
                with mock.patch("confluo_report.paired.MOST_TOP", most), mock.patch(
                    "confluo_report.ask.MOST_TOP", most
                ), mock.patch("confluo_report.questions.MOST_TOP", most):
                    for words in (paths, ["--as-one", *paths]):
                        found = self.answer(*words, f"unanswered {min(most, 1000)}{where}")
                        keys = {it["text"]: it["value"] for it in found["keys"]}
                        self.assertEqual(found["whole"], whole)
                        self.assertLessEqual(keys.items(), wanted.items())
                        self.assertEqual(len(keys), min(most, len(wanted)))
                        self.assertEqual(found["all"], len(keys) == len(wanted))

    def test_what_is_not_exact_is_refused_by_name(self) -> None:
        path = self.capture("a", [tcp(1, 2, port, 2) for port in range(1, 30)])
        with mock.patch("confluo_report.paired.MOST_TOP", 2), mock.patch(
            "confluo_report.ask.MOST_TOP", 2
        ), mock.patch("confluo_report.questions.MOST_TOP", 2), mock.patch(
            "confluo_report.paired.MOST_RUNS", 1
        ):
            ended = tool("ask", path, "unanswered 1")
        self.assertEqual((ended.status, ended.out), (2, ""))
        self.assertIn("`unanswered 1` cannot be answered exactly", ended.err)

    def test_refused_and_ignored_connections(self) -> None:
        frames = [tcp(1, 2, 5, 2), tcp(2, 1, 443, 20, 5), tcp(1, 3, 6, 2), tcp(1, 3, 6, 2), tcp(1, 4, 7, 2)]
        # The last one is answered; another has no SYN.
        frames += [tcp(1, 4, 7, 18), tcp(4, 1, 443, 4, 7), tcp(1, 9, 8, 4)]
        path = self.capture("refused", frames)
        lines = self.asked(path, "unanswered")
        self.assertEqual(
            lines[2:4], ["unanswered: 2 of 3 connections, 1 refused", "connection SYNs resets first SYN"]
        )
        self.assertEqual(lines[4], "1. TCP 10.0.0.1:6 > 10.0.0.3:443 2 0 1970-01-01 00:00:02Z")
        self.assertEqual(lines[5], "2. TCP 10.0.0.1:5 > 10.0.0.2:443 1 1 1970-01-01 00:00:00Z")
        self.assertEqual([it["resets"] for it in self.answer(path, "unanswered")["keys"]], [0, 1])
        # Of more connections with resets than can be counted exactly nothing is said.
        many = self.capture("many", [*frames, *(tcp(1, 9, port, 4) for port in range(100, 200))])
        with mock.patch("confluo_report.paired.MOST_TOP", 4), mock.patch(
            "confluo_report.ask.MOST_TOP", 4
        ), mock.patch("confluo_report.questions.MOST_TOP", 4), mock.patch(
            "confluo_report.paired.MOST_RUNS", 1
        ):
            lines = self.asked(many, "unanswered 2")
            self.assertEqual(lines[2], "unanswered 2: 2 of 3 connections")
            self.assertEqual(lines[4], "1. TCP 10.0.0.1:6 > 10.0.0.3:443 2 1970-01-01 00:00:02Z")
            self.assertNotIn("resets", self.answer(many, "unanswered 2")["keys"][0])

    def test_a_flood_is_unanswered(self) -> None:
        lines = self.asked(INCIDENTS / "syn_flood.pcap", "unanswered 1")
        self.assertEqual(lines[2], "unanswered 1: 96 of 169 connections, 0 refused")
        self.assertEqual(lines[5], "and 95 more")

    def test_pings(self) -> None:
        frames = [echo(1, 2, 8), echo(2, 1, 0), echo(1, 2, 8), echo(3, 2, 8)]
        # A request in two parts, one that is cut off before its type, and an answer without a request.
        frames += [
            echo(1, 4, 8, 0x2000),
            echo(1, 4, 0, 1),
            echo(4, 1, 0)[:34],
            echo(6, 5, 0),
            tcp(1, 2, 5, 2),
        ]
        path = self.capture("pings", frames)
        lines = self.asked(path, "pings")
        self.assertEqual(lines[2], "pings: 4")
        self.assertEqual(lines[4], "1. ICMP 10.0.0.1 > 10.0.0.2 2 1 1970-01-01 00:00:00Z")
        self.assertEqual(lines[7], "4. ICMP 10.0.0.6 > 10.0.0.5 0 1 1970-01-01 00:00:07Z")
        self.assertEqual(
            {it.split(" ", 1)[1] for it in lines[5:7]},
            {
                "ICMP 10.0.0.3 > 10.0.0.2 1 0 1970-01-01 00:00:03Z",
                "ICMP 10.0.0.1 > 10.0.0.4 1 0 1970-01-01 00:00:04Z",
            },
        )
        self.assertEqual(self.asked(path, "pings where src==10.0.0.3")[2], "pings where src==10.0.0.3: 1")

    def test_pings_of_real_traffic(self) -> None:
        lines = self.asked(DUAL_STACK, "pings")
        self.assertIn("1. ICMP 10.77.0.1 > 10.77.0.2 4 4 2026-11-30 07:01:40.152591Z", lines)
        self.assertIn("2. ICMPv6 fd77::1 > fd77::5 3 3 2026-11-30 07:01:40.570054Z", lines)

    def test_for_programs(self) -> None:
        words = (DUAL_STACK, "pings 1", "unanswered 2", "flows 1")
        found = json.loads("\n".join(self.asked("--json", *words)))
        pings, unanswered, flows = found["answers"]
        self.assertEqual((pings["kind"], pings["keys"][0]["answers"], pings["all"]), ("pings", 4, False))
        self.assertEqual((unanswered["whole"], len(unanswered["keys"])), (115, 2))
        self.assertEqual([it["resets"] for it in unanswered["keys"]], [0, 0])
        self.assertEqual(flows["keys"], [{"text": "TCP 10.77.0.1:39354 > 10.77.0.2:5201", "value": 139177}])
        rows = list(csv.DictReader(io.StringIO(tool("ask", "--csv", *words).out)))
        self.assertIn(
            ("answers of ICMP 10.77.0.1 > 10.77.0.2", "4"), [(it["key"], it["value"]) for it in rows]
        )
        try:
            import jsonschema
        except ImportError:
            return
        jsonschema.validate(found, json.loads((ROOT / "docs" / "report.schema.json").read_text()))

    def test_a_report_with_its_capture(self) -> None:
        setup, report, other = (self.folder / it for it in ("s.setup", "r.report", "o.pcap"))
        setup.write_text("schema packet6\ntally t flow len *\nask h top t sum 3\n")
        path = self.capture("one", [frame(1), frame(2) + bytes(20)])
        report.write_text(confluo("run", "--long", "--setup", setup, path).out)
        shown = tool("show", "--setup", setup, report).out
        self.assertRegex(shown, r"\n  1\.  [0-9]+ +74\n")
        shown = tool("show", "--setup", setup, "--capture", path, report).out
        self.assertIn("  1.  TCP 10.0.0.2:40002 > 10.0.1.10:80          74\n", shown)
        other.write_bytes(pcap([(1, frame(7)), (2, frame(8))]))
        self.assertIn("other conversations", tool("show", "--setup", setup, "--capture", other, report).err)
        setup.write_text(
            "schema packet6\ntally t flow len *\nfilter f *\naggregate a f len by flow\ntrigger x a count > 0\n"
            "ask g groups t\nask k groups a\nask w fired x\n"
        )
        report.write_text(confluo("run", "--long", "--setup", setup, path).out)
        shown = tool("show", "--setup", setup, "--capture", path, report).out
        self.assertEqual(shown.count("TCP 10.0.0.2:40002 > 10.0.1.10:80"), 4, shown)
        named = ("--setup", setup, "--capture", path, report)
        read = json.loads(tool("json", *named).out)
        keys, pairs, marks = (it.get("groups", it.get("marks")) for it in read["asks"])
        ends = [f"TCP 10.0.0.{it}:4000{it} > 10.0.1.10:80" for it in (1, 2)]
        self.assertEqual(sorted(it["text"] for it in keys), ends)
        for its in (pairs, marks, read["alerts"]):
            self.assertEqual([it["text"] for it in its], ends)
        table = tool("csv", *named).out
        self.assertEqual(table.count(",TCP 10.0.0.2:40002 > 10.0.1.10:80,"), 4, table)
        self.assertEqual(table.count("/TCP 10.0.0.2:40002 > 10.0.1.10:80,"), 6, table)
        self.assertNotIn("TCP", tool("csv", "--raw", *named).out)
        setup.write_text("schema packet6\ntally t flow len *\nask h top t sum 3\n")
        report.write_text(confluo("run", "--long", "--setup", setup, path).out)
        picture = self.folder / "p.svg"
        drawn = tool("plot", "--setup", setup, "--capture", path, "--out", picture, report)
        if "matplotlib is missing" not in drawn.err:
            self.assertEqual((drawn.status, drawn.err), (0, ""))
            self.assertIn("TCP 10.0.0.2:40002", picture.read_text())
        second = self.folder / "second.report"
        second.write_text(report.read_text())
        drawn = tool("plot", "--setup", setup, "--capture", path, "--out", picture, report, second)
        self.assertIn("--capture is for one report", drawn.err)


def ports_of(data: bytes) -> tuple[int, int, int]:
    """Ports and flags."""
    return (*struct.unpack_from(">HH", data, 34), data[47])


def ports_back(data: bytes) -> tuple[int, int, int]:
    """The ports of the connection that a SYN-ACK answers, or none."""
    source, target, flags = ports_of(data)
    return (target, source, flags) if flags == 18 else (-1, -1, flags)


if __name__ == "__main__":
    unittest.main()
