"""Aggregates by keys: their setups, and what the program prints of them as each command shows it."""

from __future__ import annotations

import json
import pathlib
import subprocess
import sys
import tempfile
import unittest
from unittest import mock

from support import EXAMPLES, ROOT, confluo, needs_program, tool

from confluo_report.errors import Complaint
from confluo_report.incoming import Incoming
from confluo_report.over_setup import Sum, plan_of, report_of, sum_of
from confluo_report.plot import by_bucket
from confluo_report.reports import Pair, RoundAlert, RoundCrowded, lines_of, parse
from confluo_report.setups import SetupFault, parse_setup
from confluo_report.states import Again, Forgotten

SETUP = """\
schema packet
filter f *
aggregate a f len by src
aggregate b f len
trigger t a count >= 2
trigger s a sum > 60
trigger u b count >= 3
ask x fired t
ask g groups a
ask y fired u
live x
"""
# Packets of 60 bytes from 10.0.0.1, 10.0.0.2, 10.0.0.1 in second 1 and from 10.0.0.2 in second 2.
REPORT = """\
records 4
ask x fired 1: 1/167772161=2
ask g groups 3: 1/167772161=2/120/60/60 1/167772162=1/60/60/60 2/167772162=1/60/60/60
ask y fired 1: 1=3
alert t 1/167772161 2
alert s 1/167772161 120
alert u 1 3
live x @4 fired 1: 1/167772161=2
new x @4 fired 1: 1/167772161=2
order 0*4
"""
WATCHED = """\
alert t 1/167772161 2 @3
crowded a 1 @3
alert u 1 3 @3
live x @0..4 fired 1: 1/167772161=2
at 4 2
total a count 4 sum 240
records 4
window 0
ask x fired 1: 1/167772161=2
ask g groups 3: 1/167772161=2/120/60/60 1/167772162=1/60/60/60 2/167772162=1/60/60/60
ask y fired 1: 1=3
alert t 1/167772161 2
alert s 1/167772161 120
alert u 1 3
"""
FRONT = "records 4\n"
BAD = (
    ("ask x fired 2: 1/7=2 1/7=3", "ascending"),
    ("ask x fired 2: 1/8=2 1/7=3", "ascending"),
    ("ask x fired 2: 2/1=2 1/7=3", "ascending"),
    ("ask x fired 2: 1=2 1/7=3", "with every bucket or with none"),
    ("ask x fired 1: 1/=2", "line 2"),
    ("ask x fired 1: /1=2", "line 2"),
    ("ask x fired 1: 1/2/3=2", "line 2"),
    ("ask x top 1: 1/2=2", "line 2"),
    ("ask g groups 1: 1/2/3=1/1/1/1", "line 2"),
    ("ask g groups 2: 1/3=1/1/1/1 1/2=1/1/1/1", "ascending"),
    ("alert t 1/2 3\nalert t 1/2 3", "ascending"),
    ("alert t 1 3\nalert t 1/2 3", "with every bucket of a trigger or with none"),
    ("alert t 1/2/3 3", "line 2"),
    ("crowded a 1 @3", "line 2"),
)


class Texts(unittest.TestCase):
    def test_they_come_back_to_the_byte(self) -> None:
        for text in (REPORT, WATCHED):
            self.assertEqual("".join(f"{it}\n" for it in lines_of(parse(text))), text)

    def test_what_is_none_is_refused(self) -> None:
        for lines, why in BAD:
            with self.subTest(lines=lines), self.assertRaisesRegex(Complaint, why):
                parse(f"{FRONT}{lines}\n", "r")


class Setups(unittest.TestCase):
    def test_rules(self) -> None:
        front = "schema packet\nfilter f *\naggregate k f len by src\n"
        for line, code in (
            ("aggregate a f len by dport", 0),
            ("aggregate a f len by ts", 0),
            ("aggregate a f len  by  src ", 0),
            ("trigger a k count > 1", 0),
            ("ask a groups k", 0),
            ("aggregate a f len by", 3),
            ("aggregate a f len of src", 3),
            ("aggregate a f len src", 3),
            ("aggregate a f len by src dst", 3),
            ("aggregate a f len by nosuch", 6),
            ("aggregate a f nosuch by dmac", 6),
            ("aggregate a f len by dmac", 8),
            ("aggregate a f dmac by src", 8),
            ("aggregate a f len by src6", 6),
            ("ask a measure k 0 9", 6),
            ("ask a between k 0 9", 6),
            ("ask a top k sum 3", 6),
            ("ask a find k 0 9", 6),
            ("aggregate a k len", 6),
        ):
            try:
                parse_setup(f"{front}{line}\n".encode())
                found = 0
            except SetupFault as fault:
                found = fault.fault.code
                self.assertEqual(fault.line, 4)
            self.assertEqual(found, code, line)

    def test_check_names_what_may_not_go_by_keys(self) -> None:
        ended = tool("check", "-", stdin=SETUP + "ask m measure a 0 9\n")
        self.assertEqual(ended.status, 1)
        self.assertIn("`a` is an aggregate by `src`, which only `trigger` and `groups` take", ended.out)
        ended = tool("check", "-", stdin=SETUP)
        self.assertEqual(ended.status, 0, ended.out)


class Commands(unittest.TestCase):
    def setUp(self) -> None:
        place = tempfile.TemporaryDirectory()
        self.addCleanup(place.cleanup)
        self.folder = pathlib.Path(place.name)
        (self.folder / "s").write_text(SETUP)
        for name, text in (("r", REPORT), ("w", WATCHED)):
            (self.folder / name).write_text(text)

    def run_tool(self, command: str, *words: str) -> str:
        ended = tool(command, "--setup", self.folder / "s", *words)
        self.assertEqual((ended.status, ended.err), (0, ""), words)
        return ended.out.replace(f"{self.folder}/", "")

    def test_show(self) -> None:
        out = self.run_tool("show", str(self.folder / "r"))
        for line in (
            "x  seconds with number of packets >= 2, of all packets by src: 1",
            "  second (UTC)         src       number of packets",
            "  1970-01-01 00:00:01  10.0.0.1                  2",
            "g  each second of all packets by src: 3",
            "  second (UTC)         src       packets  sum of len  least len  greatest len",
            "  1970-01-01 00:00:02  10.0.0.2        1          60         60            60",
            "  s        1970-01-01 00:00:01  10.0.0.1    120  sum of len > 60, of all packets by src",
            "  u        1970-01-01 00:00:01                3  number of packets >= 3, of all packets",
            "    of these new: 1970-01-01 00:00:01 10.0.0.1",
        ):
            self.assertRegex(out, rf"(?m)^{line.replace('(', '.').replace(')', '.')}")
        bare = tool("show", self.folder / "r").out
        self.assertRegex(bare, r"(?m)^  bucket  key +value\n  1 +167772161 +2$")
        self.assertRegex(bare, r"(?m)^  bucket  key +packets")

    def test_json(self) -> None:
        read = json.loads(self.run_tool("json", str(self.folder / "r")))
        mark = {"bucket": 1, "value": 2, "key": 167772161, "text": "10.0.0.1", "time": "1970-01-01 00:00:01Z"}
        self.assertEqual(read["asks"][0]["marks"], [mark])
        self.assertEqual(read["lives"][0]["new"], [mark])
        self.assertEqual(read["alerts"][0], {"trigger": "t", **mark})
        quad = {"count": 1, "sum": 60, "least": 60, "greatest": 60}
        group = {"bucket": 2, "key": 167772162, "text": "10.0.0.2", "time": "1970-01-01 00:00:02Z", **quad}
        self.assertEqual(read["asks"][1]["groups"][2], group)
        self.assertEqual(read["alerts"][2]["bucket"], 1)
        self.assertNotIn("key", read["alerts"][2])

    def test_csv_and_metrics(self) -> None:
        rows = self.run_tool("csv", str(self.folder / "r")).splitlines()
        for row in (
            "ask,,x,fired,,0,1970-01-01 00:00:01Z/10.0.0.1,2",
            "ask,,g,groups,,sum,1970-01-01 00:00:01Z/10.0.0.1,120",
            "alert,,s,,,,1970-01-01 00:00:01Z/10.0.0.1,120",
            "alert,,u,,,,1970-01-01 00:00:01Z,3",
        ):
            self.assertIn(row, rows)
        self.assertIn("alert,,s,,,,1/167772161,120", tool("csv", self.folder / "r").out.splitlines())
        rows = self.run_tool("prometheus", str(self.folder / "r")).splitlines()
        for row in (
            'confluo_fired_value{ask="x",kind="fired",bucket="1",key="10.0.0.1"} 2',
            'confluo_group_value{ask="g",kind="groups",bucket="2",key="10.0.0.2",part="sum"} 60',
            'confluo_alert_value{trigger="s",bucket="1",key="10.0.0.1"} 120',
            'confluo_alert_value{trigger="u",bucket="1"} 3',
            'confluo_alerts{trigger="s"} 1',
        ):
            self.assertIn(row, rows)

    def test_another_setup_is_named(self) -> None:
        path = self.folder / "s"
        path.write_text(SETUP.replace(" by src", ""))
        ended = tool("show", "--setup", path, self.folder / "r")
        self.assertEqual(ended.status, 2)
        self.assertIn("`x` has a key next to a bucket of `a`", ended.err)
        ended = tool("stream", "--setup", path, self.folder / "w")
        self.assertIn("setup: an alert of `t` has a key next to a bucket of `a`", ended.err)

    def test_merge(self) -> None:
        other = self.folder / "o"
        other.write_text(REPORT.replace("2/167772162=1/60/60/60", "1/167772163=1/60/60/60"))
        merged = self.run_tool("merge", str(self.folder / "r"), str(other))
        groups = (
            "1/167772161=4/240/60/60 1/167772162=2/120/60/60 1/167772163=1/60/60/60 2/167772162=1/60/60/60"
        )
        self.assertIn(f"ask g groups 4: {groups}\n", merged)
        self.assertIn("alert s 1/167772161 120 (r)\n", merged)
        (self.folder / "m").write_text(merged)
        read = json.loads(self.run_tool("json", str(self.folder / "m")))
        self.assertEqual((read["alerts"][1]["key"], read["alerts"][1]["report"]), (167772161, "r"))

    def test_stream(self) -> None:
        out = self.run_tool("stream", str(self.folder / "w"))
        for line in (
            "alert t  second 1970-01-01 00:00:01Z, src 10.0.0.1: 2 .fires at .*, of all packets by src., after 3 packets",
            "crowded a  second 1970-01-01 00:00:01Z has more than 65,536 different src: packets of others count only for",
            "alert u  second 1970-01-01 00:00:01Z: 3 ",
        ):
            self.assertRegex(out, rf"(?m)^{line}")
        lines = list(map(json.loads, self.run_tool("stream", "--json", str(self.folder / "w")).splitlines()))
        alert = {"kind": "alert", "trigger": "t", "bucket": 1, "value": 2, "prefix": 3}
        key = {"key": 167772161, "text": "10.0.0.1", "time": "1970-01-01 00:00:01Z"}
        self.assertEqual(lines[0], {"format": "confluo-report/1", **alert, **key})
        crowded = {"kind": "crowded", "name": "a", "bucket": 1, "prefix": 3, "time": "1970-01-01 00:00:01Z"}
        self.assertEqual(lines[1], {"format": "confluo-report/1", **crowded})

    def test_commands_and_metrics_of_a_stream(self) -> None:
        log, metrics = self.folder / "log", self.folder / "m.prom"
        command = f'echo "$CONFLUO_TRIGGER $CONFLUO_BUCKET $CONFLUO_KEY $CONFLUO_KEY_TEXT" >> {log}'
        self.run_tool("stream", "--exec", command, "--prometheus", str(metrics), str(self.folder / "w"))
        self.assertEqual(sorted(log.read_text().splitlines()), ["t 1 167772161 10.0.0.1", "u 1  "])
        self.assertIn('confluo_stream_crowded_total{aggregate="a"} 1\n', metrics.read_text())

    def test_the_schema_of_json(self) -> None:
        try:
            import jsonschema  # type: ignore[import]
        except ImportError:
            self.skipTest("jsonschema is missing: apt-get install python3-jsonschema")
        schema = json.loads((ROOT / "docs" / "report.schema.json").read_text())
        texts = [self.run_tool("json", str(self.folder / it)) for it in "rw"]
        texts += self.run_tool("stream", "--json", str(self.folder / "w")).splitlines()
        for text in texts:
            jsonschema.validate(json.loads(text), schema)

    def test_a_bucket_is_drawn_once(self) -> None:
        self.assertEqual(by_bucket([Pair(1, 5, 7), Pair(1, 9, 8), Pair(2, 3, 7)]), [Pair(1, 9), Pair(2, 3)])


class States(unittest.TestCase):
    """What is held back of a stream, and what is told of buckets that were forgotten."""

    def test_alerts_are_held_back_for_each_key(self) -> None:
        now, seen = [0.0], []
        again = Again([_Seen(seen)], 10, lambda: now[0])
        for moment, key in ((0, 1), (1, 2), (2, 1), (5, 1), (13, 2)):
            now[0] = moment
            again.pause()
            again.told(RoundAlert("t", 1, 5, 9, key))
        self.assertEqual(seen, [1, 2, 2])
        now[0] = 15
        again.pause()
        self.assertEqual(seen, [1, 2, 2, (1, 2, True)])
        self.assertEqual(again.rest(), 8)

    def test_another_key_of_a_bucket_is_not_told_again(self) -> None:
        forgotten = Forgotten()
        for key in (1, 2):
            forgotten.told(RoundAlert("t", 1, 5, 9, key))
        self.assertEqual(forgotten.warned, set())
        with mock.patch("confluo_report.states.report_trouble") as trouble:
            forgotten.told(RoundAlert("t", 1, 5, 9, 1))
        self.assertIn("packets of 8 others", trouble.call_args[0][0])

    def test_lines_are_read_as_they_come(self) -> None:
        incoming = Incoming("w", parse_setup(SETUP.encode()))
        told = list(incoming.feed(WATCHED.encode()))
        self.assertEqual(told[:2], [RoundAlert("t", 1, 2, 3, 167772161), RoundCrowded("a", 1, 3)])
        self.assertIsNotNone(incoming.end().report)


class _Seen(Again):
    """Keeps the keys of alerts, and key, count and end of what was held back."""

    def __init__(self, seen: list) -> None:
        super().__init__([], 0)
        self.seen = seen

    def told(self, it: object) -> None:
        self.seen.append(it.by)

    def held(self, it: object) -> None:
        if it.count:
            self.seen.append((it.last.by, it.count, it.is_over))


class Sums(unittest.TestCase):
    def test_thresholds_apply_to_the_sums_of_bucket_and_key(self) -> None:
        plan = plan_of(SETUP.encode())
        self.assertIn("trigger t a count >= 1\ntrigger s a sum >= 0\n", plan.text.decode())
        parts = (
            "records 2\nask g groups 2: 1/167772161=1/60/60/60 1/167772162=1/60/60/60\n"
            "alert t 1/167772161 1\nalert t 1/167772162 1\nalert s 1/167772161 60\nalert s 1/167772162 60\nalert u 1 2\n",
            "records 2\nask g groups 2: 1/167772161=1/60/60/60 2/167772162=1/60/60/60\n"
            "alert t 1/167772161 1\nalert t 2/167772162 1\nalert s 1/167772161 60\nalert s 2/167772162 60\nalert u 1 1\n"
            "alert u 2 1\n",
        )
        total = Sum()
        for at in (1, 0):
            total.add(sum_of(plan, (at, 0), parts[at], "part"), plan)
        text = "".join(f"{it}\n" for it in lines_of(report_of(plan, total)))
        self.assertEqual(text, REPORT[: REPORT.index("live")])


FLOOD = EXAMPLES / "flood"


@needs_program
class Flood(unittest.TestCase):
    """The example in which two of fifteen clients flood a resolver."""

    setup, capture, report = FLOOD / "flood.setup", FLOOD / "flood.pcap", (FLOOD / "flood.report").read_text()

    def test_the_capture_is_what_its_script_writes(self) -> None:
        with tempfile.NamedTemporaryFile() as file:
            subprocess.run([sys.executable, FLOOD / "make_capture.py", file.name], check=True)
            self.assertEqual(file.read(), self.capture.read_bytes())

    def test_runs(self) -> None:
        for words in (("--writers", 1), ("--writers", 4), ("--long", "--writers", 1, "--capacity", 100)):
            ended = confluo("run", "--setup", self.setup, *words, self.capture)
            final = "".join(it for it in ended.out.splitlines(True) if not it.startswith("order"))
            self.assertEqual((ended.status, final), (0, self.report), words)

    def test_each_client_is_told_once_for_a_second(self) -> None:
        ended = confluo("watch", "--setup", self.setup, self.capture)
        told = [it.rpartition(" @") for it in ended.out.splitlines() if it.startswith("alert") and " @" in it]
        alerts = [it for it in self.report.splitlines() if it.startswith("alert")]
        self.assertEqual([front for front, _, _ in told], alerts)
        self.assertEqual(
            ended.out.partition("records ")[2], f"456\nwindow 0\n{self.report.partition(chr(10))[2]}"
        )


if __name__ == "__main__":
    unittest.main()
