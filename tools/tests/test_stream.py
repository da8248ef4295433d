"""The text of `watch` as it comes: words, JSON lines, metrics and commands; and its whole text in the other commands."""

import array
import contextlib
import fcntl
import io
import json
import os
import pathlib
import re
import select
import signal
import socket
import subprocess
import tempfile
import termios
import time
import unittest
from typing import IO
from unittest import mock

from support import REPORT, ROOT, SNAPSHOT, TOOLS, tool

from confluo_report.commands import WordsFault, parse_words
from confluo_report.errors import Complaint
from confluo_report.incoming import Ending, Incoming
from confluo_report.outputs import Held, Output, Silent, Stopper, WordLines, json_line
from confluo_report.reports import RoundAlert, RoundBeat, RoundTotal, lines_of, parse
from confluo_report.setups import parse_setup
from confluo_report.show import Viewer
from confluo_report.states import Again, Forgotten, Silence
from confluo_report.tcpdump import Notes
from confluo_report.textfile import Textfile, unread
from confluo_report.watchdog import Watchdog, watchdog_of

SETUP = """\
schema packet
filter f *
aggregate a f len
trigger t a sum > 50
ask q list len>=1
live q
"""
# The texts of `watch` for the same two packets: in one read, in two, with a window of one record, and cut off.
ONE = """\
alert t 1 60 @2
alert t 2 100 @2
live q @0..2 list 2: 0 1
records 2
window 0
ask q list 2: 0 1
alert t 1 60
alert t 2 100
"""
TWO = """\
alert t 1 60 @1
live q @0..1 list 1: 0
alert t 2 100 @2
live q @0..2 list 2: 0 1
records 2
window 0
ask q list 2: 0 1
alert t 1 60
alert t 2 100
"""
NARROW = """\
alert t 1 60 @1
live q @0..1 list 1: 0
alert t 2 100 @2
live q @1..2 list 1: 1
records 2
window 1
ask q list 1: 1
alert t 2 100
"""
FAULT = "alert t 1 60 @1\ncapture: record 1 code 5\n"
CUT = "alert t 1 60 @1\nrecords 1\nwindow 0\nask q list 1: 0\nalert t 1 60\ntruncated: record 1\n"
EMPTY = "records 0\nwindow 0\nask q list 0:\n"
# With each kind of answer.
KINDS = """\
alert t 1700000000 32616 @225
live p @0..225 measure count 3 sum 190 least 60 greatest 70
live z @0..225 total count 0 sum 0 least - greatest -
live g @0..225 fired 2: 1=90 2=100
live h @0..225 top 2: 167772161=120 167772162=70
records 300
window 0
"""
# With `--beat 1`, in two reads.
BEATS = """\
alert t 1 60 @1
at 1 1
total a count 1 sum 60
alert t 2 100 @2
live q @0..2 list 2: 0 1
at 2 2
total a count 2 sum 160
records 2
window 0
ask q list 2: 0 1
alert t 1 60
alert t 2 100
"""
WHOLE = (ONE, TWO, NARROW, CUT, EMPTY, KINDS, BEATS)
BAD = (
    ("alert t 1 60 @1\n", "ends after line 1"),
    ("alert t 1 60\n", "`alert TRIGGER BUCKET VALUE @T`"),
    ("live q @1 list 1: 0\n", "`live NAME @F..T ..`"),
    ("live q @2..1 list 0:\n", "a window that is none before"),
    ("alert t 1 60 @2\nalert t 2 60 @1\nrecords 2\nwindow 0\n", "line 2"),
    ("live q @1..2 list 1: 0\n", "from 1 and below 2"),
    ("live q @0..2 list 1: 2\n", "below 2"),
    ("alert t 1 60 @2\nrecords 1\nwindow 0\n", "at least 2"),
    ("alert t 1 60 @2\nrecords 2\n", "`window F`"),
    ("live q @1..2 list 1: 1\nrecords 2\nwindow 0\n", "a window from 1 on"),
    ("records 2\nwindow 3\n", "at most 2 records"),
    ("records 2\nwindow 1\nask q list 1: 0\n", "from 1 and below 2"),
    ("records 2\nwindow 0\norder 0*2\n", "in the order records, window"),
    ("at 1\n", "`at T S`"),
    ("at 1 1\nat 1 1\n", "a beat after more records than the 1 of the one before"),
    ("live q @0..2 list 0:\nat 1 1\n", "a window that is none before 0..2"),
    ("total a count 1 sum 60\n", "`at T S`, the first line of a beat"),
    ("at 1 1\nalert t 1 60 @1\ntotal a count 1 sum 60\n", "`at T S`, the first line of a beat"),
    ("at 1 1\ntotal a count 1 sum 60\ntotal a count 1 sum 60\n", "before each aggregate once"),
    ("at 1 1\ntotal a count 2 sum 60\n", "a count from 0, the last one, to 1"),
    ("at 2 1\ntotal a count 2 sum 9\nat 3 1\ntotal a count 1 sum 9\n", "a count from 2, the last one, to 3"),
    ("at 1 1\ntotal a count 1 sum -\n", "`total NAME count C sum U`"),
    (FAULT, "a refusal: capture: record 1 code 5"),
)


class Folder(unittest.TestCase):
    def setUp(self) -> None:
        self.place = tempfile.TemporaryDirectory()
        self.addCleanup(self.place.cleanup)
        self.setup = self.file("s", SETUP)

    def file(self, name: str, text: str) -> str:
        path = pathlib.Path(self.place.name, name)
        path.write_text(text)
        return str(path)


class Texts(Folder):
    def test_a_whole_text_is_read_to_the_byte(self) -> None:
        for text in WHOLE:
            self.assertEqual("".join(f"{it}\n" for it in lines_of(parse(text))), text)

    def test_what_is_none_is_named(self) -> None:
        for text, why in BAD:
            with self.subTest(text=text), self.assertRaisesRegex(Complaint, re.escape(why)):
                parse(text, "r")

    def test_other_commands_read_it(self) -> None:
        for text in (ONE, TWO, NARROW, CUT, EMPTY, BEATS):
            for command in ("show", "json", "csv", "prometheus"):
                ended = tool(command, "--setup", self.setup, stdin=text)
                self.assertEqual((ended.status, ended.err), (0, ""), (command, text))
        out = tool("show", "--setup", self.setup, stdin=NARROW).out
        self.assertIn("2 packets; the answers are on the last 1, from number 1\n", out)
        read = json.loads(tool("json", stdin=NARROW).out)
        self.assertEqual((read["records"], read["window"], len(read["told"])), (2, 1, 4))
        rows = tool("csv", stdin=NARROW).out.splitlines()
        for row in ("alert,,t,,1,,1,60", "live,,q,list,1..2,0,1,", "window,,,,,,,1", "alert,,t,,,,2,100"):
            self.assertIn(row, rows)
        rows = tool("csv", stdin=BEATS).out.splitlines()
        for row in ("at,,,,2,,2,", "total,,a,,2,,count,2", "total,,a,,2,,sum,160"):
            self.assertIn(row, rows)
        self.assertIn(
            "Totals  after 2 packets\n  aggregate  packets  sum\n  a                2  160  sum of len, of all packets\n",
            tool("show", "--setup", self.setup, stdin=BEATS).out,
        )
        self.assertIn("confluo_window_record 1\n", tool("prometheus", "--brief", stdin=NARROW).out)
        self.assertIn("not merged", tool("merge", self.file("a", ONE), self.file("b", ONE)).err)
        other = self.file("o", SETUP.replace("trigger t", "trigger u"))
        self.assertIn("not a report of this setup", tool("show", "--setup", other, stdin=ONE).err)

    def test_json_meets_its_schema(self) -> None:
        try:
            import jsonschema
        except ImportError:
            self.skipTest("the Python package jsonschema is missing: apt-get install python3-jsonschema")
        schema = json.loads((ROOT / "docs" / "report.schema.json").read_text())
        for text in WHOLE:
            jsonschema.validate(json.loads(tool("json", stdin=text).out), schema)
        twice = "alert t 1 60 @1\nalert t 2 60 @2\nrecords 2\nwindow 0\n"
        words = ("stream", "--json", "--beats", "--again", "60")
        for text in (*WHOLE, FAULT, twice):
            for line in tool(*words, self.file("w", text)).out.splitlines():
                jsonschema.validate(json.loads(line), schema)
        for is_over in (False, True):
            jsonschema.validate(json.loads(json_line(Silent(2, 60, is_over))), schema)

    def test_refusals(self) -> None:
        for line, said in (
            ("capture: record 1 code 5", "stopped in the middle (code 5)"),
            ("capture: record 0 code 1", "tcpdump -U -w -"),
            ("capture: record 0 code 3", "tcpdump -i any -y LINUX_SLL -U -w -"),
            ("full: more than 9007199254740991 records", "More than 9007199254740991 records came"),
            ("nodes: more than 29 nodes", "256 nodes are enough"),
        ):
            self.assertIn(said, tool("explain", stdin=f"alert t 1 60 @1\n{line}\n").out)
        out = tool("explain", "--status", "8", "--command", "confluo watch --setup s /dev/stdin").out
        self.assertIn("confluo watch --setup s --capacity 4096", out)
        records = self.file("r", "schema records ts:u64\n")
        out = tool("explain", "--setup", records, stdin="setup: line 1 code 4\n").out
        self.assertIn("`watch` and `synth` are only over packets", out)

    def test_words(self) -> None:
        for text, why in (
            ("watch --setup s --segments 17 c", "above 1048576"),
            ("watch --setup s --every 4294967296 c", "from 0 to 4294967295"),
            ("watch --setup s --beat 4294967296 c", "from 0 to 4294967295"),
            ("run --setup s --beat 1 c", "not an option of `run`"),
            ("run --long --setup s --segments 2 c", "`run --long` has no --segments"),
            ("run --setup s --long --live 0 c", "`run --long` has no --live"),
            ("synth --setup s --seed 1 --count 1 --long", "not an option of `synth`"),
            ("run --setup s a b", "takes one capture"),
            ("run --long --setup s", "the capture is missing"),
            ("watch --setup s --writers 1 c", "not an option of `watch`"),
            ("watch c", "--setup is missing"),
        ):
            with self.assertRaisesRegex(WordsFault, re.escape(why)):
                parse_words(text.split())
        command = parse_words("watch --setup s --capacity 5 --truncated c".split())
        long = parse_words("run --setup s a --long --capacity 5 b".split())
        self.assertEqual(
            (long.captures, long.number("nodes"), long.number("capacity")), (["a", "b"], 65536, 5)
        )
        options = ("segments", "nodes", "every", "beat")
        self.assertEqual([command.number(it) for it in options], [4, 65536, 4096, 0])


class Streams(Folder):
    def stream(self, text: str, *words: str) -> tuple[int, str, str]:
        ended = tool("stream", *words, self.file("w", text))
        return ended.status, ended.out, ended.err

    def test_words_for_people(self) -> None:
        status, out, err = self.stream(NARROW, "--setup", self.setup)
        self.assertEqual((status, err), (0, ""))
        fires = "(fires at sum of len > 50, of all packets)"
        self.assertEqual(
            out.splitlines()[:6],
            [
                f"alert t  second 1970-01-01 00:00:01Z: 60 {fires}, after 1 packets",
                "live q  packets with len>=1: 1, after 1 packets",
                "  0",
                f"alert t  second 1970-01-01 00:00:02Z: 100 {fires}, after 2 packets",
                "live q  packets with len>=1: 1, after 2 packets on those from number 1",
                "  1",
            ],
        )
        self.assertIn("2 packets; the answers are on the last 1, from number 1\n", out)
        self.assertIn("alert t  bucket 1: 60, after 2 packets\n", self.stream(ONE)[1])
        self.assertNotIn("Alerts", out)
        grown = self.stream(ONE.replace("alert t 2 100\n", "alert t 2 120\n"))[1]
        self.assertIn("Alerts\n  trigger  bucket  value\n  t        2         120\n", grown)
        self.assertEqual(self.stream(ONE, "--quiet"), (0, "", ""))

    def test_beats_are_shown_if_asked_for(self) -> None:
        wanted = [
            "beat  after 2 packets, the last of 1970-01-01 00:00:02Z",
            "total a  2 packets, sum of len 160",
        ]
        plain = "".join(f"{it}\n" for it in BEATS.splitlines() if not it.startswith(("at ", "total ")))
        shown = [self.stream(it, "--setup", self.setup)[1] for it in (BEATS, plain)]
        self.assertEqual(shown[0], shown[1])
        lines = self.stream(BEATS, "--setup", self.setup, "--beats")[1].splitlines()
        self.assertEqual([it for it in lines if it.startswith(("beat", "total"))][2:], wanted)
        found = [json.loads(it) for it in self.stream(BEATS, "--json", "--beats")[1].splitlines()]
        kinds = ["alert", "beat", "total", "alert", "live", "beat", "total", "report"]
        self.assertEqual([it["kind"] for it in found], kinds)
        beat = {"prefix": 1, "seconds": 1, "time": "1970-01-01 00:00:01Z"}
        self.assertEqual(found[1], {"format": "confluo-report/1", "kind": "beat", **beat})
        total = {"name": "a", "count": 1, "sum": 60, "prefix": 1}
        self.assertEqual(found[2], {"format": "confluo-report/1", "kind": "total", **total})
        self.assertNotIn("beat", self.stream(BEATS, "--json")[1])

    def test_json_lines(self) -> None:
        _, out, _ = self.stream(TWO, "--json", "--setup", self.setup)
        found = [json.loads(it) for it in out.splitlines()]
        self.assertEqual([it["kind"] for it in found], ["alert", "live", "alert", "live", "report"])
        alert = {"kind": "alert", "trigger": "t", "bucket": 1, "value": 60, "prefix": 1}
        alert |= {"time": "1970-01-01 00:00:01Z"}
        self.assertEqual(found[0], {"format": "confluo-report/1", **alert})
        live = {"kind": "live", "name": "q", "first": 0, "prefix": 2}
        answer = {"kind": "list", "records": [0, 1]}
        self.assertEqual(found[3], {"format": "confluo-report/1", **live, "answer": answer})

    def test_ends(self) -> None:
        for text, status, said in (
            (CUT, 0, ""),
            (EMPTY, 0, ""),
            (FAULT, 3, "ended before its end: capture: record 1 code 5"),
            ("", 10, "there is no final part"),
            ("alert t 1 60 @1\n", 10, "there is no final part"),
            ("alert t 1 60 @1\nali", 10, "the last line is cut off"),
            (ONE[: ONE.index("ask")], 10, "the final part is cut off"),
            ("words: not a command\n", 1, "words: not a command"),
            ("setup: line 2 code 10\n", 2, "setup: line 2 code 10"),
            ("full: more than 4294967295 records\n", 6, "full: more"),
            ("alert t 1 60 @1\nnodes: more than 29 nodes\n", 7, "nodes: more than 29 nodes"),
            ("file: none of that name\n", 9, "file: none"),
            ("alert u 1 60 @1\n", 11, "no trigger `u`"),
            ("live t @0..1 list 1: 0\n", 11, "no `t list` is live"),
            ("at 1 1\ntotal b count 1 sum 60\n", 11, "no aggregate `b`"),
            (BEATS[: BEATS.index("records")] + "nodes: more than 29 nodes\n", 7, "nodes: more than 29 nodes"),
            ("nothing\n", 11, "line 1 is not one that `watch` writes"),
            ("alert t 1 60 @1\n\xff\n", 11, "line 2 is not ASCII"),
            ("records 2\nask q list 0:\norder 0*2\n", 11, "a report of `confluo run`"),
        ):
            with self.subTest(text=text):
                found = self.stream(text, "--setup", self.setup, "--quiet")
                self.assertEqual(found[0], status)
                self.assertIn(said, found[2])
        self.assertIn("(code 5)", self.stream(FAULT)[1])
        faulty = self.file("f", "schema packet\nfilter f len=\n")
        self.assertEqual(self.stream("", "--setup", faulty)[0], 2)
        self.assertEqual(self.stream("", "--setup", "/no/such")[0], 9)

    def test_what_came_before_a_fault_is_shown(self) -> None:
        status, out, _ = self.stream("alert t 1 60 @1\nnothing\n")
        self.assertEqual((status, out), (11, "alert t  bucket 1: 60, after 1 packets\n"))

    def test_pieces_change_nothing(self) -> None:
        whole = list(Incoming("w").feed(TWO.encode()))
        for size in range(1, 40):
            incoming, found = Incoming("w", parse_setup(SETUP.encode())), []
            for at in range(0, len(TWO), size):
                found += incoming.feed(TWO[at : at + size].encode())
            self.assertEqual(found, whole)
            self.assertEqual(incoming.end().report, parse(TWO[TWO.index("records") :]))

    def test_the_last_beat_of_a_piece_is_enough(self) -> None:
        beats = "".join(f"at {at} 1\ntotal a count {at} sum {at}\n" for at in range(1, 50))
        last = [RoundBeat(49, 1), RoundTotal("a", 49, 49, 49)]
        self.assertEqual(list(Incoming("w", None, False).feed(beats.encode())), last)
        self.assertEqual(len(list(Incoming("w").feed(beats.encode()))), 98)
        for size in range(1, 100):
            incoming, found = Incoming("w", None, False), []
            for at in range(0, len(beats), size):
                found += incoming.feed(beats[at : at + size].encode())
            self.assertEqual(found[-2:], last)
        incoming = Incoming("w", None, False)
        self.assertEqual(len(list(incoming.feed(f"alert t 1 60 @1\n{beats}".encode()))), 3)
        with self.assertRaisesRegex(Complaint, "line 101 is not one"):
            list(incoming.feed(b"at 50 1\nnothing\n"))

    def test_a_line_without_an_end(self) -> None:
        with self.assertRaisesRegex(Complaint, "line 1 has no end"):
            list(Incoming("w").feed(bytes(2**24 + 1)))

    def test_metrics(self) -> None:
        path = pathlib.Path(self.place.name, "m.prom")
        self.stream(NARROW, "--setup", self.setup, "--prometheus", str(path), "--label", "site=a")
        lines = path.read_text().splitlines()
        for line in (
            "# TYPE confluo_stream_alerts_total counter",
            'confluo_stream_running{site="a"} 0',
            "# TYPE confluo_records_total counter",
            'confluo_records_total{site="a"} 2',
            'confluo_window_record{site="a"} 1',
            'confluo_stream_alerts_total{site="a",trigger="t"} 2',
            'confluo_stream_alert_bucket_number{site="a",trigger="t"} 2',
            'confluo_stream_alert_seconds{site="a",trigger="t"} 2',
            'confluo_stream_alert_value{site="a",trigger="t"} 100',
            'confluo_live_found_records{site="a",ask="q",kind="list"} 1',
        ):
            self.assertIn(line, lines)
        self.stream(FAULT, "--prometheus", str(path))
        self.assertIn('confluo_stream_fault{fault="capture"} 5\n', path.read_text())
        self.stream(EMPTY, "--setup", self.setup, "--prometheus", str(path))
        self.assertIn('confluo_stream_alerts_total{trigger="t"} 0\n', path.read_text())
        self.stream(f"alert t {2**63} 5 @1\n", "--prometheus", str(path))
        self.assertNotIn("alert_bucket", path.read_text())
        self.stream(BEATS, "--setup", self.setup, "--prometheus", str(path), "--silence", "60")
        lines = path.read_text().splitlines()
        aggregate = '{aggregate="a",filter="f",measure="len"}'
        for line in (
            "confluo_last_packet_seconds 2",
            "# TYPE confluo_aggregate_records_total counter",
            f"confluo_aggregate_records_total{aggregate} 2",
            "# TYPE confluo_aggregate_sum_total counter",
            f"confluo_aggregate_sum_total{aggregate} 160",
            "confluo_stream_silent 0",
        ):
            self.assertIn(line, lines)
        self.stream(f"at 1 1\ntotal a count 1 sum {2**64 - 1}\n", "--prometheus", str(path))
        self.assertIn(f'confluo_aggregate_sum_total{{aggregate="a"}} {2**53 - 1}\n', path.read_text())
        status, out, err = self.stream(ONE, "--prometheus", "/no/such/folder/m.prom")
        self.assertEqual(status, 0)
        self.assertIn("cannot be written", err)
        self.assertIn("2 packets", out)
        self.assertEqual(sorted(os.listdir(self.place.name)), ["m.prom", "s", "w"])

    @unittest.skipUnless(
        os.path.exists("/usr/bin/promtool"), "promtool is missing: apt-get install prometheus"
    )
    def test_promtool_finds_nothing(self) -> None:
        path = pathlib.Path(self.place.name, "m.prom")
        said = self.file(
            "n", "tcpdump: 2 packets captured, 3 packets received by filter, 1 packet dropped by kernel\n"
        )
        words = ("--prometheus", str(path), "--exec", "true", "--silence", "60", "--tcpdump", said)
        for text in (*WHOLE, FAULT):
            self.stream(text, "--setup", self.setup, *words)
            self.must_be_good(path.read_bytes())
            if text != FAULT:
                self.must_be_good(tool("prometheus", "--lists", stdin=text).out.encode())
        self.must_be_good(tool("prometheus", "--lists", "--label", "host=a", stdin=REPORT).out.encode())
        self.must_be_good(tool("prometheus", "--lists", stdin=SNAPSHOT).out.encode())

    def must_be_good(self, metrics: bytes) -> None:
        done = subprocess.run(["promtool", "check", "metrics"], input=metrics, capture_output=True)
        self.assertEqual((done.returncode, done.stdout + done.stderr), (0, b""))


class Shown(Output):
    """Notes what is handed on."""

    def __init__(self) -> None:
        self.found = list[object]()

    def told(self, it: RoundAlert) -> None:
        self.found.append(it.bucket)

    def held(self, it: Held) -> None:
        self.found.append((it.trigger, it.count, it.last.bucket, it.is_over))

    def silent(self, it: Silent) -> None:
        self.found.append((it.prefix, it.seconds, it.is_over))


class Holding(unittest.TestCase):
    """A trigger that was told is held back for some seconds."""

    def test_alerts_are_held_back_and_counted(self) -> None:
        time_now, shown = [0.0], Shown()
        again = Again([shown], 10, lambda: time_now[0])
        # When, the trigger and the bucket of an alert; none: only the time passes.
        for now, trigger, bucket in (
            (0, "t", 1),
            (3, "t", 2),
            (4, "u", 3),
            (9, "t", 4),
            (10, "t", 5),
            (13, None, 0),
            (14, None, 0),
            (20, None, 0),
        ):
            time_now[0] = now
            if trigger:
                again.told(RoundAlert(trigger, bucket, 60, bucket))
            again.pause()
        told = [1, 3, ("t", 2, 4, False), 5, ("u", 0, 3, True), ("t", 0, 5, True)]
        self.assertEqual(shown.found, told)
        self.assertIsNone(again.rest())

    def test_what_is_held_at_the_end_is_told(self) -> None:
        for has_ended in (True, False):
            shown = Shown()
            again = Again([shown], 10, lambda: 0.0)
            for bucket in (1, 2):
                again.told(RoundAlert("t", bucket, 60, bucket))
            if has_ended:
                again.end(Ending())
            again.close()
            self.assertEqual(shown.found, [1, ("t", 1, 2, False)])


class Watching(Folder):
    """Silence, buckets that were forgotten, and what tcpdump says."""

    def test_silence_is_told_once_and_its_end_too(self) -> None:
        now, shown = [0.0], Shown()
        silence = Silence([shown], 10, lambda: now[0])
        # When, and how many records have come; None: nothing waits to be read.
        for time_now, prefix in (
            (9, None),
            (10, None),
            (30, None),
            (31, 5),
            (40, None),
            (40.5, 5),
            (41, None),
            (60, None),
            (75, 6),
            (84, 7),
            (93, None),
        ):
            now[0] = time_now
            if prefix is None:
                silence.idle()
            else:
                silence.told(RoundAlert("t", prefix, 60, prefix))
        ends = [(0, 10, False), (0, 31, True), 5, 5, (5, 10, False), (5, 44, True), 6, 7]
        self.assertEqual(shown.found, ends)
        self.assertEqual(silence.rest(), 1)

    def test_silence_goes_everywhere(self) -> None:
        path = pathlib.Path(self.place.name, "m.prom")
        file = Textfile(str(path), {}, None)
        lines = io.StringIO()
        words = WordLines(lines, Viewer(None), None)
        for it in (Silent(225, 60, False), Silent(225, 83, True)):
            for output in (file, words):
                output.silent(it)
            file.close()
            self.assertIn(f"confluo_stream_silent {int(not it.is_over)}\n", path.read_text())
        words.pause()
        self.assertEqual(
            lines.getvalue(),
            "silence  no packet for 60 seconds, after 225 packets\n"
            "silence  over: packets come again, after 225 packets and 83 seconds without one\n",
        )
        found = {"kind": "silence", "over": False, "seconds": 60, "prefix": 225}
        self.assertEqual(
            json.loads(json_line(Silent(225, 60, False))), {"format": "confluo-report/1", **found}
        )

    def test_a_bucket_that_was_forgotten(self) -> None:
        for buckets, warnings in (
            (range(5000), 0),
            ([1, 2, 1], 1),
            ([1, 2, 1, 1, 2], 1),
            ([*range(5000), 0], 1),
        ):
            text = "".join(f"alert t {it} 60 @{at}\n" for at, it in enumerate(buckets, 1))
            ended = tool("stream", "--quiet", self.file("w", text))
            self.assertEqual(ended.err.count("`watch` had forgotten this bucket"), warnings)
        forgotten = Forgotten()
        for at in range(3 * 8192):
            forgotten.told(RoundAlert("t", at, 60, at))
        self.assertEqual(len(forgotten.seen["t"]), 8192)

    def test_systemd_is_told_that_the_stream_goes_on(self) -> None:
        now, path = [0.0], f"{self.place.name}/notify"
        with socket.socket(socket.AF_UNIX, socket.SOCK_DGRAM) as heard:
            heard.bind(path)
            heard.setblocking(False)
            watchdog = Watchdog(path, 10, lambda: now[0])
            for moment, count in ((0, 1), (4.9, 0), (5, 1), (20, 1), (21, 0)):
                now[0] = moment
                watchdog.pause()
                if count:
                    self.assertEqual(heard.recv(99), b"WATCHDOG=1")
                self.assertRaises(BlockingIOError, heard.recv, 99)
            self.assertEqual(watchdog.rest(), 4)
        now[0] = 99
        watchdog.pause()
        for environment in ({}, {"NOTIFY_SOCKET": path}, {"NOTIFY_SOCKET": path, "WATCHDOG_USEC": "0"}):
            self.assertIsNone(watchdog_of(environment))
        made = watchdog_of({"NOTIFY_SOCKET": "@name", "WATCHDOG_USEC": "180000000", "WATCHDOG_PID": "1"})
        assert made
        self.assertEqual((made.address, made.step), ("\0name", 90))

    def test_counts_of_tcpdump(self) -> None:
        line = "{} packets captured, {} packets received by filter, {} packet dropped by kernel"
        text = (
            "tcpdump: listening on eth0, link-type EN10MB (Ethernet), snapshot length 128 bytes\n"
            f"tcpdump: {line.format(5, 6, 0)}\ntcpdump: {line.format(9, 10, 1)}\ntcpdump: {line.format(11, 12, 1)}\n"
            "13 packets captured\n14 packets received by filter\n1 packet dropped by kernel\n2 packets dropped by interface\n"
        )
        path, said = pathlib.Path(self.place.name, "m.prom"), io.StringIO()
        notes = Notes(self.file("n", text))
        with contextlib.redirect_stderr(said):
            while notes.fd is not None:
                notes.read()
        Textfile(str(path), {}, None, counts=notes.counts).close()
        for line in (
            "confluo_captured_packets_total 13",
            "confluo_received_packets_total 14",
            'confluo_dropped_packets_total{by="kernel"} 1',
            'confluo_dropped_packets_total{by="interface"} 2',
        ):
            self.assertIn(f"{line}\n", path.read_text())
        # Counts that were asked for are handed on if packets were dropped since; all else is.
        told = [it.partition(": tcpdump: ")[2][:20] for it in said.getvalue().splitlines()]
        wanted = ["listening on eth0, l", "9 packets captured, ", "13 packets captured"]
        wanted += ["14 packets received ", "1 packet dropped by ", "2 packets dropped by"]
        self.assertEqual(told, wanted)
        self.assertIn("cannot be read", tool("stream", "--tcpdump", "/no/such", stdin=ONE).err)


class AsAProcess(Folder):
    """What needs a pipe, signals and commands."""

    def start(self, *words: str, stderr: int = subprocess.PIPE) -> subprocess.Popen:
        process = subprocess.Popen(
            [TOOLS / "confluo-report", "stream", *words],
            stdin=subprocess.PIPE,
            stdout=subprocess.PIPE,
            stderr=stderr,
        )
        self.addCleanup(self.finish, process)
        return process

    def finish(self, process: subprocess.Popen) -> None:
        process.kill()
        process.wait()
        for it in (process.stdin, process.stdout, process.stderr):
            if it:
                it.close()

    def line(self, process: subprocess.Popen, seconds: float = 60) -> str:
        ready, _, _ = select.select([process.stdout], [], [], seconds)
        self.assertTrue(ready, "no line came")
        return process.stdout.readline().decode()

    def send(self, process: subprocess.Popen, text: str) -> None:
        process.stdin.write(text.encode())
        process.stdin.flush()

    def until(self, holds, seconds: float = 60) -> None:
        late = time.monotonic() + seconds
        while not holds():
            self.assertLess(time.monotonic(), late)
            time.sleep(0.02)

    def test_lines_come_at_once_and_sigterm_ends_it(self) -> None:
        path = pathlib.Path(self.place.name, "m.prom")
        process = self.start("--setup", self.setup, "--prometheus", str(path))
        self.send(process, "alert t 1 60 @1\nalert t 2")
        self.assertIn("second 1970-01-01 00:00:01Z: 60", self.line(process))
        self.send(process, " 100 @2\n")
        self.assertIn("second 1970-01-01 00:00:02Z: 100", self.line(process))
        self.until(lambda: path.exists() and 'alerts_total{trigger="t"} 2' in path.read_text())
        self.assertIn("running 1", path.read_text())
        process.send_signal(signal.SIGTERM)
        self.assertEqual(process.wait(60), 0)
        self.assertIn("running 0", path.read_text())
        self.assertEqual(process.stderr.read(), b"")

    def test_silence_in_a_stream(self) -> None:
        out = pathlib.Path(self.place.name, "out")
        command = f'echo "$CONFLUO_KIND $CONFLUO_OVER $CONFLUO_RECORDS" >> {out}'
        process = self.start("--silence", "1", "--exec", command, "--exec-limit", "1")
        self.send(process, "at 5 1\n")
        self.assertEqual(self.line(process), "silence  no packet for 1 second, after 5 packets\n")
        self.send(process, "at 6 2\n")
        self.assertIn("silence  over: packets come again, after 5 packets and ", self.line(process))
        self.until(lambda: out.exists() and len(out.read_text().splitlines()) == 2)
        self.assertEqual(out.read_text().splitlines(), ["silence 0 5", "silence 1 5"])

    def test_a_stop_while_its_bytes_are_taken_can_be_waited_for(self) -> None:
        take = os.read
        with Stopper() as stopper:

            def read(fd: int, size: int) -> bytes:
                os.kill(os.getpid(), signal.SIGTERM)
                return take(fd, size)

            with mock.patch("os.read", read):
                os.kill(os.getpid(), signal.SIGCHLD)
                stopper.drain()
            self.assertTrue(stopper.is_stopped)
            self.assertTrue(select.select([stopper.fd], [], [], 0)[0])

    def test_what_waits_to_be_read_is_a_metric(self) -> None:
        read, write = os.pipe()
        os.write(write, b"alert t 1")
        self.assertEqual((unread(read), unread(os.open("/dev/null", os.O_RDONLY))), (9, 0))
        os.close(write)
        os.close(read)
        path = pathlib.Path(self.place.name, "m.prom")
        process = self.start("--quiet", "--prometheus", str(path))
        self.send(process, "alert t 1 60 @1\n")
        self.until(lambda: path.exists() and "confluo_stream_unread_bytes 0\n" in path.read_text())

    def test_a_pipe_of_tcpdump(self) -> None:
        pipe, path = pathlib.Path(self.place.name, "n"), pathlib.Path(self.place.name, "m.prom")
        os.mkfifo(pipe)
        process = self.start("--quiet", "--prometheus", str(path), "--tcpdump", str(pipe))
        for number in (1, 2):
            # Each time tcpdump begins anew.
            with pipe.open("w") as out:
                out.write(
                    f"tcpdump: {number} packets captured, 3 packets received by filter, 0 packets dropped by kernel\n"
                )
            wanted = f"confluo_captured_packets_total {number}\n"
            self.until(lambda: path.exists() and wanted in path.read_text())
        # Its last words are read even if the packets end at the same time.
        with pipe.open("w") as out:
            out.write("3 packets captured\n0 packets received by filter\n9 packets dropped by kernel\n")
        process.stdin.close()
        self.assertEqual(process.wait(60), 10)
        self.assertIn('confluo_dropped_packets_total{by="kernel"} 9\n', path.read_text())
        self.assertIn(b"confluo-report: tcpdump: 9 packets dropped by kernel\n", process.stderr.read())

    def test_a_reader_that_is_gone(self) -> None:
        process = self.start()
        process.stdout.close()
        self.send(process, "alert t 1 60 @1\n")
        self.assertEqual(process.wait(60), 0)
        self.assertEqual(process.stderr.read(), b"")

    def test_a_command_has_the_alert(self) -> None:
        out = pathlib.Path(self.place.name, "out")
        command = f'echo "$CONFLUO_TRIGGER $CONFLUO_BUCKET $CONFLUO_VALUE $CONFLUO_RECORDS $CONFLUO_TIME" >> {out}; cat >> {out}'
        process = self.start("--setup", self.setup, "--exec", command, "--exec-limit", "1")
        _, err = process.communicate(ONE.encode(), 60)
        self.assertEqual((process.returncode, err), (0, b""))
        lines = out.read_text().splitlines()
        self.assertEqual(lines[::2], ["t 1 60 2 1970-01-01 00:00:01Z", "t 2 100 2 1970-01-01 00:00:02Z"])
        self.assertEqual([json.loads(it)["value"] for it in lines[1::2]], [60, 100])

    def test_commands_that_fail_or_stay(self) -> None:
        path = pathlib.Path(self.place.name, "m.prom")
        command = 'if [ "$CONFLUO_BUCKET" = 1 ]; then exit 3; else sleep 600 & sleep 600; fi'
        process = self.start("--exec", command, "--exec-seconds", "1", "--prometheus", str(path))
        out, err = process.communicate(ONE.encode(), 60)
        self.assertEqual(process.returncode, 0)
        self.assertIn(b"2 packets", out)
        self.assertIn(b"the command for `alert t 1 60 @2` ended with status 3", err)
        self.assertIn(b"the command for `alert t 2 100 @2` was ended after 1 seconds", err)
        for result, count in (("done", 0), ("failed", 1), ("late", 1), ("passed_over", 0)):
            self.assertIn(f'commands_total{{result="{result}"}} {count}\n', path.read_text())

    def test_commands_at_a_time_and_alerts_that_wait(self) -> None:
        count = pathlib.Path(self.place.name, "n")
        command = f"echo >> {count}; exec sleep 600"
        process = self.start("--quiet", "--exec", command, "--exec-limit", "2", "--exec-seconds", "600")
        self.send(process, "".join(f"alert t {at} 60 @{at}\n" for at in range(1, 1004)))
        self.until(lambda: count.exists() and len(count.read_text()) == 2)
        time.sleep(0.5)
        self.assertEqual(len(count.read_text()), 2)
        err = self.stopped(process, 2)
        self.assertIn("alerts have had no command", err)
        self.assertIn("ended with signal 9", err)

    def stopped(self, process: subprocess.Popen, count: int) -> str:
        """Stops it, ends the commands that run, and answers what was said."""
        place = pathlib.Path(f"/proc/{process.pid}/task/{process.pid}/children")
        self.until(lambda: len(place.read_text().split()) == count)
        process.send_signal(signal.SIGTERM)
        for it in place.read_text().split():
            os.kill(int(it), signal.SIGKILL)
        self.assertEqual(process.wait(60), 0)
        return process.stderr.read().decode()

    def test_sigterm_ends_it_while_nobody_reads(self) -> None:
        process = self.start("--setup", self.setup)
        self.send(process, "".join(f"alert t {at} 60 @{at}\n" for at in range(1, 3000)))
        # What it has read makes more text than a pipe holds.
        self.until(lambda: self.is_waiting(process.stdout))
        process.send_signal(signal.SIGTERM)
        self.assertEqual(process.wait(60), 0)

    def test_sigterm_ends_it_while_nobody_reads_its_troubles(self) -> None:
        ended = pathlib.Path(self.place.name, "ended")
        read, write = os.pipe()
        os.set_blocking(write, False)
        with contextlib.suppress(BlockingIOError):
            while True:
                os.write(write, bytes(select.PIPE_BUF))
        os.set_blocking(write, True)
        process = self.start("--quiet", "--exec", f"echo > {ended}; exit 3", stderr=write)
        self.send(process, "".join(f"alert t {at} 60 @{at}\n" for at in range(1, 1000)))
        self.until(ended.exists)
        time.sleep(0.3)
        process.send_signal(signal.SIGTERM)
        self.assertEqual(process.wait(60), 0)
        os.close(read)
        os.close(write)

    def test_it_sleeps_while_nobody_reads(self) -> None:
        ended = pathlib.Path(self.place.name, "ended")
        process = self.start("--exec", f"sleep 2; echo >> {ended}", "--exec-limit", "1")
        self.send(process, "".join(f"alert t {at} 60 @{at}\n" for at in range(1, 3000)))
        self.until(lambda: self.is_waiting(process.stdout) and ended.exists())
        before = self.spent(process)
        time.sleep(1)
        self.assertLess(self.spent(process) - before, 5)

    def spent(self, process: subprocess.Popen) -> int:
        """How long it has run on a processor, in hundredths of a second."""
        fields = pathlib.Path(f"/proc/{process.pid}/stat").read_text().rpartition(")")[2].split()
        return int(fields[11]) + int(fields[12])

    def is_waiting(self, pipe: IO[bytes]) -> bool:
        """Whether as much waits to be read as a pipe holds, less one write."""
        found = array.array("i", [0])
        fcntl.ioctl(pipe, termios.FIONREAD, found)
        return found[0] > 65536 - 2 * select.PIPE_BUF

    def test_a_burst_has_all_its_commands(self) -> None:
        path = pathlib.Path(self.place.name, "m.prom")
        process = self.start("--quiet", "--exec", "true", "--prometheus", str(path))
        text = "".join(f"alert t {at} 60 @{at}\n" for at in range(1, 1201))
        _, err = process.communicate(f"{text}records 1200\nwindow 0\n".encode(), 120)
        self.assertEqual((process.returncode, err), (0, b""))
        self.assertIn('commands_total{result="done"} 1200\n', path.read_text())

    def test_metrics_that_cannot_be_written_hold_nothing_up(self) -> None:
        process = self.start("--quiet", "--prometheus", "/no/such/folder/m.prom")
        _, err = process.communicate(ONE.encode(), 60)
        self.assertEqual(process.returncode, 0)
        self.assertIn(b"cannot be written", err)

    def test_too_many_alerts_for_their_commands(self) -> None:
        text = "".join(f"alert t {at} 60 @{at}\n" for at in range(1, 66000))
        words = ("--exec", "exec sleep 600", "--exec-limit", "1", "--exec-seconds", "600")
        process = self.start("--quiet", *words)
        self.send(process, text)
        ready, _, _ = select.select([process.stderr], [], [], 60)
        self.assertTrue(ready)
        self.assertIn(b"65536 alerts wait for their commands: those", process.stderr.readline())
        self.assertIn("alerts have had no command", self.stopped(process, 1))


if __name__ == "__main__":
    unittest.main()
