"""Questions of the command line: their setups, and their answers by the program."""

import csv
import io
import json
import os
import pathlib
import re
import shutil
import subprocess
import tempfile
import unittest

from support import EXAMPLES, INCIDENTS, ROOT, frame, frame6, needs_program, pcap, tagged, tool

from confluo_report.ask import _raised, joined_marks
from confluo_report.errors import Complaint
from confluo_report.nodes import Sizes
from confluo_report.questions import parse_question, time_of, write_setup
from confluo_report.reports import Fired, Pair
from confluo_report.setups import parse_setup

WEB = EXAMPLES / "web_and_dns.pcap"
QUESTIONS = (
    ("top src by bytes", ["tally tally1 src len *", "ask q1 top tally1 sum 10"]),
    ("top 3 dport by packets where kind==2", ["tally tally1 dport len kind==2", "ask q1 top tally1 count 3"]),
    ("top dst by greatest win", ["tally tally1 dst win *", "ask q1 top tally1 greatest 10"]),
    ("list dport==53", ["ask q1 list dport==53"]),
    ("list where dport==53 || sport==53", ["ask q1 list dport==53 || sport==53"]),
    ("find src 10.0.0.1", ["index index1 src", "ask q1 find index1 10.0.0.1 10.0.0.1"]),
    ("find src 10.0.0.1..10.0.0.9", ["index index1 src", "ask q1 find index1 10.0.0.1 10.0.0.9"]),
    ("find dport 80..443", ["index index1 dport", "ask q1 find index1 80 443"]),
    (
        "find src6 2001:db8::1",
        ["ask q1 list src6==0x20010db800000000 && src6_low==0x0000000000000001"],
    ),
    ("find src 10.0.0.0/8", ["ask q1 list src in 10.0.0.0/8"]),
    ("find smac 02:00:00:00:00:01", ["ask q1 list smac==0x020000000001"]),
    (
        "share 3 proto by packets where not dport==80",
        [
            "tally tally1 proto len dport!=80",
            "ask q1 top tally1 count 3",
            "ask q1_whole total len dport!=80",
        ],
    ),
    ("top src6 by least ttl", ["tally tally1 src6 ttl *", "ask q1 top tally1 greatest 10"]),
    ("top src6/64 by least ttl", ["tally tally1 src6 ttl *", "ask q1 top tally1 least 10"]),
    ("count", ["ask q1 total len *"]),
    ("count kind==2 && flags==2", ["ask q1 total len kind==2 && flags==2"]),
    ("total len where dport==443", ["ask q1 total len dport==443"]),
    (
        "between 2023-11-14T22:13:20 and 1700000001 where dport==53",
        ["filter filter1 dport==53", "ask q1 between filter1 1700000000 1700000001"],
    ),
    (
        "per second len where dport==443",
        [
            "filter filter1 dport==443",
            "aggregate aggregate1 filter1 len",
            "trigger trigger1 aggregate1 sum >= 0",
            "ask q1 fired trigger1",
        ],
    ),
    (
        "top 3 seconds by packets where dport==443",
        [
            "filter filter1 dport==443",
            "aggregate aggregate1 filter1 len",
            "trigger trigger1 aggregate1 count >= 0",
            "ask q1 fired trigger1",
        ],
    ),
    (
        "over 1000 in a second",
        [
            "filter filter1 *",
            "aggregate aggregate1 filter1 len",
            "trigger trigger1 aggregate1 sum > 1000",
            "ask q1 fired trigger1",
        ],
    ),
    (
        "under 5 packets in 10 minutes where sport==53",
        [
            "width 600000000000",
            "filter filter1 sport==53",
            "aggregate aggregate1 filter1 len",
            "trigger trigger1 aggregate1 count < 5",
            "ask q1 fired trigger1",
        ],
    ),
)
BAD = (
    ("top src", "Cannot read `top src`. Expected:"),
    ("top src by bytes at once", "Cannot read"),
    ("top 0 src by bytes", "from 1 to 1000"),
    ("list", "Cannot read `list`. Expected:"),
    ("share src, dst", "It ranks one attribute, not two together."),
    ("share src by least ttl", "not of what is least"),
    ("per fortnight len", "not a unit of time"),
    ("between yesterday and 1700000001", "not a time"),
    ("which src", "Questions begin with top, share, flows, scans"),
    ("over 18446744073709551616 in a second", "above 2^64"),
)


class Questions(unittest.TestCase):
    def test_each_form_with_its_setup(self) -> None:
        for text, lines in QUESTIONS:
            setup = write_setup([parse_question(text)])
            said = [it for it in setup.splitlines() if not it.startswith("#")]
            self.assertEqual(said, ["schema packet6", *lines])
            self.assertEqual(len(parse_setup(setup.encode()).asks), 1 + text.startswith("share"))

    def test_bad_questions(self) -> None:
        for text, why in BAD:
            with self.assertRaisesRegex(Complaint, why.replace("^", r"\^")):
                write_setup([parse_question(text)])
        with self.assertRaisesRegex(Complaint, "different time units; ask them separately"):
            write_setup([parse_question("per second len"), parse_question("per minute len")])

    def test_lanes_are_shared(self) -> None:
        texts = (
            "per second len where dport==443",
            "over 5 packets in a second where dport==443",
            "top src by bytes",
        )
        setup = write_setup([parse_question(it) for it in (*texts, "top 3 src by bytes")])
        self.assertEqual([it.split()[0] for it in setup.splitlines()].count("filter"), 1)
        self.assertEqual([it.split()[0] for it in setup.splitlines()].count("tally"), 1)

    def test_times(self) -> None:
        self.assertEqual(time_of("2023-11-14T22:13:20"), 1700000000 * 10**9)
        self.assertEqual(time_of("2023-11-14T23:13:20.5+01:00"), 1700000000_500000000)
        self.assertEqual(time_of("1700000000"), 1700000000 * 10**9)

    def test_setup_only_needs_no_capture_and_no_program(self) -> None:
        ended = tool("ask", "--setup-only", "top src by bytes", "list dport==53")
        self.assertEqual((ended.status, ended.err), (0, ""))
        self.assertEqual(ended.out.splitlines()[1:3], ["# top src by bytes", "tally tally1 src len *"])
        for words, why in (
            (
                ("top scr by bytes",),
                "`top scr by bytes` cannot be asked: no attribute is called `scr`; is `src` meant?",
            ),
            (("top 3 scr by bytes",), "\n    top 3 scr by bytes\n          ^\n"),
            (("top src by byte",), "is `bytes` meant?"),
            (("over 5 packet in a second",), "is `packets` meant?"),
            (("over 5 packets in a second by scr",), "is `src` meant?"),
            (("top src, dprt by bytes",), "is `dport` meant?"),
            (("top src by different dprt",), "is `dport` meant?"),
            (("top 1 secnd by bytes",), "is `second` meant?"),
            (("list dport~53",), "`~` is not part of a condition\n    list dport~53\n              ^"),
            (("--schema", "foo", "list *"), "--schema foo: `foo` is not packet, packet6 or records"),
            (("nosuchfile", "list *"), "neither a file nor a question"),
            ((WEB,), "no question is given"),
        ):
            ended = tool("ask", "--setup-only", *words)
            self.assertEqual((ended.status, ended.out), (2, ""))
            self.assertIn(why, ended.err)
        self.assertIn("no capture", tool("ask", "list *").err)

    def test_sizes_are_raised_by_what_a_refusal_says(self) -> None:
        sizes, seen = Sizes(65536, 1, 8192), []
        for kind in ("full", "nodes", "nodes", "nodes", "nodes", "nodes"):
            raised = _raised(sizes, kind)
            assert raised
            sizes = raised
            seen.append(sizes.options())
        self.assertEqual(seen[0], "--segments 16 --nodes 8192")
        self.assertEqual(seen[1], "--segments 16 --nodes 65536")
        self.assertEqual(seen[2], "--capacity 32768 --segments 32 --nodes 65536")
        self.assertEqual(seen[5], "--capacity 4096 --segments 256 --nodes 65536")
        self.assertIsNone(_raised(Sizes(4096, 256, 65536), "nodes"))
        self.assertIsNone(_raised(Sizes(4096, 256, 65536), "full"))
        self.assertIsNone(_raised(sizes, "setup"))

    def test_buckets_of_several_captures_are_added_up(self) -> None:
        parts = [Fired((Pair(1, 600), Pair(2, 5))), Fired((Pair(1, 500), Pair(3, 2000)))]
        query = parse_question("over 1000 in a second")
        joined = joined_marks(query, parts)
        self.assertEqual([it for it in joined if query.fires(it.value)], [Pair(1, 1100), Pair(3, 2000)])
        joined = joined_marks(parse_question("per second greatest len"), parts)
        self.assertEqual(joined, [Pair(1, 600), Pair(2, 5), Pair(3, 2000)])


@needs_program
class Answers(unittest.TestCase):
    def asked(self, *words: object, stdin: bytes = b"") -> str:
        ended = tool("ask", *words, stdin=stdin)
        self.assertEqual((ended.status, ended.err), (0, ""))
        return ended.out

    def test_one_capture(self) -> None:
        out = self.asked(
            WEB, "top 2 src by bytes", "over 1000 in a second where dport==443", "list dport==53", "count"
        )
        self.assertTrue(out.startswith("16 packets\n"))
        self.assertIn("  1.  10.0.0.5            3,478\n", out)
        self.assertIn("  2023-11-14 22:13:22       2,508\n", out)
        line = "       0  2023-11-14 22:13:20.000100  UDP 10.0.0.5:40001 > 10.0.0.53:53  71 bytes\n"
        self.assertIn(line, out)
        self.assertNotIn("Note", out)
        self.assertNotIn("\x1b", out)
        self.assertIn(
            "ask q1 top 2: 167772165=3478 1572395042=1488\n",
            self.asked("--report", WEB, "top 2 src by bytes"),
        )

    def test_packed_captures_and_standard_input(self) -> None:
        with tempfile.TemporaryDirectory() as folder:
            for packer, end in (("gzip", "gz"), ("zstd", "zst")):
                if not shutil.which(packer):
                    continue
                path = pathlib.Path(folder, f"c.{end}")
                path.write_bytes(subprocess.run([packer, "-c", WEB], capture_output=True).stdout)
                self.assertIn("UDP 10.0.0.5:40001", self.asked(path, "list dport==53"))
        self.assertIn("UDP 10.0.0.5:40001", self.asked("-", "list dport==53", stdin=WEB.read_bytes()))
        ended = tool("ask", "-", "count", stdin=WEB.read_bytes()[:700])
        self.assertEqual((ended.status, ended.out), (2, ""))
        self.assertIn("standard input: the file ends within a packet", ended.err)

    def test_several_captures(self) -> None:
        captures = [INCIDENTS / f"lost_{it}.pcap" for it in ("before", "behind")]
        out = self.asked(
            *captures, "top 3 dst by packets", "over 13500 in a second", "list dst==198.51.100.90 && len>1400"
        )
        self.assertTrue(out.startswith("230 packets of 2 captures\n"))
        self.assertIn("198.51.100.90                 50  fewest", out)
        self.assertNotIn("Note", out)
        self.assertIn("  2023-11-22 13:00:06      14,120\n", out)
        self.assertIn("lost_before.pcap: 15\n", out)
        self.assertIn("lost_behind.pcap: 5\n", out)

    @unittest.skipUnless(
        os.environ.get("CONFLUO_SLOW"), "65537 packets are asked about where CONFLUO_SLOW is set"
    )
    def test_segments_are_raised(self) -> None:
        with tempfile.TemporaryDirectory() as folder:
            path = pathlib.Path(folder, "c")
            path.write_bytes(pcap([(1, b"")] * 65537))
            self.assertIn("65,537 packets", self.asked(path, "count dport==0"))

    def test_nodes_are_raised(self) -> None:
        with tempfile.TemporaryDirectory() as folder:
            path = pathlib.Path(folder, "c")
            path.write_bytes(pcap([(at * 2000003, b"") for at in range(2000)]))
            self.assertTrue(self.asked(path, "find ts 0..5").startswith("2,000 packets\n"))

    def test_record_files(self) -> None:
        with tempfile.TemporaryDirectory() as folder:
            path = pathlib.Path(folder, "c.csv")
            path.write_text("ts,src,len\n1,10.0.0.1,60\n2,10.0.0.2,90\n3,10.0.0.1,70\n")
            schema = "records ts:u64,src:u32,len:u16"
            out = self.asked("--schema", schema, path, "top src by bytes", "list len>=70")
        self.assertIn("  1.  10.0.0.1         130\n", out)
        self.assertIn("       1  ts=2 src=167772162 len=90\n", out)
        ended = tool(
            "ask", "--setup-only", "--schema", "records ts:u64,day:u8,len:u16", "top day by sum of len"
        )
        self.assertIn("tally tally1 day len *\n", ended.out)

    def test_what_is_not_parsed_is_said(self) -> None:
        frames = [
            (1, frame()),
            (1, frame6(flags=4)),
            (2, frame6(flags=4)),
            (2, frame(flags=4)),
            (2, tagged()),
        ]
        with tempfile.TemporaryDirectory() as folder:
            path = pathlib.Path(folder, "c")
            path.write_bytes(pcap(frames))
            out = self.asked(path, "count flags==4", "top src by packets")
            self.assertIn("        3         202 ", out)
            self.assertNotIn("not parsed", out)
            self.assertIn("  1.  10.0.0.1                     3\n  2.  2001:db8::1                  2\n", out)
            out = self.asked("--schema", "packet", path, "top src by packets")
            self.assertIn("  0.0.0.0 stands for all packets that are not IPv4\n", out)
            out = self.asked("--schema", "packet", path, "count flags==4")
            self.assertIn("        1          54 ", out)
            said = (
                "2 of 5 packets are IPv6, and 1 has a second VLAN tag or a service tag: these were not parsed"
            )
            self.assertIn(f"{said} (addresses and ports are 0): leave out `--schema packet`\n", out)
            out = self.asked("--schema", "packet", path, path, "count flags==4")
            self.assertIn("4 of 10 packets are IPv6", out)
            ended = tool("ask", "--schema", "packet", path, "count src6==1")
            self.assertIn(
                "which only `schema packet6` has: leave out `--schema packet`\n    count src6==1\n          ^",
                ended.err,
            )
            many = [f"list dport=={it}" for it in range(32)]
            self.assertIn("list dport==31: none", self.asked("--schema", "packet", path, *many))

    def test_units_are_asked_in_setups_of_their_own(self) -> None:
        words = ("per minute packets", "over 2000 in a second", "count", "top 1 second by bytes")
        out = self.asked(WEB, *words)
        self.assertEqual(re.findall(r"(?m)^(?:per|over|count|top).*$", out), list(words))
        self.assertIn("  2023-11-14 22:13:00                 16\n", out)
        self.assertIn("  2023-11-14 22:13:22       2,562\n", out)
        ended = tool("ask", "--report", WEB, *words)
        self.assertEqual((ended.status, ended.out), (2, ""))

    def test_seconds_without_packets_are_said(self) -> None:
        seconds = (10, 11, 14, 15, 15, 30)
        with tempfile.TemporaryDirectory() as folder:
            path = pathlib.Path(folder, "c")
            path.write_bytes(pcap([(it, frame(dport=80 if it < 20 else 443)) for it in seconds]))
            out = self.asked(path, "under 100 bytes in a second", "per second packets where not dport!=http")
        self.assertIn(
            "  16 seconds between the first and the last packet have no packet and are not listed: "
            "1970-01-01 00:00:12 to 00:00:13, 1970-01-01 00:00:16 to 00:00:29\n",
            out,
        )
        self.assertIn(
            "  17 seconds between the first and the last packet have no packet with not dport!=http", out
        )
        self.assertIn("1970-01-01 00:00:16 to 00:00:30\n", out)
        self.assertNotIn("fewest", out)

    def test_most_and_fewest_are_of_all_keys(self) -> None:
        with tempfile.TemporaryDirectory() as folder:
            path = pathlib.Path(folder, "c")
            path.write_bytes(pcap([(it, frame(it)) for it in (1, 1, 1, 2, 2, 3)]))
            out = self.asked(path, "top src by packets", "top 2 src by packets", "per second packets")
            self.assertEqual(out.count("most"), 2)
            self.assertIn("  3.  10.0.0.3                  1  fewest\n", out)
            self.assertIn("  1970-01-01 00:00:03                  1  fewest\n", out)
            path.write_bytes(pcap([(it, frame(it)) for it in (1, 1, 2, 3)]))
            out = self.asked(path, "top src by packets")
            self.assertIn("most", out)
            self.assertNotIn("fewest", out)

    def test_one_bad_question_does_not_stop_the_others(self) -> None:
        ended = tool("ask", WEB, "count", "top talkers", "list dport==80 and")
        self.assertEqual(ended.status, 2)
        self.assertIn("count\n  packets", ended.out)
        self.assertIn("Cannot read `top talkers`. Expected:", ended.err)
        self.assertIn("    list dport==80 and\n                      ^\n", ended.err)

    def test_found_packets_are_copied(self) -> None:
        with tempfile.TemporaryDirectory() as folder:
            path = pathlib.Path(folder, "found.pcap")
            out = self.asked("--out", path, WEB, "count", "list dport==53", "per minute packets")
            self.assertTrue(out.endswith(f"\n{path}: 2 of 16 packets\n"))
            self.assertIn("list dport==53: 2\n", self.asked(path, "list dport==53", "count"))
            for words in ((WEB, "count"), (WEB, "list *", "list len>1"), (WEB, WEB, "list *")):
                ended = tool("ask", "--out", path, *words)
                self.assertEqual((ended.status, ended.out), (2, ""))

    def test_options_may_stand_between(self) -> None:
        out = self.asked(WEB, "--most", "1", "list dport==53", "--schema=packet", "count")
        self.assertIn("and 1 more; --most 0 shows all", out)
        self.assertIn("usage: confluo-report ask", tool("ask", WEB, "count", "--nosuch").err)

    def test_json_and_csv(self) -> None:
        words = (
            "top 2 src by bytes",
            "share 1 proto by packets",
            "list dport==53",
            "over 2000 in a second",
            "count",
        )
        found = json.loads(self.asked(WEB, "--json", *words))
        _, share, listed, over, count = found["answers"]
        self.assertEqual((found["records"], found["captures"]), (16, [str(WEB)]))
        self.assertEqual([it["question"] for it in found["answers"]], list(words))
        self.assertEqual(found["answers"][0]["keys"][0], {"text": "10.0.0.5", "value": 3478})
        self.assertEqual(share["keys"], [{"text": "6 (TCP)", "value": 11, "percent": 68.75}])
        self.assertEqual((share["whole"], share["all"]), (16, False))
        self.assertEqual(listed["parts"], [{"capture": str(WEB), "records": [0, 7]}])
        self.assertEqual([it["time"] for it in over["marks"]], ["2023-11-14 22:13:22Z"])
        self.assertEqual(count["count"], 16)
        rows = list(csv.DictReader(io.StringIO(self.asked(WEB, WEB, "--csv", *words))))
        self.assertEqual({it["question"] for it in rows}, set(words))
        self.assertIn(("10.0.0.5", "6956"), [(it["key"], it["value"]) for it in rows])
        self.assertIn(("6 (TCP)", "22", "68.75"), [(it["key"], it["value"], it["percent"]) for it in rows])
        self.assertEqual([it["value"] for it in rows if it["key"] == "record"], ["0", "7"] * 2)
        self.assertEqual(tool("ask", WEB, "--csv", "--json", "count").status, 2)
        self.assertEqual(tool("ask", WEB, "--csv", "--out", "x", "list *").status, 2)
        try:
            import jsonschema
        except ImportError:
            return
        schema = json.loads((ROOT / "docs" / "report.schema.json").read_text())
        jsonschema.Draft202012Validator.check_schema(schema)
        jsonschema.validate(found, schema)
        jsonschema.validate(json.loads(self.asked(WEB, WEB, "--json", *words, "per minute packets")), schema)

    def test_names_that_are_not_utf8_or_begin_with_a_dash(self) -> None:
        with tempfile.TemporaryDirectory() as folder:
            for name in (b"n\xff.pcap", b"-n.pcap"):
                path = os.path.join(os.fsencode(folder), name)
                with open(path, "wb") as file:
                    file.write(WEB.read_bytes())
                self.assertTrue(self.asked(os.fsdecode(path), "list dport==53").startswith("16 packets\n"))

    def test_what_is_refused_is_explained(self) -> None:
        ended = tool("ask", EXAMPLES / "web_and_dns.setup", "count")
        self.assertEqual((ended.status, ended.out), (2, ""))
        self.assertIn("the file is not a capture", ended.err)


if __name__ == "__main__":
    unittest.main()
