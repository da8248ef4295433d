"""Reports are read exactly, and what is not a report is refused in words."""

import json
import re
import unittest

from support import CUT_REPORT, CUT_SNAPSHOT, EXAMPLES, REPORT, SNAPSHOT, needs_program, confluo, tool, SMALL

from confluo_report.errors import Complaint
from confluo_report.reports import Report, Snapshot, lines_of, parse, parse_report, refusal_of

BAD = (
    ("", "it is empty"),
    ("words: not a command\n", "a refusal"),
    ("setup: line 2 code 13\n", "a refusal"),
    ("records 1\n0 ts=1 caplen=2\n", "confluo dump"),
    ("recrods 4\n", "line 1 cannot be read"),
    ("records 04\n", "line 1"),
    ("records 4", "line 1"),
    ("records 4\n\n", "line 2"),
    ("records 4 \n", "line 1"),
    ("records 4\nask a list 2: 0\n", "2 entries after the colon, and there are 1"),
    ("records 4\nask a list 1: 4\n", "below 4"),
    ("records 4\nask a list 2: 1 0\n", "ascending"),
    ("records 4\nask a list 2: 1 1\n", "ascending"),
    ("records 4\nask A list 0:\n", "line 2"),
    ("records 4\nask a list 0:\nask a list 0:\n", "another name than a"),
    ("records 4\nask a fired 2: 2=1 1=1\n", "buckets in ascending order"),
    ("records 4\nask a top 2: 2=1 1=5\n", "greater part first"),
    ("records 4\nask a top 2: 2=1 1=1\n", "lower key"),
    ("records 4\nask a groups 2: 2=1/1/1/1 1=1/1/1/1\n", "buckets or keys in ascending order"),
    ("records 4\nask a groups 1: 2=2/9/5/5\n", "from the least to the greatest"),
    ("records 4\nask a groups 1: 2=0/0/0/0\n", "line 2"),
    ("records 4\nask a groups 1: 2=1/1/1\n", "line 2"),
    ("records 4\nask a measure count 0 sum 0 least 0 greatest 0\n", "exactly where the count is 0"),
    ("records 4\nask a measure count 1 sum 1 least - greatest 1\n", "`-`"),
    ("records 4\nalert t 1 1\nask a list 0:\n", "line 3"),
    ("records 4\nalert t 2 1\nalert t 1 1\n", "ascending buckets"),
    ("records 4\nalert t 1 1\nalert u 1 1\nalert t 2 1\n", "together"),
    ("records 4\nlive a @5 list 0:\norder 0*4\n", "at most @4"),
    ("records 4\nlive a @2 fired 0:\norder 0*4\n", "`new a @2 fired K: ..`"),
    ("records 4\nlive a @2 fired 0:\nnew b @2 fired 0:\norder 0*4\n", "`new a @2"),
    ("records 4\nlive a @2 list 0:\n", "the report ends after line 2"),
    ("records 4\norder 0*3\n", "an order of 4 records"),
    ("records 4\norder 0*2 0*2\n", "longest runs"),
    ("records 4\norder 0*4\nask a list 0:\n", "line 3"),
    ("records 4\ntruncated: record 3\n", "`truncated: record 4`"),
    ("records 4\ntruncated: record 4\norder 0*4\n", "line 3"),
    ("records 4\ntruncated: 4\n", "line 2"),
    ("records 4\ntruncated: record 4\ntruncated: record 4\n", "line 3"),
    ("records 4\ntruncated: capture 2 record 1\ntruncated: capture 1 record 1\n", "ascending order"),
    ("records 4\ntruncated: capture 0 record 1\n", "from 1"),
    ("records 4\ntruncated: capture 1 record 3\ntruncated: capture 2 record 2\n", "at most 4 records"),
    ("records 4\norder 0*4\ntruncated: capture 1 record 3\n", "line 3"),
    ("cut 2\nhost 0 @2\ntruncated: record 1\n", "at least the host's 2"),
    ("cut 2\n", "ends after line 1"),
    ("cut 2\nhost 1 @2\n", "host 0"),
    ("cut 3\nhost 0 @2\n", "3 records"),
    ("cut 2\nhost 0 @2\nalert t 1 1\n", "line 3"),
)


# Of `run --long` over three captures, the second and the third of which are cut off.
LONG = (
    "records 4\nask a list 1: 3\nalert t 1 90\ntruncated: capture 2 record 1\ntruncated: capture 3 record 0\n"
)


class Reports(unittest.TestCase):
    def test_stored_reports_come_back_to_the_byte(self) -> None:
        texts = [it.read_text() for it in EXAMPLES.rglob("*.report")]
        texts += [REPORT, SNAPSHOT, CUT_REPORT, CUT_SNAPSHOT, LONG]
        self.assertGreater(len(texts), 9)
        for text in texts:
            self.assertEqual("".join(f"{it}\n" for it in lines_of(parse(text))), text)

    def test_what_is_no_report_is_named(self) -> None:
        for text, why in BAD:
            with self.subTest(text=text), self.assertRaisesRegex(Complaint, re.escape(why)):
                parse(text, "r")

    def test_a_report_cut_anywhere_is_refused_or_a_shorter_final_part(self) -> None:
        final = REPORT.index("live")
        for at in range(len(REPORT)):
            try:
                read = parse(REPORT[:at])
            except Complaint:
                continue
            self.assertTrue(REPORT[:at].endswith("\n") and at <= final, at)
            self.assertIsInstance(read, Report)

    def test_refusals(self) -> None:
        for line, kind, place, code in (
            ("words: not a command", "words", 0, 0),
            ("setup: line 2 code 13", "setup", 2, 13),
            ("capture: record 0 code 1", "capture", 0, 1),
            ("full: more than 4 records", "full", 4, 0),
            ("nodes: more than 23 nodes", "nodes", 23, 0),
            ("file: none of that name", "file", 0, 0),
        ):
            found = refusal_of(line + "\n")
            assert found
            self.assertEqual((found.kind, found.place, found.code, found.capture), (kind, place, code, 0))
        for line, wanted in (
            ("capture 2: record 7 code 5", ("capture", 7, 5, 2)),
            ("capture 2: none of that name", ("file", 0, 0, 2)),
        ):
            found = refusal_of(line + "\n")
            assert found
            self.assertEqual((found.kind, found.place, found.code, found.capture), wanted)
        self.assertIsNone(refusal_of("setup: line 2 code x\n"))

    def test_captures_of_several_that_are_cut_off(self) -> None:
        self.assertIn("Capture 2 is cut off after 1: what came then is missing", tool("show", stdin=LONG).out)
        cuts = [{"capture": 2, "records": 1}, {"capture": 3, "records": 0}]
        self.assertEqual(json.loads(tool("json", stdin=LONG).out)["cuts"], cuts)
        self.assertIn("truncated,2,,,,,,1\n", tool("csv", stdin=LONG).out)
        self.assertIn('confluo_truncated_records{capture="2"} 1\n', tool("prometheus", stdin=LONG).out)

    def test_a_snapshot_is_no_report(self) -> None:
        self.assertIsInstance(parse(SNAPSHOT), Snapshot)
        with self.assertRaisesRegex(Complaint, "snapshot"):
            parse_report(SNAPSHOT)

    def test_bad_input_ends_with_2_and_words_on_standard_error(self) -> None:
        for command in ("show", "json", "csv", "prometheus"):
            for data in (b"", b"nothing\n", b"records 4\nask a list 2: 0\n", b"\xff\n", REPORT[:-3].encode()):
                ended = tool(command, stdin=data)
                self.assertEqual((ended.status, ended.out), (2, ""), (command, data))
                self.assertRegex(ended.err, r"^confluo-report: standard input: ")
                self.assertNotIn("Traceback", ended.err)
        self.assertEqual(tool("show", "/no/such/file").status, 2)

    @needs_program
    def test_what_the_program_prints_is_read(self) -> None:
        setup = EXAMPLES / "web_and_dns.setup"
        words = ("--setup", setup, "--live", "3", "--writers", "1", "--nodes", "1024")
        ran = confluo("run", *words, EXAMPLES / "web_and_dns.pcap")
        self.assertEqual("".join(f"{it}\n" for it in lines_of(parse(ran.out))), ran.out)
        two = EXAMPLES / "two_frames.pcap"
        ran = confluo(
            "snapshot", "--setup", EXAMPLES / "two_frames.setup", "--after", "4", *SMALL[2:], two, two
        )
        self.assertIsInstance(parse(ran.out), Snapshot)


if __name__ == "__main__":
    unittest.main()
