"""What `make try` says, with a program `rt` that prints what it is told to."""

import os
import subprocess
import sys
import tempfile
import unittest
from pathlib import Path

from support import EXAMPLES, ROOT, TOOLS

SCRIPT = TOOLS / "first_report.py"
RT = '#!/bin/sh\necho "$*" >> "$FAKE/words"\ncat "$FAKE/out"\ncat "$FAKE/err" >&2\nexit $(cat "$FAKE/status")\n'
ENDED = "checked: ended status={0}\nraces: not looked for\nrun=ended status={0} runners=1 races=unchecked proved=no\n"


class FirstReport(unittest.TestCase):
    def setUp(self):
        place = tempfile.TemporaryDirectory()
        self.addCleanup(place.cleanup)
        self.folder = Path(place.name)
        (self.folder / "rt").write_text(RT)
        (self.folder / "rt").chmod(0o755)

    def run_with(self, out, err, status, *words, path=None):
        for name, text in (("out", out), ("err", err), ("status", f"{status}\n")):
            (self.folder / name).write_text(text)
        environment = os.environ | {
            "FAKE": str(self.folder),
            "PATH": path or f"{self.folder}:{os.environ['PATH']}",
        }
        done = subprocess.run(
            [sys.executable, "-B", SCRIPT, *words],
            env=environment,
            capture_output=True,
            text=True,
            timeout=60,
        )
        return done.returncode, done.stdout, done.stderr

    def test_the_example_is_shown_and_compared(self):
        report = (
            (EXAMPLES / "web_and_dns.report")
            .read_text()
            .replace("@0", "@7")
            .replace("order 0*4", "order 1*4")
        )
        status, said, _ = self.run_with(report, ENDED.format(0), 0)
        self.assertEqual(status, 0)
        self.assertTrue(
            said.startswith(
                "This builds confluo without its proofs and asks it about examples/web_and_dns.pcap.\n"
            )
        )
        self.assertLess(said.index("should look like this"), said.index("confluo prints:"))
        self.assertRegex(said.splitlines()[-1], r"^OK: the report is as expected\. ")
        self.assertNotIn("proved=no", said)

    def test_another_report_than_the_expected_one_is_wrong(self):
        status, said, _ = self.run_with("records 15\n", ENDED.format(0), 0)
        self.assertEqual(
            (status, said.splitlines()[-1]), (1, "WRONG: this is another report than the expected one.")
        )

    def test_a_capture_of_ones_own(self):
        words = (EXAMPLES / "two_frames.setup", EXAMPLES / "two_frames.pcap")
        status, said, _ = self.run_with(
            "records 2\nask big list 1: 1\norder 0*2\n", ENDED.format(0), 0, *words
        )
        self.assertEqual(status, 0)
        self.assertTrue(said.startswith(f"{words[0]}: valid: packets, by the second"))
        self.assertIn("    ask big list 1: 1\n", said)
        self.assertIn("big  packets with len>=100: 1\n", said)
        self.assertRegex(said.splitlines()[-1], r"^OK: this is the report\. ")
        asked = (self.folder / "words").read_text()
        self.assertIn(f"--data c={ROOT / 'examples' / 'two_frames.pcap'} -- run --setup s --writers 1", asked)

    def test_a_faulty_setup_is_explained_before_the_build(self):
        setup = self.folder / "my.setup"
        setup.write_text("schema packet\nask all list nothing==1\n")
        status, said, _ = self.run_with("", "", 0, setup, EXAMPLES / "two_frames.pcap")
        self.assertEqual(status, 2)
        self.assertIn("no attribute is called `nothing`", said)
        self.assertEqual(said.splitlines()[-1], "Nothing was built: the setup is not valid.")
        self.assertFalse((self.folder / "words").exists())

    def test_packets_that_are_not_parsed_are_counted(self):
        words = (EXAMPLES / "two_frames.setup", EXAMPLES / "dual_stack" / "dual_stack.pcap")
        status, said, _ = self.run_with(
            "records 691\nask big list 0:\norder 0*691\n", ENDED.format(0), 0, *words
        )
        self.assertEqual(status, 0)
        self.assertIn("239 of 691 packets are IPv6 and were not parsed", said.splitlines()[1])

    def test_a_refusal_is_explained(self):
        capture = self.folder / "my.pcap"
        capture.write_text("hello, world")
        words = (EXAMPLES / "two_frames.setup", capture)
        status, said, _ = self.run_with("capture: record 0 code 1\n", ENDED.format(3), 3, *words)
        self.assertEqual(status, 3)
        self.assertIn("its first bytes are not those of pcap or pcapng", said)
        self.assertRegex(said.splitlines()[-1], r"^confluo refused \(status 3\)")

    def test_a_build_that_fails_shows_why(self):
        status, said, _ = self.run_with("", "error: something\nrun=none proved=no\n", 2)
        self.assertEqual(status, 1)
        self.assertIn("error: something", said)

    def test_without_the_kit_it_says_so(self):
        status, _, said = self.run_with("", "", 0, path="/nowhere")
        self.assertEqual(
            (status, said),
            (1, "There is no rt on the path: README.md says what the kit is and how to get it.\n"),
        )

    def test_one_name_is_too_few(self):
        self.assertIn("both or none", self.run_with("", "", 0, "x.setup")[2])
        self.assertIn("no file /none", self.run_with("", "", 0, "/none", "/none")[2])


if __name__ == "__main__":
    unittest.main()
