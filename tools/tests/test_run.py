"""`confluo-report run` is confluo's run, with a refusal in words on standard error; and how commands end otherwise."""

import os
import pathlib
import re
import shutil
import subprocess
import sys
import tempfile
import unittest

from support import EXAMPLES, ROOT, TOOLS, confluo, needs_program

from confluo_report.cli import make_parser
from confluo_report.version import version

SETUP, CAPTURE = EXAMPLES / "web_and_dns.setup", EXAMPLES / "web_and_dns.pcap"
ROOM = ("--writers", "1", "--nodes", "128")
SHOWN = EXAMPLES / "incidents" / "full_link.report"


def ran(*words: object, place: str = "", **more) -> "subprocess.CompletedProcess[bytes]":
    """The tool as a process."""
    command = [sys.executable, place or TOOLS / "confluo-report", *words]
    return subprocess.run(command, **({"capture_output": True} | more))  # type: ignore[call-overload]


@needs_program
class Runs(unittest.TestCase):
    def setUp(self) -> None:
        self.place = tempfile.TemporaryDirectory()
        self.addCleanup(self.place.cleanup)

    def file(self, name: str, data: bytes) -> str:
        path = os.path.join(os.fsencode(self.place.name), os.fsencode(name))
        with open(path, "wb") as file:
            file.write(data)
        return os.fsdecode(path)

    def test_the_report_is_the_programs(self) -> None:
        wanted = confluo("run", "--setup", SETUP, *ROOM, CAPTURE).out.encode()
        ended = ran("run", "--setup", SETUP, *ROOM, CAPTURE)
        self.assertEqual((ended.returncode, ended.stdout, ended.stderr), (0, wanted, b""))
        packed = self.file("c.gz", subprocess.run(["gzip", "-c", CAPTURE], capture_output=True).stdout)
        strange = self.file(os.fsdecode(b"n\xff.pcap"), CAPTURE.read_bytes())
        for path in (packed, strange):
            self.assertEqual(ran("run", "--setup", SETUP, *ROOM, path).stdout, wanted)
        self.assertEqual(ran("run", "--setup", SETUP, *ROOM, "-", input=CAPTURE.read_bytes()).stdout, wanted)
        several = confluo("run", "--long", "--setup", SETUP, *[CAPTURE] * 4).out.encode()
        ended = ran("run", packed, "--long", strange, "--setup", SETUP, packed, CAPTURE)
        self.assertEqual((ended.returncode, ended.stdout, ended.stderr), (0, several, b""))

    def test_a_refusal_is_explained_and_nothing_is_printed(self) -> None:
        bad = self.file("s", b"schema packet\nask a list dport==http\n")
        cut = self.file("c", CAPTURE.read_bytes()[:-1])
        whole, packed = (
            self.file(name, subprocess.run(["gzip", "-c", path], capture_output=True).stdout)
            for name, path in (("whole.gz", CAPTURE), ("c.gz", cut))
        )
        for words, status, said in (
            (("--setp", "s", "c"), 1, "`--setp` is not an option of `run`"),
            (("--setup", bad, CAPTURE), 2, "    ask a list dport==80\n"),
            (("--setup", SETUP, cut), 3, f"confluo run --setup {SETUP} --truncated {cut}\n"),
            (("--setup", SETUP, self.place.name), 4, "is a folder"),
            (("--setup", SETUP, "--capacity", "2", CAPTURE), 6, "It has 16 records."),
            (
                ("--setup", SETUP, "--capacity", "2", whole),
                6,
                f"confluo-report run --setup {SETUP} --long {whole}\n",
            ),
            (("--setup", SETUP, "--nodes", "1", "--writers", "1", CAPTURE), 7, "more tree nodes than 1"),
            (("--setup", SETUP, f"{self.place.name}/no"), 9, "/no does not exist"),
            (
                ("--long", CAPTURE, "--writers", "1", cut, "--setup", SETUP),
                3,
                f"confluo run --long --writers 1 --setup {SETUP} --truncated {CAPTURE} {cut}\n",
            ),
            (
                ("--setup", SETUP, packed),
                3,
                f"confluo-report run --setup {SETUP} --truncated {packed}\n",
            ),
        ):
            ended = ran("run", *words)
            self.assertEqual((ended.returncode, ended.stdout), (status, b""), words)
            self.assertIn(said, ended.stderr.decode())

    def test_a_capture_from_a_pipe_is_not_looked_at_again(self) -> None:
        for path in ("-", "/dev/stdin"):
            for words, status, said in (
                (("--capacity", "2"), 6, f"confluo run --setup {SETUP} --long /dev/stdin\n"),
                ((), 3, "The capture: the file ends within a packet"),
            ):
                ended = ran(
                    "run",
                    "--setup",
                    SETUP,
                    *words,
                    path,
                    input=CAPTURE.read_bytes()[: 700 if status == 3 else None],
                )
                self.assertEqual((ended.returncode, ended.stdout), (status, b""), (path, words))
                self.assertIn(said, ended.stderr.decode())

    def test_output_that_cannot_be_written(self) -> None:
        for words, status in (
            (("run", "--setup", SETUP, *ROOM, CAPTURE), 5),
            (("show", SHOWN), 2),
            (("ask", CAPTURE, "count"), 2),
        ):
            with open("/dev/full", "wb") as full:
                ended = ran(*words, stdout=full, stderr=subprocess.PIPE, capture_output=False)
            said = b"confluo-report: standard output: No space left on device\n"
            self.assertEqual((ended.returncode, ended.stderr), (status, said), words)

    def test_names_are_printed_byte_for_byte(self) -> None:
        path = self.file(os.fsdecode(b"n\xff.report"), b"records 2\nask all list 1: 0\n")
        ended = ran("merge", path, SHOWN)
        self.assertIn(b"n\xff.report are reports of different setups", ended.stderr)


class Words(unittest.TestCase):
    def test_help_and_version(self) -> None:
        for words, said in (
            (("--help",), "run "),
            (("--version",), f"confluo-report {version()}\n"),
            (("run", "--help"), "usage: confluo-report run --setup FILE"),
            (("run", "--version"), f"confluo-report {version()}\n"),
        ):
            ended = ran(*words)
            self.assertEqual((ended.returncode, ended.stderr), (0, b""))
            self.assertIn(said, ended.stdout.decode())

    def test_every_option_is_in_the_manual_and_in_completions(self) -> None:
        places = {
            "confluo-report.1": ".Cm {0}\n|.Fl -{1}\\b",
            "completions/confluo-report.bash": "[ (]{0}\\) options=|--{1}\\b",
            "completions/_confluo-report": "'{0}:|'[*]?--{1}\\[",
            "completions/confluo-report.fish": "-a {0} |-l {1} ",
        }
        commands = make_parser()._subparsers._group_actions[0].choices  # type: ignore[union-attr]
        for place, form in places.items():
            text = (TOOLS / place).read_text()
            for name, parser in commands.items():
                options = [it[2:] for it in parser._option_string_actions if it.startswith("--")]
                for option in [it for it in options if it not in ("help", "brief")] + [""]:
                    wanted = form.split("|")[bool(option)].format(re.escape(name), re.escape(option))
                    self.assertRegex(text, wanted, (place, name, option))

    def test_as_it_is_installed(self) -> None:
        with tempfile.TemporaryDirectory() as folder:
            share = pathlib.Path(folder, "share", "confluo")
            shutil.copytree(TOOLS / "confluo_report", share / "confluo_report")
            shutil.copy(ROOT / "VERSION", share / "confluo_report")
            (pathlib.Path(folder) / "bin").mkdir()
            place = shutil.copy(TOOLS / "confluo-report", pathlib.Path(folder, "bin"))
            for words in (("--version",), ("run", "--version")):
                self.assertEqual(ran(*words, place=place).stdout.decode(), f"confluo-report {version()}\n")
            self.assertIn(b"usage: confluo-report", ran("--help", place=place).stdout)
            self.assertIn(b"usage: confluo-report run", ran("run", "--help", place=place).stdout)


if __name__ == "__main__":
    unittest.main()
