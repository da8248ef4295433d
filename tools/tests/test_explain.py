"""For every status and code the program prints a refusal, and it is explained with the place and what to do."""

import os
import pathlib
import resource
import shutil
import subprocess
import tempfile
import unittest
from unittest import mock

from cases import CAPTURES, CSVS, RECORDS, SETUPS, WHOLE
from support import SMALL, confluo, frame, needs_program, pcap, tool

from confluo_report.captures import CaptureFault
from confluo_report.commands import WordsFault, parse_words
from confluo_report.explain_capture import REASONS
from confluo_report.explain_setup import EXAMPLES, RULES
from confluo_report.rows import rows_of
from confluo_report.setups import SetupFault, parse_setup

SETUP = "schema packet\nindex s src\nask a find s 10.0.0.1 10.0.0.2\n"
WORDS = (
    ("", "no words"),
    ("help", "`help` is not a command"),
    ("run c", "--setup is missing"),
    ("run --setup s", "the capture is missing"),
    ("run --setup s c d", "takes one capture"),
    ("run --setup s --setup t c", "given twice"),
    ("run --setup", "no value"),
    ("run --setup s --writers 0 c", "from 1 to 15"),
    ("run --setup s --writers 16 c", "from 1 to 15"),
    ("run --setup s --nodes 65537 c", "from 0 to 65536"),
    ("run --setup s --nodes 01 c", "leading zero"),
    ("run --setup s --seed 1 c", "not an option of `run`"),
    ("run --setup s --segments 2 --capacity 5000 c", "multiple of 4096"),
    ("run --setup s --segments 17 c", "above 1048576"),
    ("synth --setup s --seed 1", "--count is missing"),
    ("synth --setup s --seed 1 --count 1 c", "takes no capture"),
    ("dump --setup s c", "it has --schema, --truncated"),
    ("dump --schema records c", "packet or packet6"),
    ("dump --schema packet6 --schema packet c", "given twice"),
    ("run --setup s --schema packet6 c", "not an option of `run`"),
    ("dump --truncated=1 c", "takes no value"),
    ("run --truncated --setup s --truncated c", "given twice"),
    ("synth --setup s --seed 1 --count 1 --truncated", "not an option of `synth`"),
    ("snapshot --setup s c", "--after is missing"),
    ("snapshot --setup s --after 1 --turn 0 c", "from 1 to 4096"),
    ("snapshot --setup s --after 1" + " c" * 17, "at most 16 captures"),
)
VALID = (
    "run --setup=s --writers=2 c",
    "run c --setup s --live 3",
    "dump c",
    "snapshot --after 0 --setup s c c",
    "run --truncated --setup s c",
    "dump --truncated c",
    "dump c --schema packet6",
    "snapshot --after 0 --setup s c c --truncated",
)


class Folder(unittest.TestCase):
    def setUp(self) -> None:
        self.place = tempfile.TemporaryDirectory()
        self.addCleanup(self.place.cleanup)
        self.setup, self.capture = self.file("s", SETUP), self.file("c", WHOLE)

    def file(self, name: str, data: bytes | str) -> str:
        path = pathlib.Path(self.place.name, name)
        path.write_bytes(data.encode() if isinstance(data, str) else data)
        return str(path)

    def explained(self, *words: str, stdin: str = "") -> str:
        ended = tool("explain", *words, stdin=stdin)
        self.assertEqual((ended.status, ended.err), (0, ""), words)
        return ended.out


class OfSetups(Folder):
    def test_every_code_has_a_rule_and_an_example(self) -> None:
        self.assertEqual(set(RULES), set(range(1, 15)))
        self.assertEqual(set(EXAMPLES), set(RULES))
        for code in RULES:
            text = self.explained(stdin=f"setup: line 2 code {code}\n")
            self.assertIn(f"Rule {code}:", text)

    def test_the_lines_that_would_be_right_are_valid(self) -> None:
        for text, line, _, _ in SETUPS:
            with self.assertRaises(SetupFault) as caught:
                parse_setup(text.encode())
            right = caught.exception.fault.right
            if not right:
                continue
            lines = text.split("\n")
            mended = "\n".join([*lines[: line - 1], right, *lines[line:]])
            try:
                parse_setup(mended.encode())
            except SetupFault as fault:
                self.assertGreater(
                    fault.line, line + right.count("\n"), (right, fault.why if hasattr(fault, "why") else "")
                )

    @needs_program
    def test_each_code_as_the_program_prints_it(self) -> None:
        for text, line, code, place in SETUPS:
            self.file("s", text)
            ran = confluo("run", "--setup", self.setup, *SMALL, self.capture)
            self.assertEqual((ran.status, ran.out), (2, f"setup: line {line} code {code}\n"))
            said = self.explained("--setup", self.setup, "--status", "2", stdin=ran.out)
            self.assertIn(f"code {code}.", said)
            self.assertIn(RULES[code], said)
            if line and text.split("\n")[line - 1 :][:1] not in ([""], []) and place < 60:
                quoted = "".join(it if " " <= it <= "~" else "?" for it in text.split("\n")[line - 1])[:76]
                self.assertIn(f"    {quoted}\n    {' ' * place}^\n", said)

    def test_another_setup_is_refused(self) -> None:
        for path in (self.setup, self.file("t", "schema packet\nask a list len>\n")):
            ended = tool("explain", "--setup", path, stdin="setup: line 2 code 13\n")
            self.assertEqual((ended.status, ended.out), (2, ""))
            self.assertIn("is not the setup that was refused", ended.err)


class OfCaptures(Folder):
    def test_every_code_has_a_reason(self) -> None:
        self.assertEqual(set(REASONS), {*range(1, 7), *range(11, 16), *range(21, 30)})
        for code, reason in REASONS.items():
            self.assertIn(reason, self.explained(stdin=f"capture: record 0 code {code}\n"))

    @needs_program
    def test_each_code_as_the_program_prints_it(self) -> None:
        for data, record, code, at in CAPTURES:
            self.file("c", data)
            ran = confluo("run", "--setup", self.setup, *SMALL, self.capture)
            self.assertEqual((ran.status, ran.out), (3, f"capture: record {record} code {code}\n"))
            said = self.explained("--setup", self.setup, "--capture", self.capture, stdin=ran.out)
            self.assertIn(REASONS[code], said)
            self.assertIn(
                f"Where: packet {record} (number {record + 1} in Wireshark), at byte {at} of the file", said
            )

    @needs_program
    def test_csv_files(self) -> None:
        self.file("s", RECORDS)
        for data, record, code, at in CSVS:
            self.file("c", data)
            ran = confluo("run", "--setup", self.setup, *SMALL, self.capture)
            self.assertEqual((ran.status, ran.out), (3, f"capture: record {record} code {code}\n"))
            said = self.explained("--setup", self.setup, "--capture", self.capture, stdin=ran.out)
            self.assertIn(f"Where: record {record}, at byte {at} of the file", said)

    @unittest.skipUnless(shutil.which("editcap"), "editcap is missing: apt-get install tshark")
    def test_the_commands_mend(self) -> None:
        for data, record, code, _ in CAPTURES:
            path = self.file("c", data)
            said = self.explained(
                "--setup", self.setup, "--capture", path, stdin=f"capture: record {record} code {code}\n"
            )
            command = [it.strip() for it in said.splitlines() if it.startswith("    editcap -r")]
            if not command:
                self.assertTrue(record == 0 or code in (2, 3, 23), code)
                continue
            subprocess.run(command[0].split(), cwd=self.place.name, capture_output=True)
            mended = pathlib.Path(self.place.name, "mended.pcap")
            try:
                self.assertEqual(len(list(rows_of(parse_setup(SETUP.encode()), str(mended)))), record)
            except CaptureFault as fault:
                self.fail(f"code {code}: the mended capture has code {fault.code}")
            mended.unlink()

    @needs_program
    @unittest.skipUnless(os.environ.get("CONFLUO_SLOW"), "4 GiB are read where CONFLUO_SLOW is set")
    def test_captures_of_4_gib(self) -> None:
        from support import block, section

        path = self.file("c", WHOLE[:24])
        size = 262144
        head = b"\1\0\0\0\0\0\0\0\0\0\4\0\0\0\4\0"
        with open(path, "r+b") as file:
            for at in range(24, 2**32, 16 + size):
                file.seek(at)
                file.write(head)
            file.truncate(2**32 + 4096)
        self.refused_as(path, 6)
        with open(path, "wb") as file:
            file.write(section())
            for at in (28, 28 + 2**31):
                file.seek(at)
                file.write(b"\x0a\0\0\0\0\0\0\x80")
                file.seek(at + 2**31 - 4)
                file.write(b"\0\0\0\x80")
            file.write(block(10, b""))
        self.refused_as(path, 26)

    def refused_as(self, path: str, code: int) -> None:
        ran = confluo("dump", path)
        self.assertEqual(ran.out, f"capture: record 0 code {code}\n")
        said = self.explained("--capture", path, stdin=ran.out)
        self.assertIn("at byte 4294967296 of the file", said)

    def test_a_packed_capture(self) -> None:
        packed = subprocess.run(["gzip", "-c", self.capture], capture_output=True).stdout
        path = self.file("c.gz", packed)
        said = self.explained("--capture", path, stdin="capture: record 0 code 1\n")
        self.assertIn(f"    gzip -dc {path} | confluo run --setup questions.setup /dev/stdin\n", said)

    def test_another_capture_is_refused(self) -> None:
        for path in (self.capture, self.file("d", WHOLE[:-60])):
            ended = tool("explain", "--capture", path, stdin="capture: record 1 code 5\n")
            self.assertEqual((ended.status, ended.out), (2, ""))
            self.assertIn("is not the capture that was refused", ended.err)


class OfRuns(Folder):
    def test_words_are_judged_by_themselves(self) -> None:
        for text, why in WORDS:
            with self.assertRaisesRegex(WordsFault, why):
                parse_words(text.split())
        for text in VALID:
            parse_words(text.split())

    @needs_program
    def test_words_as_the_program_judges_them(self) -> None:
        for text, why in WORDS:
            ran = confluo(*text.split())
            self.assertEqual((ran.status, ran.out), (1, "words: not a command\n"), text)
            said = self.explained("--command", f"confluo {text}", stdin=ran.out)
            self.assertIn(why, said)
        for text in VALID:
            self.assertEqual(confluo(*text.split()).status, 9, text)

    @needs_program
    def test_no_file(self) -> None:
        gone = str(pathlib.Path(self.place.name, "gone"))
        ran = confluo("run", "--setup", gone, self.capture)
        self.assertEqual((ran.status, ran.out), (9, "file: none of that name\n"))
        self.assertIn(f"{gone} does not exist", self.explained("--setup", gone, stdin=ran.out))

    @needs_program
    def test_a_file_that_cannot_be_read(self) -> None:
        ran = confluo("run", "--setup", self.setup, self.place.name)
        self.assertEqual((ran.status, ran.out), (4, ""))
        said = self.explained("--setup", self.setup, "--capture", self.place.name, "--status", "4")
        self.assertIn("is a folder", said)

    @needs_program
    def test_output_that_cannot_be_written(self) -> None:
        from confluo_report.program import program

        with open("/dev/full", "wb") as full:
            words = [program(), "run", "--setup", self.setup, *SMALL, self.capture]
            self.assertEqual(subprocess.run(words, stdout=full).returncode, 5)
        self.assertIn(
            "Standard output could not be written", self.explained("--status", "5", stdin="records 3\nas")
        )

    @needs_program
    def test_full(self) -> None:
        command = f"confluo run --setup {self.setup} --writers 1 --nodes 64 --capacity 2 {self.capture}"
        ran = confluo(*command.split()[1:])
        self.assertEqual((ran.status, ran.out), (6, "full: more than 2 records\n"))
        said = self.explained("--command", command, stdin=ran.out)
        self.assertIn("It has 3 records.", said)
        self.runs(said)

    @needs_program
    def test_nodes(self) -> None:
        command = f"confluo run --setup {self.setup} --writers 1 --capacity 64 --nodes 6 {self.capture}"
        ran = confluo(*command.split()[1:])
        self.assertEqual((ran.status, ran.out), (7, "nodes: more than 6 nodes\n"))
        said = self.explained("--command", command, stdin=ran.out)
        self.assertIn("They need 7 in a segment", said)
        self.assertIn("--nodes 7", said)
        self.runs(said)

    @needs_program
    def test_nodes_of_a_long_run(self) -> None:
        for options, offered in (("--nodes 6", "--long --nodes 65536 "), ("--capacity 8", "--capacity 2 ")):
            command = f"confluo run --long --setup {self.setup} --writers 1 {options} {self.capture}"
            said = self.explained("--command", command, stdin="nodes: more than 6 nodes\n")
            self.assertIn(offered, said)
            self.runs(said)

    def runs(self, said: str) -> None:
        """The command that is said ends with status 0."""
        command = next(it.strip() for it in said.splitlines() if it.startswith("    confluo run"))
        self.assertEqual(confluo(*command.split()[1:]).status, 0, command)

    @needs_program
    def test_many_segments_are_computed(self) -> None:
        many = self.file("c", pcap([(1, frame(at % 250)) for at in range(5000)]))
        ran = confluo("run", "--setup", self.setup, "--capacity", "4096", many)
        self.assertEqual(ran.out, "full: more than 4096 records\n")
        said = self.explained("--setup", self.setup, "--capture", many, stdin=ran.out)
        self.assertIn("It has 5000 records.", said)
        self.runs(said)
        self.assertIn(" --long ", said)
        with mock.patch.multiple("confluo_report.explain", MOST_NODES=1, sizes_for=lambda _: None):
            said = self.explained("--setup", self.setup, "--capture", many, stdin=ran.out)
        self.assertIn(" --long --capacity 256 ", said)
        self.runs(said)
        live = self.file("live", b"schema packet\nask q list *\nlive q\n")
        said = self.explained("--setup", live, "--capture", many, stdin=ran.out)
        self.assertIn(" --nodes 0 ", said)
        self.assertNotIn(" --long ", said)
        self.runs(said)

    @needs_program
    def test_memory(self) -> None:
        from confluo_report.program import program

        def few() -> None:
            resource.setrlimit(resource.RLIMIT_AS, (2**26, 2**26))

        words = [program(), "run", "--setup", self.setup, "--writers", "15", "--nodes", "65536", self.capture]
        ran = subprocess.run(words, capture_output=True, preexec_fn=few)
        if ran.returncode not in (8, 0):
            self.skipTest(f"this build of confluo does not run in little memory (status {ran.returncode})")
        self.assertEqual((ran.returncode, ran.stdout), (8, b""))
        said = self.explained("--command", " ".join(["confluo", *words[1:]]), "--status", "8")
        self.assertIn("1895 MB for trees", said)

    def test_without_a_refusal(self) -> None:
        self.assertIn("is a report, not a refusal", tool("explain", stdin="records 0\norder\n").err)
        self.assertEqual(tool("explain", stdin="").status, 2)
        self.assertEqual(tool("explain", "--status", "3", stdin="setup: line 1 code 2\n").status, 2)


if __name__ == "__main__":
    unittest.main()
