"""`confluo-report ask --as-one`: several captures, end to end, are asked as one by `run --long`."""

import io
import json
import os
import pathlib
import subprocess
import sys
import tempfile
import unittest
from unittest import mock

from support import frame, needs_program, pcap, tool

from confluo_report import program
from confluo_report.progress import part_read, printed

# The program, that notes its words and refuses segments above a capacity.
NOTING = """\
#!/bin/sh
echo "$*" >> {folder}/words
for it; do
    if [ "$last" = --capacity ] && [ "$it" -gt {most} ]; then echo 'nodes: more than 65536 nodes'; exit 7; fi
    last=$it
done
exec {real} "$@"
"""


@needs_program
class AsOne(unittest.TestCase):
    def setUp(self) -> None:
        place = tempfile.TemporaryDirectory()
        self.addCleanup(place.cleanup)
        self.folder = pathlib.Path(place.name)
        self.one = self.capture("one", [(1, frame(1)), (2, frame(2, 443))])
        self.two = self.capture("two", [(2, frame(3)), (2, frame(1, 443)), (4, frame(1, 443))])

    def noting(self, most: int = 65536) -> "mock._patch_dict":
        """The environment with a program that notes its words."""
        script = self.folder / "confluo"
        script.write_text(NOTING.format(folder=self.folder, real=program.program(), most=most))
        script.chmod(0o755)
        return mock.patch.dict(os.environ, {"CONFLUO": str(script)})

    def noted(self) -> list[str]:
        """The words of each run."""
        return (self.folder / "words").read_text().splitlines()

    def capture(self, name: str, frames: list[tuple[int, bytes]], end: bytes = b"") -> str:
        path = self.folder / f"{name}.pcap"
        path.write_bytes(pcap(frames) + end)
        return str(path)

    def test_answers_are_on_all_packets(self) -> None:
        questions = ("top 2 src by packets", "list dport==443", "over 100 bytes in a second")
        ended = tool("ask", "--as-one", self.one, self.two, *questions)
        self.assertEqual((ended.status, ended.err), (0, ""))
        lines = [" ".join(it.split()) for it in ended.out.splitlines()]
        for line in (
            "5 packets of 2 captures",
            "1. 10.0.0.1 3",
            "list dport==443: 3",
            "1 1970-01-01 00:00:02.000000 TCP 10.0.0.2:40002 > 10.0.1.10:443 54 bytes ACK seq 0 ack 0",
            "4 1970-01-01 00:00:04.000000 TCP 10.0.0.1:40001 > 10.0.1.10:443 54 bytes ACK seq 0 ack 0",
            "1970-01-01 00:00:02 162",
        ):
            self.assertIn(line, lines)

    def test_a_run_of_any_length(self) -> None:
        for front, captures in (((), [[self.one], [self.two]]), (("--as-one",), [[self.one, self.two]])):
            with self.noting():
                ended = tool("ask", *front, self.one, self.two, "count dport==443", "per minute packets")
            self.assertEqual((ended.status, ended.err), (0, ""))
            self.assertIn("5 packets of 2 captures", ended.out)
            noted = [it.split() for it in self.noted()]
            self.assertEqual([it[:2] for it in noted], [["run", "--long"]] * len(captures))
            self.assertEqual([[word for word in it if word.endswith(".pcap")] for it in noted], captures)
            (self.folder / "words").unlink()

    def test_more_packets_than_a_log_holds(self) -> None:
        setup, path = self.folder / "s.setup", self.folder / "many.pcap"
        setup.write_text("schema packet\nask a total len *\n")
        data = pcap([(1, frame())])
        path.write_bytes(data[:24] + data[24:] * 1048577)
        answer = "count 1048577 sum 56623158 least 54 greatest 54"
        for words, said in (
            (("ask", "--report", path, "count"), f"records 1048577\nask q1 total {answer}\n"),
            (
                ("over", "--setup", setup, "--format", "report", path),
                f"records 1048577\nask a total {answer}\n",
            ),
        ):
            ended = tool(*words)
            self.assertEqual((ended.status, ended.out, ended.err), (0, said, ""))

    def test_segments_are_made_smaller_if_nodes_are_too_few(self) -> None:
        for most, tries in ((4096, 3), (256, 5), (16, 5)):
            with self.noting(most):
                ended = tool("ask", "--report", self.one, "count dport==443")
            self.assertEqual(
                ended.out,
                "" if most == 16 else "records 2\nask q1 total count 1 sum 54 least 54 greatest 54\n",
            )
            self.assertEqual(len(self.noted()), tries)
            (self.folder / "words").unlink()

    def test_csv_files_are_asked_by_a_run(self) -> None:
        path = self.folder / "x.csv"
        path.write_text("ts,src\n1,10.0.0.1\n")
        with self.noting():
            ended = tool("ask", "--schema", "records ts:u64,src:u32", path, "list src==10.0.0.1")
        self.assertEqual((ended.status, ended.err), (0, ""))
        self.assertNotIn("--long", self.noted()[0])

    def test_for_programs(self) -> None:
        ended = tool("ask", "--as-one", "--json", self.one, self.two, "list dport==443")
        (answer,) = json.loads(ended.out)["answers"]
        self.assertEqual(answer["parts"], [{"capture": "all captures", "records": [1, 3, 4]}])
        ended = tool("ask", "--as-one", "--report", self.one, self.two, "list dport==443")
        self.assertEqual(ended.out.splitlines(), ["records 5", "ask q1 list 3: 1 3 4"])

    def test_packed_captures_and_names(self) -> None:
        subprocess.run(["gzip", self.two], check=True)
        strange = self.folder / "n\udcff.pcap"
        pathlib.Path(self.one).rename(strange)
        ended = tool("ask", "--as-one", strange, f"{self.two}.gz", "count dport==443")
        self.assertEqual((ended.status, ended.err), (0, ""))
        self.assertIn("\n        3 ", ended.out)

    def test_many_packed_captures(self) -> None:
        subprocess.run(["gzip", self.one, self.two], check=True)
        one, two = f"{self.one}.gz", f"{self.two}.gz"
        ended = tool("ask", "--as-one", "--report", *[one, two] * 60, "count dport==443")
        said = "records 300\nask q1 total count 180 sum 9720 least 54 greatest 54\n"
        self.assertEqual((ended.status, ended.out, ended.err), (0, said, ""))
        broken, text = self.folder / "broken.gz", self.capture("text", [])
        broken.write_bytes(pathlib.Path(one).read_bytes()[:-12])
        pathlib.Path(text).write_text("hello, world")
        for captures, why in (
            ([one, str(broken), two, two], "broken.gz: gzip could not unpack it"),
            ([text, one, two], "text.pcap: the file is not a capture"),
            ([one, text, two], "text.pcap: the file is not a capture"),
        ):
            ended = tool("ask", "--as-one", *captures, "count")
            self.assertEqual((ended.status, ended.out), (2, ""))
            self.assertIn(why, ended.err)

    def test_captures_that_are_cut_off(self) -> None:
        cut = self.capture("cut", [(5, frame(1))], b"cut")
        ended = tool("ask", "--as-one", self.one, cut, "count")
        self.assertEqual(ended.status, 2)
        self.assertIn(f"{cut}: ", ended.err)
        ended = tool("ask", "--as-one", "--truncated", self.one, cut, "count")
        self.assertEqual((ended.status, ended.err), (0, ""))
        self.assertIn(f"{cut} is cut off after 1 packets: what came then is missing", ended.out)

    def test_refusals(self) -> None:
        for words, said in (
            (("--out", "o.pcap", "list dport==443"), "in one capture"),
            (("--schema", "records ts:u64", "count"), "--as-one is for captures of packets"),
        ):
            ended = tool("ask", "--as-one", self.one, self.two, *words)
            self.assertEqual(ended.status, 2)
            self.assertIn(said, ended.err)

    def test_a_program_without_it(self) -> None:
        old = self.folder / "old"
        old.write_text("#!/bin/sh\necho 'words: not a command'\nexit 1\n")
        old.chmod(0o755)
        with mock.patch.dict(os.environ, {"CONFLUO": str(old)}):
            ended = tool("ask", "--as-one", self.one, self.two, "count")
        self.assertIn("knows `run --long`, and this one does not", ended.err)


class Terminal(io.StringIO):
    def isatty(self) -> bool:
        return True


class Progress(unittest.TestCase):
    def test_how_much_of_the_captures_was_read(self) -> None:
        with tempfile.TemporaryDirectory() as folder:
            paths = [f"{folder}/a", f"{folder}/b"]
            for path in paths:
                pathlib.Path(path).write_bytes(bytes(10**6))
            program = (
                "import sys, time; a = open(sys.argv[1], 'rb'); a.seek(500000); time.sleep(1.2); print(7)"
            )
            words = [sys.executable, "-c", program, paths[1]]
            with open(paths[0], "rb") as file, subprocess.Popen(["sleep", "9"], stdin=file) as packer:
                os.lseek(file.fileno(), 250000, os.SEEK_SET)
                self.assertEqual(part_read(2**22, paths), "confluo has read 12% of 2 MB")
                packer.kill()
            out = Terminal()
            with subprocess.Popen(words, stdout=subprocess.PIPE) as process:
                self.assertEqual(printed(process, paths, out), b"7\n")
            self.assertIn("\rconfluo has read 75% of 2 MB\x1b[K", out.getvalue())
            self.assertTrue(out.getvalue().endswith("\r\x1b[K"))
            self.assertEqual(part_read(2**22, paths), "confluo runs")


if __name__ == "__main__":
    unittest.main()
