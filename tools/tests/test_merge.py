"""Merged reports have exact sums, and tops that say from which place on they could be wrong."""

import json
import random
import re
import shutil
import subprocess
import sys
import unittest

from support import EXAMPLES, INCIDENTS, ROOT, SNAPSHOT, TOOLS, confluo, needs_program, tool

from confluo_report.errors import Complaint
from confluo_report.expressions import Expression
from confluo_report.merge import joined_top, merged_lines, parse_merged, split_reports
from confluo_report.program import find_program
from confluo_report.reports import Pair, Top
from confluo_report.setups import Lane, Question

import pathlib
import tempfile


def has_gnu_parallel() -> bool:
    """moreutils has another program of that name."""
    found = shutil.which("parallel")
    return bool(found) and b"GNU" in subprocess.run([found, "--version"], capture_output=True).stdout


FIRST = """\
records 3
ask all list 2: 0 2
ask o total count 3 sum 30 least 5 greatest 15
ask z total count 0 sum 0 least - greatest -
ask h top 2: 1=20 2=10
ask each groups 2: 1=2/20/5/15 2=1/10/10/10
ask g fired 1: 5=30
alert t 5 30
order 0*3
"""
SECOND = """\
records 4
ask all list 1: 1
ask o total count 2 sum 9 least 4 greatest 5
ask z total count 1 sum 7 least 7 greatest 7
ask h top 1: 2=9
ask each groups 2: 2=2/9/4/5 3=1/7/7/7
ask g fired 0:
"""
SETUP = """\
schema packet
filter f *
aggregate a f len
tally y src len *
trigger t a sum > 20
ask all list len>0
ask o total len *
ask z total len dport==1
ask h top y sum 3
ask each groups y
ask g fired t
"""
MERGED = """\
records 7
ask all list 2: 0 2 (one)
ask all list 1: 1 (two)
ask o total count 5 sum 39 least 4 greatest 15
ask z total count 1 sum 7 least 7 greatest 7
ask h top 2: 1=20 2=19
ask each groups 3: 1=2/20/5/15 2=3/19/4/10 3=1/7/7/7
ask g fired 1: 5=30 (one)
ask g fired 0: (two)
alert t 5 30 (one)
"""


def question(part: str, count: int) -> Question:
    return Question(
        "h", "top", "", lane=Lane("y", "tally", Expression("*", ((),)), 1, 2), part=part, high=count
    )


def top_of(part: str, quads: dict[int, dict[str, int]], count: int) -> Top:
    ranked = sorted((-it[part], key) for key, it in quads.items())[:count]
    return Top(tuple(Pair(key, -value) for value, key in ranked))


def together(quads: list[dict[str, int]]) -> dict[str, int]:
    return {
        "count": sum(it["count"] for it in quads),
        "sum": sum(it["sum"] for it in quads),
        "least": min(it["least"] for it in quads),
        "greatest": max(it["greatest"] for it in quads),
    }


def quads_of(packets: list[tuple[int, int]]) -> dict[int, dict[str, int]]:
    found: dict[int, dict[str, int]] = {}
    for key, value in packets:
        one = {"count": 1, "sum": value, "least": value, "greatest": value}
        found[key] = together([found[key], one]) if key in found else one
    return found


class Merges(unittest.TestCase):
    def merged(self, *words: object, setup: str = SETUP, second: str = SECOND) -> "tuple[int, str, str]":
        with tempfile.TemporaryDirectory() as folder:
            for name, text in (("one", FIRST), ("two", second), ("s", setup)):
                pathlib.Path(folder, name).write_text(text)
            paths = [f"{folder}/{it}" for it in ("one", "two")]
            known = ["--setup", f"{folder}/s"] if setup else []
            ended = tool("merge", *words, *known, *paths)
        return ended.status, ended.out.replace(f"{folder}/", ""), ended.err

    def test_sums_and_lists(self) -> None:
        self.assertEqual(self.merged(), (0, MERGED, ""))

    def test_a_merged_report_is_read(self) -> None:
        cut = MERGED + "truncated: record 4 (a b (c))\n"
        for text in (
            MERGED,
            cut,
            MERGED.replace("2=19\n", "2=19 (certain up to place 1 only: 1 report lists 2)\n"),
        ):
            self.assertEqual("\n".join(merged_lines(parse_merged(text, "m"))) + "\n", text)
        with tempfile.TemporaryDirectory() as folder:
            path = pathlib.Path(folder, "s")
            path.write_text(SETUP)
            ended = tool("show", "--setup", path, stdin=cut)
            self.assertEqual((ended.status, ended.err), (0, ""))
            for line in (
                "7 packets of all reports",
                "a b (c) is of a capture that is cut off after 4",
                "all  packets with len>0",
                "  in one: 2",
                "        5          39          4            15",
                "  1.  0.0.0.1          20",
                "  t        1970-01-01 00:00:05     30  sum of len > 20, of all packets",
            ):
                self.assertIn(line, ended.out.splitlines())
            read = json.loads(tool("json", "--setup", path, stdin=cut).out)
            rows = tool("csv", "--setup", path, stdin=cut).out.splitlines()
        self.assertEqual((read["kind"], read["records"]), ("merged", 7))
        parts = [
            {"report": "one", "kind": "list", "records": [0, 2]},
            {"report": "two", "kind": "list", "records": [1]},
        ]
        self.assertEqual(read["asks"][0], {"name": "all", "parts": parts})
        self.assertEqual(
            read["asks"][1], {"name": "o", "kind": "total", "count": 5, "sum": 39, "least": 4, "greatest": 15}
        )
        self.assertEqual(read["truncated"], [{"report": "a b (c)", "records": 4}])
        self.assertIn("ask,two,all,list,,0,1,", rows)
        self.assertIn("alert,one,t,,,,1970-01-01 00:00:05Z,30", rows)
        out = tool("prometheus", stdin=cut).out
        self.assertIn('confluo_found_records{ask="all",report="one",kind="list"} 2\n', out)
        for text, why in (
            (MERGED.replace("sum 39", "sum x"), "line 4 cannot be read"),
            (MERGED.replace("alert t 5 30 (one)", "alert t 5 30"), "line 10 cannot be read"),
            (MERGED + "order\n", "line 11 cannot be read"),
            (MERGED.replace("0 2 (one)", "0 7 (one)"), "below 7"),
        ):
            self.assertIn(why, tool("show", stdin=text).err)
        self.assertIn("not a report of this setup", self.other(MERGED.replace("ask o", "ask p")))

    def other(self, text: str) -> str:
        """What is said of a merged report with the setup."""
        with tempfile.TemporaryDirectory() as folder:
            path = pathlib.Path(folder, "s")
            path.write_text(SETUP)
            return tool("show", "--setup", path, stdin=text).err

    def test_json_of_a_merged_report_meets_its_schema(self) -> None:
        try:
            import jsonschema
        except ImportError:
            self.skipTest("the Python package jsonschema is missing: apt-get install python3-jsonschema")
        schema = json.loads((ROOT / "docs" / "report.schema.json").read_text())
        for text in (MERGED, MERGED + "truncated: record 4 (one)\n"):
            jsonschema.validate(json.loads(tool("json", stdin=text).out), schema)

    def test_what_does_not_fit_is_refused(self) -> None:
        for setup, second, why in (
            ("", SECOND, "give the setup"),
            (SETUP, SECOND.replace("ask o", "ask p"), "different setups"),
            (SETUP, SECOND[:-20], "cut off"),
            (SETUP, SNAPSHOT, "a snapshot"),
            (SETUP.replace("ask o total", "ask o2 total"), SECOND, "not a report of this setup"),
            (SETUP.replace("sum 3", "sum 1"), SECOND, "2 keys, and 1 were asked for"),
        ):
            status, out, err = self.merged(setup=setup, second=second)
            self.assertEqual((status, out), (2, ""), why)
            self.assertIn(why, err)

    def test_a_full_top_says_where_its_tail_could_be_wrong(self) -> None:
        asked = question("sum", 2)
        tops = [Top((Pair(1, 100), Pair(2, 10))), Top((Pair(1, 90), Pair(3, 20)))]
        joined, note = joined_top(asked, tops)
        self.assertEqual(joined, Top((Pair(1, 190), Pair(3, 20))))
        self.assertIn("certain up to place 1 only", note)
        self.assertEqual(
            joined_top(question("sum", 3), tops), (Top((Pair(1, 190), Pair(3, 20), Pair(2, 10))), "")
        )
        self.assertEqual(joined_top(asked, tops[:1]), (tops[0], ""))

    def test_what_is_called_certain_is_right(self) -> None:
        draw = random.Random(7)
        noted = 0
        for _ in range(3000):
            part, count = draw.choice(["count", "sum", "least", "greatest"]), draw.randrange(1, 6)
            hosts = [
                quads_of([(draw.randrange(8), draw.randrange(1, 12)) for _ in range(draw.randrange(12))])
                for _ in range(draw.randrange(2, 4))
            ]
            keys = {key for it in hosts for key in it}
            whole = {key: together([it[key] for it in hosts if key in it]) for key in keys}
            truth = top_of(part, whole, count).keys
            joined, note = joined_top(question(part, count), [top_of(part, it, count) for it in hosts])
            noted += bool(note)
            found = re.search(r"up to place (\d+) only", note)
            sure = (int(found[1]) if found else 0) if note else len(truth)
            self.assertEqual(joined.keys[:sure], truth[:sure], (part, count, hosts, note))
            if not note:
                self.assertEqual(joined.keys, truth)
        self.assertTrue(500 < noted < 2900, noted)

    def test_several_reports_in_one_text(self) -> None:
        self.assertEqual([it.report.records for it in split_reports(FIRST + SECOND, "x")], [3, 4])
        text = "".join(
            f"web{at} q\t{line}\n" for at, one in enumerate((FIRST, SECOND)) for line in one.splitlines()
        )
        named = split_reports(text, "x", tagged=True)
        self.assertEqual([(it.name, it.report.records) for it in named], [("web0 q", 3), ("web1 q", 4)])
        with self.assertRaisesRegex(Complaint, "no tag"):
            split_reports(FIRST, "x", tagged=True)
        with self.assertRaisesRegex(Complaint, "a refusal"):
            split_reports("web1\tfile: none of that name\n", "x", tagged=True)

    @needs_program
    @unittest.skipUnless(has_gnu_parallel(), "GNU parallel is missing: apt-get install parallel")
    def test_reports_of_parallel(self) -> None:
        setup = INCIDENTS / "lost.setup"
        captures = [INCIDENTS / f"lost_{it}.pcap" for it in ("before", "behind")]
        run = f"{find_program()} run --setup {setup} --writers 1 --capacity 4096"
        words = ["parallel", "--will-cite", "--sshlogin", ":", "--tag", run, ":::", *map(str, captures)]
        tagged = subprocess.run(words, capture_output=True, text=True).stdout
        ended = tool("merge", "--tagged", "--setup", setup, "-", stdin=tagged)
        self.assertEqual((ended.status, ended.err), (0, ""))
        self.assertIn("records 230\n", ended.out)
        self.assertIn("ask each top 3: 3325256784=120 3325256789=60 3325256794=50\n", ended.out)
        self.assertIn("ask all total count 230 sum 117130 least 354 greatest 1514\n", ended.out)

    def test_the_executable(self) -> None:
        words = [sys.executable, str(TOOLS / "confluo-report"), "--version"]
        version = (EXAMPLES.parent / "VERSION").read_text().strip()
        self.assertEqual(
            subprocess.run(words, capture_output=True, text=True).stdout, f"confluo-report {version}\n"
        )
        self.assertEqual(tool("nothing").status, 2)
        self.assertEqual(tool().status, 2)
        for name in "show explain json csv prometheus merge plot packets ask check".split():
            ended = tool(name, "--help")
            self.assertEqual(ended.status, 0)
            self.assertGreater(len(ended.out), 200)

    @needs_program
    def test_a_merged_run_is_the_run_of_all(self) -> None:
        setup, capture = INCIDENTS / "full_link.setup", INCIDENTS / "full_link.pcap"
        ran = confluo("run", "--setup", setup, "--writers", "1", "--capacity", "4096", capture)
        with tempfile.TemporaryDirectory() as folder:
            pathlib.Path(folder, "r").write_text(ran.out)
            out = tool("merge", "--setup", setup, f"{folder}/r").out
        self.assertIn("ask most top 3: 3221226015=154428 3221226004=3288 3221226024=3288\n", out)


if __name__ == "__main__":
    unittest.main()
