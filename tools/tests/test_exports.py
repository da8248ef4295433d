"""JSON, CSV and Prometheus' text have all of a report."""

import csv
import io
import itertools
import json
import os
import pathlib
import re
import shutil
import stat
import subprocess
import tempfile
import unittest
from unittest import mock

from support import CUT_REPORT, CUT_SNAPSHOT, EXAMPLES, REPORT, ROOT, SNAPSHOT, tool

from confluo_report.errors import Complaint
from confluo_report.exports import json_line
from confluo_report.metrics import labels_of, write_at_once

TEXTS = [it.read_text() for it in sorted(EXAMPLES.rglob("*.report"))]
TEXTS += [REPORT, SNAPSHOT, CUT_REPORT, CUT_SNAPSHOT]
SETUP = EXAMPLES / "incidents" / "full_link.setup"
FULL_LINK = (EXAMPLES / "incidents" / "full_link.report").read_text()


def body_text(kind: str, count: object, entries: list[str]) -> str:
    return " ".join([f"{kind} {count}:", *entries])


def quad_text(kind: str, it: dict) -> str:
    ends = ["-" if it[end] in (None, "") else it[end] for end in ("least", "greatest")]
    return f"{kind} count {it['count']} sum {it['sum']} least {ends[0]} greatest {ends[1]}"


def place_text(it: dict) -> str:
    """A bucket or a key, or both."""
    return "/".join(str(it[name]) for name in ("bucket", "key") if name in it)


def text_of_object(it: dict) -> str:
    """An answer's text from its JSON object."""
    if "count" in it:
        return quad_text(it["kind"], it)
    if "groups" in it:
        parts = ("count", "sum", "least", "greatest")
        words = [f"{place_text(one)}=" + "/".join(str(one[part]) for part in parts) for one in it["groups"]]
        return body_text("groups", len(words), words)
    if "records" in it:
        return body_text(it["kind"], len(it["records"]), list(map(str, it["records"])))
    if "marks" in it:
        return marks_text(it["marks"])
    return body_text("top", len(it["keys"]), [f"{one['key']}={one['value']}" for one in it["keys"]])


def marks_text(marks: list[dict]) -> str:
    return body_text("fired", len(marks), [f"{place_text(one)}={one['value']}" for one in marks])


def from_json(read: dict) -> str:
    """The report's text, made of the JSON alone."""
    lines = []
    if read["kind"] == "snapshot":
        lines.append(f"cut {read['cut']}")
        for host in read["hosts"]:
            lines.append(f"host {host['number']} @{host['records']}")
            lines += [f"ask {it['name']} {text_of_object(it)}" for it in host["asks"]]
            lines += [f"truncated: record {host['truncated']}"] if "truncated" in host else []
        return "\n".join(lines) + "\n"
    lines.append(f"records {read['records']}")
    lines += [f"ask {it['name']} {text_of_object(it)}" for it in read["asks"]]
    lines += [f"alert {it['trigger']} {place_text(it)} {it['value']}" for it in read["alerts"]]
    for it in read["lives"]:
        lines.append(f"live {it['name']} @{it['prefix']} {text_of_object(it)}")
        if "new" in it:
            lines.append(f"new {it['name']} @{it['prefix']} {marks_text(it['new'])}")
    if read["order"] is not None:
        lines.append("order" + "".join(f" {it['writer']}*{it['count']}" for it in read["order"]))
    lines += [f"truncated: record {read['truncated']}"] if "truncated" in read else []
    return "\n".join(lines) + "\n"


def body_of_rows(rows: list[dict]) -> tuple[str, int]:
    """An answer's text from the CSV rows that begin with it, and how many rows it has."""
    kind = rows[0]["kind"]
    if kind in ("measure", "total"):
        return quad_text(kind, {it["key"]: it["value"] for it in rows[:4]}), 4
    count = int(rows[0]["value"])
    if kind == "groups":
        groups = [rows[at : at + 4] for at in range(1, 1 + 4 * count, 4)]
        entries = [f"{four[0]['key']}=" + "/".join(it["value"] for it in four) for four in groups]
        return body_text(kind, count, entries), 1 + 4 * count
    entries = [it["key"] + ("=" if it["value"] else "") + it["value"] for it in rows[1 : 1 + count]]
    return body_text(kind, count, entries), 1 + count


def from_csv(text: str) -> str:
    """The report's text, made of the CSV table alone."""
    rows, lines = list(csv.DictReader(io.StringIO(text))), []
    while rows:
        it, used = rows[0], 1
        if it["part"] in ("records", "cut"):
            lines.append(f"{it['part']} {it['value']}")
        elif it["part"] == "truncated":
            lines.append(f"truncated: record {it['value']}")
        elif it["part"] == "host":
            lines.append(f"host {it['host']} @{it['value']}")
        elif it["part"] == "alert":
            lines.append(f"alert {it['name']} {it['key']} {it['value']}")
        elif it["part"] == "order":
            used = 1 + int(it["value"])
            lines.append("order" + "".join(f" {one['key']}*{one['value']}" for one in rows[1:used]))
        else:
            body, used = body_of_rows(rows)
            at = f" @{it['prefix']}" if it["prefix"] else ""
            lines.append(f"{it['part']} {it['name']}{at} {body}")
        rows = rows[used:]
    return "\n".join(lines) + "\n"


def samples_of(text: str) -> dict[str, list[tuple[dict, int]]]:
    found: dict[str, list[tuple[dict, int]]] = {}
    for line in text.splitlines():
        if not line.startswith("#"):
            name, labels, value = re.fullmatch(r"(\w+)(?:\{(.*)\})? (\d+)", line).groups()  # type: ignore[union-attr]
            pairs = dict(re.findall(r'(\w+)="([^"]*)"', labels or ""))
            found.setdefault(name, []).append((pairs, int(value)))
    return found


class Exports(unittest.TestCase):
    def test_json_has_all(self) -> None:
        for text in TEXTS:
            ended = tool("json", stdin=text)
            self.assertEqual((ended.status, ended.err), (0, ""))
            self.assertEqual(from_json(json.loads(ended.out)), text)

    def test_csv_has_all(self) -> None:
        for text in TEXTS:
            self.assertEqual(from_csv(tool("csv", stdin=text).out), text)

    def test_json_with_a_setup_has_times_and_addresses_beside(self) -> None:
        read = json.loads(tool("json", "--setup", SETUP, stdin=FULL_LINK).out)
        self.assertEqual(from_json(read), FULL_LINK)
        tops = {it["name"]: it for it in read["asks"]}["most"]["keys"]
        self.assertEqual(tops[0], {"key": 3221226015, "value": 154428, "text": "192.0.2.31"})
        self.assertEqual(read["alerts"][0]["time"], "2023-11-20 13:00:00Z")

    def test_json_meets_its_schema(self) -> None:
        try:
            import jsonschema
        except ImportError:
            self.skipTest("the Python package jsonschema is missing: apt-get install python3-jsonschema")
        schema = json.loads((ROOT / "docs" / "report.schema.json").read_text())
        jsonschema.Draft202012Validator.check_schema(schema)
        for text in TEXTS:
            jsonschema.validate(json.loads(tool("json", stdin=text).out), schema)
        jsonschema.validate(json.loads(tool("json", "--setup", SETUP, stdin=FULL_LINK).out), schema)

    def test_csv_with_a_setup_has_what_json_has(self) -> None:
        read = json.loads(tool("json", "--setup", SETUP, stdin=FULL_LINK).out)
        rows = list(csv.DictReader(io.StringIO(tool("csv", "--setup", SETUP, stdin=FULL_LINK).out)))
        raw = tool("csv", "--setup", SETUP, "--raw", stdin=FULL_LINK).out
        self.assertEqual(raw, tool("csv", stdin=FULL_LINK).out)
        asks = {it["name"]: it for it in read["asks"]}
        for name, kind, text in (("most", "keys", "text"), ("load", "marks", "time")):
            keys = [it["key"] for it in rows if it["part"] == "ask" and it["name"] == name and it["key"]]
            self.assertEqual(keys, [it[text] for it in asks[name][kind]])
        alerts = [it["key"] for it in rows if it["part"] == "alert"]
        self.assertEqual(alerts, [it["time"] for it in read["alerts"]])
        self.assertIn(
            "ask,,most,top,,0,192.0.2.31,154428\n", tool("csv", "--setup", SETUP, stdin=FULL_LINK).out
        )

    def test_metrics_have_no_lists_unless_asked(self) -> None:
        found = samples_of(tool("prometheus", stdin=REPORT).out)
        for name in ("confluo_found_record", "confluo_order_records", "confluo_live_found_records"):
            self.assertNotIn(name, found)
        self.assertEqual([value for _, value in found["confluo_found_records"]], [4, 0, 2])
        self.assertEqual(
            tool("prometheus", "--brief", stdin=REPORT).out, tool("prometheus", stdin=REPORT).out
        )

    def test_keys_in_metrics_are_addresses_where_the_setup_says_so(self) -> None:
        out = tool("prometheus", "--setup", SETUP, stdin=FULL_LINK).out
        self.assertIn('confluo_top_value{ask="most",kind="top",key="192.0.2.31"} 154428\n', out)
        self.assertNotIn("place=", out)

    def test_metrics_have_each_number_of_each_line(self) -> None:
        found = samples_of(tool("prometheus", "--lists", stdin=REPORT).out)
        self.assertEqual(found["confluo_records"], [({}, 4)])
        all_ = [int(it["record"]) for it, _ in found["confluo_found_record"] if it["ask"] == "all"]
        self.assertEqual(all_, [0, 1, 2, 3])
        marks = [(int(it["bucket"]), value) for it, value in found["confluo_fired_value"]]
        self.assertEqual(marks, [(1, 90), (2, 100)])
        m = {it["part"]: value for it, value in found["confluo_measured"] if it["ask"] == "m"}
        self.assertEqual(m, {"count": 3, "sum": 190, "least": 60, "greatest": 70})
        z = {it["part"]: value for it, value in found["confluo_measured"] if it["ask"] == "z"}
        self.assertEqual(z, {"count": 0, "sum": 0})
        tops = [(int(it["key"]), value) for it, value in found["confluo_top_value"]]
        self.assertEqual(tops, [(167772161, 120), (167772162, 70)])
        groups = [(it["key"], it["part"], value) for it, value in found["confluo_group_value"]]
        self.assertEqual(groups[4:6], [("2", "count", 2), ("2", "sum", 130)])
        alerts = [(it["trigger"], int(it["bucket"]), value) for it, value in found["confluo_alert_value"]]
        self.assertEqual(alerts, [("t", 1, 90), ("t", 2, 100)])
        live = [(it["line"], it["prefix"], it["record"]) for it, _ in found["confluo_live_found_record"]]
        self.assertEqual(live, [("0", "2", "1"), ("0", "2", "0"), *[("2", "4", it) for it in "1023"]])
        new = [(it["line"], it["bucket"], value) for it, value in found["confluo_new_fired_value"]]
        self.assertEqual(new, [("1", "1", 71), ("3", "2", 100)])
        order = [(int(it["writer"]), value) for it, value in found["confluo_order_records"]]
        self.assertEqual(order, [(0, 2), (1, 2)])

    def test_a_capture_that_is_cut_off_has_a_metric(self) -> None:
        for text, wanted in (
            (CUT_REPORT, [({}, 4)]),
            (CUT_SNAPSHOT, [({"host": "0"}, 7), ({"host": "1"}, 1)]),
        ):
            found = samples_of(tool("prometheus", "--brief", stdin=text).out)
            self.assertEqual(found["confluo_truncated_records"], wanted)
        self.assertNotIn("truncated", tool("prometheus", stdin=REPORT).out)

    def test_no_two_samples_are_the_same(self) -> None:
        for text, words in itertools.product(TEXTS, ((), ("--lists",), ("--label", "host=web1"))):
            lines = [
                it.rsplit(" ", 1)[0]
                for it in tool("prometheus", *words, stdin=text).out.splitlines()
                if it[0] != "#"
            ]
            self.assertEqual(len(lines), len(set(lines)))

    def test_labels_and_triggers_that_do_not_fire(self) -> None:
        setup = "schema packet\nfilter f *\naggregate a f len\ntrigger t a sum > 5\n"
        with tempfile.TemporaryDirectory() as folder:
            path = pathlib.Path(folder, "s")
            path.write_text(setup)
            out = tool("prometheus", "--setup", path, "--label", 'site=a"b', stdin="records 0\n").out
        self.assertIn('confluo_alerts{site="a\\"b",trigger="t"} 0\n', out)
        for texts in (["nolabel"], ["9x=1"], ["__x=1"], ["a-b=1"], ["a=1", "a=2"]):
            with self.assertRaises(Complaint):
                labels_of(texts)

    def test_any_legal_name_is_a_label(self) -> None:
        out = tool(
            "prometheus", "--label", "host=web1", "--label", "ask=x", "--label", "le=y", stdin=SNAPSHOT
        ).out
        self.assertIn('confluo_host_records{host="web1",ask="x",le="y",confluo_host="0"} 1\n', out)
        self.assertIn(
            'confluo_found_records{host="web1",ask="x",le="y",confluo_ask="big",confluo_host="1",kind="list"} 1\n',
            out,
        )

    def test_a_number_that_is_not_exact_is_refused(self) -> None:
        ended = tool("prometheus", stdin=f"records 1\nalert t 1 {2**53 + 1}\n")
        self.assertEqual((ended.status, ended.out), (2, ""))
        self.assertIn("no Prometheus value holds it exactly", ended.err)

    def test_json_has_only_characters(self) -> None:
        for name, wanted in (
            ("n\udcff.pcap", "n\ufffd.pcap"),
            ("\udc80\udcff", "\ufffd\ufffd"),
            ("\U0001f480", "\U0001f480"),
            ("\\udcff", "\\udcff"),
            ("\\\udcff", "\\\ufffd"),
        ):
            text = json_line([name])
            self.assertEqual(json.loads(text), [wanted])
            self.assertTrue(text.isascii() and text.endswith("\n"))

    @unittest.skipUnless(shutil.which("promtool"), "promtool is missing: apt-get install prometheus")
    def test_promtool_finds_nothing(self) -> None:
        for text in TEXTS:
            out = tool("prometheus", "--lists", "--label", "site=office", stdin=text).out
            done = subprocess.run(["promtool", "check", "metrics"], input=out.encode(), capture_output=True)
            self.assertEqual((done.returncode, done.stdout + done.stderr), (0, b""), out[:300])

    def test_a_textfile_is_written_at_once_or_not_at_all(self) -> None:
        with tempfile.TemporaryDirectory() as folder:
            path = pathlib.Path(folder, "confluo.prom")
            self.assertEqual(tool("prometheus", "--textfile", path, "--brief", stdin=REPORT).status, 0)
            first = path.read_text()
            self.assertIn("confluo_records 4\n", first)
            self.assertNotIn("confluo_found_record{", first)
            self.assertEqual(stat.S_IMODE(path.stat().st_mode), 0o644)
            self.assertEqual(tool("prometheus", "--textfile", path, stdin=REPORT[:-4]).status, 2)
            with mock.patch("os.replace", side_effect=OSError(28, "No space left on device")):
                with self.assertRaisesRegex(Complaint, "it is as before"):
                    write_at_once(str(path), "x\n")
            self.assertEqual((path.read_text(), os.listdir(folder)), (first, ["confluo.prom"]))
            self.assertEqual(
                tool("prometheus", "--textfile", pathlib.Path(folder, "no", "f"), stdin=REPORT).status, 2
            )


if __name__ == "__main__":
    unittest.main()
