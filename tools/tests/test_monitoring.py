"""The rules and the dashboard of examples/monitoring, whose queries Prometheus itself answers over a recorded textfile."""

import json
import pathlib
import re
import shutil
import socket
import subprocess
import tempfile
import time
import unittest
import urllib.parse
import urllib.request
from typing import Iterator

from support import EXAMPLES

from confluo_report.incoming import Ending, Incoming
from confluo_report.reports import parse
from confluo_report.setups import parse_setup
from confluo_report.states import Silence
from confluo_report.tcpdump import Counts
from confluo_report.textfile import Textfile

FOLDER = EXAMPLES / "monitoring"
SETUP = parse_setup((FOLDER / "questions.setup").read_bytes())
BOARD = json.loads((FOLDER / "confluo.dashboard.json").read_text())
RULES = (FOLDER / "confluo.rules.yml").read_text()
# The recording: when it begins, seconds between two samples, and how many. Packets come but for minutes 20 to 24, and it ends in minute 30.
BEGIN, STEP, SAMPLES = 1_700_000_100, 15, 160
PACKETS = 150
# Of each aggregate, in the order of the setup, records and bytes of a step.
STEPS = {
    "all_bytes": (150, 15000),
    "web_bytes": (60, 6000),
    "dns_bytes": (30, 1500),
    "reset_bytes": (0, 0),
}
# Of the rules that alert, in which minutes their expressions hold and in which not.
ALERTS = {
    "ConfluoTrigger": ((11, 14), (9, 20)),
    "ConfluoSilent": ((23, 24), (5, 19, 27)),
    # In minute 46 there is no metric any more.
    "ConfluoStopped": ((31, 38, 46), (29,)),
    "ConfluoStuck": ((33, 38), (10, 24, 29)),
    "ConfluoBehind": ((18, 19), (10, 17, 20)),
    "ConfluoDrops": ((16, 24), (14, 28)),
    "ConfluoCommands": ((), (10, 30)),
}
# Queries of recorded rules, the minute, and the values by filter.
RATES = (
    ("confluo:bytes:rate5m", 9, {"every": 1000, "web": 400, "dns": 100, "resets": 0}),
    ("confluo:packets:rate5m", 9, {"every": 10, "web": 4, "dns": 2, "resets": 0}),
    ("confluo:bytes:rate5m", 28, {"every": 650, "web": 260, "dns": 65, "resets": 0}),
)
# What has no sample in the recording: no command is run for its alerts.
EMPTY = ("confluo_stream_commands_total",)


def lines_at(step: int, packets: int, moment: int) -> Iterator[str]:
    """What a stand-in of `watch --beat 1` writes in a step."""
    if step == 42:
        yield f"alert busy {moment} 10000001 @{packets}"
    if step % 4 == 0:
        yield f"live most @0..{packets} top 2: 167772165={100 * packets} 167772161={packets}"
    yield f"at {packets} {moment}"
    for name, (count, total) in STEPS.items():
        steps = packets // PACKETS
        yield f"total {name} count {count * steps} sum {total * steps}"


def recording(folder: str) -> Iterator[tuple[int, str]]:
    """When the file of metrics was read, and its text."""
    clock, counts = [0.0], Counts()
    file = Textfile(f"{folder}/m.prom", {"interface": "eth0"}, SETUP, counts=counts, now=lambda: clock[0])
    file.seen.is_silent = False
    silence, incoming = Silence([file], 60, lambda: clock[0]), Incoming("w", SETUP, False)
    packets, written, text = 0, BEGIN, ""
    for step in range(SAMPLES):
        clock[0] = float(step * STEP)
        moment = BEGIN + step * STEP
        if step < 120 and not 80 <= step < 100:
            packets += PACKETS
            for told in incoming.feed("".join(f"{it}\n" for it in lines_at(step, packets, moment)).encode()):
                silence.told(told)
        elif step < 120:
            silence.idle()
        if step == 120:
            report = parse(f"records {packets}\nwindow 0\nask most top 0:\nalert busy 1700000730 10000001\n")
            silence.end(Ending(report))
            file.running = 0
        behind = 65536 * (70 <= step < 78)
        file.unread = lambda: behind
        dropped = 5 * (step >= 62)
        counts.take(
            f"tcpdump: {packets} packets captured, {packets} packets received by filter, {dropped} packets dropped by kernel"
        )
        if step <= 120:
            written, text = moment, file.text()
        mtime = f'node_textfile_mtime_seconds{{file="/run/confluo/eth0/metrics.prom"}} {written}\n'
        yield moment, text + mtime


def openmetrics(samples: Iterator[tuple[int, str]]) -> str:
    lines = [f"{line} {moment}" for moment, text in samples for line in text.splitlines() if line[0] != "#"]
    return "\n".join([*lines, "# EOF\n"])


def expressions() -> Iterator[tuple[str, str]]:
    """The panels' queries, with Grafana's variables as it sets them."""
    for panel in BOARD["panels"]:
        for target in panel["targets"]:
            text = target["expr"].replace("$interface", "eth0|eth1").replace("$__rate_interval", "1m")
            yield panel["title"], text


def rules() -> dict[str, str]:
    """The expressions of the rules, by name."""
    lines = [it.strip().removeprefix("- ") for it in RULES.splitlines()]
    names = [it.partition(": ")[2] for it in lines if it.startswith(("alert:", "record:"))]
    return dict(zip(names, (it.partition(": ")[2] for it in lines if it.startswith("expr:"))))


def free_port() -> int:
    with socket.socket() as it:
        it.bind(("127.0.0.1", 0))
        return it.getsockname()[1]


def fetch(url: str, seconds: float = 30) -> str:
    """What the address answers, once it does."""
    late = time.monotonic() + seconds
    while True:
        try:
            with urllib.request.urlopen(url, timeout=10) as found:
                return found.read().decode()
        except OSError:
            if time.monotonic() > late:
                raise
            time.sleep(0.1)


class Board(unittest.TestCase):
    def test_panels(self) -> None:
        ids = [it["id"] for it in BOARD["panels"]]
        self.assertEqual(ids, sorted(set(ids)))
        for panel in BOARD["panels"]:
            self.assertEqual(panel["datasource"]["uid"], "${datasource}")
            place = panel["gridPos"]
            self.assertLessEqual(place["x"] + place["w"], 24)
        self.assertEqual([it["name"] for it in BOARD["templating"]["list"]], ["datasource", "interface"])

    def test_metrics_are_ones_that_a_stream_writes(self) -> None:
        with tempfile.TemporaryDirectory() as folder:
            written = {line.split("{")[0] for _, text in recording(folder) for line in text.splitlines()}
        for _, text in (*expressions(), *rules().items()):
            for name in set(re.findall(r"(?:confluo|node)_[a-z_]+", text)) - set(EMPTY):
                self.assertIn(name, written)


@unittest.skipUnless(
    shutil.which("prometheus") and shutil.which("promtool"),
    "prometheus is missing: apt-get install prometheus",
)
class ThroughPrometheus(unittest.TestCase):
    @classmethod
    def setUpClass(cls) -> None:
        place = tempfile.TemporaryDirectory()
        cls.addClassCleanup(place.cleanup)
        samples, data = f"{place.name}/samples", f"{place.name}/data"
        pathlib.Path(samples).write_text(openmetrics(recording(place.name)))
        words = ["promtool", "tsdb", "create-blocks-from", "openmetrics", samples, data]
        subprocess.run(words, check=True, capture_output=True)
        pathlib.Path(f"{place.name}/none.yml").write_text("global: {}\n")
        port = free_port()
        cls.address = f"http://127.0.0.1:{port}"
        process = subprocess.Popen(
            [
                "prometheus",
                f"--config.file={place.name}/none.yml",
                f"--storage.tsdb.path={data}",
                "--storage.tsdb.retention.time=100y",
                f"--web.listen-address=127.0.0.1:{port}",
            ],
            stdout=subprocess.DEVNULL,
            stderr=subprocess.DEVNULL,
        )
        cls.addClassCleanup(process.wait)
        cls.addClassCleanup(process.terminate)
        fetch(f"{cls.address}/-/ready", 60)

    def ask(self, query: str, minute: float) -> list[tuple[dict[str, str], float]]:
        """What the query gives at that minute of the recording."""
        words = urllib.parse.urlencode({"query": query, "time": BEGIN + 60 * minute})
        found = json.loads(fetch(f"{self.address}/api/v1/query?{words}"))
        self.assertEqual(found["status"], "success", query)
        return [(it["metric"], float(it["value"][1])) for it in found["data"]["result"]]

    def test_each_panel_has_something_to_draw(self) -> None:
        for title, query in expressions():
            with self.subTest(title):
                found = self.ask(query, 12)
                self.assertEqual(bool(found), not any(it in query for it in EMPTY))
                for labels, _ in found:
                    self.assertEqual(labels["interface"], "eth0")

    def test_rates_by_filter(self) -> None:
        for name, minute, wanted in RATES:
            found = {labels["filter"]: round(value) for labels, value in self.ask(rules()[name], minute)}
            self.assertEqual(found, wanted)
        (title, query), *_ = expressions()
        self.assertEqual(title, "Bytes a second, by filter")
        found = {labels["filter"]: round(value) for labels, value in self.ask(query, 9)}
        self.assertEqual(found, RATES[0][2])

    def test_alerts(self) -> None:
        self.assertEqual([it for it in rules() if it[0] == "C"], list(ALERTS))
        for name, (holds, fails) in ALERTS.items():
            for minute in (*holds, *fails):
                with self.subTest(name, minute=minute):
                    self.assertEqual(bool(self.ask(rules()[name], minute)), minute in holds)

    def test_files(self) -> None:
        for words in (["rules", "confluo.rules.yml"], ["config", "prometheus.yml"]):
            done = subprocess.run(["promtool", "check", *words], cwd=FOLDER, capture_output=True, text=True)
            self.assertEqual(done.returncode, 0, done.stdout + done.stderr)


@unittest.skipUnless(
    shutil.which("prometheus-node-exporter"),
    "node_exporter is missing: apt-get install prometheus-node-exporter",
)
class ThroughNodeExporter(unittest.TestCase):
    def test_two_interfaces_are_read_together(self) -> None:
        port = free_port()
        with tempfile.TemporaryDirectory() as folder:
            for name in ("eth0", "br-12"):
                (pathlib.Path(folder) / name).mkdir()
                Textfile(f"{folder}/{name}/metrics.prom", {"interface": name}, SETUP).close()
            process = subprocess.Popen(
                [
                    "prometheus-node-exporter",
                    "--collector.disable-defaults",
                    "--collector.textfile",
                    f"--collector.textfile.directory={folder}/*",
                    f"--web.listen-address=127.0.0.1:{port}",
                ],
                stdout=subprocess.DEVNULL,
                stderr=subprocess.DEVNULL,
            )
            try:
                text = fetch(f"http://127.0.0.1:{port}/metrics")
            finally:
                process.terminate()
                process.wait()
        self.assertIn("node_textfile_scrape_error 0\n", text)
        for name in ("eth0", "br-12"):
            self.assertIn(f'confluo_stream_running{{interface="{name}"}} 0\n', text)


if __name__ == "__main__":
    unittest.main()
