"""The systemd units are well formed, and give no more rights than they need."""

import os
import pathlib
import re
import shlex
import shutil
import subprocess
import tempfile
import unittest

from support import TOOLS

from confluo_report.stream import STATUSES

ANALYZE = shutil.which("systemd-analyze")
UNITS = sorted((TOOLS / "systemd").glob("*.service"))
# What systemd-analyze counts against a unit at most, in tenths: 0 is the least.
EXPOSURES = {"confluo-capture@.service": 20, "confluo-watch@.service": 6}
# Refusals that come again at each start.
STAYING = ("words", "setup", "capture", "nodes")


class Units(unittest.TestCase):
    def setUp(self) -> None:
        self.place = tempfile.TemporaryDirectory()
        self.addCleanup(self.place.cleanup)

    def installed(self) -> list[pathlib.Path]:
        """The units as `make install` writes them, over programs that are there."""
        folder = pathlib.Path(self.place.name)
        for name in ("confluo", "confluo-report"):
            (folder / name).write_text("#!/bin/sh\n")
            (folder / name).chmod(0o755)
        for unit in UNITS:
            text = unit.read_text().replace("@BIN@", str(folder)).replace("@SHARE@", "/usr/share")
            (folder / unit.name).write_text(text.replace("/usr/bin/tcpdump", "/bin/sh"))
        return [folder / it.name for it in UNITS]

    def test_one_captures_and_the_other_has_no_network(self) -> None:
        self.assertEqual([it.name for it in UNITS], list(EXPOSURES))
        capture, watch = (re.findall(r"(?m)^(\w+=.*)$", it.read_text()) for it in UNITS)
        self.assertIn("CapabilityBoundingSet=CAP_NET_RAW", capture)
        for line in ("CapabilityBoundingSet=", "PrivateNetwork=yes", "RestrictAddressFamilies=AF_UNIX"):
            self.assertIn(line, watch)
        for line in ("DynamicUser=yes", "ProtectSystem=strict", "NoNewPrivileges=yes", "Restart=always"):
            self.assertIn(line, capture)
            self.assertIn(line, watch)

    def run_line(self, unit: pathlib.Path, **options: str) -> str:
        """The ExecStart of the unit, run by a shell as written over programs that say which words they have: what they said."""
        folder = pathlib.Path(self.place.name)
        for name in ("confluo", "confluo-report", "tcpdump"):
            (folder / name).write_text(f'#!/bin/sh\nprintf "%s|" "$0" "$@" >> {folder}/words\n')
            (folder / name).chmod(0o755)
        text = unit.read_text().replace("@BIN@", str(folder)).replace("\\\n", "")
        line = next(it for it in text.splitlines() if it.startswith("ExecStart="))
        line = line.replace("/usr/bin/tcpdump", f"{folder}/tcpdump").replace("/run/confluo", str(folder))
        line = line.removeprefix("ExecStart=").replace("$CAPTURE", options.pop("CAPTURE", ""))
        words = shlex.split(line.replace("$$", "$").replace("%i", "br-12"))
        subprocess.run(words, env=os.environ | options, check=True, timeout=60)
        return (folder / "words").read_text().replace(str(folder), "")

    def test_the_watch_has_its_words(self) -> None:
        found = self.run_line(UNITS[1], WATCH="--segments 8", STREAM="--exec 'mail -s \"two words\" root'")
        for words in (
            "watch|--setup|/etc/confluo/br-12.setup|--segments|8|/br-12/packets.pcap|",
            "|--label|interface=br-12|--tcpdump|/br-12/tcpdump.said|",
            '|--exec|mail -s "two words" root|',
        ):
            self.assertIn(words, found)

    def test_the_capture_has_its_words(self) -> None:
        (pathlib.Path(self.place.name) / "br-12").mkdir()
        found = self.run_line(UNITS[0], COUNTS="0.1", CAPTURE="not port 22")
        self.assertEqual(found, "/tcpdump|-U|-n|-i|br-12|-s|128|-B|8192|-w|/br-12/packets.pcap|not|port|22|")

    def test_a_refusal_that_stays_is_not_tried_again(self) -> None:
        found = re.search(r"(?m)^RestartPreventExitStatus=(.*)$", UNITS[1].read_text())
        assert found
        self.assertEqual({int(it) for it in found.group(1).split()}, {STATUSES[it] for it in STAYING})

    @unittest.skipUnless(ANALYZE, "systemd-analyze is missing: apt-get install systemd")
    def test_systemd_reads_them(self) -> None:
        words = [ANALYZE, "verify", "--man=no", *map(str, self.installed())]
        done = subprocess.run(words, capture_output=True, text=True, timeout=60)
        said = [
            it for it in (done.stdout + done.stderr).splitlines() if self.place.name in it or "confluo" in it
        ]
        self.assertEqual(said, [])

    @unittest.skipUnless(ANALYZE, "systemd-analyze is missing: apt-get install systemd")
    def test_exposure(self) -> None:
        for unit in self.installed():
            words = [ANALYZE, "security", "--offline=true", f"--threshold={EXPOSURES[unit.name]}", str(unit)]
            done = subprocess.run(words, capture_output=True, text=True, timeout=60)
            if "unrecognized option" in done.stderr:
                self.skipTest("this systemd-analyze judges no unit that is not loaded")
            self.assertEqual(done.returncode, 0, done.stdout[-300:] + done.stderr)


if __name__ == "__main__":
    unittest.main()
