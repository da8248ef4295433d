"""The Debian packages, made of stand-ins for the program and the library, and the documents that are installed."""

import gzip
import re
import shutil
import subprocess
import tempfile
import unittest
from pathlib import Path

from support import ROOT, TOOLS

import install_documents

NEEDS = ("dpkg-deb", "dpkg-architecture", "make", "strip", "cc", "ar")
LACKING = [it for it in NEEDS if not shutil.which(it)]


class Documents(unittest.TestCase):
    def setUp(self):
        place = tempfile.TemporaryDirectory()
        self.addCleanup(place.cleanup)
        self.folder = Path(place.name)
        install_documents.install(self.folder)

    def test_no_link_is_dead(self):
        self.assertEqual(list(install_documents.dead_links(self.folder)), [])

    def test_a_dead_link_is_found(self):
        (self.folder / "new.md").write_text(
            "[a](nothing.md) [b](GUIDE.md#no-such-heading) [c](GUIDE.md) [d](../x.md)\n"
        )
        found = list(install_documents.dead_links(self.folder))
        self.assertEqual(
            [it.split()[1] for it in found], ["nothing.md", "GUIDE.md#no-such-heading", "../x.md"]
        )

    def test_links_lead_to_the_installed_places(self):
        page = (self.folder / "README.md").read_text()
        self.assertIn("](GUIDE.md)", page)
        self.assertNotIn("](docs/", page)
        self.assertNotIn("](CONTRIBUTING.md)", page)


@unittest.skipIf(LACKING, f"missing: {' '.join(LACKING)}")
class Packages(unittest.TestCase):
    @classmethod
    def setUpClass(cls):
        place = tempfile.TemporaryDirectory()
        cls.addClassCleanup(place.cleanup)
        cls.folder = Path(place.name)
        subprocess.run([TOOLS / "deb" / "stand_in.sh", cls.folder / "stand_in"], check=True)
        words = [
            "--program",
            cls.folder / "stand_in" / "confluo",
            "--library",
            cls.folder / "stand_in",
            "--out",
            cls.folder,
        ]
        subprocess.run([TOOLS / "deb" / "build.py", *words], check=True, stdout=subprocess.DEVNULL)
        cls.files = {re.match("[a-z0-9-]+", it.name).group(): it for it in cls.folder.glob("*.deb")}
        cls.stages = cls.folder / "stage"

    def test_there_are_four(self):
        self.assertEqual(sorted(self.files), ["confluo", "libconfluo-dev", "libconfluo0", "python3-confluo"])
        for name, file in self.files.items():
            field = ["dpkg-deb", "-f", file, "Package"]
            self.assertEqual(
                subprocess.run(field, capture_output=True, text=True, check=True).stdout, f"{name}\n"
            )

    def test_the_tool_runs_by_the_python_of_the_system(self):
        tool = self.stages / "confluo" / "usr" / "bin" / "confluo-report"
        self.assertTrue(tool.read_bytes().startswith(b"#!/usr/bin/python3\n"))
        control = (self.stages / "confluo" / "DEBIAN" / "control").read_text()
        self.assertIn("python3 (>= 3.10)", control)

    def test_the_changelog_has_each_dated_version_once(self):
        said = gzip.decompress(
            (self.stages / "confluo/usr/share/doc/confluo/changelog.gz").read_bytes()
        ).decode()
        dated = re.findall(r"(?m)^## (\S+)\n\n\d{4}-", (ROOT / "CHANGELOG.md").read_text())
        self.assertEqual(re.findall(r"(?m)^confluo \((\S+)\)", said), dated)
        self.assertLessEqual(max(map(len, said.splitlines())), 120)
        for entry in re.split(r"(?m)^confluo ", said)[1:]:
            self.assertIn("\n  * ", entry)

    def test_documents_of_units_are_installed(self):
        stage = self.stages / "confluo"
        for unit in (stage / "usr" / "lib" / "systemd" / "system").iterdir():
            for place in re.findall(r"file:(\S+)", unit.read_text()):
                self.assertTrue((stage / place.lstrip("/")).exists(), place)
        for place in re.findall(r"\.Pa (/usr/\S+)", (ROOT / "docs" / "confluo.1").read_text()):
            self.assertTrue((stage / place.lstrip("/")).exists(), place)
        folder = stage / "usr" / "share" / "doc" / "confluo"
        self.assertEqual(list(install_documents.dead_links(folder)), [])

    def test_scripts_are_lawful_shell(self):
        for script in (TOOLS / "deb").glob("*.p*rm"):
            subprocess.run(["sh", "-n", script], check=True)

    @unittest.skipUnless(shutil.which("lintian"), "lintian is missing: apt-get install lintian")
    def test_lintian_has_no_error_and_no_warning(self):
        words = ["lintian", "--allow-root", "--fail-on", "error,warning", *self.files.values()]
        done = subprocess.run(words, capture_output=True, text=True)
        self.assertEqual((done.returncode, done.stdout), (0, ""))


if __name__ == "__main__":
    unittest.main()
