"""The header, the Python package and the Rust crate around a stand-in of the library, which a C compiler makes here."""

from __future__ import annotations

import os
import re
import shutil
import subprocess
import sys
import tempfile
import unittest
from pathlib import Path

from support import ROOT

from confluo_report import explain_setup

BINDINGS = ROOT / "bindings"
PACKAGE = BINDINGS / "python"
TESTS = BINDINGS / "tests"
LACKING = [it for it in ("cc", "nm", "readelf") if not shutil.which(it)]
# The Python that has what builds a wheel: Debian's python3-build is that of the system.
BUILDS = next(
    (
        it
        for it in (sys.executable, "/usr/bin/python3")
        if shutil.which(it)
        and subprocess.run(
            [it, "-c", "import build.__main__, setuptools, wheel"], capture_output=True
        ).returncode
        == 0
    ),
    None,
)


CPP = """
#include "confluo.h"
#include <cstdio>
#include <memory>
#include <thread>
template <auto free> struct Frees { template <class T> void operator()(T *it) const { free(it); } };
template <class T, auto free> using Held = std::unique_ptr<T, Frees<free>>;
int main() {
    const confluo_sizes sizes{16, 1, 0, 0};
    Held<confluo_log, confluo_free_log> log;
    Held<confluo_reader, confluo_free_reader> reader;
    confluo_log *opened = nullptr;
    confluo_writer *writer = nullptr;
    confluo_reader *last = nullptr;
    confluo_head head{};
    uint64_t quad[4] = {};
    uint32_t code = confluo_open_str(&opened, "schema records ts:u64,len:u32\\nask all total len *\\n", &sizes, nullptr);
    log.reset(opened);
    if (code || confluo_take_writer(log.get(), &writer, nullptr)) return 1;
    std::thread([&] {
        const uint64_t row[] = {1000, 60};
        for (int k = 0; k < 2 && !code; k++) code = confluo_append_values(writer, 0, row, 2, nullptr);
        confluo_free_writer(writer);
    }).join();
    switch ((confluo_code)code) {
    case CONFLUO_OK: break;
    default: return (std::puts(confluo_error_name(code)), 1);
    }
    if (confluo_close(log.get(), &last)) return 1;
    reader.reset(last);
    if (confluo_ask_seen(last, 0, &head)) return 1;
    confluo_words(last, 0, quad, 4);
    std::printf("%u records, %u bytes\\n", head.tail, (unsigned)quad[1]);
}
"""


def run(*words: object, **named: object) -> subprocess.CompletedProcess[str]:
    return subprocess.run([str(it) for it in words], capture_output=True, text=True, **named)


def rules_of_the_header() -> list[str]:
    """The rules that `confluo_fault_rule` tells, from code 1 on."""
    text = (BINDINGS / "confluo.h").read_text()
    return re.findall(r'"([^"]*)"', re.search(r"rules\[\] = \{(.*?)\};", text, re.S).group(1))[1:]


@unittest.skipIf(LACKING, f"missing: {' '.join(LACKING)}")
class StandIn(unittest.TestCase):
    @classmethod
    def setUpClass(cls):
        place = tempfile.TemporaryDirectory()
        cls.addClassCleanup(place.cleanup)
        cls.folder = Path(place.name)
        cls.shared = cls.library("libconfluo.so.0")

    @classmethod
    def library(cls, name: str, *words: str) -> Path:
        file = cls.folder / name
        flags = [
            "-std=c11",
            "-Wall",
            "-Wextra",
            "-Werror",
            "-O1",
            "-fPIC",
            "-shared",
            "-pthread",
            f"-I{BINDINGS}",
        ]
        link = ["-Wl,-soname,libconfluo.so.0", f"-Wl,--version-script={BINDINGS / 'confluo.map'}"]
        done = run("cc", *flags, *link, *words, TESTS / "stand_in.c", "-o", file)
        if done.returncode:
            raise AssertionError(done.stderr)
        return file

    def python(self, library: object, *words: object) -> subprocess.CompletedProcess[str]:
        named = {**os.environ, "CONFLUO_LIBRARY": str(library)}
        return run(sys.executable, "-B", *words, cwd=PACKAGE, env=named)

    def test_the_header(self):
        for compiler in filter(shutil.which, ("gcc", "clang")):
            program = self.folder / compiler
            flags = ["-std=c11", "-Wall", "-Wextra", "-Werror", "-O2", f"-I{BINDINGS}"]
            for source in ("inline.c", "raw.c", "stand_in.c"):
                done = run(compiler, *flags, "-c", TESTS / source, "-o", f"{program}_{source}.o")
                self.assertEqual(done.stderr, "")
            for source in ("inline.c", "raw.c"):
                run(compiler, f"{program}_{source}.o", f"{program}_stand_in.c.o", "-pthread", "-o", program)
                done = run(program)
                self.assertEqual((done.returncode, done.stderr), (0, ""))
            for language, standard in (("c", "c99"), ("c", "c17"), ("c++", "c++11"), ("c++", "c++20")):
                flags = ["-Wall", "-Wextra", "-Werror", "-x", language, f"-std={standard}", "-fsyntax-only"]
                done = run(compiler, *flags, f"-I{BINDINGS}", "-", input='#include "confluo.h"\n')
                self.assertEqual(done.stderr, "", (compiler, standard))

    def test_a_program_in_cpp(self):
        source = self.folder / "program.cc"
        source.write_text(CPP)
        for compiler in filter(shutil.which, ("g++", "clang++")):
            program = self.folder / "program"
            flags = [
                "-std=c++20",
                "-Wall",
                "-Wextra",
                "-Werror",
                f"-I{BINDINGS}",
                f"-Wl,-rpath,{self.folder}",
            ]
            done = run(compiler, *flags, source, self.shared, "-pthread", "-o", program)
            self.assertEqual(done.stderr, "")
            self.assertEqual(run(program).stdout, "2 records, 120 bytes\n")

    def test_a_null_that_is_not_allowed_is_seen_by_a_compiler(self):
        text = '#include "confluo.h"\nuint32_t f(confluo_reader *r) { return confluo_ask(r, 0, NULL); }\n'
        done = run("cc", "-Wall", "-Werror", "-x", "c", "-fsyntax-only", f"-I{BINDINGS}", "-", input=text)
        self.assertIn("nonnull", done.stderr)

    def test_what_c_sees_is_listed(self):
        check = TESTS / "check_abi.py"
        done = run(sys.executable, "-B", check, self.shared)
        self.assertEqual(done.returncode, 0, done.stdout + done.stderr)
        other = self.folder / "other.so"
        run("cc", "-shared", "-o", other, "-Wl,-soname,libconfluo.so.1", "-x", "c", "/dev/null")
        done = run(sys.executable, "-B", check, other)
        self.assertEqual(done.returncode, 1)
        self.assertIn("+soname libconfluo.so.1", done.stdout)
        self.assertIn("-symbol confluo_open@@CONFLUO_0", done.stdout)

    def test_rules_of_faults_are_told_alike(self):
        rules = list(explain_setup.RULES.values())
        self.assertEqual(rules_of_the_header(), rules)
        done = self.python(
            self.shared, "-c", "from confluo import errors; print(*errors.RULES.values(), sep='\\n')"
        )
        self.assertEqual(done.stdout.splitlines(), rules)
        text = (BINDINGS / "rust" / "src" / "error.rs").read_text()
        found = re.findall(r'"([^"]*)"', re.search(r"RULES: \[&str; 14\] = \[(.*?)\];", text, re.S).group(1))
        self.assertEqual(found, rules)

    def number_of_the_release(self) -> int:
        major, minor, patch = map(int, (ROOT / "VERSION").read_text().strip().split("."))
        return 1000000 * major + 1000 * minor + patch

    def test_all_have_one_version(self):
        shown = (ROOT / "VERSION").read_text().strip()
        version = self.number_of_the_release()
        cases = [
            (PACKAGE / "pyproject.toml", f'version = "{shown}"'),
            (PACKAGE / "confluo" / "calls.py", f"VERSION = {version} "),
            (BINDINGS / "rust" / "Cargo.toml", f'version = "{shown}"'),
            (BINDINGS / "rust" / "src" / "raw.rs", f"VERSION: u32 = {version // 1000}_{version % 1000:03};"),
            (ROOT / "crates" / "confluo_c" / "src" / "plain.rt", f"result ≡ {version} "),
            (BINDINGS / "confluo.h", f"#define CONFLUO_VERSION {version}\n"),
        ]
        for file, said in cases:
            with self.subTest(file=file.name):
                self.assertIn(said, file.read_text())

    def test_the_package(self):
        done = self.python(self.shared, "-m", "unittest", "-q", "tests.test_forms")
        self.assertEqual(done.returncode, 0, done.stderr)

    def test_versions_are_compared(self):
        cases = [
            (21999, "version 0.21.999 of the library"),
            (1000000, "version 1.0.0 of the library"),
            (24000, ""),
            (29007, ""),
        ]
        for version, said in cases:
            library = self.library(f"v{version}.so", f"-DCONFLUO_STAND_IN_VERSION={version}")
            done = self.python(library, "-c", "import confluo; print(confluo.version())")
            with self.subTest(version=version):
                if said:
                    self.assertIn(f"ImportError: {library} has {said}", done.stderr)
                else:
                    self.assertEqual(done.stdout, f"{version}\n")

    def test_a_library_that_is_missing_is_told(self):
        done = self.python(self.folder / "none.so", "-c", "import confluo")
        self.assertIn("ImportError: the library of confluo cannot be loaded", done.stderr)
        self.assertIn("make -C bindings archive", done.stderr)

    @unittest.skipUnless(
        Path("/usr/include/pcap/pcap.h").exists(), "there is no libpcap: apt-get install libpcap-dev"
    )
    def test_the_monitor(self):
        flags = ["-std=c11", "-Wall", "-Wextra", "-Werror", "-O2", f"-I{BINDINGS}"]
        sources = [BINDINGS / "daemon" / "monitor.c", TESTS / "stand_in.c"]
        done = run("cc", *flags, *sources, "-lpcap", "-pthread", "-o", self.folder / "confluo-monitor")
        self.assertEqual(done.stderr, "")
        done = run(TESTS / "check_daemon.sh", self.folder, "--ends")
        self.assertEqual((done.returncode, done.stdout), (0, "check-daemon: the monitor ends as it says\n"))

    @unittest.skipUnless(shutil.which("cargo"), "there is no Cargo")
    def test_the_crate(self):
        place = self.folder / "archive"
        place.mkdir()
        run(
            "cc",
            "-std=c11",
            "-O1",
            "-fPIC",
            f"-I{BINDINGS}",
            "-c",
            TESTS / "stand_in.c",
            "-o",
            place / "stand_in.o",
        )
        run("ar", "rcs", place / "libconfluo.a", place / "stand_in.o")
        named = {**os.environ, "CONFLUO_LIB_DIR": str(place), "CARGO_TARGET_DIR": str(place / "target")}
        words = ["cargo", "test", "--offline", "--quiet", "--lib", "--test", "forms"]
        done = run(*words, cwd=BINDINGS / "rust", env=named)
        self.assertEqual(done.returncode, 0, done.stdout + done.stderr)

    @unittest.skipUnless(BUILDS, "build is missing: apt-get install python3-build python3-wheel")
    def test_the_wheel_has_the_library(self):
        place = self.folder / "sources"
        shutil.copytree(
            PACKAGE, place, ignore=shutil.ignore_patterns("__pycache__", "build", "dist", "*.egg-info")
        )
        named = {**os.environ, "CONFLUO_LIBRARY": str(self.shared)}
        done = run(BUILDS, "-m", "build", "--no-isolation", cwd=place, env=named)
        self.assertEqual(done.returncode, 0, done.stdout + done.stderr)
        wheel = next((place / "dist").glob("*.whl"))
        self.assertRegex(wheel.name, r"^confluo-[0-9.]+-py3-none-linux_x86_64\.whl$")
        site = self.folder / "site"
        shutil.unpack_archive(wheel, site, "zip")
        named = {**os.environ, "PYTHONPATH": str(site)}
        named.pop("CONFLUO_LIBRARY", None)
        done = run(BUILDS, "-c", "import confluo; print(confluo.calls.place())", cwd=self.folder, env=named)
        self.assertEqual(done.stdout, f"{site / 'confluo' / 'libconfluo.so.0'}\n")


if __name__ == "__main__":
    unittest.main()
