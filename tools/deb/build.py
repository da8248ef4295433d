#!/usr/bin/env python3
"""Makes Debian packages of the built program and library: build/NAME_VERSION_ARCHITECTURE.deb.

    tools/deb/build.py [--program FILE] [--library FOLDER] [--out FOLDER] [--version VERSION]

`confluo` has the program, confluo-report and the systemd units. If the library is built (a folder with libconfluo.so.0 and
libconfluo.a), `libconfluo0`, `libconfluo-dev` and `python3-confluo` have it. `make deb` calls this. DEBFULLNAME and DEBEMAIL may
name whoever makes the packages. Needs dpkg-deb, make, strip, and of Python the standard library only.
"""

import argparse
import datetime
import email.utils
import gzip
import hashlib
import os
import pathlib
import re
import shutil
import subprocess
import sys
import textwrap

ROOT = pathlib.Path(__file__).resolve().parent.parent.parent
HERE = ROOT / "tools" / "deb"
SCRIPTS = ("postinst", "prerm", "postrm")
# The address of the commits, which takes no mail: the project has no public address yet.
NAME, ADDRESS = "Fitsogad maintainers", "maintainers@users.noreply.fitsogad.example"
# The first lines of files that run: a package uses the system's own Python.
PYTHON = b"#!/usr/bin/env python3\n"
SYSTEM_PYTHON = b"#!/usr/bin/python3\n"


class Package:
    """One package while it is made: its folder, and its text of control."""

    def __init__(self, name, said, stages):
        self.name, self.said, self.stage = name, said, stages / name
        shutil.rmtree(self.stage, ignore_errors=True)
        (self.stage / "DEBIAN").mkdir(parents=True)
        self.documents = self.stage / "usr" / "share" / "doc" / name

    def write(self, path, text, mode=0o644):
        to = self.stage / path
        to.parent.mkdir(parents=True, exist_ok=True)
        to.write_bytes(text if isinstance(text, bytes) else text.encode())
        to.chmod(mode)

    def strip(self, file, *words):
        run(["strip", "--remove-section=.comment", "--remove-section=.note", *words, str(self.stage / file)])

    def finish(self, changes, out):
        """Adds what each package has, and packs it. Returns the file."""
        self.write(self.documents / "copyright", (HERE / "copyright").read_text())
        self.write(self.documents / "changelog.gz", gzip.compress(changes.encode(), 9, mtime=0))
        for script in SCRIPTS:
            file = HERE / f"{self.name}.{script}"
            if file.exists():
                self.write(f"DEBIAN/{script}", file.read_text(), 0o755)
        files = sorted(it for it in (self.stage / "usr").rglob("*") if it.is_file() and not it.is_symlink())
        sums = [f"{hashlib.md5(it.read_bytes()).hexdigest()}  {it.relative_to(self.stage)}\n" for it in files]
        self.write("DEBIAN/md5sums", "".join(sums))
        size = sum((it.stat().st_size + 1023) // 1024 for it in files)
        self.write(
            "DEBIAN/control", self.said.replace("\nDepends:", f"\nInstalled-Size: {size}\nDepends:", 1)
        )
        for it in [self.stage, *self.stage.rglob("*")]:
            if it.is_dir():
                it.chmod(0o755)
        field = dict(re.findall(r"(?m)^(\w[\w-]*): (.*)$", self.said))
        to = out / f"{self.name}_{field['Version']}_{field['Architecture']}.deb"
        run(["dpkg-deb", "--root-owner-group", "-Zxz", "--build", str(self.stage), str(to)])
        return to


def run(words, **more):
    """Runs a command, and ends with what it said if it fails."""
    done = subprocess.run(words, stdout=subprocess.PIPE, stderr=subprocess.STDOUT, text=True, **more)
    if done.returncode:
        sys.exit(f"{' '.join(words)}\n{done.stdout}")
    return done.stdout


def changelog(text, maintainer, version):
    """The dated versions of CHANGELOG.md as Debian has them. Those of one day get an hour each: each must be later than the one before."""
    parts = re.split(r"(?m)^## (\S+)\n\n(\d{4}-\d\d-\d\d)?", text)[1:]
    entries, days = [], {}
    for number, day, body in reversed(list(zip(parts[::3], parts[1::3], parts[2::3]))):
        if not day:
            continue
        days[day] = days.get(day, -1) + 1
        moment = datetime.datetime.fromisoformat(day).replace(hour=days[day], tzinfo=datetime.timezone.utc)
        points = [" ".join(it.split()) for it in re.findall(r"(?ms)^- (.*?)(?=^- |\Z)", body)]
        lines = [
            textwrap.fill(it, 78, initial_indent="  * ", subsequent_indent="    ", break_long_words=False)
            for it in points
        ]
        lines = [re.sub(r"(?m)^ +(?=\S{75,}$)", "  ", it) for it in lines]
        signed = f" -- {maintainer}  {email.utils.format_datetime(moment)}\n"
        entries.append(
            f"confluo ({number}) unstable; urgency=medium\n\n" + "\n".join(lines) + f"\n\n{signed}"
        )
    if not text.startswith(f"# Changes\n\n## {version}\n"):
        moment += datetime.timedelta(minutes=1)
        signed = f" -- {maintainer}  {email.utils.format_datetime(moment)}\n"
        entries.append(f"confluo ({version}) unstable; urgency=medium\n\n  * Made for a test.\n\n{signed}")
    return "\n".join(reversed(entries))


def make_confluo(package, program):
    place = package.stage / "usr"
    words = [
        "make",
        "--no-print-directory",
        "-C",
        str(ROOT),
        "install",
        f"DESTDIR={package.stage}",
        "PREFIX=/usr",
    ]
    run([*words, f"PROGRAM={program.resolve()}", "LIBRARY=", f"ZSH={place}/share/zsh/vendor-completions"])
    package.strip("usr/bin/confluo", "--strip-unneeded")
    for page in (place / "share" / "man" / "man1").iterdir():
        package.write(f"{page}.gz", gzip.compress(page.read_bytes(), 9, mtime=0))
        page.unlink()
    tool = place / "bin" / "confluo-report"
    package.write(tool, tool.read_bytes().replace(PYTHON, SYSTEM_PYTHON, 1), 0o755)


def make_library(packages, library, triplet):
    """The shared object, what a compiler needs, and the Python package."""
    shared, development, python = packages
    words = [
        "make",
        "--no-print-directory",
        "-C",
        str(ROOT / "bindings"),
        "install",
        f"OUT={library.resolve()}",
        "PREFIX=/usr",
    ]
    run([*words, f"DESTDIR={development.stage}", f"LIBDIR=lib/{triplet}"])
    folder = f"usr/lib/{triplet}"
    (shared.stage / folder).mkdir(parents=True)
    (development.stage / folder / "libconfluo.so.0").rename(shared.stage / folder / "libconfluo.so.0")
    (shared.stage / folder / "libconfluo.so.0").chmod(0o644)
    shared.strip(f"{folder}/libconfluo.so.0", "--strip-unneeded")
    version = re.search(r"(?m)^Version: (.*)", shared.said).group(1)
    shared.write("DEBIAN/shlibs", f"libconfluo 0 libconfluo0 (>= {version})\n")
    shared.write("DEBIAN/triggers", "activate-noawait ldconfig\n")
    development.strip(f"{folder}/libconfluo.a", "--strip-debug", "--enable-deterministic-archives")
    development.write(
        development.documents / "examples" / "example.c", (ROOT / "bindings" / "example.c").read_bytes()
    )
    package = ROOT / "bindings" / "python" / "confluo"
    for file in (*sorted(package.glob("*.py")), package / "py.typed"):
        python.write(f"usr/lib/python3/dist-packages/confluo/{file.name}", file.read_bytes())


def main():
    parser = argparse.ArgumentParser(
        description=__doc__, formatter_class=argparse.RawDescriptionHelpFormatter
    )
    parser.add_argument(
        "--program", type=pathlib.Path, default=ROOT / "crates" / "confluo" / "out" / "confluo"
    )
    parser.add_argument("--library", type=pathlib.Path, default=ROOT / "bindings" / "out")
    parser.add_argument("--out", type=pathlib.Path, default=ROOT / "build")
    parser.add_argument("--version", default=(ROOT / "VERSION").read_text().strip())
    words = parser.parse_args()
    for need in ("dpkg-deb", "dpkg-architecture", "make", "strip"):
        if not shutil.which(need):
            sys.exit(f"{need} is missing: apt-get install dpkg-dev make binutils")
    if not words.program.exists():
        sys.exit(f"There is no {words.program} yet: make run builds it")
    architecture = run(["dpkg", "--print-architecture"]).strip()
    triplet = run(["dpkg-architecture", "-qDEB_HOST_MULTIARCH"]).strip()
    maintainer = f"{os.environ.get('DEBFULLNAME', NAME)} <{os.environ.get('DEBEMAIL', ADDRESS)}>"
    said = (HERE / "control").read_text()
    for name, value in (
        ("VERSION", words.version),
        ("ARCHITECTURE", architecture),
        ("MAINTAINER", maintainer),
    ):
        said = said.replace(f"@{name}@", value)
    out = words.out.resolve()
    out.mkdir(parents=True, exist_ok=True)
    texts = {re.match(r"Package: (.*)", it).group(1): it.rstrip("\n") + "\n" for it in said.split("\n\n")}
    packages = [Package(name, text, out / "stage") for name, text in texts.items()]
    make_confluo(packages[0], words.program)
    if (words.library / "libconfluo.so.0").exists():
        make_library(packages[1:], words.library, triplet)
    else:
        packages = packages[:1]
        print("deb: the library's packages are left out, make -C bindings archive builds it")
    changes = changelog((ROOT / "CHANGELOG.md").read_text(), maintainer, words.version)
    for it in packages:
        print(f"deb: {it.finish(changes, out)}")


if __name__ == "__main__":
    main()
