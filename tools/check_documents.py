#!/usr/bin/env python3
"""Checks that the documents say what the program prints and that their links lead somewhere.

    tools/check_documents.py [PROGRAM]

- Each relative link and its anchor exists.
- docs/full_link.svg is what tools/draw_full_link.py draws, and the table of crates what tools/crate_table.py writes.
- Each block of docs/LIBRARY.md in Rattle stands in crates/confluo_example.
- examples/incidents/README.md shows each setup of that folder, without its comments, and below each command the stored report.
- VERSION is the newest version of CHANGELOG.md, the README has at most 900 words, WATCH.md 900, LIBRARY.md 1,200
  and the rest of docs/ 20,000.
- With PROGRAM: README.md, docs/GUIDE.md, docs/WATCH.md, examples/*.md and, of confluo-report, the incidents are right
  about what commands print. A block whose first line begins with `$ ` is run, with `confluo` being PROGRAM and
  `questions.setup` the setup shown last, and must print the lines below. Blocks with confluo-report are passed over if tools/
  has none, blocks with `confluo watch` if PROGRAM has no such command.

A shown line `..` stands for any number of lines. Of `live`, `new` and `order` lines, which depend on threads, only the front is
compared, and all are left out if none is shown. Ends with 1 if something differs. Needs only the standard library.
"""

import os
import pathlib
import re
import subprocess
import sys
import tempfile

sys.dont_write_bytecode = True

import crate_table  # noqa: E402
import draw_full_link  # noqa: E402

ROOT = pathlib.Path(__file__).resolve().parent.parent
INCIDENTS = ROOT / "examples" / "incidents"
PAGES = [ROOT / it for it in ("README.md", "CONTRIBUTING.md", "CHANGELOG.md")]
PAGES += sorted([*ROOT.glob("docs/*.md"), *ROOT.glob("examples/**/*.md"), ROOT / "bench" / "README.md"])
RUN = [
    "README.md",
    "docs/GUIDE.md",
    "docs/WATCH.md",
    "examples/incidents/README.md",
    "examples/README.md",
    "examples/formats/README.md",
    "examples/dual_stack/README.md",
    "examples/flood/README.md",
]
SECONDS = 60


def blocks_of(page):
    """The indented blocks of a page, each as its lines without the four spaces; blank lines belong to one, as in Markdown."""
    block, blank = [], False
    for line in [*page.read_text().splitlines(), "end"]:
        if line.startswith("    "):
            block += [""] * (blank and bool(block)) + [line[4:]]
        elif line and block:
            yield block
            block = []
        blank = not line


def anchors_of(page):
    """The anchors of a page's headings, as code hosts make them."""
    heads = re.findall(r"(?m)^#+ (.*)$", page.read_text())
    return {re.sub(r"[^\w\- ]", "", it.lower()).replace(" ", "-") for it in heads}


def broken_links():
    """Links to files or headings that do not exist."""
    for page in PAGES:
        for link in re.findall(r"\]\(([^)\s]+)\)", page.read_text()):
            if link.startswith(("http:", "https:")):
                continue
            name, _, anchor = link.partition("#")
            target = (page.parent / name).resolve() if name else page
            if not target.exists() or anchor and anchor not in anchors_of(target):
                yield f"{page.relative_to(ROOT)}: the link {link} leads nowhere"


def is_varying(line):
    return line.startswith(("live ", "new ", "order ")) or line == "order"


def front(line):
    """Of a line that depends on threads, what does not."""
    return (
        line.split("@")[0].split()[:2]
        if line.startswith(("live ", "new "))
        else line.split()[:1]
        if is_varying(line)
        else line
    )


def agrees(shown, printed):
    """Whether the lines are those that are shown, `..` being any lines."""
    if not any(is_varying(it) for it in shown):
        printed = [it for it in printed if not is_varying(it)]
    if ".." in shown:
        at = shown.index("..")
        rest = printed[at:]
        return agrees_front(shown[:at], printed[:at]) and any(
            agrees(shown[at + 1 :], rest[skip:]) for skip in range(len(rest) + 1)
        )
    return agrees_front(shown, printed)


def agrees_front(shown, printed):
    return [front(it) for it in shown] == [front(it) for it in printed]


def wrong_incidents():
    """Setups that the page of incidents does not show, and shown reports that are not the stored ones."""
    page = INCIDENTS / "README.md"
    blocks = list(blocks_of(page))
    for setup in sorted(INCIDENTS.glob("*.setup")):
        if [it for it in setup.read_text().splitlines() if not it.startswith("#")] not in blocks:
            yield f"{page.relative_to(ROOT)} does not show {setup.name}"
    shown = {
        re.search(r"(\w+)\.setup", block[0]).group(1): block[1:]
        for block in blocks
        if block[0].startswith("$ ") and ".setup" in block[0]
    }
    for report in sorted(INCIDENTS.glob("*.report")):
        if not agrees(shown.get(report.stem, []), report.read_text().splitlines()):
            yield f"{page.relative_to(ROOT)} does not show {report.name}"


def has_watch(program):
    """Whether the program has the command: then it looks for the setup."""
    words = [program, "watch", "--setup", "/no/setup", "/no/capture"]
    return subprocess.run(words, capture_output=True).returncode == 9


def wrong_sessions(program):
    """Commands in pages that print something else than what is shown below them."""
    knows_watch = has_watch(program)
    for name in RUN:
        with tempfile.TemporaryDirectory() as folder:
            here = pathlib.Path(folder)
            (here / "bin").mkdir()
            (here / "bin" / "confluo").symlink_to(program)
            for it in [ROOT / "examples", ROOT / "tools", ROOT / "docs", *INCIDENTS.glob("*.pcap")]:
                (here / it.name).symlink_to(it)
            environment = os.environ | {
                "PATH": f"{here / 'bin'}:{ROOT / 'tools'}:{os.environ['PATH']}",
                "CONFLUO": str(program),
            }
            for block in blocks_of(ROOT / name):
                if block[0].startswith("schema "):
                    (here / "questions.setup").write_text("\n".join(block) + "\n")
                if not block[0].startswith("$ "):
                    continue
                commands = "\n".join(it[2:] for it in block if it.startswith("$ "))
                is_of_tool = "confluo-report" in commands
                if (
                    is_of_tool
                    and not (ROOT / "tools" / "confluo-report").exists()
                    or name == "examples/incidents/README.md"
                    and not is_of_tool
                    or "confluo watch" in commands
                    and not knows_watch
                ):
                    continue
                ran = subprocess.run(
                    ["bash", "-c", commands],
                    cwd=here,
                    env=environment,
                    stdout=subprocess.PIPE,
                    text=True,
                    timeout=SECONDS,
                )
                if not agrees([it for it in block if not it.startswith("$ ")], ran.stdout.splitlines()):
                    yield f"{name}: {commands}\nprints\n{ran.stdout}"


def wrong_examples():
    """Blocks in Rattle of the library's page that the example does not have."""
    page = (ROOT / "docs" / "LIBRARY.md").read_text()
    program = (ROOT / "crates" / "confluo_example" / "src" / "main.rt").read_text()
    for block in re.findall(r"(?ms)^```rust,ignore\n(.*?)^```$", page):
        if block not in program:
            yield f"crates/confluo_example does not have this block of docs/LIBRARY.md:\n{block}"


def wrong_sizes():
    """Documents that are too long, and a version that is not the newest of the changes."""
    words = {
        it: len(it.read_text().split())
        for it in [ROOT / "README.md", *ROOT.glob("docs/*.md"), *ROOT.glob("docs/*.1")]
    }
    for page, most in (("README.md", 900), ("docs/WATCH.md", 900), ("docs/LIBRARY.md", 1200)):
        found = words.pop(ROOT / page)
        if found > most:
            yield f"{page} has {found} words, more than {most}"
    if sum(words.values()) > 20000:
        yield f"docs/ has {sum(words.values())} words besides WATCH.md and LIBRARY.md, more than 20,000"
    version = (ROOT / "VERSION").read_text().strip()
    newest = re.search(r"(?m)^## (\S+)", (ROOT / "CHANGELOG.md").read_text()).group(1)
    if version != newest:
        yield f"VERSION is {version}, and the newest version of CHANGELOG.md is {newest}"


def main():
    if len(sys.argv) > 2:
        sys.exit(__doc__)
    wrong = [*broken_links(), *wrong_incidents(), *wrong_examples(), *wrong_sizes(), *crate_table.wrong()]
    if draw_full_link.PICTURE.read_text() != draw_full_link.drawn():
        wrong.append("docs/full_link.svg is not what tools/draw_full_link.py draws")
    if len(sys.argv) == 2:
        wrong += wrong_sessions(pathlib.Path(sys.argv[1]).resolve())
    for it in wrong:
        print(f"wrong: {it}")
    print(
        f"documents checked, {len(wrong)} wrong"
        + ("" if len(sys.argv) == 2 else "; what commands print was not compared")
    )
    sys.exit(1 if wrong else 0)


if __name__ == "__main__":
    main()
