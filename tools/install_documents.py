#!/usr/bin/env python3
"""Copies the documents that are installed, with links that lead to installed files.

    tools/install_documents.py FOLDER      copies them into FOLDER, as share/doc/confluo
    tools/install_documents.py --check FOLDER

Pages of docs/ lie beside README.md there. A link to a file that is not installed becomes its text. With --check it copies
nothing, and ends with 1 if a link of a page in FOLDER leads nowhere. Needs only the standard library.
"""

import os
import pathlib
import re
import sys

sys.dont_write_bytecode = True

import check_documents  # noqa: E402

ROOT = pathlib.Path(__file__).resolve().parent.parent
PAGES = ["README.md", "CHANGELOG.md"]
PAGES += [f"docs/{it}.md" for it in ("GUIDE", "FILTERS", "FORMATS", "WATCH", "LIBRARY", "PROVED", "SPEED")]
OTHERS = ["docs/report.schema.json", "docs/full_link.svg"]
EXAMPLES = [
    "*.md",
    "*.pcap",
    "*.setup",
    "*.report",
    "incidents/*.md",
    "incidents/*.pcap*",
    "incidents/*.setup",
    "incidents/*.report",
]
EXAMPLES += ["formats/*.md", "formats/*.dump", "formats/*.pcap*", "dual_stack/*.md", "dual_stack/*.pcap"]
EXAMPLES += ["flood/*.md", "flood/*.pcap", "flood/*.setup", "flood/*.report", "monitoring/*"]
LINK = re.compile(r"(!?)\[([^\]]*)\]\(([^)\s]+)\)")


def installed():
    """The installed files: the place of each in the repository, and in the folder."""
    found = [*PAGES, *OTHERS]
    for it in EXAMPLES:
        found += sorted(str(file.relative_to(ROOT)) for file in (ROOT / "examples").glob(it))
    return {it: it.removeprefix("docs/") for it in found}


def page_with_links(page, places):
    """The text of a page, its links being to installed files."""
    here, to = pathlib.PurePosixPath(page).parent, pathlib.PurePosixPath(places[page]).parent

    def link(found):
        mark, text, target = found.groups()
        path, anchor = (*target.split("#", 1), "")[:2]
        if not path or ":" in path:
            return found.group()
        place = os.path.normpath(here / path)
        folder = [it for it in places.values() if it.startswith(f"{place}/")]
        if place not in places and not folder:
            return text
        lead = os.path.relpath(places.get(place, place), to)
        return f"{mark}[{text}]({lead}{'#' * bool(anchor)}{anchor})"

    return LINK.sub(link, (ROOT / page).read_text())


def install(folder):
    places = installed()
    for it, place in places.items():
        to = folder / place
        to.parent.mkdir(parents=True, exist_ok=True)
        data = page_with_links(it, places).encode() if it.endswith(".md") else (ROOT / it).read_bytes()
        to.write_bytes(data)
        to.chmod(0o644)


def dead_links(folder):
    """Relative links of the pages in a folder that lead nowhere in it."""
    for page in sorted(folder.rglob("*.md")):
        for _, _, target in LINK.findall(page.read_text()):
            path, anchor = (*target.split("#", 1), "")[:2]
            if ":" in path:
                continue
            to = (page.parent / path).resolve() if path else page
            if not to.exists() or not to.is_relative_to(folder.resolve()):
                yield f"{page.relative_to(folder)}: {target}"
            elif anchor and to.suffix == ".md" and anchor not in check_documents.anchors_of(to):
                yield f"{page.relative_to(folder)}: {target} (no such heading)"


def main(words):
    if len(words) == 2 and words[0] == "--check":
        found = list(dead_links(pathlib.Path(words[1]).resolve()))
        print("".join(f"dead link: {it}\n" for it in found), end="")
        return 1 if found else 0
    if len(words) != 1 or words[0].startswith("-"):
        sys.exit(__doc__)
    install(pathlib.Path(words[0]))
    return 0


if __name__ == "__main__":
    sys.exit(main(sys.argv[1:]))
