#!/usr/bin/env python3
"""Writes the table of crates in docs/ARCHITECTURE.md from crates.txt and from the first sentence of each crate's `//!`.

    tools/crate_table.py [--check]

The comment lines of crates.txt name the layers. With --check nothing is written: ends with 1 if the table differs, if a crate
stands before one of its own layer that it needs, or if it lists one that its text does not name. The command that proves the crates
goes over each path from a crate to those below it, so one needless name near the top costs minutes. Needs only the standard library.
"""

import pathlib
import re
import sys

ROOT = pathlib.Path(__file__).resolve().parent.parent
PAGE = ROOT / "docs" / "ARCHITECTURE.md"
LIST = ROOT / "crates.txt"
HEAD = "| Crate | What it is |\n|---|---|\n"


def layers_of(text):
    """The layers of crates.txt: the name of each, and its crates with those that they need."""
    layers = []
    for line in text.splitlines():
        if layer := re.fullmatch(r"# Layer: (.*)", line):
            layers.append((layer.group(1), []))
        elif crate := re.fullmatch(r"(\w+)(?: staticlib)?:(.*)", line):
            layers[-1][1].append((crate.group(1), crate.group(2).split()))
    return layers


def sentence_of(crate):
    """The first sentence of what a crate says of itself. A long one ends at a comma or a colon behind at least five words."""
    sources = [ROOT / "crates" / crate / "src" / it for it in ("lib.rt", "main.rt")]
    source = next(it for it in sources if it.exists())
    lines = [line[3:] for line in source.read_text().splitlines() if line.startswith("//!")]
    said = " ".join(" ".join(lines).split())
    sentence = re.match(r".*?\.(?= [A-Z`]|$)", said).group()
    front = re.match(r"(\S+ ){4,}?\S+(?=[,:] )", sentence)
    return front.group() + "." if front and len(sentence.split()) > 14 else sentence


def table_of(layers):
    """The table, a row for each crate under a row for its layer."""
    rows = []
    for layer, crates in layers:
        rows.append(f"| **{layer}** | |\n")
        rows += [f"| {crate} | {sentence_of(crate)} |\n" for crate, _ in crates]
    return HEAD + "".join(rows)


def out_of_order(layers):
    """Crates that stand before one of their own layer that they need."""
    for layer, crates in layers:
        names = [name for name, _ in crates]
        for at, (crate, needs) in enumerate(crates):
            yield from (f"{crate} stands before {it}" for it in needs if it in names[at:])


def text_of(crate):
    """All that a crate says in its code, definitions and proofs."""
    folder = ROOT / "crates" / crate
    files = (it for part in ("src", "specs", "proofs") for it in (folder / part).rglob("*.*"))
    return "\n".join(it.read_text() for it in sorted(files) if it.suffix in (".rt", ".antt"))


def unnamed(layers, said=text_of):
    """Crates that list one, of ours or of the kit's, that they do not name."""
    for _, crates in layers:
        for crate, needs in crates:
            words = set(re.findall(r"\w+", said(crate)))
            yield from (f"{crate} lists {it}, and does not name it" for it in needs if it not in words)


def page_with(table, page):
    """The page with that table in place of its own."""
    start = page.index(HEAD)
    end = re.compile(r"\n(?!\|)").search(page, start).end()
    return page[:start] + table + page[end:]


def wrong():
    """What the list of crates and the page do not agree in."""
    layers = layers_of(LIST.read_text())
    page = PAGE.read_text()
    if page != page_with(table_of(layers), page):
        yield "docs/ARCHITECTURE.md has another table of crates than tools/crate_table.py writes"
    yield from (f"crates.txt: {it}" for it in [*out_of_order(layers), *unnamed(layers)])


def main():
    if sys.argv[1:] not in ([], ["--check"]):
        sys.exit(__doc__)
    if not sys.argv[1:]:
        PAGE.write_text(page_with(table_of(layers_of(LIST.read_text())), PAGE.read_text()))
    found = list(wrong())
    for it in found:
        print(f"wrong: {it}")
    sys.exit(1 if found else 0)


if __name__ == "__main__":
    main()
