#!/usr/bin/env python3
"""Breaks long lines of definitions and proofs (.antt) and of clauses (.rt), which rt fmt leaves as they are.

    tools/break_lines.py [--check] FILE..

A line of more than 160 columns, or a clause of more than 200, goes on below, where rt fmt then indents it: before an arrow, a
product, a sum or a step of an equation, behind a comma, a semicolon, `in` or `=`, or before an argument in parentheses, as far out
as one fits; if there is no such place, before any argument. Comments are broken between words; a line of `use` and text between
quotes stay. With --check nothing is written: ends with 1 if a line would be broken. Needs only the standard library.
"""

import pathlib
import re
import sys

WIDEST = 160
WIDEST_CLAUSE = 200
INDENT = 4
CLAUSE = re.compile(r"\s*(requires\b|ensures\b|ghost (?!use\b)|[(×])")
OPEN, CLOSE = "([{", ")]}"
BEFORE = re.compile(r" (?=(→|×|⊎|↔|∙) )")
BEHIND = re.compile(r"(?<=[,;]) (?=\S)|(?<= in) (?=\S)|(?<= =) (?=\S)")
ARGUMENT = re.compile(r" (?=[(])")
# A name behind a name or a closed bracket, which is an argument if neither is a word of the language or an operator.
PLAIN = re.compile(r"(?<=[\w)\]}']) (?=[\w])")
WORDS = set("in let if then else where record rw at of pub abbrev ghost ensures requires".split())
QUOTED = re.compile(r'"(?:[^"\\]|\\.)*"')


def depths_of(line):
    """How many brackets are open before each column."""
    depths, depth = [], 0
    for letter in line:
        depth -= letter in CLOSE
        depths.append(depth)
        depth += letter in OPEN
    return depths


def place_to_break(line, indent, widest):
    """The column of a space at which the line is broken best, or None."""
    depths = depths_of(line)
    quotes = [range(*it.span()) for it in QUOTED.finditer(line)]
    ranked = []
    for rank, kind in enumerate((BEFORE, BEHIND, ARGUMENT, PLAIN)):
        if kind is PLAIN and ranked:
            break
        for found in kind.finditer(line[: widest + 1]):
            at = found.start()
            if line[at - 1] == "=" and depths[at] or any(at in it for it in quotes):
                continue
            if kind is PLAIN and WORDS & {line[:at].split()[-1], line[at:].split()[0]}:
                continue
            if at > indent + 12:
                ranked.append((depths[at], rank == 2, -at))
    return -min(ranked)[2] if ranked else None


def broken_comment(line, indent):
    """A comment as lines of at most 160 columns."""
    words, lines, current = line.split(), [], " " * indent
    for word in words:
        if len(current) + len(word) > WIDEST:
            lines.append(current.rstrip())
            current = " " * indent + "-- "
        current += word + " "
    return [*lines, current.rstrip()]


def continued(line, indent, widest):
    """The line as lines of at most so many columns, where that is possible."""
    lines = []
    while len(line) > widest:
        at = place_to_break(line, len(line) - len(line.lstrip()), widest)
        if at is None:
            break
        lines.append(line[:at].rstrip())
        line = " " * (indent + INDENT) + line[at:].lstrip()
    return [*lines, line]


def broken(line):
    """A line of a definition or a proof as lines of at most 160 columns, where that is possible."""
    indent = len(line) - len(line.lstrip())
    if len(line) <= WIDEST or line.lstrip().startswith(("use ", "pub use ", "--- ")):
        return [line]
    if line.lstrip().startswith("-- "):
        return broken_comment(line, indent)
    return continued(line, indent, WIDEST)


def broken_clause(line):
    """A clause, a ghost member or a line by which one goes on, as lines of at most 200 columns, where that is possible.

    Other lines of a program stay.
    """
    if not CLAUSE.match(line):
        return [line]
    return continued(line, len(line) - len(line.lstrip()), WIDEST_CLAUSE)


def laid_out(text, is_code=False):
    breaks = broken_clause if is_code else broken
    return "\n".join(it for line in text.split("\n") for it in breaks(line))


def main():
    check = sys.argv[1:2] == ["--check"]
    # What a build keeps below out/ is not to be touched.
    files = [it for it in map(pathlib.Path, sys.argv[1 + check :]) if "out" not in it.parts]
    if not files:
        sys.exit(__doc__)
    other = 0
    for file in files:
        text = file.read_text()
        new = laid_out(text, file.suffix == ".rt")
        if new == text:
            continue
        other += 1
        if check:
            print(f"{file}: lines that can be broken")
        else:
            file.write_text(new)
    sys.exit(1 if check and other else 0)


if __name__ == "__main__":
    main()
