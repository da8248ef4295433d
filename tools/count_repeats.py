#!/usr/bin/env python3
"""Counts what grows by itself: clauses that are exact copies of others, and the crates of the longest chain.

    tools/count_repeats.py [--list N]

A clause is one line `requires` or `ensures` of a .rt file with what continues it, tests left out. A clause that stands at n places
counts as n - 1 repeats. The chain is the most crates of crates.txt that need one another in turn. It ends with 1 if a number is
above the one that stands here, which is lowered when the code allows it, and raised only for a new call of a library. With --list
it prints the N clauses that are repeated most. Needs only the standard library.
"""

import collections
import pathlib
import re
import sys

sys.dont_write_bytecode = True

import crate_table  # noqa: E402

ROOT = pathlib.Path(__file__).resolve().parent.parent
MOST_REPEATS = 1374
LONGEST_CHAIN = 13
CLAUSE = re.compile(r"\s*(requires|ensures)\b")


def clauses_of(text):
    """The clauses of a file, each on one line with single spaces."""
    clause = []
    for line in text.splitlines():
        code = line.split("//")[0].rstrip()
        begins = CLAUSE.match(code)
        if clause and (begins or not is_open(clause)):
            yield " ".join(" ".join(clause).split())
            clause = []
        if begins or clause:
            clause.append(code)
    if clause:
        yield " ".join(" ".join(clause).split())


def is_open(clause):
    """Whether the clause goes on: its braces are not yet closed."""
    text = " ".join(clause)
    return "{" not in text or text.count("{") > text.count("}")


def all_clauses(root):
    count = collections.Counter()
    for file in sorted(root.glob("crates/*/src/**/*.rt")):
        names = file.relative_to(root).with_suffix("").parts
        if not any(name.endswith("tests") for name in names):
            count.update(clauses_of(file.read_text()))
    return count


def longest_chain(layers):
    """The names of the longest chain of crates, each needing the next."""
    needs = {name: it for _, crates in layers for name, it in crates}
    known = {}

    def chain(name):
        if name not in known:
            below = [chain(it) for it in needs[name] if it in needs]
            known[name] = [name, *max(below, key=len, default=[])]
        return known[name]

    return max(map(chain, needs), key=len)


def main(words):
    if words and (len(words) != 2 or words[0] != "--list" or not words[1].isdigit()):
        sys.exit(__doc__)
    count = all_clauses(ROOT)
    repeats = sum(it - 1 for it in count.values())
    chain = longest_chain(crate_table.layers_of((ROOT / "crates.txt").read_text()))
    print(f"{count.total()} clauses, {repeats} of them exact repeats (at most {MOST_REPEATS})")
    print(f"{len(chain)} crates in the longest chain (at most {LONGEST_CHAIN}): {' > '.join(chain)}")
    for clause, times in count.most_common(int(words[1]) if words else 0):
        print(f"{times:5} {clause}")
    return 1 if repeats > MOST_REPEATS or len(chain) > LONGEST_CHAIN else 0


if __name__ == "__main__":
    sys.exit(main(sys.argv[1:]))
