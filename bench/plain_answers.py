#!/usr/bin/env python3
"""The final part of a report, answered plainly: each question by a walk over all rows.

    bench/plain_answers.py [--truncated] SETUP CAPTURE

It prints the lines of `confluo run` but for `live`, `new` and `order`, and ends with status 3 at a capture that is refused.
The capture and its packets are read by plain.py, the setup by confluo-report. Only setups over packets.
"""

import pathlib
import sys

sys.dont_write_bytecode = True
ROOT = pathlib.Path(__file__).resolve().parent.parent
sys.path[:0] = [str(ROOT / "tools"), str(ROOT / "bench")]

import plain  # noqa: E402
from confluo_report.setups import parse_setup  # noqa: E402


def quad(values):
    """Count, sum, least and greatest."""
    return {"count": len(values), "sum": sum(values), "least": min(values, default=None), "greatest": max(values, default=None)}


def quad_text(kind, it):
    ends = ["-" if it[end] is None else it[end] for end in ("least", "greatest")]
    return f"{kind} count {it['count']} sum {it['sum']} least {ends[0]} greatest {ends[1]}"


def place_text(place):
    """`KEY`, or `BUCKET/KEY`."""
    return "/".join(map(str, place))


def listed(kind, entries):
    return " ".join([f"{kind} {len(entries)}:", *map(str, entries)])


class Answers:
    """A setup and the rows of a capture."""

    def __init__(self, setup, rows):
        self.setup, self.rows = setup, rows

    def bucket(self, row):
        return row[0] // self.setup.nanoseconds

    def place(self, lane, row):
        """Under what the lane keeps a row: its key, or its bucket, and behind that what keeps the rows of a bucket apart."""
        key = self.bucket(row) if lane.key is None else row[lane.key]
        return (key,) if lane.by is None else (key, row[lane.by])

    def groups(self, lane):
        """The quads of a lane by its places."""
        found = {}
        for row in self.rows:
            if lane.select.holds(row):
                found.setdefault(self.place(lane, row), []).append(row[lane.measure])
        return {place: quad(values) for place, values in found.items()}

    def marks(self, trigger):
        """The places in which a trigger fires, with its part there."""
        compare = {"==": int.__eq__, "!=": int.__ne__, "<": int.__lt__, "<=": int.__le__, ">": int.__gt__, ">=": int.__ge__}
        groups = sorted(self.groups(trigger.aggregate).items())
        return [(place, it[trigger.part]) for place, it in groups if compare[trigger.operator](it[trigger.part], trigger.number)]

    def found(self, holds):
        return [k for k, row in enumerate(self.rows) if holds(row)]

    def body(self, ask):
        """The answer to a question."""
        low, high, lane = ask.low, ask.high, ask.lane
        if ask.kind == "list":
            return listed("list", self.found(ask.expression.holds))
        if ask.kind == "find":
            return listed("find", self.found(lambda row: low <= row[lane.key] <= high))
        if ask.kind == "between":
            return listed("between", self.found(lambda row: lane.select.holds(row) and low <= self.bucket(row) <= high))
        if ask.kind == "measure":
            rows = [row for row in self.rows if lane.select.holds(row) and low <= self.bucket(row) <= high]
            return quad_text("measure", quad([row[lane.measure] for row in rows]))
        if ask.kind == "total":
            return quad_text("total", quad([row[ask.attribute] for row in self.rows if ask.expression.holds(row)]))
        if ask.kind == "fired":
            return listed("fired", [f"{place_text(place)}={value}" for place, value in self.marks(ask.trigger)])
        if ask.kind == "groups":
            groups = sorted(self.groups(lane).items())
            return listed("groups", [f"{place_text(place)}=" + "/".join(map(str, it.values())) for place, it in groups])
        ranked = sorted((-it[ask.part], place) for place, it in self.groups(lane).items())[:high]
        return listed("top", [f"{place_text(place)}={-value}" for value, place in ranked])

    def lines(self):
        """The final part."""
        yield f"records {len(self.rows)}"
        yield from (f"ask {it.name} {self.body(it)}" for it in self.setup.asks)
        for it in self.setup.triggers:
            yield from (f"alert {it.name} {place_text(place)} {value}" for place, value in self.marks(it))


def report(setup, data, truncated=False):
    """The status and the text."""
    setup = parse_setup(setup)
    frames, code, is_cut = plain.read(data, plain.LINKS[setup.source], truncated)
    if code:
        return 3, f"capture: record {len(frames)} code {code}\n"
    rows = [tuple(plain.row(it, setup.source).values()) for it in frames]
    lines = [*Answers(setup, rows).lines(), *[f"truncated: record {len(rows)}"] * is_cut]
    return 0, "".join(f"{it}\n" for it in lines)


def main():
    words = [it for it in sys.argv[1:] if it != "--truncated"]
    if len(words) != 2:
        sys.exit(__doc__)
    status, text = report(*(pathlib.Path(it).read_bytes() for it in words), "--truncated" in sys.argv)
    sys.stdout.write(text)
    sys.exit(status)


if __name__ == "__main__":
    main()
