"""Draws reports: marks and alerts over time, and the keys of each top as bars. Needs matplotlib."""

from __future__ import annotations

import pathlib
import sys
from dataclasses import dataclass, field
from typing import Any, Callable, Mapping, Sequence

from .errors import Complaint
from .merge import Named, joined_top
from .reports import Fired, Pair, Top
from .setups import SECOND, Setup
from .show import part_text
from .values import clock, dotted, key_text, unit

COLOURS = (
    "tab:blue",
    "tab:orange",
    "tab:green",
    "tab:purple",
    "tab:brown",
    "tab:pink",
    "tab:gray",
    "tab:cyan",
)
Text = Callable[[int], str]
MOST_KEYS = 40
BYTES = ("len", "caplen", "iplen")


@dataclass
class Bars:
    """The keys of one top that are drawn, of so many, and how a key is written."""

    keys: list[Pair]
    count: int
    text: Text = str


@dataclass
class Drawing:
    """What is drawn: by question and report the marks, by trigger and report the alerts, and the tops."""

    width: int = SECOND
    # By question what is measured, for the axis.
    units: dict[str, str] = field(default_factory=dict)
    marks: dict[str, list[tuple[str, list[Pair]]]] = field(default_factory=dict)
    alerts: dict[str, list[Pair]] = field(default_factory=dict)
    tops: dict[str, Bars] = field(default_factory=dict)

    def buckets(self) -> list[int]:
        """All buckets with a mark or an alert."""
        marked = [it.key for its in self.marks.values() for _, pairs in its for it in pairs]
        return marked + [it.key for pairs in self.alerts.values() for it in pairs]


def _key_text(setup: Setup | None, name: str, as_addresses: bool, flows: Mapping[int, str]) -> Text:
    question = setup.question(name) if setup else None
    if setup and question and question.lane and question.lane.key is not None:
        lane, known = question.lane, setup
        return lambda key: key_text(known, lane, key, flows)
    return dotted if as_addresses else str


def _unit(setup: Setup | None, name: str) -> str:
    """What a question measures, in words."""
    question = setup.question(name) if setup else None
    if setup is None or question is None:
        return "value"
    trigger = question.trigger
    lane, part = (trigger.aggregate, trigger.part) if trigger else (question.lane, question.part)
    if lane is None or lane.measure is None:
        return "value"
    measure = setup.schema[lane.measure].name
    if part == "count":
        return "packets" if setup.is_packet else "records"
    if setup.is_packet and measure in BYTES:
        return "bytes" if part == "sum" else f"{part} {measure}, in bytes"
    return part_text(setup, part, lane)


def drawing_of(
    named: Sequence[Named],
    setup: Setup | None,
    width: int,
    as_addresses: bool,
    most: int = MOST_KEYS,
    flows: Mapping[int, str] | None = None,
) -> Drawing:
    """What the reports have to draw; several reports have their tops put together. 0 is as many keys as there are."""
    drawing = Drawing(setup.nanoseconds if setup else width)
    for at, ask in enumerate(named[0].report.asks):
        bodies = [(it.name, it.report.asks[at].body) for it in named]
        fired = [(name, by_bucket(body.marks)) for name, body in bodies if isinstance(body, Fired)]
        tops = [body for _, body in bodies if isinstance(body, Top)]
        if any(pairs for _, pairs in fired):
            drawing.marks[ask.name] = fired
        keys = _keys(ask.name, tops, setup) if tops else []
        if keys:
            shown = keys[: most or None]
            text = _key_text(setup, ask.name, as_addresses, flows or {})
            drawing.tops[ask.name] = Bars(shown, len(keys), text)
        drawing.units[ask.name] = _unit(setup, ask.name)
    for it in named:
        for alert in it.report.alerts:
            drawing.alerts.setdefault(alert.trigger, []).append(Pair(alert.bucket, alert.value))
        drawing.alerts = {name: by_bucket(pairs) for name, pairs in drawing.alerts.items()}
    if not drawing.buckets() and not drawing.tops:
        names = ", ".join(it.name for it in named)
        raise Complaint(f"nothing to draw: no trigger fired in {names}, and no top has a key")
    return drawing


def by_bucket(pairs: Sequence[Pair]) -> list[Pair]:
    """Of each bucket the greatest value: of an aggregate by keys there may be several."""
    found: dict[int, int] = {}
    for it in pairs:
        found[it.key] = max(it.value, found.get(it.key, 0))
    return [Pair(*it) for it in found.items()]


def _keys(name: str, tops: list[Top], setup: Setup | None) -> list[Pair]:
    if len(tops) == 1:
        return list(tops[0].keys)
    question = setup.question(name) if setup else None
    if question is None:
        raise Complaint(f"ask {name}: to draw answers of top together, give the setup: --setup FILE")
    return list(joined_top(question, tops)[0].keys)


def _draw_marks(
    panel: Any, label: str, series: list[tuple[str, list[Pair]]], place: Text, span: float
) -> None:
    for at, (source, pairs) in enumerate(series):
        colour = COLOURS[at % len(COLOURS)]
        places, values = [place(it.key) for it in pairs], [it.value for it in pairs]
        alpha = 1.0 if len(series) == 1 else 0.6
        panel.bar(
            places,
            values,
            span,
            align="edge",
            color=colour,
            edgecolor=colour,
            linewidth=0.6,
            alpha=alpha,
            label=source,
        )
        middles = [float(it) + span / 2 for it in places]
        panel.plot(middles, values, "o", color="black", markersize=2.5)
    if len(series) > 1:
        panel.legend(fontsize="small", frameon=False)
    panel.set_ylim(bottom=0)
    panel.ticklabel_format(axis="y", style="plain")
    panel.set_ylabel(label)


def _draw_alerts(panel: Any, alerts: dict[str, list[Pair]], place: Text, span: float) -> None:
    for row, pairs in enumerate(alerts.values()):
        spans = [(place(it.key), span) for it in pairs]
        panel.broken_barh(spans, (row - 0.35, 0.7), color="tab:red", edgecolor="tab:red", linewidth=0.6)
    panel.set_yticks(range(len(alerts)))
    panel.set_yticklabels(list(alerts))
    panel.set_ylim(len(alerts) - 0.5, -0.5)
    panel.set_ylabel("alerts")


def _draw_over_time(panels: list[Any], drawing: Drawing) -> None:
    first, span = min(drawing.buckets()), drawing.width / SECOND

    def place(bucket: int) -> Any:
        return (bucket - first) * drawing.width / SECOND

    for panel, (name, series) in zip(panels, drawing.marks.items()):
        label = f"{name}\n{drawing.units[name]} in each {unit(drawing.width)}"
        _draw_marks(panel, label, series, place, span)
    if drawing.alerts:
        _draw_alerts(panels[-1], drawing.alerts, place, span)
    for panel in panels[:-1]:
        panel.sharex(panels[-1])
        panel.tick_params(labelbottom=False)
    panels[-1].set_xlabel(f"seconds from {clock(first * drawing.width)} UTC")


def _draw_top(panel: Any, name: str, bars: Bars, what: str) -> None:
    panel.barh(range(len(bars.keys)), [it.value for it in bars.keys], 0.7, color="tab:green")
    panel.set_yticks(range(len(bars.keys)))
    panel.set_yticklabels([bars.text(it.key) for it in bars.keys])
    panel.set_ylim(len(bars.keys) - 0.5, -0.5)
    panel.ticklabel_format(axis="x", style="plain")
    panel.set_xlabel(what)
    few = f"\nthe first {len(bars.keys)} of {bars.count:,}" if len(bars.keys) < bars.count else ""
    panel.set_ylabel(f"{name}{few}")


def _heights(drawing: Drawing) -> list[float]:
    alerts = [0.5 + 0.5 * len(drawing.alerts)] if drawing.alerts else []
    tops = [1.0 + 0.35 * len(it.keys) for it in drawing.tops.values()]
    return [3.0] * len(drawing.marks) + alerts + tops


def _figure(pyplot: Any, drawing: Drawing) -> Any:
    heights = _heights(drawing)
    timed = len(drawing.marks) + bool(drawing.alerts)
    size = (8, 0.8 + 0.7 * sum(heights))
    figure, grid = pyplot.subplots(
        len(heights), squeeze=False, figsize=size, gridspec_kw={"height_ratios": heights}
    )
    panels = [row[0] for row in grid]
    if timed:
        _draw_over_time(panels[:timed], drawing)
    for panel, (name, bars) in zip(panels[timed:], drawing.tops.items()):
        _draw_top(panel, name, bars, drawing.units[name])
    for panel in panels:
        panel.spines[["top", "right"]].set_visible(False)
    figure.align_ylabels()
    figure.tight_layout()
    return figure


def plot(drawing: Drawing, out: pathlib.Path) -> None:
    """Writes the picture; the same reports give the same SVG."""
    if out.suffix not in (".png", ".svg"):
        raise Complaint(f"{out} ends neither with .png nor with .svg")
    try:
        import matplotlib
    except ImportError as error:
        raise Complaint(
            f"matplotlib is missing for {sys.executable}: apt-get install python3-matplotlib brings it for Debian's own"
        ) from error
    matplotlib.use("Agg")
    matplotlib.rcParams.update({"svg.hashsalt": "confluo", "svg.fonttype": "none"})
    from matplotlib import pyplot

    figure = _figure(pyplot, drawing)
    try:
        figure.savefig(out, dpi=120, metadata={"Date": None} if out.suffix == ".svg" else None)
    except OSError as error:
        raise Complaint(f"{out} cannot be written: {error.strerror}") from error
    pyplot.close(figure)
