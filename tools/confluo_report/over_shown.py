"""What is said of many captures: as tables, JSON, CSV, metrics, and as confluo prints a report."""

from __future__ import annotations

import csv
import io
import sys
from typing import Any, Callable, Iterator

from .exports import COLUMNS, FORMAT, Cell, Table, body_object, json_line, report_object
from .metrics import Families, metrics_text
from .over import Over
from .reports import Ask, Found, lines_of
from .setups import Setup
from .show import Viewer, alert_lines, ask_lines, body_lines, count_text, heading
from .tables import style_for
from .unparsed import notice_without
from .values import grouped


def _tables(answered: Over, setup: Setup, most: int) -> str:
    viewer = Viewer(setup, {}, style_for(sys.stdout), most)
    captures = len(answered.captures)
    lines = [
        f"{grouped(answered.report.records)} {viewer.things} of {grouped(captures)} capture{'s' * (captures != 1)}"
    ]
    lines += [f"left out: {it.text()}" for it in answered.left_out]
    for it in answered.captures:
        if it.truncated is not None:
            lines.append(f"{it.name} is cut off after {grouped(it.truncated)}: what came then is missing")
    lines += notice_without(setup, answered.unparsed)
    for ask in answered.report.asks:
        lines += (
            _found_lines(viewer, answered, ask, ask.body)
            if isinstance(ask.body, Found)
            else ask_lines(viewer, ask.name, ask.body)
        )
    return "\n".join([*lines, *alert_lines(viewer, answered.report.alerts)]) + "\n"


def _found_lines(viewer: Viewer, answered: Over, ask: Ask, body: Found) -> list[str]:
    """The records with their numbers in their own captures."""
    about = f"{heading(viewer, ask.name, body)}{count_text(viewer, body)}"
    lines = ["", f"{viewer.style.title(ask.name)}  {about}"]
    for name, rows in answered.by_capture(body.rows):
        part = Found(body.kind, tuple(rows))
        lines += [f"  in {name}{count_text(viewer, part)}", *body_lines(viewer, ask.name, part)]
    return lines


def over_object(answered: Over, setup: Setup) -> dict[str, Any]:
    """The object `over` that docs/report.schema.json describes."""
    whole = report_object(answered.report, setup)
    captures = [
        {
            "capture": it.name,
            "records": it.records,
            **({} if it.truncated is None else {"truncated": it.truncated}),
        }
        for it in answered.captures
    ]
    left_out = [{"capture": it.name, "status": it.status, "why": it.why} for it in answered.left_out]
    front = {"format": FORMAT, "kind": "over", "records": answered.report.records, "captures": captures}
    asks = [_ask_object(answered, it, setup) for it in answered.report.asks]
    return front | {"left_out": left_out, "asks": asks, "alerts": whole["alerts"]}


def _ask_object(answered: Over, ask: Ask, setup: Setup) -> dict[str, Any]:
    if isinstance(ask.body, Found):
        parts = [{"capture": name, "records": rows} for name, rows in answered.by_capture(ask.body.rows)]
        return {"name": ask.name, "kind": ask.body.kind, "parts": parts}
    return {"name": ask.name, **body_object(ask.body, setup, setup.question(ask.name))}


def _json(answered: Over, setup: Setup, _: int) -> str:
    return json_line(over_object(answered, setup))


def _rows(answered: Over, setup: Setup) -> Iterator[tuple[Cell, ...]]:
    """Those of the report, but a found record has its capture in the column of hosts and its number there."""
    yield from (("capture", it.name, "", "", "", "", "", it.records) for it in answered.captures)
    for it in answered.left_out:
        yield ("left out", it.name, "", "", "", "", it.why, "" if it.status is None else it.status)
    found = {it.name: it.body for it in answered.report.asks if isinstance(it.body, Found)}
    for row in Table(setup).rows(answered.report):
        if row[2] not in found or row[0] != "ask":
            yield row
        elif row[5] == "":
            yield row
            yield from _found_rows(answered, row, found[row[2]])
    for it in answered.captures:
        if it.truncated is not None:
            yield ("truncated", it.name, "", "", "", "", "", it.truncated)


def _found_rows(answered: Over, row: tuple[Cell, ...], body: Found) -> Iterator[tuple[Cell, ...]]:
    place = 0
    for name, rows in answered.by_capture(body.rows):
        for it in rows:
            yield (row[0], name, *row[2:5], place, it, "")
            place += 1


def _csv(answered: Over, setup: Setup, _: int) -> str:
    out = io.StringIO()
    writer = csv.writer(out, lineterminator="\n")
    writer.writerow(COLUMNS)
    writer.writerows(_rows(answered, setup))
    return out.getvalue()


def _metrics(answered: Over, setup: Setup, _: int) -> str:
    families = Families()
    families.add("confluo_captures", len(answered.captures))
    families.add("confluo_left_out_captures", len(answered.left_out))
    return families.text() + metrics_text(answered.report, None, setup)


def _report(answered: Over, _: Setup, __: int) -> str:
    """The final part of one run over all captures, whose records are numbered through all of them."""
    lines = list(lines_of(answered.report))
    if len(answered.captures) > 1:
        cuts = [(at, it.truncated) for at, it in enumerate(answered.captures, 1) if it.truncated is not None]
        lines += [f"truncated: capture {at} record {whole}" for at, whole in cuts]
    return "\n".join(lines) + "\n"


FORMS: dict[str, Callable[[Over, Setup, int], str]] = {
    "show": _tables,
    "json": _json,
    "csv": _csv,
    "prometheus": _metrics,
    "report": _report,
}
