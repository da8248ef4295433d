#!/usr/bin/env python3
"""Draws docs/full_link.svg from the setup and the report of the incident "A link that is full".

    tools/draw_full_link.py [OUT]

OUT is the file to write; docs/full_link.svg by default. The picture has the bytes of each second with the threshold of the
trigger `full`, and the three senders that sent most. The same report gives the same file. Needs only the standard library.
"""

import datetime
import ipaddress
import pathlib
import sys

ROOT = pathlib.Path(__file__).resolve().parent.parent
INCIDENT = ROOT / "examples" / "incidents" / "full_link"
PICTURE = ROOT / "docs" / "full_link.svg"

WIDE, TALL = 760, 396
LEFT, RIGHT = 118, 738
LOAD_TOP, LOAD_FOOT = 48, 232
SENDERS_TOP, ROW = 308, 28
QUIET, LOUD, SENDER = "#4477aa", "#cc3311", "#228833"


def answer(report, ask):
    """What the report says of a question, as pairs of numbers."""
    for words in (line.split() for line in report.splitlines()):
        if words[:2] == ["ask", ask]:
            return [tuple(int(it) for it in mark.split("=")) for mark in words[4:]]
    sys.exit(f"the report has no line of {ask}")


def threshold(setup, trigger):
    """The number of a trigger."""
    for words in (line.split() for line in setup.splitlines()):
        if words[:2] == ["trigger", trigger]:
            return int(words[5])
    sys.exit(f"the setup has no trigger {trigger}")


def text(x, y, words, anchor="start", size=13, weight="normal"):
    return f'<text x="{x:g}" y="{y:g}" text-anchor="{anchor}" font-size="{size}" font-weight="{weight}">{words}</text>'


def box(x, y, wide, tall, colour):
    return f'<rect x="{x:.1f}" y="{y:.1f}" width="{wide:.1f}" height="{tall:.1f}" fill="{colour}"/>'


def line(x1, y1, x2, y2, style="stroke:#999999"):
    return f'<line x1="{x1:.1f}" y1="{y1:.1f}" x2="{x2:.1f}" y2="{y2:.1f}" style="{style}"/>'


def load_panel(load, most):
    """The bytes of each second, those above the threshold in another colour."""
    top = 36000
    slot = (RIGHT - LEFT) / len(load)

    def height(value):
        return (LOAD_FOOT - LOAD_TOP) * value / top

    out = [text(LEFT, 28, "Bytes sent up the link in each second", size=15, weight="bold")]
    for tick in range(0, top, 10000):
        y = LOAD_FOOT - height(tick)
        out += [line(LEFT, y, RIGHT, y, "stroke:#dddddd"), text(LEFT - 8, y + 4, f"{tick:,}", "end")]
    for place, (_, value) in enumerate(load):
        colour = LOUD if value > most else QUIET
        out.append(
            box(LEFT + slot * (place + 0.1), LOAD_FOOT - height(value), slot * 0.8, height(value), colour)
        )
        out.append(text(LEFT + slot * (place + 0.5), LOAD_FOOT + 18, f"{place}", "middle"))
    y = LOAD_FOOT - height(most)
    out += [line(LEFT, y, RIGHT, y, f"stroke:{LOUD};stroke-width:1.5;stroke-dasharray:6 4")]
    out += [text(LEFT + 6, y + 17, f"trigger full: above {most:,}")]
    middle = (LOAD_TOP + LOAD_FOOT) / 2
    out.append(
        f'<text transform="translate(24 {middle:g}) rotate(-90)" text-anchor="middle" font-size="13">bytes per second</text>'
    )
    start = datetime.datetime.fromtimestamp(load[0][0], datetime.timezone.utc)
    out.append(
        text((LEFT + RIGHT) / 2, LOAD_FOOT + 40, f"seconds after {start:%Y-%m-%d %H:%M:%S} UTC", "middle")
    )
    return out


def senders_panel(senders):
    """A bar for each sender, the greatest first, each with its number of bytes."""
    out = [text(LEFT, SENDERS_TOP - 10, "The three senders with the most bytes", size=15, weight="bold")]
    greatest = senders[0][1]
    for place, (key, value) in enumerate(senders):
        y = SENDERS_TOP + ROW * place
        wide = (RIGHT - LEFT - 130) * value / greatest
        out += [
            text(LEFT - 8, y + 17, str(ipaddress.ip_address(key)), "end"),
            box(LEFT, y + 4, wide, ROW - 9, SENDER),
        ]
        out.append(text(LEFT + wide + 8, y + 17, f"{value:,} bytes"))
    return out


def picture(setup, report):
    """The whole picture."""
    load, senders, most = answer(report, "load"), answer(report, "most"), threshold(setup, "full")
    size = f'width="{WIDE}" height="{TALL}" viewBox="0 0 {WIDE} {TALL}"'
    head = f'<svg xmlns="http://www.w3.org/2000/svg" {size} font-family="sans-serif">'
    parts = [head, "<title>A link that is full</title>", box(0, 0, WIDE, TALL, "#ffffff")]
    return "\n".join(parts + load_panel(load, most) + senders_panel(senders) + ["</svg>", ""])


def drawn():
    """The picture of the stored report."""
    return picture(INCIDENT.with_suffix(".setup").read_text(), INCIDENT.with_suffix(".report").read_text())


def main():
    if len(sys.argv) > 2:
        sys.exit(__doc__)
    (pathlib.Path(sys.argv[1]) if len(sys.argv) == 2 else PICTURE).write_text(drawn())


if __name__ == "__main__":
    main()
