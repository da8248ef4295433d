"""How many packets `schema packet` counts but does not parse: those of IPv6, and those with a tag that it does not know."""

from __future__ import annotations

from dataclasses import dataclass

from .captures import Frame, Reading, frames, opened
from .frames import TAG, types_of
from .frames6 import IPV6, SERVICE_TAG
from .progress import shown
from .reports import Found, Quad, Report
from .setups import Setup
from .values import grouped

WRITE = "write `schema packet6`"
UNKNOWN = (
    "`schema packet` counts packets of IPv6 and does not parse them; --capture FILE says how many these are"
)
ELSEWHERE = UNKNOWN.replace("--capture FILE", "`confluo-report check --capture FILE`")


@dataclass
class Unparsed:
    """Packets of IPv6, and of a second VLAN tag or one of a service, of so many."""

    ipv6: int = 0
    tagged: int = 0
    packets: int = 0

    def add(self, frame: Frame) -> None:
        """Counts a packet."""
        etype = types_of(frame)[1]
        self.packets += 1
        self.ipv6 += etype == IPV6
        self.tagged += etype in (TAG, SERVICE_TAG)


def unparsed_line(found: Unparsed, remedy: str) -> list[str]:
    """A sentence, if there are any."""
    kinds = []
    if found.ipv6:
        kinds.append((found.ipv6, "is IPv6" if found.ipv6 == 1 else "are IPv6"))
    if found.tagged:
        has = "has" if found.tagged == 1 else "have"
        kinds.append((found.tagged, f"{has} a second VLAN tag or a service tag"))
    if not kinds:
        return []
    (count, what), *others = kinds
    said = f"{grouped(count)} of {grouped(found.packets)} packets {what}"
    more = "".join(f", and {grouped(number)} {text}" for number, text in others)
    were = ": these were" if others else " and was" if count == 1 else " and were"
    return [f"{said}{more}{were} not parsed (addresses and ports are 0): {remedy}"]


def unparsed_in(capture: str) -> Unparsed:
    """What the capture has of them; a CaptureFault at its first fault."""
    found = Unparsed()
    with opened(capture) as file:
        for it in shown(frames(file, Reading(True)), f"reading {capture}, packets"):
            found.add(it)
    return found


def unparsed_by(report: Report, setup: Setup) -> Unparsed | None:
    """What the report says of IPv6, where a question of the setup asks for it."""
    place = setup.place_of("etype")
    for ask, question in zip(report.asks, setup.asks):
        parts = question.expression.conjunctions if question.expression else ()
        atoms = [(it.attribute, it.operator, it.low) for its in parts for it in its]
        if atoms == [(place, "==", IPV6)] and isinstance(ask.body, (Found, Quad)):
            count = ask.body.count if isinstance(ask.body, Quad) else len(ask.body.rows)
            return Unparsed(count, 0, report.records - (report.window or 0))
    return None


def notice_without(setup: Setup | None, known: Unparsed | None = None) -> list[str]:
    """The same of what is not the report of one capture."""
    if setup is None or setup.source != "packet":
        return []
    return unparsed_line(known, WRITE) if known else [f"{ELSEWHERE}."]


def notice(report: Report, setup: Setup | None, known: Unparsed | None) -> list[str]:
    """What a reader must know who takes the report's numbers for those of all packets."""
    if setup is None or setup.source != "packet":
        return []
    found = known or unparsed_by(report, setup)
    return unparsed_line(found, WRITE) if found else [f"{UNKNOWN}."]
