"""Says whether a setup is valid."""

from __future__ import annotations

from .captures import CaptureFault
from .explain_capture import REASONS
from .explain_setup import fault_lines
from .setups import Setup, faults_of, parse_setup
from .unparsed import UNKNOWN, WRITE, unparsed_in, unparsed_line
from .values import unit


def summary(setup: Setup) -> str:
    """What a valid setup has."""
    families = [it.family for it in setup.lanes]
    parts = [
        _counted(families.count(it), it, "es" if it == "index" else "s")
        for it in ("index", "filter", "aggregate")
    ]
    parts.append(_counted(families.count("tally"), "tall", "ies", "y"))
    parts += [_counted(len(setup.triggers), "trigger"), _counted(len(setup.asks), "question")]
    parts.append(f"{len(setup.lives)} live" if setup.lives else "")
    schemas = {"packet": "packets", "packet6": "packets with IPv6"}
    schema = schemas.get(setup.source, f"records of {len(setup.schema)} attributes")
    said = ", ".join(it for it in parts if it) or "no question"
    return f"{schema}, by the {unit(setup.nanoseconds)}; {said}"


def _counted(count: int, name: str, several: str = "s", one: str = "") -> str:
    return f"{count} {name}{one if count == 1 else several}" if count else ""


def check(path: str, data: bytes, capture: str | None = None) -> tuple[bool, list[str]]:
    """Whether the setup is valid, and the lines to print; with a capture, also how many packets it does not parse."""
    lines: list[str] = []
    for at, fault in enumerate(faults_of(data)):
        lines += [*[""] * bool(at), *fault_lines(path, fault, not at)]
    if lines:
        return False, lines
    setup = parse_setup(data)
    return True, [f"{path}: valid: {summary(setup)}", *_not_parsed(path, setup, capture)]


def _not_parsed(path: str, setup: Setup, capture: str | None) -> list[str]:
    if setup.source != "packet":
        return []
    if capture is None:
        return [f"{path}: {UNKNOWN}"]
    try:
        return [f"{capture}: {it}" for it in unparsed_line(unparsed_in(capture), WRITE)]
    except CaptureFault as fault:
        return [f"{capture}: {REASONS[fault.code]} (code {fault.code} at packet {fault.record})"]
