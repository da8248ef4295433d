"""Says in words what a refusal of confluo means, and what to do."""

from __future__ import annotations

import os
import pathlib
import shlex
from dataclasses import dataclass, field, replace

from .captures import MAGICS, CaptureFault, Reading, packer_of
from .commands import Command, WordsFault, parse_words
from .errors import Complaint
from .explain_capture import explain_capture, explain_stream
from .explain_setup import explain_setup
from .nodes import MOST_NODES, MOST_RECORDS, Need, need_of, sizes_for
from .program import is_utf8
from .reports import Refusal
from .rows import rows_of
from .setups import Setup, SetupFault, parse_setup

KINDS = {1: "words", 2: "setup", 3: "capture", 6: "full", 7: "nodes", 9: "file"}
BYTES_OF_A_PLACE = 8 * 22


@dataclass
class Case:
    """What is known of a refused run: its files and the words of its command, and whether it was a `watch`."""

    setup: str | None = None
    captures: list[str] = field(default_factory=list)
    words: list[str] | None = None
    was_cut: bool = False
    is_watch: bool = False
    is_ask: bool = False

    def command(self) -> Command | None:
        """The command, where its words are given and valid."""
        if self.words is None:
            return None
        try:
            return parse_words(self.words)
        except WordsFault:
            return None

    def take_from_command(self) -> None:
        """The names of the files, where only the words say them."""
        command = self.command()
        if command:
            self.setup = self.setup or command.options.get("setup")
            self.captures = self.captures or command.captures
            self.is_watch = self.is_watch or command.name == "watch"

    def reading(self) -> Reading:
        """How the run read packets, as far as its words say it."""
        command = self.command()
        schema = command.options.get("schema", "packet") if command else "packet"
        return Reading(bool(command and command.may_be_cut), schema)

    def parsed(self) -> Setup | None:
        """The setup, where it is given and valid."""
        if self.setup is None:
            return None
        try:
            return parse_setup(read_bytes(self.setup))
        except SetupFault as fault:
            raise Complaint(
                f"{self.setup} is not the setup of that run: its line {fault.line} is refused"
            ) from fault

    def setup_name(self) -> str:
        """The setup's name in a command."""
        return shlex.quote(self.setup or "questions.setup")

    def capture_name(self) -> str:
        """The captures' names in a command."""
        names = ["/dev/stdin" if it == "-" else shlex.quote(it) for it in self.captures]
        return " ".join(names) or "capture.pcap"

    def asking(self) -> str:
        """The front of a command that asks about the capture."""
        return "confluo-report ask" if self.is_ask else f"confluo run --setup {self.setup_name()}"

    def program_of(self, name: str) -> str:
        """The program that reads these captures: confluo unpacks none."""
        is_packed = any(os.path.isfile(it) and packer_of(it) for it in self.captures)
        return "confluo-report" if is_packed and name == "run" else "confluo"

    def with_truncated(self) -> str:
        """The command again, with --truncated; nothing where its words are not known."""
        command = self.command()
        if command is None or self.is_ask or "truncated" not in command.form.flags:
            return ""
        words = [self.program_of(command.name), command.name]
        for name, value in command.options.items():
            words += [f"--{name}"] if name in command.form.flags else [f"--{name}", value]
        return shlex.join([*words, "--truncated", *command.captures])


def read_bytes(path: str) -> bytes:
    """The file's bytes; a Complaint where it cannot be read."""
    try:
        return pathlib.Path(path).read_bytes()
    except OSError as error:
        raise Complaint(f"{path}: {error.strerror}") from error


def explain_words(case: Case) -> list[str]:
    """Status 1."""
    lines = ["These words are not a command of confluo (status 1)."]
    if case.words is None:
        lines.append("With --command 'confluo run ..' the words are looked at. The commands are:")
        return lines + _usage()
    strange = [it for it in case.words if not is_utf8(it)]
    if strange:
        return lines + [
            f"Why: the name `{strange[0]}` is not UTF-8. A pipe needs no name:",
            "",
            f"    confluo run --setup {case.setup_name()} /dev/stdin < CAPTURE",
        ]
    try:
        parse_words(case.words)
    except WordsFault as fault:
        return lines + [
            f"Why: {fault.why}.",
            "For example:",
            "",
            f"    {_with_names(fault.right, case.words)}",
        ]
    raise Complaint("the words of --command are a valid command: they are not the ones that were refused")


def _with_names(example: str, words: list[str]) -> str:
    """The example with the setup and the capture that the words name, as far as that is clear."""
    setups = [b for a, b in zip(words, words[1:]) if a == "--setup"]
    setups += [it.partition("=")[2] for it in words if it.startswith("--setup=")]
    captures = [it for it in words[1:] if not it.startswith("-") and _is_capture(it)]
    for name, found in (("questions.setup", setups[:1]), ("capture.pcap", captures[:1])):
        example = example.replace(name, shlex.quote(found[0])) if found else example
    return example


def _is_capture(path: str) -> bool:
    """Whether the file begins like a capture."""
    try:
        with open(path, "rb") as file:
            return file.read(4) in (*MAGICS, b"\n\r\r\n")
    except OSError:
        return False


def _usage() -> list[str]:
    return [
        "",
        "    confluo run --setup FILE [--writers W] [--capacity N] [--segments G] [--nodes M] [--live R]",
        "        [--truncated] CAPTURE",
        "    confluo run --long --setup FILE [--writers W] [--capacity N] [--nodes M] [--truncated] CAPTURE ..",
        "    confluo synth --setup FILE --seed S --count C [--writers W] [--capacity N] [--segments G] [--nodes M]",
        "    confluo dump [--schema packet|packet6] [--truncated] CAPTURE",
        "    confluo snapshot --setup FILE --after A [--turn T] [--capacity N] [--nodes M]",
        "        [--truncated] CAPTURE ..",
        "    confluo watch --setup FILE [--capacity N] [--segments G] [--nodes M] [--every E] [--beat B]",
        "        [--truncated] CAPTURE",
    ]


def explain_file(case: Case) -> list[str]:
    """Status 9."""
    lines = ["There is no file of that name (status 9): the setup, or, if the setup is valid, the capture."]
    known = [it for it in (case.setup, *case.captures) if it]
    if "-" in known:
        lines.append("`-` is a file of that name to confluo; standard input is /dev/stdin.")
    missing = [it for it in known if it != "-" and not os.path.lexists(it)]
    for path in missing:
        place = os.path.dirname(os.path.abspath(path))
        there = sorted(os.listdir(place))[:8] if os.path.isdir(place) else []
        lines.append(
            f"{path} does not exist."
            + (f" {place} has: {', '.join(there)}" if there else f" Nor does {place}.")
        )
    if known and not missing and "-" not in known:
        raise Complaint(f"all of these exist: {', '.join(known)}; they are not the files of that run")
    return lines if known else lines + ["Check the names:", "", "    ls -l SETUP CAPTURE"]


def explain_reading(case: Case) -> list[str]:
    """Status 4."""
    printed = "The final part is missing." if case.is_watch else "Nothing was printed."
    lines = [f"The system could not open or read a file (status 4). {printed}"]
    for path in (it for it in (case.setup, *case.captures) if it):
        if os.path.isdir(path):
            lines.append(f"{path} is a folder, not a file.")
        elif os.path.exists(path) and not os.access(path, os.R_OK):
            lines.append(f"{path} may not be read by you: chmod a+r {shlex.quote(path)}")
    names = " ".join(shlex.quote(it) for it in (case.setup, *case.captures) if it) or "SETUP CAPTURE"
    return lines + ["These show why:", "", f"    ls -ld {names}", f"    cat {names} > /dev/null"]


def explain_writing() -> list[str]:
    """Status 5."""
    return [
        "Standard output could not be written (status 5): the disk is full, or the reader of the pipe is gone.",
        "What was written is cut off. Do not use it: make room and run again.",
        "",
        "    df -h .",
    ]


def explain_memory(case: Case) -> list[str]:
    """Status 8."""
    if case.is_watch:
        return _explain_memory_of_watch(case)
    command = case.command() or Command("run")
    writers, nodes, capacity = (command.number(it) for it in ("writers", "nodes", "capacity"))
    trees = 8 * (1 + 16 * writers) * writers * nodes
    log = BYTES_OF_A_PLACE * capacity
    return [
        "There was not enough memory (status 8). Nothing was printed.",
        f"A segment with --writers {writers} --nodes {nodes} --capacity {capacity} takes about "
        f"{trees / 1e6:.0f} MB for trees and {log / 1e6:.0f} MB or more for the log.",
        "One writer needs the least, and small segments are taken only as records come:",
        "",
        f"    confluo run --setup {case.setup_name()} --writers 1 --nodes {nodes} --capacity 4096 --segments 256 "
        f"{case.capture_name()}",
    ]


def _explain_memory_of_watch(case: Case) -> list[str]:
    command = case.command() or Command("watch")
    nodes, capacity, segments = (command.number(it) for it in ("nodes", "capacity", "segments"))
    size = (BYTES_OF_A_PLACE * capacity + 8 * 17 * nodes) / 1e6
    return [
        "There was not enough memory (status 8). The final part is missing.",
        f"A segment with --nodes {nodes} --capacity {capacity} takes about {size:.0f} MB or more, and there are "
        f"up to {segments} of them.",
        "Smaller segments need less:",
        "",
        f"    confluo watch --setup {case.setup_name()} --capacity 4096 --nodes 16384 /dev/stdin",
    ]


def _is_gone(path: str) -> bool:
    """Whether the capture came through a pipe, and cannot be read again."""
    return path == "-" or os.path.exists(path) and not os.path.isfile(path)


def _need(case: Case, capacity: int) -> Need | None:
    """What the capture needs, where it and the setup are given.

    A run that got as far as to count was not refused for a cut, so it had --truncated if there is one.
    """
    setup = case.parsed()
    if setup is None or not case.captures or any(map(_is_gone, case.captures)):
        return None
    needs = []
    for path in case.captures:
        reading = Reading(may_be_cut=True)
        try:
            needs.append(need_of(setup, rows_of(setup, path, reading), capacity))
            case.was_cut = case.was_cut or reading.cut is not None
        except CaptureFault as fault:
            raise Complaint(
                f"{path} is not the capture of that run: it is refused with code {fault.code}"
            ) from fault
    nodes = {size: max(it.nodes[size] for it in needs) for size in needs[0].nodes}
    return Need(max(it.records for it in needs), nodes)


def _again(case: Case, options: str) -> list[str]:
    setup, capture = case.setup_name(), case.capture_name()
    name = "run"
    if case.is_watch:
        name, capture = "watch", capture if case.captures else "/dev/stdin"
    command = case.command()
    if command and command.name != "dump":
        name = command.name
    truncated = "--truncated " if case.was_cut else ""
    return ["", f"    {case.program_of(name)} {name} --setup {setup} {options} {truncated}{capture}"]


def explain_full(refusal: Refusal, case: Case) -> list[str]:
    """Status 6."""
    command = case.command()
    if command and command.is_long:
        return [
            f"The captures have more than {refusal.place} records together (status 6).",
            "Ask about fewer of them at a time, and merge the reports: `confluo-report merge`.",
        ]
    if case.is_watch:
        return [
            f"More than {refusal.place} records came, and they have no numbers (status 6).",
            "Start it again: the window is lost, and what was written stays right.",
        ]
    lines = [f"The capture has more records than the log holds, {refusal.place} (status 6)."]
    need, may_be_long = _need(case, 65536), _may_be_long(case)
    long = ["`--long` takes any number of records:", *_again(case, "--long")]
    if need is None and may_be_long:
        return lines + long
    if need is None:
        return lines + [
            "A log of 16 segments holds 1048576 records. With --setup and --capture the options are computed:",
            *_again(case, "--segments 16"),
        ]
    if need.records <= refusal.place:
        raise Complaint(f"the capture is not the one that was refused: it has {need.records} records")
    lines.append(f"It has {need.records} records.")
    if may_be_long and need.nodes[max(need.nodes)] <= MOST_NODES:
        return lines + long
    if need.records > MOST_RECORDS:
        return lines + [f"More than {MOST_RECORDS} fit in no log: cut the file."]
    return lines + _sized(case, need)


def _may_be_long(case: Case) -> bool:
    """Whether `run --long` can ask the same: not if live questions were asked, or may have been."""
    setup, command = case.parsed(), case.command()
    if setup is None or not setup.is_packet:
        return False
    if command is None:
        return not setup.lives
    return command.name == "run" and not command.number("live")


def _sized(case: Case, need: Need) -> list[str]:
    sizes = sizes_for(need)
    if sizes is None and _may_be_long(case):
        return ["This asks each segment when it is full:", *_again(case, "--long --capacity 256")]
    if sizes is None:
        least = min(need.nodes.values())
        return [
            f"Its keys need {least} nodes even in segments of 4096 records, and 65536 are the most.",
            "Ask with fewer indexes, filters, aggregates and tallies at a time.",
        ]
    return ["These options suffice:", *_again(case, sizes.options())]


def explain_nodes(refusal: Refusal, case: Case) -> list[str]:
    """Status 7."""
    if case.is_watch:
        return [
            f"One record's keys need more tree nodes than {refusal.place}, the most of a segment (status 7).",
            "256 nodes are enough for every record; more keep more records in a segment:",
            *_again(case, "--nodes 65536"),
        ]
    lines = [
        f"The keys of indexes, filters, aggregates and tallies need more tree nodes than {refusal.place} (status 7)."
    ]
    command = case.command()
    if command and command.is_long:
        if command.number("nodes") < MOST_NODES:
            return lines + ["A segment may have more of them:", *_again(case, f"--long --nodes {MOST_NODES}")]
        capacity = max(command.number("capacity") // 4, 1)
        options = f"--long --nodes 65536 --capacity {capacity}"
        return lines + ["Smaller segments have fewer different keys:", *_again(case, options)]
    capacity = command.number("capacity") if command else 65536
    need = _need(case, capacity)
    if need is None:
        return lines + [
            "Raise --nodes, up to 65536. With --setup and --capture the number is computed:",
            *_again(case, "--nodes 65536"),
        ]
    most = need.nodes[max(need.nodes)]
    if most <= refusal.place:
        raise Complaint(f"setup and capture are not those that were refused: they need {most} nodes")
    lines.append(f"They need {most} in a segment of {max(need.nodes)} records.")
    return lines + _sized(case, need)


def explain(refusal: Refusal | None, status: int | None, case: Case) -> list[str]:
    """The refusal's line, or the status of a run that printed none, in words."""
    case.take_from_command()
    if refusal is None:
        if status not in (4, 5, 8):
            raise Complaint(
                "there is no refusal's line; a run without one ends with status 0, 4, 5 or 8: give --status N"
            )
        return {4: explain_reading, 8: explain_memory}.get(status, lambda _: explain_writing())(case)
    if refusal.capture:
        # One of several captures is meant.
        case = replace(case, captures=case.captures[refusal.capture - 1 :][:1])
    if status is not None and KINDS.get(status) != refusal.kind:
        raise Complaint(f"the line is that of a refused {refusal.kind}, and status {status} is another")
    if refusal.kind == "setup":
        command = case.command()
        data = read_bytes(case.setup) if case.setup else None
        return explain_setup(refusal, case.setup, data, bool(command and command.name == "synth"))
    if refusal.kind == "capture":
        return _explain_capture(refusal, case)
    return {
        "words": lambda: explain_words(case),
        "file": lambda: explain_file(case),
        "full": lambda: explain_full(refusal, case),
        "nodes": lambda: explain_nodes(refusal, case),
    }[refusal.kind]()


def _explain_capture(refusal: Refusal, case: Case) -> list[str]:
    if len(case.captures) > 1:
        return _explain_one_of(refusal, case)
    capture = next((it for it in case.captures if not _is_gone(it)), None)
    if case.is_watch and capture is None:
        return explain_stream(refusal)
    return _explained(refusal, capture, case)


def _explained(refusal: Refusal, path: str | None, case: Case) -> list[str]:
    again = case.with_truncated() if path else ""
    return explain_capture(refusal, path, case.parsed(), case.reading(), case.asking(), again)


def _explain_one_of(refusal: Refusal, case: Case) -> list[str]:
    """Of several captures the first with that fault is meant."""
    for path in case.captures:
        try:
            return _explained(refusal, path, case)
        except Complaint:
            continue
    raise Complaint("the refused capture is not one of these")
