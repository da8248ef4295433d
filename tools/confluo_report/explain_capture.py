"""Says in words why a capture is refused, and which command mends it."""

from __future__ import annotations

import contextlib
import shlex
from dataclasses import dataclass
from typing import Iterable

from .captures import CUT, CaptureFault, Reading, frames, opened, packer_of
from .errors import Complaint
from .recordfiles import record_rows
from .reports import Refusal
from .setups import Setup

REASONS = {
    1: "the file is not a capture: its first bytes are not those of pcap or pcapng",
    2: "the version of pcap is another than 2.4",
    3: "the packets are of a link type that the schema does not read",
    4: "a packet states more than 262144 captured bytes; most likely the file is damaged there",
    5: "the file ends within a packet or its header: it is still being written, or the disk was full",
    6: "the file has 4 GiB or more",
    11: "the CSV file has no record at all, not even the names",
    12: "the first line is not the names of `schema records` in their order",
    13: "a record has another number of fields than the schema",
    14: "a field is not a value of its attribute",
    15: "the CSV file has 16 MiB or more",
    21: "the byte order of a pcapng section is unknown; most likely the file is damaged there",
    22: "a pcapng section has another version than 1",
    23: "a packet is of an interface whose link type the schema does not read",
    24: "a packet states more than 262144 captured bytes; most likely the file is damaged there",
    25: "the file ends within a block: it is still being written, or the disk was full",
    26: "the file has 4 GiB or more",
    27: "the length of a pcapng block is invalid, or a packet does not fit in its block; the file is damaged there",
    28: "a packet names an interface that the file does not describe; the file is damaged there",
    29: "a pcapng section describes more than 65536 interfaces, which are kept in memory",
}
IN_CSV = (11, 12, 13, 14, 15)
WIDER = "`schema packet6` reads Linux cooked v2, raw IP and BSD loopback too. If it is another: "


@dataclass(frozen=True)
class Files:
    """What the commands that are offered name: the capture, quoted, the front of a command that asks about it, and the refused command
    with --truncated, if it is known."""

    path: str = "capture.pcap"
    asking: str = "confluo run --setup questions.setup"
    with_truncated: str = ""


def _keep(code: int, files: Files, count: int) -> tuple[str, list[str]]:
    """How the packets before the fault are kept."""
    path = files.path
    behind = " 'QUESTION'" if files.asking.endswith(" ask") else ""
    if count == 0:
        return "No packet is whole before the fault: capture anew.", []
    if code in CUT:
        return (
            f"--truncated answers about the {count} packets before the fault; editcap keeps them:",
            [
                files.with_truncated or f"{files.asking} --truncated {path}{behind}",
                f"editcap -r -F pcap {path} mended.pcap 1-{count}",
            ],
        )
    return (
        f"This keeps the {count} packets before the fault:",
        [f"editcap -r -F pcap {path} mended.pcap 1-{count}"],
    )


def _unpack(files: Files, packer: str | None) -> tuple[str, list[str]]:
    if packer:
        return (
            f"It is packed by {packer}. Let confluo read it by a pipe:",
            [f"{packer} -dc {files.path} | {files.asking} /dev/stdin"],
        )
    advice = (
        "Is it the capture, and not the setup or another file? If Wireshark reads it, this writes it as pcap:"
    )
    return advice, [f"editcap -F pcap {files.path} mended.pcap"]


def mending(
    code: int, record: int, files: Files, packer: str | None, schema: str = "packet"
) -> tuple[str, list[str]]:
    """What to do, and the commands that do it."""
    path = files.path
    wider = WIDER if schema == "packet" else ""
    if code == 1:
        return _unpack(files, packer)
    if code in (2, 21, 22):
        return "This writes it anew, as far as it can be read:", [f"editcap -F pcap {path} mended.pcap"]
    if code == 3:
        return (
            f"{wider}Capture on one interface, or as Linux cooked; or, if the frames are in truth Ethernet, say so:",
            ["tcpdump -i any -y LINUX_SLL -w capture.pcap", f"editcap -F pcap -T ether {path} mended.pcap"],
        )
    if code == 23:
        return (
            f"{wider}Keep the packets of one interface of a type that is read:",
            [f"tshark -r {path} -Y 'frame.interface_id == 0' -F pcap -w mended.pcap"],
        )
    if code in (4, 5, 24, 25, 27, 28):
        return _keep(code, files, record)
    if code == 29:
        return "This writes it as pcap, without interfaces:", [f"editcap -F pcap {path} mended.pcap"]
    if code in (6, 26):
        return "`run --long` and `confluo-report ask` read captures of any length:", [
            f"confluo run --long --setup questions.setup {path}",
            f"confluo-report ask {path} 'top src by bytes'",
        ]
    return "", []


def _csv_mending(code: int, names: str, record: int, path: str) -> tuple[str, list[str]]:
    line = record + 2
    return {
        11: ("The first line must be the names:", [f"echo '{names}' > {path}"]),
        12: (
            "This puts the names before the records, if there are none yet:",
            [f"sed -i '1i {names}' {path}"],
        ),
        13: (
            "Look at the line (lines of nothing and fields with line ends count otherwise):",
            [f"sed -n {line}p {path}"],
        ),
        14: (
            "Look at the line (lines of nothing and fields with line ends count otherwise):",
            [f"sed -n {line}p {path}"],
        ),
        15: ("Cut it into parts that begin with the names each:", [f"split -C 16000000 {path} part_"]),
    }[code]


def find_fault(
    path: str, setup: Setup | None, as_is: bool = False, reading: Reading | None = None
) -> CaptureFault | None:
    """The capture's first fault; with `as_is` a packed file is not unpacked."""
    try:
        with contextlib.ExitStack() as stack:
            file = stack.enter_context(open(path, "rb") if as_is else opened(path))
            if setup and not setup.is_packet:
                _exhaust(record_rows(setup.schema, file.read(2**24 + 1)))
            else:
                reading = reading or Reading()
                reading.schema = setup.source if setup else reading.schema
                _exhaust(frames(file, reading))
    except CaptureFault as fault:
        return fault
    return None


def _exhaust(rows: Iterable[object]) -> None:
    for _ in rows:
        pass


def explain_capture(
    refusal: Refusal,
    path: str | None,
    setup: Setup | None,
    reading: Reading | None = None,
    asking: str = Files.asking,
    with_truncated: str = "",
) -> list[str]:
    """The refusal in words, with the capture where it is given."""
    reason = REASONS.get(refusal.code)
    if reason is None:
        raise Complaint(f"there is no code {refusal.code} of captures")
    what = "record" if refusal.code in IN_CSV else "packet"
    shown = shlex.quote(path) if path else "capture.pcap"
    lines = [f"{path or 'The capture'}: {reason} (code {refusal.code})."]
    if path:
        lines += _place_lines(refusal, path, setup, what, reading)
    packer = packer_of(path) if path else None
    if refusal.code in IN_CSV:
        names = ",".join(it.name for it in setup.schema) if setup else "ts,src,len"
        advice, commands = _csv_mending(refusal.code, names, refusal.place, shown)
    else:
        schema = setup.source if setup else reading.schema if reading else "packet"
        files = Files(shown, asking, with_truncated)
        advice, commands = mending(refusal.code, refusal.place, files, packer, schema)
    return lines + [advice, *["", *[f"    {it}" for it in commands]][: 1 + len(commands)]]


def explain_stream(refusal: Refusal) -> list[str]:
    """The refusal of a capture that came through a pipe and is gone."""
    reason = REASONS.get(refusal.code)
    if reason is None:
        raise Complaint(f"there is no code {refusal.code} of captures")
    if refusal.code in CUT:
        reason = "it ends within a packet: what wrote it was stopped in the middle"
    lines = [f"The stream: {reason} (code {refusal.code}).", f"{refusal.place} packets came before."]
    if refusal.code in CUT:
        lines += ["If the stream may end there, --truncated answers up to its last whole packet."]
    if refusal.code == 1 and not refusal.place:
        lines += ["What writes into the pipe must write pcap or pcapng: tcpdump -U -w -"]
    if refusal.code in (3, 23):
        lines += [mending(3, 0, Files(), None)[0], "", "    tcpdump -i any -y LINUX_SLL -U -w -"]
    return lines


def _place_lines(
    refusal: Refusal, path: str, setup: Setup | None, what: str, reading: Reading | None
) -> list[str]:
    if refusal.code in IN_CSV and not setup:
        raise Complaint("the refusal is of a CSV file: give its setup too, with --setup FILE")
    reading = reading or Reading()
    reading.long, reading.bounded = refusal.code == 29, refusal.code in (6, 26)
    fault = find_fault(path, setup, refusal.code == 1, reading)
    if fault is None:
        raise Complaint(f"{path} is not the capture that was refused: nothing is wrong with it")
    if (fault.code, fault.record) != (refusal.code, refusal.place):
        found = f"its first fault is at record {fault.record}, code {fault.code}"
        raise Complaint(f"{path} is not the capture that was refused: {found}")
    in_wireshark = "" if refusal.code in IN_CSV else f" (number {fault.record + 1} in Wireshark)"
    return [
        f"Where: {what} {fault.record}{in_wireshark}, at byte {fault.at} of the file.",
        f"Expected: {fault.expected}. Found: {fault.found}.",
    ]
