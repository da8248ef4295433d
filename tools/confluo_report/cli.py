"""The command line of confluo-report."""

from __future__ import annotations

import argparse
import contextlib
import os
import pathlib
import sys
from typing import Callable, Mapping, Sequence

from . import ask as asking
from .addresses import Ranked
from .alerting import Commands
from .ask_exports import answers_csv, answers_json
from .captures import CaptureFault
from .check import check
from .commands import split
from .details import Details, details_of
from .errors import Complaint
from .explain import Case, explain, read_bytes
from .explain_capture import REASONS
from .flows import MOST_MARKED
from .incoming import Incoming
from .exports import csv_text, json_text
from .matching import must_match
from .merge import Merged, Named, is_merged, merge, merged_lines, parse_merged, split_reports
from .metrics import labels_of, metrics_text, write_at_once
from .outputs import JsonLines, Output, Several, WordLines
from .over import Ending, Way, ended_by_signals, over, say_left_out
from .over_find import find
from .over_setup import plan_of
from .over_shown import FORMS
from .packets import copy_packets
from .places import NO_ROOM
from .plot import drawing_of, plot
from .questions import write_setup
from .report_addresses import addresses_of, flows_of
from .reports import Report, Snapshot, is_told, parse, parse_report, refusal_of
from .setups import Setup, SetupFault, parse_setup
from .run import HELP, run
from .show import Viewer, asks_of, merged_shown, report_lines, snapshot_lines
from .states import Again, Forgotten, Silence
from .stream import OWN_TROUBLE, STATUSES, stream
from .tables import style_for
from .tcpdump import Notes
from .textfile import Textfile, unread
from .unparsed import notice, notice_without
from .version import version
from .watchdog import watchdog_of

DESCRIPTION = "Shows, explains and exports what confluo prints, and asks it questions without a setup."
EPILOG = """\
examples:
  confluo-report run --setup q.setup capture.pcap
  confluo-report ask capture.pcap 'top src by bytes' 'list flags==4 or flags==20'
  confluo run --setup q.setup capture.pcap | confluo-report show --setup q.setup --capture capture.pcap
  confluo run --setup q.setup capture.pcap | confluo-report explain --setup q.setup --capture capture.pcap
  tcpdump -U -w - | confluo watch --setup q.setup /dev/stdin | confluo-report stream --setup q.setup
"""
Words = argparse.Namespace
OTHERS = asking.OTHERS


def _bytes_of(path: str) -> bytes:
    return sys.stdin.buffer.read() if path == "-" else read_bytes(path)


def _text_of(path: str) -> str:
    return _ascii(_bytes_of(path), path)


def _ascii(data: bytes, path: str) -> str:
    try:
        return data.decode("ascii")
    except UnicodeDecodeError as error:
        raise Complaint(f"{_shown(path)}: this is not a report: byte {error.start} is not ASCII") from error


def _shown(path: str) -> str:
    return "standard input" if path == "-" else path


def _setup_of(path: str | None) -> Setup | None:
    if path is None:
        return None
    try:
        return parse_setup(read_bytes(path))
    except SetupFault as fault:
        raise Complaint(
            f"{path}: line {fault.line} is faulty, code {fault.fault.code}: {fault.fault.why}\n"
            f"`confluo-report check {path}` shows the place"
        ) from fault


def _read(words: Words) -> tuple[Report | Snapshot | Merged, Setup | None]:
    """The report and the setup, which must be its own."""
    setup, source = _setup_of(words.setup), _shown(words.report)
    data = _bytes_of(words.report)
    if is_merged(data.decode("utf-8", "surrogateescape")):
        return parse_merged(data.decode("utf-8", "surrogateescape"), source, setup), setup
    read = parse(_ascii(data, words.report), source)
    if setup:
        must_match(read, setup, _shown(words.report))
    return read, setup


def _print(lines: Sequence[str]) -> None:
    print("\n".join(lines))


def _show(words: Words) -> int:
    read, setup = _read(words)
    style = style_for(sys.stdout)
    details = Details()
    addresses = _addresses(words, read, setup)
    if words.capture and isinstance(read, Report):
        cut = read.truncated
        details = details_of(asks_of(read), read.records, setup, words.capture, words.most, cut)
    flows = _flows(words, read, setup, words.most)
    viewer = Viewer(setup, details.lines, style, words.most, addresses, flows)
    if isinstance(read, Merged):
        lines = merged_shown(viewer, read)
        lines[1:1] = notice_without(setup)
    elif isinstance(read, Snapshot):
        lines = snapshot_lines(viewer, read)
        lines[1:1] = notice_without(setup)
    else:
        lines = report_lines(viewer, read)
        lines[1:1] = notice(read, setup, details.all)
    if setup is None:
        lines += ["", style.faint("With --setup FILE times, addresses and what was asked are shown.")]
    _print(lines)
    return 0


def _explain(words: Words) -> int:
    typed = split(words.command) if words.command is not None else None
    case = Case(words.setup, words.capture, typed)
    text = "" if words.report is None and words.status in (4, 5, 8) else _text_of(words.report or "-")
    refusal = refusal_of(text)
    case.is_watch = is_told(text)
    if refusal is None and text and words.status != 5 and not (case.is_watch and words.status in (4, 8)):
        parse(text, _shown(words.report or "-"))
        raise Complaint(
            f"{_shown(words.report or '-')} is a report, not a refusal: `confluo-report show` shows it"
        )
    _print(explain(refusal, words.status, case))
    return 0


def _addresses(words: Words, read: Report | Snapshot | Merged, setup: Setup | None) -> Mapping[str, Ranked]:
    """With the capture, the whole addresses behind networks of IPv6."""
    if not words.capture:
        return {}
    if not isinstance(read, Report):
        raise Complaint(
            "--capture is for a report of `run`: a snapshot or merged report is shown without captures"
        )
    return addresses_of(read, setup, words.capture)


def _flows(
    words: Words, read: Report | Snapshot | Merged, setup: Setup | None, most: int
) -> Mapping[int, str]:
    """With the capture, conversations by their endpoints, of groups the first `most`."""
    if not words.capture or not isinstance(read, Report):
        return {}
    return flows_of(read, setup, words.capture, most)


def _json(words: Words) -> int:
    read, setup = _read(words)
    addresses = _addresses(words, read, setup)
    sys.stdout.write(json_text(read, setup, words.indent, addresses, _flows(words, read, setup, MOST_MARKED)))
    return 0


def _csv(words: Words) -> int:
    read, setup = _read(words)
    addresses, flows = _addresses(words, read, setup), _flows(words, read, setup, MOST_MARKED)
    sys.stdout.write(csv_text(read, None if words.raw else setup, addresses, flows))
    return 0


def _prometheus(words: Words) -> int:
    read, setup = _read(words)
    text = metrics_text(read, labels_of(words.label), setup, words.lists)
    if words.textfile:
        write_at_once(words.textfile, text)
    else:
        sys.stdout.write(text)
    return 0


def _named(words: Words) -> list[Named]:
    named = [it for path in words.reports for it in split_reports(_text_of(path), _shown(path), words.tagged)]
    shown = [it.name for it in named]
    if len(set(shown)) != len(shown):
        raise Complaint(f"a report is given twice: {', '.join(shown)}")
    return named


def _merge(words: Words) -> int:
    _print(merged_lines(merge(_named(words), _setup_of(words.setup))))
    return 0


def _plot(words: Words) -> int:
    if words.width < 1:
        raise Complaint("a width is at least 1")
    setup, named = _setup_of(words.setup), _named(words)
    if len(named) > 1 or setup:
        merge(named, setup)
    if words.capture and len(named) > 1:
        raise Complaint("--capture is for one report")
    flows = flows_of(named[0].report, setup, words.capture, words.most) if words.capture else {}
    plot(drawing_of(named, setup, words.width, words.dotted, words.most, flows), pathlib.Path(words.out))
    return 0


def _packets(words: Words) -> int:
    if len(words.files) % 2:
        raise Complaint("reports and captures go in pairs: REPORT CAPTURE [REPORT CAPTURE ..]")
    pairs = list(zip(words.files[::2], words.files[1::2]))
    if len(pairs) > 1 and not words.into:
        raise Complaint("of several captures the packets go into a folder: --into FOLDER")
    if not words.into and words.out == "-" and sys.stdout.isatty():
        raise Complaint("a capture is not written to a terminal: give --out FILE, or a pipe to `tshark -r -`")
    for report, capture in pairs:
        read = parse_report(_text_of(report), _shown(report))
        out = str(pathlib.Path(words.into) / pathlib.Path(capture).name) if words.into else words.out
        copied = copy_packets(read, words.ask, capture, out, _shown(report))
        if out != "-":
            print(f"{out}: {copied.packets} of {copied.records} packets")
    return 0


def _ask(words: Words) -> int:
    job = asking.job_of(words.words, words.schema, not words.setup_only, words.truncated, words.as_one)
    if job.faults and (words.setup_only or words.report):
        raise Complaint(OTHERS.join(job.faults))
    if words.setup_only:
        text = write_setup(job.queries, job.schema)
        asking.valid(text)
        sys.stdout.write(text)
        return 0
    if words.out and (words.report or words.json or words.csv):
        raise Complaint("--out is only for tables: `confluo-report packets` copies the packets of a report")
    if words.report:
        _print(asking.report_lines(job))
        return 0
    if words.json or words.csv:
        text = (answers_json if words.json else answers_csv)(job, asking.answered_for_programs(job))
        sys.stdout.write(text)
    else:
        _print(asking.answers(job, style_for(sys.stdout), words.most, words.out))
    if job.faults:
        raise Complaint(OTHERS.join(job.faults))
    return 0


def _over(words: Words) -> int:
    setup = _setup_of(words.setup)
    assert setup
    if words.jobs == 0:
        raise Complaint("--jobs is at least 1")
    plan = plan_of(read_bytes(words.setup), words.format == "show")
    found = find(words.captures, setup.is_packet)
    if found.others:
        print(f"confluo-report: {found.others} other files of the folders are not captures", file=sys.stderr)
    way = Way(words.jobs, words.scheduler, words.keep_going, words.truncated, words.split)
    try:
        with ended_by_signals():
            answered = over(plan, found.captures, way)
    except Ending as ending:
        _trouble("interrupted")
        return ending.status
    sys.stdout.write(FORMS[words.format](answered, setup, words.most))
    if words.format != "show":
        say_left_out(answered)
    return 1 if answered.left_out else 0


def _check(words: Words) -> int:
    good = True
    for path in words.setups:
        valid, lines = check(_shown(path), _bytes_of(path), words.capture)
        good = good and valid
        _print(lines)
    return 0 if good else 1


def _stream(words: Words) -> int:
    try:
        setup = _setup_of(words.setup)
    except Complaint as complaint:
        # As `watch` ends with it: a service must not try it again.
        _trouble(str(complaint))
        return STATUSES["setup" if os.path.exists(words.setup) else "file"]
    if words.exec_limit < 1 or words.exec_seconds < 1:
        raise Complaint("--exec-limit and --exec-seconds are at least 1")
    notes = Notes(words.tcpdump) if words.tcpdump else None
    incoming = Incoming(_shown(words.report), setup, words.beats)
    with contextlib.ExitStack() as stack:
        is_named = words.report != "-"
        file = stack.enter_context(open(words.report, "rb", buffering=0)) if is_named else sys.stdin
        return stream(file.fileno(), incoming, _outputs(words, setup, notes, file.fileno()), notes)


def _outputs(words: Words, setup: Setup | None, notes: Notes | None, fd: int) -> Output:
    """Where the stream goes that is read there. Metrics count all alerts; the other outputs have those that are not held back."""
    commands = Commands(words.exec, words.exec_limit, words.exec_seconds, setup) if words.exec else None
    outputs: list[Output] = [commands] if commands else []
    if words.json:
        outputs.append(JsonLines(sys.stdout, setup, words.setup, words.beats))
    elif not words.quiet:
        viewer = Viewer(setup, {}, style_for(sys.stdout), words.most)
        outputs.append(WordLines(sys.stdout, viewer, words.setup, words.beats))
    if words.again:
        outputs = [Again(outputs, words.again)]
    if words.prometheus:
        counts = notes.counts if notes else None
        file = Textfile(words.prometheus, labels_of(words.label), setup, commands, counts)
        file.seen.is_silent = False if words.silence else None
        file.unread = lambda: unread(fd)
        outputs.append(file)
    outputs.append(Forgotten())
    watchdog = watchdog_of()
    if watchdog:
        outputs.append(watchdog)
    return Silence(outputs, words.silence) if words.silence else Several(outputs)


def _add_run(commands: argparse._SubParsersAction) -> Callable[[Words], int]:
    # Its words are confluo's own, so `main` hands them on before they are parsed.
    commands.add_parser("run", help="confluo run, with a refusal in words", add_help=False)
    return lambda words: run([])


def _run(words: Sequence[str]) -> int:
    """`run` with its words, of which --help and --version are the tool's own."""
    if words[:1] in (["--help"], ["-h"]):
        sys.stdout.write(HELP)
        return 0
    if words[:1] == ["--version"]:
        print(f"confluo-report {version()}")
        return 0
    return run(words)


def _add_report(parser: argparse.ArgumentParser, setup: str) -> None:
    parser.add_argument("--setup", metavar="FILE", help=setup)
    parser.add_argument(
        "report", metavar="REPORT", nargs="?", default="-", help="a file; default: standard input"
    )


WHOLE = "the capture: then networks of IPv6 that are ranked have their whole addresses, and conversations their endpoints"


def _add_show(commands: argparse._SubParsersAction) -> Callable[[Words], int]:
    parser = commands.add_parser(
        "show", help="a report as tables", description="Shows a report or snapshot as tables."
    )
    _add_report(parser, "the setup: then times, addresses, units and conditions are shown")
    parser.add_argument(
        "--capture",
        metavar="FILE",
        help="the capture: then found packets are shown, one a line, whole addresses of IPv6, and conversations",
    )
    parser.add_argument(
        "--most", type=_count, default=20, metavar="N", help="records shown of each answer; 0: all (20)"
    )
    return _show


def _add_explain(commands: argparse._SubParsersAction) -> Callable[[Words], int]:
    parser = commands.add_parser(
        "explain",
        help="a refusal in words",
        description="Says in words why confluo refused a run, and what to do.",
    )
    parser.add_argument("--setup", metavar="FILE", help="the setup of the run")
    parser.add_argument("--capture", metavar="FILE", action="append", default=[], help="a capture of the run")
    parser.add_argument(
        "--command", metavar="WORDS", help="the command as typed: 'confluo run --setup q.setup c.pcap'"
    )
    parser.add_argument("--status", type=_count, metavar="N", help="the exit status; needed for 4, 5 and 8")
    parser.add_argument(
        "report", metavar="REPORT", nargs="?", help="what confluo printed; default: standard input"
    )
    return _explain


def _add_json(commands: argparse._SubParsersAction) -> Callable[[Words], int]:
    parser = commands.add_parser(
        "json", help="a report as JSON", description="Writes all of a report as JSON."
    )
    _add_report(parser, "the setup: then buckets are shown with their times, and keys with their texts")
    parser.add_argument("--capture", metavar="FILE", help=WHOLE)
    parser.add_argument("--indent", type=_count, metavar="N", help="spaces of indentation; default: one line")
    return _json


def _add_csv(commands: argparse._SubParsersAction) -> Callable[[Words], int]:
    parser = commands.add_parser(
        "csv", help="a report as CSV", description="Writes all of a report as one CSV table."
    )
    _add_report(parser, "the setup: then times and addresses are written")
    parser.add_argument("--capture", metavar="FILE", help=WHOLE)
    parser.add_argument(
        "--raw", action="store_true", help="with a setup too, the numbers of buckets and keys"
    )
    return _csv


def _add_prometheus(commands: argparse._SubParsersAction) -> Callable[[Words], int]:
    parser = commands.add_parser(
        "prometheus", help="a report as metrics", description="Writes a report in Prometheus' text format."
    )
    _add_report(parser, "the setup: then keys are addresses, and triggers without alerts are shown as 0")
    parser.add_argument(
        "--label", metavar="NAME=VALUE", action="append", default=[], help="a label of all metrics"
    )
    parser.add_argument(
        "--lists", action="store_true", help="also record numbers, live answers and what each writer loaded"
    )
    parser.add_argument("--brief", action="store_true", help="the default")
    parser.add_argument(
        "--textfile", metavar="FILE", help="write this file at once or not at all, for node_exporter"
    )
    return _prometheus


def _add_stream(commands: argparse._SubParsersAction) -> Callable[[Words], int]:
    parser = commands.add_parser(
        "stream",
        help="alerts as they come",
        description="Hands on what `confluo watch` writes, line by line as it comes.",
    )
    _add_report(parser, "the setup: then times, addresses, units and conditions are shown")
    parser.add_argument("--json", action="store_true", help="JSON lines in place of words")
    parser.add_argument("--quiet", action="store_true", help="nothing on standard output")
    parser.add_argument(
        "--most", type=_count, default=20, metavar="N", help="records shown of each answer; 0: all (20)"
    )
    parser.add_argument(
        "--prometheus",
        metavar="FILE",
        help="keep metrics in this file, which is replaced in one step, for node_exporter",
    )
    parser.add_argument(
        "--label", metavar="NAME=VALUE", action="append", default=[], help="a label of all metrics"
    )
    parser.add_argument(
        "--exec",
        metavar="COMMAND",
        help="run this for each alert, which it has as JSON and in its environment",
    )
    parser.add_argument(
        "--exec-limit", type=_count, default=4, metavar="N", help="commands at a time; others wait (4)"
    )
    parser.add_argument(
        "--exec-seconds",
        type=_count,
        default=30,
        metavar="S",
        help="seconds of a command, then it is killed (30)",
    )
    parser.add_argument(
        "--again",
        type=_count,
        default=0,
        metavar="S",
        help="after an alert hold back those of the same trigger for S seconds, and say how many; 0: none (0)",
    )
    parser.add_argument(
        "--silence",
        type=_count,
        default=0,
        metavar="S",
        help="say once that no packet came for S seconds, and once that they come again; needs `watch --beat`; 0: never (0)",
    )
    parser.add_argument("--beats", action="store_true", help="also show the beats of `watch --beat`")
    parser.add_argument(
        "--tcpdump",
        metavar="FILE",
        help="a pipe with tcpdump's standard error: its counts are metrics too, the rest is handed on",
    )
    parser.set_defaults(trouble=OWN_TROUBLE)
    return _stream


def _add_several(parser: argparse.ArgumentParser) -> None:
    parser.add_argument("--setup", metavar="FILE", help="the setup of the reports; needed if there are tops")
    parser.add_argument(
        "--tagged", action="store_true", help="lines have their tag before them, as of parallel --tag"
    )
    parser.add_argument(
        "reports",
        metavar="REPORT",
        nargs="+",
        help="files, each with one report or several; - is standard input",
    )


def _add_merge(commands: argparse._SubParsersAction) -> Callable[[Words], int]:
    parser = commands.add_parser(
        "merge",
        help="reports of one setup together",
        description="Puts the final parts of reports of one setup together; show, json, csv and prometheus read the result.",
    )
    _add_several(parser)
    return _merge


def _add_plot(commands: argparse._SubParsersAction) -> Callable[[Words], int]:
    parser = commands.add_parser(
        "plot", help="a picture of reports", description="Draws reports as PNG or SVG."
    )
    parser.add_argument("--out", metavar="FILE", required=True, help="the picture, FILE.png or FILE.svg")
    parser.add_argument(
        "--width", type=_count, default=10**9, metavar="NS", help="the setup's width, without --setup"
    )
    parser.add_argument("--dotted", action="store_true", help="keys are addresses, without --setup")
    parser.add_argument(
        "--capture", metavar="FILE", help="the capture of the one report: conversations have their endpoints"
    )
    parser.add_argument(
        "--most", type=_count, default=40, metavar="N", help="keys drawn of each top; 0: all (40)"
    )
    _add_several(parser)
    return _plot


def _add_packets(commands: argparse._SubParsersAction) -> Callable[[Words], int]:
    parser = commands.add_parser(
        "packets", help="found packets as a capture", description="Copies the packets that a question found."
    )
    parser.add_argument("--ask", metavar="NAME", required=True, help="the question, a list, find or between")
    parser.add_argument(
        "--out", metavar="FILE", default="-", help="the new capture; default: standard output"
    )
    parser.add_argument(
        "--into", metavar="FOLDER", help="for several captures: new ones of the same names there"
    )
    parser.add_argument(
        "files", metavar="REPORT CAPTURE", nargs="+", help="a report and its capture, or several such pairs"
    )
    return _packets


def _add_ask(commands: argparse._SubParsersAction) -> Callable[[Words], int]:
    from .questions import __doc__ as grammar

    parser = commands.add_parser(
        "ask",
        help="questions without a setup",
        description="Writes the setup of the questions, runs confluo and shows the answers.",
        epilog=(grammar or "").split("\n", 2)[2],
        formatter_class=argparse.RawDescriptionHelpFormatter,
    )
    forms = parser.add_mutually_exclusive_group()
    forms.add_argument("--setup-only", action="store_true", help="print the setup and run nothing")
    forms.add_argument("--report", action="store_true", help="print the report's lines instead of tables")
    forms.add_argument("--json", action="store_true", help="print one JSON text instead of tables")
    forms.add_argument("--csv", action="store_true", help="print one CSV table instead of tables")
    parser.add_argument(
        "--most", type=_count, default=20, metavar="N", help="records shown of each answer; 0: all (20)"
    )
    parser.add_argument(
        "--schema",
        default="packet6",
        metavar="S",
        help="packet without IPv6, or of CSV files: 'records ts:u64,src:u32,len:u16' (packet6)",
    )
    parser.add_argument("--truncated", action="store_true", help="also about captures that are cut off")
    parser.add_argument(
        "--as-one",
        action="store_true",
        help="ask the captures end to end as one",
    )
    parser.add_argument(
        "--out", metavar="FILE", help="a new capture for the packets of the one list, find or between"
    )
    parser.add_argument(
        "words",
        metavar="CAPTURE|QUESTION",
        nargs="+",
        help="captures, also packed by gzip or zstd; then questions",
    )
    return _ask


def _add_check(commands: argparse._SubParsersAction) -> Callable[[Words], int]:
    parser = commands.add_parser(
        "check",
        help="whether a setup is valid",
        description="Says whether setups are valid; status 1 if one is not.",
    )
    parser.add_argument("--capture", metavar="FILE", help="say how many of its packets are not parsed")
    parser.add_argument("setups", metavar="SETUP", nargs="+", help="files; - is standard input")
    return _check


def _add_over(commands: argparse._SubParsersAction) -> Callable[[Words], int]:
    parser = commands.add_parser(
        "over",
        help="a setup's answers about many captures as one",
        description="Asks a setup's questions about many captures by many processes or machines, and puts the answers together, exactly.",
    )
    parser.add_argument("--setup", metavar="FILE", required=True, help="the questions")
    ways = parser.add_mutually_exclusive_group()
    ways.add_argument(
        "--jobs", type=_count, metavar="N", help="processes at once; default: one for each processor"
    )
    ways.add_argument(
        "--scheduler", metavar="ADDRESS", help="run on the workers of this Dask scheduler, as tcp://host:8786"
    )
    parser.add_argument(
        "--format", choices=FORMS, default="show", help="tables, or what to write for programs (show)"
    )
    parser.add_argument(
        "--keep-going", action="store_true", help="leave captures out that cannot be answered; status 1"
    )
    parser.add_argument("--truncated", action="store_true", help="also about captures that are cut off")
    parser.add_argument(
        "--split", action="store_true", help="cut long captures, so that several processes read one"
    )
    parser.add_argument(
        "--most", type=_count, default=20, metavar="N", help="records shown of each answer; 0: all (20)"
    )
    parser.add_argument(
        "captures", metavar="CAPTURE", nargs="+", help="files, folders with all below them, and patterns"
    )
    return _over


ADDERS = (
    _add_run,
    _add_show,
    _add_explain,
    _add_json,
    _add_csv,
    _add_prometheus,
    _add_stream,
    _add_merge,
    _add_plot,
    _add_packets,
    _add_ask,
    _add_over,
    _add_check,
)


# Commands that take several files or questions.
SEVERAL = ("ask", "check", "merge", "over", "packets", "plot")


def _count(text: str) -> int:
    if not (text.isascii() and text.isdigit()):
        raise argparse.ArgumentTypeError(f"`{text}` is not a whole number from 0 on")
    return int(text)


def make_parser() -> argparse.ArgumentParser:
    """The parser of all commands."""
    parser = argparse.ArgumentParser(
        prog="confluo-report",
        description=DESCRIPTION,
        epilog=EPILOG,
        formatter_class=argparse.RawDescriptionHelpFormatter,
    )
    parser.add_argument("--version", action="version", version=f"confluo-report {version()}")
    commands = parser.add_subparsers(metavar="COMMAND", required=True)
    for add in ADDERS:
        run = add(commands)
        list(commands.choices.values())[-1].set_defaults(run=run)
    return parser


def _parsed(typed: Sequence[str]) -> Words:
    """The words, of which options may stand between files and questions."""
    parser = make_parser()
    commands = next(it for it in parser._actions if isinstance(it, argparse._SubParsersAction)).choices
    if typed and typed[0] in SEVERAL:
        return commands[typed[0]].parse_intermixed_args(typed[1:])  # type: ignore[no-any-return]
    return parser.parse_args(typed)


def _take_any_name() -> None:
    """File names that are not UTF-8 are printed byte for byte."""
    for it in (sys.stdout, sys.stderr):
        if hasattr(it, "reconfigure"):
            it.reconfigure(errors="surrogateescape")


def main(arguments: Sequence[str] | None = None) -> int:
    """Runs the command of the words, and answers the exit status."""
    typed = list(sys.argv[1:] if arguments is None else arguments)
    _take_any_name()
    trouble = 2
    try:
        if typed[:1] == ["run"]:
            status = _run(typed[1:])
        else:
            words = _parsed(typed)
            trouble = getattr(words, "trouble", 2)
            status = words.run(words)
        sys.stdout.flush()
        return status
    except Complaint as complaint:
        _trouble(str(complaint))
    except CaptureFault as fault:
        _trouble(f"the capture is faulty: code {fault.code} at record {fault.record}: {REASONS[fault.code]}")
    except BrokenPipeError:
        _drop_output()
        return 0
    except OSError as error:
        no_room = error.errno in NO_ROOM
        _trouble(f"{error.filename or ('standard output' if no_room else 'input')}: {error.strerror}")
        if no_room:
            _drop_output()
    return trouble


def _trouble(text: str) -> None:
    try:
        sys.stdout.flush()
    except OSError:
        _drop_output()
    print(f"confluo-report: {text}", file=sys.stderr)


def _drop_output() -> None:
    """What is left to write goes nowhere, so that no second message comes at the end."""
    os.dup2(os.open(os.devnull, os.O_WRONLY), sys.stdout.fileno())
