"""Answers questions of the command line: writes the setup, runs confluo over the captures, shows the answers."""

from __future__ import annotations

import contextlib
import pathlib
import re
import shutil
import sys
import tempfile
from dataclasses import dataclass, field, replace
from typing import Iterable, Iterator, Mapping, Sequence

from . import program
from .addresses import Again, Answer, Asker, Ranked, both_families, whole_addresses
from .details import details_of, details_of_all, dumped_values, split_rows
from .doubled import Asker as PairAsker
from .doubled import Doubled, Firsts, Listed, doubled, doubled_lines
from .errors import Complaint
from .explain import Case, explain
from .expressions import Attribute
from .flows import NAME as FLOW
from .flows import Conversation, Run, conversations
from .merge import Joined, Merged, Named, joined_top, merge, merged_lines
from .nodes import FIRST_NODES, MOST_CAPACITY, MOST_RECORDS, Sizes, long_options, with_more_nodes
from .over_part import TOO_FEW_NODES
from .packets import copy_packets
from .paired import Paired, count_of, paired, paired_lines, without_type
from .questions import (
    MOST_TOP,
    PAIRS,
    SPAN,
    UNPARSED,
    Query,
    answers_of,
    by_width,
    is_question,
    listed_of,
    name_of,
    parse_question,
    second_of,
    whole_of,
    write_setup,
)
from .reports import (
    Body,
    Fired,
    Found,
    Group,
    Groups,
    Pair,
    Quad,
    Report,
    Top,
    lines_of,
    parse_report,
    refusal_of,
)
from .setups import PARTS, Setup, SetupFault, parse_setup
from .show import Viewer, bucket_lines, count_text, body_lines, silence_line, top_lines
from .tables import Style
from .unparsed import Unparsed, unparsed_line
from .values import grouped

# What several captures are called that are asked as one.
ALL = "all captures"
FINDING = ("list", "find", "between")
OTHERS = "\nconfluo-report: "
# A folder for setups, and the captures.
Files = tuple[pathlib.Path, list[str]]


@dataclass(frozen=True)
class Job:
    """Captures and questions, as typed, and why others of the questions cannot be asked."""

    captures: list[str]
    queries: list[Query]
    schema: str = "packet6"
    may_be_cut: bool = False
    faults: list[str] = field(default_factory=list)
    # The captures, end to end, are asked as one.
    as_one: bool = False

    @property
    def is_several(self) -> bool:
        """Whether there are several reports."""
        return len(self.captures) > 1 and not self.as_one

    def setup_text(self) -> str:
        """The setup of the questions as they are asked."""
        return write_setup(self.queries, self.schema, self.is_several)


def job_of(
    words: Sequence[str],
    schema: str,
    needs_capture: bool,
    may_be_cut: bool = False,
    as_one: bool = False,
) -> Job:
    """Sorts the words into captures and questions; a Complaint where none of these can be asked."""
    texts = [it for it in words if is_question(it)]
    captures = [it for it in words if not is_question(it)]
    for it in captures:
        if it != "-" and not pathlib.Path(it).exists():
            raise Complaint(
                f"`{it}` is neither a file nor a question; questions begin with top, list, find, count, .."
            )
    if not texts:
        raise Complaint("no question is given, like 'top src by bytes' or 'list dport==53'")
    if needs_capture and not captures:
        raise Complaint("no capture is given")
    if captures.count("-") > 1:
        raise Complaint("standard input is given twice")
    if as_one and schema.startswith("records"):
        raise Complaint("--as-one is for captures of packets: CSV files are asked one by one")
    job = Job(captures, [], schema, may_be_cut, as_one=as_one)
    attributes = _attributes_of(schema)
    for it in texts:
        try:
            query = parse_question(it, attributes)
            if query.is_peak and re.search(rf"[ ,]{query.key}:", schema):
                # An attribute of CSV files that is called like a unit.
                query = replace(query, width=0)
            valid(write_setup([query], schema))
            job.queries.append(query)
        except Complaint as complaint:
            job.faults.append(str(complaint))
    if not job.queries:
        raise Complaint(OTHERS.join(job.faults))
    return job


def _attributes_of(schema: str) -> tuple[Attribute, ...]:
    try:
        return parse_setup(f"schema {schema}\n".encode("utf-8", "replace")).schema
    except SetupFault as fault:
        raise Complaint(f"--schema {schema}: {fault.fault.why}") from fault


def valid(text: str) -> Setup:
    """The setup of the text; a Complaint says which question is at fault, and where."""
    try:
        return parse_setup(text.encode("utf-8", "replace"))
    except SetupFault as fault:
        raise Complaint(_fault_text(text, fault)) from fault


def _fault_text(text: str, fault: SetupFault) -> str:
    lines = text.splitlines()
    above = [it for it in lines[: max(fault.line - 1, 0)] if it.startswith("# ")]
    question = above[-1][2:] if above else ""
    why = f"{fault.fault.why}\n    {fault.text}\n    {' ' * fault.fault.place}^"
    return f"`{question}` cannot be asked: {why}"


def _raised(sizes: Sizes, kind: str) -> Sizes | None:
    """Sizes with more room of the kind that was too small, if there are any."""
    if kind == "full" and sizes.segments * sizes.capacity < MOST_RECORDS:
        return Sizes(sizes.capacity, MOST_RECORDS // sizes.capacity, sizes.nodes)
    return with_more_nodes(sizes) if kind == "nodes" else None


def run_raising(setup_path: str, capture: str) -> str:
    """The report on a CSV file; segments and nodes are raised as long as a refusal asks for it."""
    sizes: Sizes | None = Sizes(MOST_CAPACITY, 1, FIRST_NODES)
    ran = program.Ran(0, "")
    while sizes:
        ran = program.run_over(["run", "--setup", setup_path, *sizes.options().split()], capture)
        if ran.status == 0:
            return ran.text
        refusal = refusal_of(ran.text)
        sizes = _raised(sizes, refusal.kind) if refusal else None
    raise Complaint(_refused(ran, setup_path, [capture]))


def run_long(setup_path: str, captures: Sequence[str], may_be_cut: bool) -> str:
    """The report on the captures of packets end to end."""
    ran, words = program.Ran(0, ""), list[str]()
    for options in long_options(may_be_cut):
        words = ["run", *options, "--setup", setup_path]
        ran = program.run_over_all(words, captures)
        if ran.status == 0:
            return ran.text
        if ran.status != TOO_FEW_NODES:
            break
    refusal = refusal_of(ran.text)
    if refusal and refusal.kind == "words":
        raise Complaint("this needs a confluo that knows `run --long`, and this one does not")
    raise Complaint(_refused(ran, setup_path, captures, [*words, *captures]))


def _reported(job: Job, setup_path: str, name: str, paths: Sequence[str]) -> Named:
    """The report of that name on the captures with these paths."""
    try:
        is_packet = not job.schema.startswith("records")
        text = run_long(setup_path, paths, job.may_be_cut) if is_packet else run_raising(setup_path, *paths)
        return Named(name, parse_report(text, name))
    except Complaint as complaint:
        copies = [it for it in paths if it not in job.captures]
        if not copies:
            raise
        # (standard input, which was copied)
        text = str(complaint).replace(copies[0], "standard input", 1).replace(copies[0], "CAPTURE")
        raise Complaint(text) from complaint


def _refused(
    ran: program.Ran, setup_path: str, captures: Sequence[str], words: list[str] | None = None
) -> str:
    refusal = refusal_of(ran.text)
    if refusal is None and ran.status not in (4, 5, 8):
        return f"{', '.join(captures)}: confluo ended with status {ran.status} and no refusal"
    case = Case(setup_path, list(captures), words, is_ask=True)
    return "\n".join(explain(refusal, None if refusal else ran.status, case))


@contextlib.contextmanager
def files_of(job: Job) -> Iterator[Files]:
    """A folder for setups, and the captures, of which standard input is copied into one."""
    with tempfile.TemporaryDirectory(prefix="confluo-report-") as name:
        folder = pathlib.Path(name)
        copy = folder / "stdin"
        if "-" in job.captures:
            with copy.open("wb") as file:
                shutil.copyfileobj(sys.stdin.buffer, file)
        yield folder, [str(copy) if it == "-" else it for it in job.captures]


def report_lines(job: Job) -> list[str]:
    """The lines of the report, or of the reports of several captures together."""
    text = job.setup_text()
    setup = valid(text)
    with files_of(job) as (folder, captures):
        named = _reports(job, text, folder, captures)
    if not job.is_several:
        return list(lines_of(named[0].report))
    return merged_lines(merge(named, setup, _asked(job.queries)))


def _asked(queries: Sequence[Query]) -> dict[str, int]:
    """How many keys the questions ask for."""
    return {name_of(at): it.count for at, it in enumerate(queries) if it.is_ranked}


def _reports(job: Job, text: str, folder: pathlib.Path, captures: Sequence[str]) -> list[Named]:
    path = folder / "questions.setup"
    path.write_text(text, encoding="ascii")
    if job.as_one:
        return [_reported(job, str(path), ALL, captures)]
    return [_reported(job, str(path), name, [it]) for name, it in zip(job.captures, captures)]


@dataclass(frozen=True)
class Answered:
    """The answers of questions that one setup asks, and for each capture how they are shown."""

    merged: Merged
    queries: Sequence[Query]
    viewers: list[Viewer]
    named: list[Named]
    # The addresses for which the program was asked again, by the places of the questions that rank them.
    ranked: dict[int, Ranked] = field(default_factory=dict)
    # By the places of their questions, what is said of two kinds of packets.
    paired: dict[int, Paired] = field(default_factory=dict)
    # The same of those over two attributes.
    doubled: dict[int, Doubled] = field(default_factory=dict)

    def joined(self, name: str) -> Joined | None:
        return next((it for it in self.merged.asks if it.name == name), None)

    def span(self) -> list[int]:
        """The buckets with a packet, where they were asked."""
        joined = self.joined(SPAN)
        return sorted({it.key for body in fired_in(joined) for it in body.marks}) if joined else []

    def unparsed(self) -> Unparsed | None:
        """How many packets are not parsed, where it was asked."""
        bodies = [it.body for it in map(self.joined, UNPARSED) if it]
        counts = [it.count for it in bodies if isinstance(it, Quad)]
        return Unparsed(*counts, self.merged.records) if len(counts) == len(UNPARSED) else None


def fired_in(joined: Joined) -> list[Fired]:
    return [body for _, body in joined.parts if isinstance(body, Fired)]


def answers(job: Job, style: Style, most: int, out: str | None = None) -> list[str]:
    """The lines to print; the packets of the one question that finds some go into the new capture `out`."""
    found = [it for it in job.queries if it.verb in FINDING]
    if out is not None and (len(found) != 1 or len(job.captures) > 1 or out == "-"):
        raise Complaint("--out FILE takes the packets of one list, find or between in one capture")
    with files_of(job) as files:
        answered = _answered(job, files, style, most)
        copied = [
            _copied(it, found[0], files[1][0], out) for it in answered if out and found[0] in it.queries
        ]
    return _shown(job, answered) + copied


def answered_for_programs(job: Job) -> list[Answered]:
    """The answers without packets in words."""
    with files_of(job) as files:
        return _answered(job, files, Style(), None)


def _answered(job: Job, files: Files, style: Style, most: int | None) -> list[Answered]:
    return [_answer(job, it, files, style, most) for it in by_width(job.queries)]


def in_order(job: Job, answered: Sequence[Answered]) -> Iterator[tuple[Answered, Query, Joined]]:
    """The questions in their order, each with its answer."""
    for query in job.queries:
        for it in answered:
            if query in it.queries:
                yield it, query, it.merged.asks[it.queries.index(query)]


def _copied(answered: Answered, query: Query, capture: str, out: str) -> str:
    """Copies the packets that the question found, and says how many."""
    named = answered.named[0]
    name = name_of(answered.queries.index(query))
    copied = copy_packets(named.report, name, capture, out, named.name)
    return f"\n{out}: {copied.packets} of {copied.records} packets"


def _answer(job: Job, queries: list[Query], files: Files, style: Style, most: int | None) -> Answered:
    folder, captures = files
    text = write_setup(queries, job.schema, every=True, extras=True)
    try:
        setup = parse_setup(text.encode())
    except SetupFault:
        # With the tool's own questions there may be too many.
        text = write_setup(queries, job.schema, every=True)
        setup = valid(text)
    named = _reports(job, text, folder, captures)
    merged = merge(named, setup, _asked(queries))
    if named[0].report.cuts:
        cuts = tuple((job.captures[it.key - 1], it.value) for it in named[0].report.cuts)
        merged = replace(merged, truncated=cuts)
    has_found = most is not None and any(it.verb in FINDING for it in queries)
    viewers = [
        Viewer(
            setup, _details(job, it.report, setup, paths, most or 0) if has_found else {}, style, most or 0
        )
        for it, paths in zip(named, [captures] if job.as_one else [[it] for it in captures])
    ]
    answered = Answered(merged, queries, viewers, named)
    for at, it in enumerate(queries):
        ranked = _ranked_again(job, it, merged.asks[at], setup, files)
        if ranked:
            answered.ranked[at] = ranked
        if it.second:
            answered.doubled[at] = doubled(
                it, _firsts(job, answered, at, files), _pair_asker_of(job, it, files)
            )
        if it.is_paired:
            answered.paired[at] = _paired(job, it, (merged.asks[at], answered.joined(answers_of(at))), files)
    return _with_flows(job, answered, files)


def end_to_end(job: Job, files: Files) -> Run:
    """Runs a setup over all captures end to end."""
    folder, captures = files
    path = folder / "again.setup"

    def run(text: str) -> str:
        path.write_text(text, encoding="ascii")
        return run_long(str(path), captures, job.may_be_cut)

    return run


def _with_flows(job: Job, answered: Answered, files: Files) -> Answered:
    """With the endpoints of the conversations that are ranked."""
    numbers: set[int] = set()
    for query, joined in zip(answered.queries, answered.merged.asks):
        if query.is_ranked and query.key == FLOW and isinstance(joined.body, Top):
            numbers |= {it.key for it in joined.body.keys}
    if not numbers or job.schema != "packet6":
        return answered
    found = conversations(files[1], numbers, job.may_be_cut, end_to_end(job, files))
    flows = {number: it.text for number, it in found.items()}
    return replace(answered, viewers=[replace(it, flows=flows) for it in answered.viewers])


def _paired(job: Job, query: Query, joined: Sequence[Joined | None], files: Files) -> Paired:
    """How many packets of two kinds each conversation has, and of those that are shown the endpoints."""

    def ask(expressions: Sequence[str]) -> list[list[Top]]:
        lines = [f"schema {job.schema}"]
        for at, it in enumerate(expressions):
            lines += [f"tally t{at} {FLOW} len {it}", f"ask q{at} top t{at} count {MOST_TOP}"]
        text = "\n".join(lines) + "\n"
        valid(text)
        named = _reports(job, text, *files)
        return [tops_in(it.report.asks[at].body for it in named) for at in range(len(expressions))]

    first, second = (tops_in(body for _, body in it.parts) if it else [] for it in joined)
    run = end_to_end(job, files)
    less = without_type(files[1], job.may_be_cut, run) if query.verb == "pings" else {}
    answer = paired(query, first, second, ask, less)
    shown = {it.number for it in answer.rows[: query.count]}
    found: dict[int, Conversation] = {}
    for kind in PAIRS[query.verb]:
        found |= conversations(files[1], shown - set(found), job.may_be_cut, run, kind)
    return replace(answer, conversations=found)


def tops_in(bodies: Iterable[Body]) -> list[Top]:
    """Those that are tops."""
    return [it for it in bodies if isinstance(it, Top)]


def _ranked_again(job: Job, query: Query, joined: Joined, setup: Setup, files: Files) -> Ranked | None:
    """The addresses, if the question ranks them and the program must be asked again for that."""
    question = setup.question(joined.name)
    if question is None or not (query.is_whole or query.is_of_both):
        return None
    # All keys that are listed, and not only as many as the question wants.
    tops = tops_in(body for _, body in joined.parts)
    first = Answer(*joined_top(question, tops, MOST_TOP))
    rank = whole_addresses if query.is_whole else both_families
    return rank(query, first, asker_of(job, query, files))


def asker_of(job: Job, query: Query, files: Files) -> Asker:
    """Asks again about the captures."""
    return Asker(
        lambda again: again_of(job, query, again, files),
        lambda query, expression: _values(job, query, expression, files),
    )


def _listed(job: Job, expression: str, names: Sequence[str], files: Files) -> Iterator[tuple[int, ...]]:
    """These values of all packets of the expression: they are listed, and `confluo dump` prints them."""
    text = f"schema {job.schema}\nask q list {expression}\n"
    valid(text)
    bodies = [it.body for named in _reports(job, text, *files) for it in named.report.asks]
    return _dumped(job, [it for it in bodies if isinstance(it, Found)], names, files)


def _dumped(
    job: Job, found: Sequence[Found], names: Sequence[str], files: Files
) -> Iterator[tuple[int, ...]]:
    """These values of the packets that each report lists, which `confluo dump` prints."""
    rows: Iterable[set[int]] = (set(it.rows) for it in found)
    if job.as_one:
        (all_rows,) = rows
        rows = split_rows(files[1], sorted(all_rows), job.may_be_cut)
    for its, capture in zip(rows, files[1]):
        yield from dumped_values(capture, its, job.may_be_cut, names)


def _values(job: Job, query: Query, expression: str, files: Files) -> dict[int, int]:
    """The part of every address, added up by packets."""
    names = (query.key, f"{query.key}_low", query.measure)
    parts: dict[int, list[int]] = {}
    for high, low, value in _listed(job, expression, names, files):
        address = (high << 64) + low
        known = parts.setdefault(address, [0, 0, value, value])
        known[:] = known[0] + 1, known[1] + value, min(known[2], value), max(known[3], value)
    place = PARTS.index(query.part)
    return {address: it[place] for address, it in parts.items()}


def _firsts(job: Job, answered: Answered, at: int, files: Files) -> Firsts:
    """What the first run says for the question of that place, which is over two attributes."""
    names = (name_of(at), second_of(at), listed_of(at))
    asked, seconds, listed = (answered.joined(it) for it in names)
    bodies = [body for it in (listed, asked) if it for _, body in it.parts if isinstance(body, Found)]
    return Firsts(_groups_in(asked), _groups_in(seconds), lambda wanted: _dumped(job, bodies, wanted, files))


def _groups_in(joined: Joined | None) -> Sequence[Group]:
    return joined.body.groups if joined and isinstance(joined.body, Groups) else ()


def _pair_asker_of(job: Job, query: Query, files: Files) -> PairAsker:
    """Asks about two attributes."""

    def groups(asked: Sequence[tuple[str, str]]) -> list[Sequence[Group]]:
        lines = [f"schema {job.schema}"]
        for at, (key, expression) in enumerate(asked):
            lines += [f"tally t{at} {key} {query.measure} {expression}", f"ask q{at} groups t{at}"]
        text = "\n".join(lines) + "\n"
        return list(map(_groups_in, merge(_reports(job, text, *files), valid(text)).asks))

    def listed(expression: str) -> Listed:
        return lambda wanted: _listed(job, expression, wanted, files)

    return PairAsker(groups, listed)


def again_of(job: Job, query: Query, again: Sequence[Again], files: Files) -> list[Answer]:
    """Ranks again within networks, or measures all."""
    lines = [f"schema {job.schema}"]
    for at, (key, part, expression) in enumerate(again):
        if key:
            lines.append(f"tally t{at} {key} {query.measure} {expression}")
        asked = f"top t{at} {part} {MOST_TOP}" if key else f"total {query.measure} {expression}"
        lines.append(f"ask q{at} {asked}")
    text = "\n".join(lines) + "\n"
    merged = merge(_reports(job, text, *files), valid(text))
    return [_answer_of(joined, part) for joined, (_, part, _) in zip(merged.asks, again)]


def _answer_of(joined: Joined, part: str) -> Answer:
    """A ranking, or the part of what was measured as that of one key."""
    if isinstance(joined.body, Quad):
        value = getattr(joined.body, part)
        return Answer(Top((Pair(0, value),) if joined.body.count else ()))
    assert isinstance(joined.body, Top)
    return Answer(joined.body, joined.note)


def _details(job: Job, report: Report, setup: Setup, paths: Sequence[str], most: int) -> Mapping[int, str]:
    if len(paths) > 1:
        return details_of_all(report.asks, report.records, setup, paths, most, job.may_be_cut).lines
    return details_of(report.asks, report.records, setup, paths[0], most, report.truncated).lines


def _shown(job: Job, answered: Sequence[Answered]) -> list[str]:
    first = answered[0]
    viewer, merged = first.viewers[0], first.merged
    of = f" of {len(job.captures)} captures" if len(job.captures) > 1 else ""
    lines = [f"{grouped(merged.records)} {viewer.things}{of}"]
    for name, whole in merged.truncated:
        lines.append(f"{name} is cut off after {grouped(whole)} {viewer.things}: what came then is missing")
    unparsed = first.unparsed()
    lines += unparsed_line(unparsed, "leave out `--schema packet`") if unparsed else []
    for it, query, joined in in_order(job, answered):
        lines += _one_shown(it, query, joined)
    return lines


def _one_shown(answered: Answered, query: Query, joined: Joined) -> list[str]:
    """A question with its answer, after an empty line."""
    viewer = answered.viewers[0]
    lines = ["", _title(viewer, query, joined)]
    if query.is_paired:
        answer = answered.paired[answered.queries.index(query)]
        return [*lines[:1], lines[1] + count_of(query, answer), *paired_lines(viewer, query, answer)]
    if query.second:
        answer = answered.doubled[answered.queries.index(query)]
        return lines + doubled_lines(viewer, query, answer)
    if query.is_of_buckets:
        lines += _buckets(answered, query, joined)
    elif isinstance(joined.body, Top):
        return lines + _ranked(answered, query, joined, joined.body)
    elif joined.body is not None:
        lines += body_lines(viewer, joined.name, joined.body)
    else:
        lines += _by_capture(answered.viewers, joined)
    return lines + ([f"  Note: {joined.note}."] if joined.note else [])


def ranking(answered: Answered, query: Query, joined: Joined, body: Top) -> tuple[Ranked, int | None]:
    """The keys of `top` or `share`, and of `share` the whole."""
    at = answered.queries.index(query)
    ranked = answered.ranked.get(at) or Ranked(body, _has_all(joined), joined.note)
    whole = answered.joined(whole_of(at)) if query.verb == "share" else None
    if whole is None or not isinstance(whole.body, Quad):
        return ranked, None
    return ranked, whole.body.count if query.part == "count" else whole.body.sum


def _ranked(answered: Answered, query: Query, joined: Joined, body: Top) -> list[str]:
    ranked, whole = ranking(answered, query, joined, body)
    viewer = answered.viewers[0]
    lines = top_lines(viewer, joined.name, ranked.top, ranked.is_all, ranked.texts, whole) or ["  none"]
    return lines + ([f"  Note: {ranked.note}."] if ranked.note else [])


def _has_all(joined: Joined) -> bool:
    """Whether an answer of top has all keys that there are."""
    keys = {it.key for _, body in joined.parts if isinstance(body, Top) for it in body.keys}
    is_full = any(len(body.keys) >= MOST_TOP for _, body in joined.parts if isinstance(body, Top))
    return isinstance(joined.body, Top) and len(joined.body.keys) == len(keys) and not is_full


def _title(viewer: Viewer, query: Query, joined: Joined) -> str:
    body: Body | None = joined.parts[0][1] if len(joined.parts) == 1 else None
    count = count_text(viewer, body) if isinstance(body, Found) and not query.second else ""
    return viewer.style.title(query.text) + count


def _by_capture(viewers: Sequence[Viewer], joined: Joined) -> list[str]:
    lines: list[str] = []
    for viewer, (name, body) in zip(viewers, joined.parts):
        if len(viewers) > 1:
            lines.append(f"  in {name}{count_text(viewer, body)}")
        lines += body_lines(viewer, joined.name, body)
    return lines


def joined_marks(query: Query, fired: Sequence[Fired]) -> list[Pair]:
    """All buckets of the captures together, with their values."""
    values: dict[int, list[int]] = {}
    for body in fired:
        for it in body.marks:
            values.setdefault(it.key, []).append(it.value)
    join = {"count": sum, "sum": sum, "least": min, "greatest": max}[query.part]
    return [Pair(bucket, join(its)) for bucket, its in sorted(values.items())]


def meant_buckets(query: Query, pairs: Sequence[Pair]) -> list[Pair]:
    """The buckets of the answer, of all that have a packet."""
    if query.is_peak:
        return sorted(pairs, key=lambda it: (-it.value, it.key))[: query.count]
    return [it for it in pairs if query.fires(it.value)]


def _buckets(answered: Answered, query: Query, joined: Joined) -> list[str]:
    """The buckets that the question means, and what is said of those without a packet."""
    viewer = answered.viewers[0]
    pairs = joined_marks(query, fired_in(joined))
    condition = None if query.is_peak else (query.operator, query.number)
    lines = bucket_lines(viewer, joined.name, meant_buckets(query, pairs), condition) or ["  none"]
    if not query.lists_all:
        return lines
    ends = answered.span() or [it.key for it in pairs]
    return lines + silence_line(viewer, {it.key for it in pairs}, ends, query.condition)
