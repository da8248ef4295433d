"""A report as Prometheus metrics, and the file that node_exporter's textfile collector reads."""

from __future__ import annotations

import os
import pathlib
import re
import tempfile
from collections import Counter
from dataclasses import dataclass, field
from typing import Callable, Iterable

from .errors import Complaint
from .merge import Merged
from .places import cannot_be_written, replaced_at
from .reports import (
    Body,
    Fired,
    Found,
    Groups,
    Quad,
    Report,
    RoundAlert,
    RoundBeat,
    RoundLive,
    RoundTotal,
    Snapshot,
)
from .setups import Setup
from .values import by_text, key_text

LABEL = re.compile(r"[a-zA-Z_][a-zA-Z0-9_]*")
EXACT = 2**53
HELP = {
    "confluo_records": "Records of the capture.",
    "confluo_records_total": "Records that had come when the last line was written.",
    "confluo_aggregate_records_total": "Records that the aggregate's filter selects, at the last beat.",
    "confluo_aggregate_sum_total": "What the aggregate adds up over these records, modulo 2^53.",
    "confluo_last_packet_seconds": "The time of the last packet at the last beat, in seconds since 1970.",
    "confluo_captures": "Captures that were answered.",
    "confluo_left_out_captures": "Captures that could not be answered and are left out.",
    "confluo_cut_records": "Records of all hosts in the cut.",
    "confluo_host_records": "Records of the host in the cut.",
    "confluo_found_records": "How many records the question found.",
    "confluo_found_record": "A record that the question found, by its number; the value is 1.",
    "confluo_measured": "What the question measured: count, sum, least or greatest.",
    "confluo_fired_buckets": "In how many time buckets the question's trigger fires.",
    "confluo_fired_value": "The value in a time bucket, or of a key in it, in which the question's trigger fires.",
    "confluo_top_keys": "How many keys the question lists.",
    "confluo_top_value": "The part of a key.",
    "confluo_groups": "How many keys or time buckets have a record.",
    "confluo_group_value": "Of a key or time bucket, or of a key in a time bucket: count, sum, least or greatest.",
    "confluo_alerts": "In how many time buckets the trigger fires.",
    "confluo_alert_value": "The value in a time bucket, or of a key in it, in which the trigger fires.",
    "confluo_order_records": "Records of the writer in the log.",
    "confluo_truncated_records": "Whole records of a capture that is cut off; absent of one that ends well.",
    "confluo_window_record": "The first record that the answers are on, by its number.",
    "confluo_told_alert_value": "The value in a time bucket, or of a key in it, in which the trigger began to fire.",
    "confluo_stream_running": "1 while the stream is read, 0 after its end.",
    "confluo_stream_unread_bytes": "Bytes of the stream that wait to be read; watch waits too once they are 65536.",
    "confluo_stream_alerts_total": "Alerts of the trigger since the start.",
    "confluo_stream_crowded_total": "Time buckets that had more keys of the aggregate than watch keeps, since the start.",
    "confluo_stream_alert_bucket_number": "The time bucket of the trigger's last alert.",
    "confluo_stream_alert_seconds": "When the time bucket of the trigger's last alert begins, in seconds since 1970.",
    "confluo_stream_alert_value": "The value of the trigger's last alert.",
    "confluo_stream_commands_total": "Commands run for alerts, by how they ended, or passed over.",
    "confluo_stream_fault": "The code of the fault that ended the stream, 0 for one without a code.",
    "confluo_stream_silent": "1 while no packet has come for the seconds of --silence, else 0.",
    "confluo_captured_packets_total": "Packets that tcpdump has handed on, by its own count.",
    "confluo_received_packets_total": "Packets that tcpdump's filter has let through, by its own count.",
    "confluo_dropped_packets_total": "Packets that tcpdump has not seen, dropped by the kernel or the interface.",
}
STAGES = {"live": "Asked while records were loaded: ", "new": "New in the live answer: "}


@dataclass
class Families:
    """Samples by the names of their metrics, in the order in which these first came."""

    common: dict[str, str] = field(default_factory=dict)
    samples: dict[str, list[str]] = field(default_factory=dict)

    def add(self, name: str, value: int, **labels: object) -> None:
        """One sample; a number that a Prometheus value cannot hold exactly is a Complaint."""
        if value > EXACT:
            raise Complaint(f"{name}: {value} is above 2^53, and no Prometheus value holds it exactly")
        texts = {**self.common, **{self.free(key): str(it) for key, it in labels.items()}}
        inner = ",".join(f'{key}="{_escaped(text)}"' for key, text in texts.items())
        self.samples.setdefault(name, []).append(f"{name}{{{inner}}} {value}" if inner else f"{name} {value}")

    def free(self, name: str) -> str:
        """The name of a label of the metric, which gives way to a common one of that name."""
        while name in self.common:
            name = f"confluo_{name}"
        return name

    def text(self) -> str:
        lines: list[str] = []
        for name, samples in self.samples.items():
            kind = "counter" if name.endswith("_total") else "gauge"
            lines += [f"# HELP {name} {help_of(name)}", f"# TYPE {name} {kind}", *samples]
        return "\n".join(lines) + "\n"


def _escaped(text: str) -> str:
    return text.replace("\\", r"\\").replace('"', r"\"").replace("\n", r"\n")


def help_of(name: str) -> str:
    """What the metric is, in words."""
    for stage, words in STAGES.items():
        plain = name.replace(f"confluo_{stage}_", "confluo_", 1)
        if plain != name:
            text = HELP[plain]
            return words + text[0].lower() + text[1:]
    return HELP[name]


# Of a question or a trigger, and whether the key is one beside a bucket.
Keys = Callable[[str, int, bool], str]


def keys_of(setup: Setup | None) -> Keys:
    """How a key of a question is written: as an address, for one, where the setup says that it is one."""

    def text(name: str, key: int, is_beside: bool) -> str:
        question = setup.question(name) if setup else None
        trigger = question.trigger if question else setup.trigger(name) if setup else None
        lane = trigger.aggregate if trigger else question.lane if question else None
        if not setup or not lane or (lane.by if is_beside else lane.key) is None:
            return str(key)
        return (by_text if is_beside else key_text)(setup, lane, key)

    return text


def _beside(keys: Keys, name: object, by: int | None) -> dict[str, object]:
    """The label of a key beside a bucket, if there is one."""
    return {} if by is None else {"key": keys(str(name), by, True)}


def add_body(
    families: Families, stage: str, body: Body, keys: Keys, lists: bool = False, **labels: object
) -> None:
    """The samples of an answer; `stage` is the front of their metrics' names behind `confluo_`."""
    front = f"confluo_{stage}"
    labels["kind"] = body.kind
    if isinstance(body, Quad):
        for part in ("count", "sum", "least", "greatest"):
            value = getattr(body, part)
            if value is not None:
                families.add(f"{front}measured", value, **labels, part=part)
    elif isinstance(body, Found):
        families.add(f"{front}found_records", len(body.rows), **labels)
        for row in body.rows if lists else ():
            families.add(f"{front}found_record", 1, **labels, record=row)
    elif isinstance(body, Fired):
        families.add(f"{front}fired_buckets", len(body.marks), **labels)
        for it in body.marks:
            more = _beside(keys, labels["ask"], it.by)
            families.add(f"{front}fired_value", it.value, **labels, bucket=it.key, **more)
    elif isinstance(body, Groups):
        families.add(f"{front}groups", len(body.groups), **labels)
        for group in body.groups:
            more = {"bucket": group.key, **_beside(keys, labels["ask"], group.by)}
            if group.by is None:
                more = {"key": keys(str(labels["ask"]), group.key, False)}
            for part in ("count", "sum", "least", "greatest"):
                families.add(f"{front}group_value", getattr(group, part), **labels, **more, part=part)
    else:
        families.add(f"{front}top_keys", len(body.keys), **labels)
        for it in body.keys:
            key = keys(str(labels["ask"]), it.key, False)
            families.add(f"{front}top_value", it.value, **labels, key=key)


def add_beat(
    families: Families, beat: RoundBeat, totals: Iterable[RoundTotal], setup: Setup | None = None
) -> None:
    """The samples of a beat. With the setup, an aggregate's have the names of its filter and of what it measures."""
    families.add("confluo_last_packet_seconds", beat.seconds)
    for it in totals:
        lane = setup.lane(it.name, "aggregate") if setup else None
        labels: dict[str, object] = {"aggregate": it.name}
        if setup and lane and lane.measure is not None:
            labels |= {"filter": lane.over, "measure": setup.schema[lane.measure].name}
        families.add("confluo_aggregate_records_total", it.count, **labels)
        # A value holds no more exactly; rate() passes over the step back as over a restart.
        families.add("confluo_aggregate_sum_total", it.sum % EXACT, **labels)


def _add_report(families: Families, report: Report, setup: Setup | None, lists: bool) -> None:
    keys = keys_of(setup)
    families.add("confluo_records", report.records)
    if report.truncated is not None:
        families.add("confluo_truncated_records", report.truncated)
    for cut in report.cuts:
        families.add("confluo_truncated_records", cut.value, capture=cut.key)
    if report.window is not None:
        families.add("confluo_window_record", report.window)
    beats = [it for it in report.told if isinstance(it, RoundBeat)]
    if beats:
        totals = [it for it in report.told if isinstance(it, RoundTotal) and it.prefix == beats[-1].prefix]
        add_beat(families, beats[-1], totals, setup)
    for ask in report.asks:
        add_body(families, "", ask.body, keys, lists, ask=ask.name)
    counts = dict.fromkeys((it.name for it in setup.triggers) if setup else (), 0)
    for it in report.alerts:
        counts[it.trigger] = counts.get(it.trigger, 0) + 1
    for name, count in counts.items():
        families.add("confluo_alerts", count, trigger=name)
    for it in report.alerts:
        more = _beside(keys, it.trigger, it.by)
        families.add("confluo_alert_value", it.value, trigger=it.trigger, bucket=it.bucket, **more)
    if lists:
        _add_loading(families, report, keys)


def _add_loading(families: Families, report: Report, keys: Keys) -> None:
    """What was asked and told while records came, and how many each writer had."""
    for line, live in enumerate(report.lives):
        labels = {"ask": live.name, "line": line, "prefix": live.prefix}
        add_body(families, "live_", live.body, keys, True, **labels)
        if live.new is not None:
            add_body(families, "new_", live.new, keys, True, **labels)
    for line, told in enumerate(report.told):
        if isinstance(told, RoundAlert):
            labels = {"trigger": told.trigger, "line": line, "prefix": told.prefix, "bucket": told.bucket}
            labels |= _beside(keys, told.trigger, told.by)
            families.add("confluo_told_alert_value", told.value, **labels)
        elif isinstance(told, RoundLive):
            labels = {"ask": told.name, "line": line, "first": told.first, "prefix": told.prefix}
            add_body(families, "live_", told.body, keys, True, **labels)
    writers: Counter[int] = Counter()
    for stretch in report.order or ():
        writers[stretch.writer] += stretch.count
    for writer, count in sorted(writers.items()):
        families.add("confluo_order_records", count, writer=writer)


def _add_snapshot(families: Families, snapshot: Snapshot, keys: Keys, lists: bool) -> None:
    families.add("confluo_cut_records", snapshot.cut)
    for host in snapshot.hosts:
        families.add("confluo_host_records", host.records, host=host.number)
        if host.truncated is not None:
            families.add("confluo_truncated_records", host.truncated, host=host.number)
        for ask in host.asks:
            add_body(families, "", ask.body, keys, lists, ask=ask.name, host=host.number)


def _add_merged(families: Families, merged: Merged, keys: Keys, lists: bool) -> None:
    families.add("confluo_records", merged.records)
    for name, whole in merged.truncated:
        families.add("confluo_truncated_records", whole, report=name)
    for ask in merged.asks:
        if ask.body is not None:
            add_body(families, "", ask.body, keys, lists, ask=ask.name)
            continue
        for name, body in ask.parts:
            add_body(families, "", body, keys, lists, ask=ask.name, report=name)
    for name, it in merged.alerts:
        labels = {"trigger": it.trigger, "bucket": it.bucket, **_beside(keys, it.trigger, it.by)}
        families.add("confluo_alert_value", it.value, **labels, report=name)


def metrics_text(
    read: Report | Snapshot | Merged,
    labels: dict[str, str] | None = None,
    setup: Setup | None = None,
    lists: bool = False,
) -> str:
    """The report in Prometheus' text format; `lists` adds record numbers, live answers and what each writer loaded."""
    families, keys = Families(labels or {}), keys_of(setup)
    if isinstance(read, Snapshot):
        _add_snapshot(families, read, keys, lists)
    elif isinstance(read, Merged):
        _add_merged(families, read, keys, lists)
    else:
        _add_report(families, read, setup, lists)
    return families.text()


def labels_of(texts: Iterable[str]) -> dict[str, str]:
    """The labels of words NAME=VALUE."""
    found: dict[str, str] = {}
    for text in texts:
        name, equals, value = text.partition("=")
        if not equals or not LABEL.fullmatch(name) or name.startswith("__"):
            raise Complaint(
                f"`{text}` is not a label NAME=VALUE with a name of letters, digits and _ that begins with no digit "
                "and not with __"
            )
        if name in found:
            raise Complaint(f"the label `{name}` is given twice")
        found[name] = value
    return found


def write_at_once(path: str, text: str, is_synced: bool = True) -> None:
    """The file has the whole text or is as before: a new file takes its place in one step. A device or pipe is written to.

    If it is not synced, this does not wait for the disk, and a crash of the machine may leave it empty.
    """
    place = replaced_at(path)
    if place is None:
        try:
            with open(path, "w", encoding="utf-8") as file:
                file.write(text)
        except OSError as error:
            raise cannot_be_written(path, error) from error
        return
    try:
        handle, name = tempfile.mkstemp(prefix=f".{place.name}.", suffix=".new", dir=place.parent)
    except OSError as error:
        raise cannot_be_written(path, error) from error
    try:
        with os.fdopen(handle, "w", encoding="utf-8") as file:
            file.write(text)
            file.flush()
            if is_synced:
                os.fsync(file.fileno())
        os.chmod(name, 0o644)
        os.replace(name, place)
    except OSError as error:
        pathlib.Path(name).unlink(missing_ok=True)
        raise Complaint(f"{path} cannot be written: {error.strerror}; it is as before") from error
