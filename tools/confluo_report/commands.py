"""Reads the words of a confluo command, and finds what is wrong with them."""

from __future__ import annotations

import os
import shlex
from dataclasses import dataclass, field
from typing import Mapping

MOST_RECORDS = 2**20
OPTIONS = {
    "writers": (1, 15),
    "capacity": (1, 65536),
    "segments": (1, 256),
    "nodes": (0, 65536),
    "live": (0, 64),
    "seed": (0, 2**64 - 1),
    "count": (0, 2**20),
    "after": (0, 2**32 - 1),
    "turn": (1, 4096),
    "every": (0, 2**32 - 1),
    "beat": (0, 2**32 - 1),
}
SCHEMAS = ("packet", "packet6")
DEFAULTS = {"writers": 4, "capacity": 65536, "segments": 1, "nodes": 1024, "live": 0, "turn": 1}


@dataclass(frozen=True)
class Form:
    """A command's options, those that it needs, how many captures it takes, and options without a value.

    `defaults` are those that differ from other commands'.
    """

    options: tuple[str, ...]
    needed: tuple[str, ...]
    least: int
    most: int
    example: str
    flags: tuple[str, ...] = ("truncated",)
    defaults: Mapping[str, int] = field(default_factory=dict)


FORMS = {
    "run": Form(
        ("setup", "writers", "capacity", "segments", "nodes", "live"),
        ("setup",),
        1,
        1,
        "confluo run --setup questions.setup capture.pcap",
        ("truncated", "long"),
    ),
    "synth": Form(
        ("setup", "seed", "count", "writers", "capacity", "segments", "nodes"),
        ("setup", "seed", "count"),
        0,
        0,
        "confluo synth --setup questions.setup --seed 1 --count 1000",
        (),
    ),
    "dump": Form(("schema",), (), 1, 1, "confluo dump capture.pcap"),
    "snapshot": Form(
        ("setup", "after", "turn", "capacity", "nodes"),
        ("setup", "after"),
        1,
        16,
        "confluo snapshot --setup questions.setup --after 100 host0.pcap host1.pcap",
    ),
    "watch": Form(
        ("setup", "capacity", "segments", "nodes", "every", "beat"),
        ("setup",),
        1,
        1,
        "confluo watch --setup questions.setup /dev/stdin",
        defaults={"segments": 4, "nodes": 65536, "every": 4096},
    ),
}
# `run --long`.
LONG = Form(
    ("setup", "writers", "capacity", "nodes"),
    ("setup",),
    1,
    4096,
    "confluo run --long --setup questions.setup first.pcap second.pcap",
    ("truncated", "long"),
    {"nodes": 65536},
)


@dataclass
class Command:
    """What the words say: the command, its options as texts, and its captures."""

    name: str
    options: dict[str, str] = field(default_factory=dict)
    captures: list[str] = field(default_factory=list)

    @property
    def form(self) -> Form:
        """What the command takes."""
        return LONG if self.is_long else FORMS[self.name]

    @property
    def is_long(self) -> bool:
        """Whether it is a `run` of captures of any length."""
        return self.name == "run" and "long" in self.options

    @property
    def may_be_cut(self) -> bool:
        """Whether a capture that is cut off is answered about."""
        return "truncated" in self.options

    def number(self, option: str) -> int:
        """The option's number, or its default."""
        return int(self.options.get(option, self.default(option)))

    def default(self, option: str) -> int:
        """What an option of the command is where it is not given."""
        return self.form.defaults.get(option, DEFAULTS.get(option, 0))


class WordsFault(Exception):
    """Why the words are no command, and one that would be right."""

    def __init__(self, why: str, right: str) -> None:
        super().__init__(why)
        self.why, self.right = why, right


def split(text: str) -> list[str]:
    """The words of a command as typed, without the program's name."""
    words = shlex.split(text)
    if words and os.path.basename(words[0]) == "confluo":
        words = words[1:]
    return words


def _gather(form: Form, words: list[str], command: Command) -> None:
    """Takes options and captures from the words behind the command's name."""
    rest = list(words)
    while rest:
        word = rest.pop(0)
        if word == "--":
            command.captures += rest
            return
        if not word.startswith("-") or word == "-":
            command.captures.append(word)
            continue
        name, equals, value = word.removeprefix("--").partition("=")
        if not word.startswith("--") or name not in (*form.options, *form.flags):
            known = ", ".join(f"--{it}" for it in (*form.options, *form.flags))
            raise WordsFault(f"`{word}` is not an option of `{command.name}`; it has {known}", form.example)
        if name in command.options:
            raise WordsFault(f"--{name} is given twice", form.example)
        if name in form.flags and equals:
            raise WordsFault(f"--{name} takes no value", f"{form.example} --{name}")
        if not equals and name not in form.flags:
            if not rest or rest[0].startswith("-"):
                raise WordsFault(f"--{name} has no value after it", form.example)
            value = rest.pop(0)
        command.options[name] = value


def _must_be_complete(form: Form, command: Command) -> None:
    for name in form.needed:
        if name not in command.options:
            raise WordsFault(f"--{name} is missing; `{command.name}` needs it", form.example)
    count = len(command.captures)
    if count < form.least:
        raise WordsFault(f"the capture is missing; `{command.name}` needs one", form.example)
    if count > form.most:
        takes = {0: "no capture", 1: "one capture"}.get(form.most, f"at most {form.most} captures")
        raise WordsFault(
            f"`{command.name}` takes {takes}, and there are {count}: {' '.join(command.captures[:4])}",
            form.example,
        )


def _must_be_in_range(form: Form, command: Command) -> None:
    schema = command.options.get("schema", SCHEMAS[0])
    if schema not in SCHEMAS:
        why = f"--schema is {' or '.join(SCHEMAS)}, and not `{schema}`"
        raise WordsFault(why, f"{form.example} --schema {SCHEMAS[1]}")
    for name, text in command.options.items():
        if name not in OPTIONS:
            continue
        low, high = OPTIONS[name]
        valid = text.isascii() and text.isdigit() and (text == "0" or text[0] != "0")
        if not valid or not low <= int(text) <= high:
            why = f"--{name} is a decimal number from {low} to {high} without sign and leading zero, and not `{text}`"
            raise WordsFault(why, f"{form.example} --{name} {command.default(name) or low}")
    for name in command.options:
        if name not in (*form.options, *form.flags):
            raise WordsFault(f"`run --long` has no --{name}: it keeps what it finds, not a log", form.example)
    capacity, segments = command.number("capacity"), command.number("segments")
    if command.name != "watch" and segments > 1 and capacity % 4096:
        why = f"with more than one segment --capacity is a multiple of 4096, and not {capacity}"
        raise WordsFault(why, f"{form.example} --segments {segments} --capacity 4096")
    if segments > 1 and segments * capacity > MOST_RECORDS:
        why = f"--segments {segments} times --capacity {capacity} is {segments * capacity}, above {MOST_RECORDS}"
        raise WordsFault(why, f"{form.example} --segments {MOST_RECORDS // capacity} --capacity {capacity}")


def parse_words(words: list[str]) -> Command:
    """The command that the words are, or a WordsFault."""
    if not words or words[0] not in FORMS:
        first = f"`{words[0]}` is not a command" if words else "there are no words after the program's name"
        raise WordsFault(f"{first}; the commands are {', '.join(FORMS)}", FORMS["run"].example)
    form, command = FORMS[words[0]], Command(words[0])
    _gather(form, words[1:], command)
    form = command.form
    _must_be_complete(form, command)
    _must_be_in_range(form, command)
    return command
