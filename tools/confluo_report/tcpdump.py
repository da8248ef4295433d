"""What tcpdump says on standard error while `confluo watch` reads its packets: its counts, as metrics."""

from __future__ import annotations

import os
import re
import select
import stat
from dataclasses import dataclass, field

from .errors import Complaint
from .metrics import Families
from .outputs import PIECE, report_trouble

COUNT = re.compile(r"(\d+) packets? (captured|received by filter|dropped by kernel|dropped by interface)")
MOST_LINE = 65536
# How long the last words are waited for, in seconds.
GRACE = 0.2


@dataclass
class Counts:
    """The last number of each kind."""

    found: dict[str, int] = field(default_factory=dict)
    is_new: bool = False

    def take(self, line: str) -> bool:
        """Takes the counts of a line; whether it is one that was asked for while tcpdump runs, and no more packets were dropped."""
        numbers = {what: int(number) for number, what in COUNT.findall(line)}
        is_plain = len(numbers) > 1 and not any(
            number > self.found.get(what, 0) for what, number in numbers.items() if what.startswith("dropped")
        )
        self.found |= numbers
        self.is_new = self.is_new or bool(numbers)
        return is_plain

    def add_to(self, families: Families) -> None:
        """The counts as metrics."""
        self.is_new = False
        for what, number in self.found.items():
            front, _, by = what.partition(" by ")
            labels = {"by": by} if front == "dropped" else {}
            families.add(f"confluo_{front}_packets_total", number, **labels)


class Notes:
    """Reads what tcpdump says, from a pipe with a name or a file, and hands it on to standard error."""

    def __init__(self, path: str) -> None:
        self.counts, self.rest = Counts(), b""
        try:
            # A pipe that this process could write to has no end when tcpdump begins anew.
            is_pipe = stat.S_ISFIFO(os.stat(path).st_mode)
            self.fd: int | None = os.open(path, (os.O_RDWR if is_pipe else os.O_RDONLY) | os.O_NONBLOCK)
        except OSError as error:
            raise Complaint(f"{path} cannot be read: {error.strerror}") from error

    def read(self) -> None:
        """Takes what is there."""
        if self.fd is None:
            return
        try:
            piece = os.read(self.fd, PIECE)
        except BlockingIOError:
            return
        *lines, self.rest = (self.rest + piece).split(b"\n")
        if not piece or len(self.rest) > MOST_LINE:
            lines, self.rest = [*lines, self.rest], b""
        if not piece:
            self.close()
        for line in lines:
            text = line.decode("utf-8", "replace").strip()
            if text and not self.counts.take(text):
                report_trouble(text if text.startswith("tcpdump") else f"tcpdump: {text}")

    def finish(self) -> None:
        """Takes what tcpdump says as it ends, which may come a little later than the end of its packets."""
        for _ in range(64):
            if self.fd is None or not select.select([self.fd], [], [], GRACE)[0]:
                break
            self.read()
        self.close()

    def close(self) -> None:
        """No more is read."""
        if self.fd is not None:
            os.close(self.fd)
        self.fd = None
