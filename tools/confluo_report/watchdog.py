"""Tells systemd that a stream goes on, where its unit has WatchdogSec=."""

from __future__ import annotations

import os
import socket
import time
from typing import Callable, Mapping

from .outputs import Output


class Watchdog(Output):
    """Tells it twice in the time after which the service is begun anew."""

    def __init__(self, address: str, seconds: float, now: Callable[[], float] = time.monotonic) -> None:
        # A name in no folder begins with @.
        self.address = "\0" + address[1:] if address.startswith("@") else address
        self.step, self.now = seconds / 2, now
        self.told_at = now() - self.step

    def pause(self) -> None:
        if self.rest() > 0:
            return
        self.told_at = self.now()
        with socket.socket(socket.AF_UNIX, socket.SOCK_DGRAM | socket.SOCK_NONBLOCK) as out:
            try:
                out.sendto(b"WATCHDOG=1", self.address)
            except OSError:
                # The next one may come through; else the service is begun anew.
                pass

    def rest(self) -> float:
        return self.told_at + self.step - self.now()


def watchdog_of(environment: Mapping[str, str] = os.environ) -> Watchdog | None:
    """That of the unit, whose main process may be the shell above this one."""
    address, spent = environment.get("NOTIFY_SOCKET", ""), environment.get("WATCHDOG_USEC", "")
    return Watchdog(address, int(spent) / 1e6) if address and spent.isdigit() and int(spent) else None
