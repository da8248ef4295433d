"""Runs parts on this machine, several confluo at once."""

from __future__ import annotations

import os
from concurrent.futures import FIRST_COMPLETED, Future, ThreadPoolExecutor, wait
from typing import Generator, Iterable

from .over_part import Ended, Piece, Running, Work, answer

# So many more than run at once are under way: answers that wait to be added up take memory.
AHEAD = 2


def processors() -> int:
    """How many this process may use."""
    return len(os.sched_getaffinity(0))


def by_processes(work: Work, pieces: Iterable[Piece], jobs: int) -> Generator[tuple[int, Ended], None, None]:
    """The places of the pieces with how their runs ended, as they end. If the reader stops, so do the runs."""
    running = Running()
    under_way: dict[Future[Ended], int] = {}
    left = iter(enumerate(pieces))
    pool = ThreadPoolExecutor(jobs, "confluo")
    try:
        while True:
            while len(under_way) < jobs * AHEAD and (it := next(left, None)):
                under_way[pool.submit(answer, running, work, it[1])] = it[0]
            if not under_way:
                return
            for done in wait(under_way, return_when=FIRST_COMPLETED).done:
                yield under_way.pop(done), done.result()
    finally:
        running.stop()
        pool.shutdown(wait=True, cancel_futures=True)
