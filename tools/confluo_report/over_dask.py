"""Runs parts on the workers of a Dask scheduler, which see the captures at the same paths."""

from __future__ import annotations

import contextlib
import logging
import pickle
import secrets
import sys
from typing import Any, Callable, Generator, Iterable, Iterator

from . import over_part
from .errors import Complaint
from .over_part import Ended, Piece, Work

SECONDS = 10


class ByValue:
    """A function of `over_part` as what it does, so that a worker needs no confluo-report."""

    def __init__(self, function: Callable[..., Any]) -> None:
        import cloudpickle  # type: ignore[import]

        cloudpickle.register_pickle_by_value(over_part)
        try:
            self.held = cloudpickle.dumps(function)
        finally:
            cloudpickle.unregister_pickle_by_value(over_part)

    def __reduce__(self) -> tuple[Callable[[bytes], Any], tuple[bytes]]:
        return pickle.loads, (self.held,)

    def __call__(self, *words: Any, **named: Any) -> Any:
        return pickle.loads(self.held)(*words, **named)


@contextlib.contextmanager
def _client(address: str) -> Iterator[Any]:
    try:
        from distributed import Client  # type: ignore[import]
    except ImportError as error:
        raise Complaint(
            "--scheduler needs Dask: apt-get install python3-distributed, or pip install distributed"
        ) from error
    # (it logs lost connections and what is cancelled, which is said here in other words)
    for it in ("distributed", "distributed.client"):
        logging.getLogger(it).setLevel(logging.CRITICAL)
    try:
        client = Client(address, timeout=SECONDS)
    except (OSError, ValueError) as error:
        raise Complaint(f"no Dask scheduler answers at {address}: {error}") from error
    with client:
        yield client


def by_scheduler(
    work: Work, pieces: Iterable[Piece], address: str
) -> Generator[tuple[int, Ended], None, None]:
    """The places of the pieces with how their runs ended, as they end. If the reader stops, so do the runs."""
    with _client(address) as client:
        print(f"confluo-report: Dask's dashboard: {client.dashboard_link}", file=sys.stderr)
        if not client.scheduler_info()["workers"]:
            print(f"confluo-report: {address} has no worker yet: waiting", file=sys.stderr)
        token = secrets.token_hex(8)
        try:
            yield from _answers(client, token, work, pieces)
        except OSError as error:
            raise Complaint(f"the Dask scheduler at {address} is gone: {error}") from error
        finally:
            with contextlib.suppress(Exception):
                client.run(ByValue(over_part.stop_on_worker), token, on_error="ignore")


def _answers(client: Any, token: str, work: Work, pieces: Iterable[Piece]) -> Iterator[tuple[int, Ended]]:
    from distributed import as_completed

    function = ByValue(over_part.answer_on_worker)
    places = {
        client.submit(
            function, token, work.setup, work.tries, work.program, it, key=f"confluo-{token}-{at}", pure=False
        ): at
        for at, it in enumerate(pieces)
    }
    try:
        for future, ended in as_completed(list(places), with_results=True, raise_errors=False):
            place = places.pop(future)
            if future.status in ("cancelled", "lost"):
                raise ConnectionError("it has dropped the work")
            if future.status == "error":
                ended = None, "", words_of(ended)
            yield place, ended
            future.release()
    finally:
        client.cancel(list(places), force=True)


def words_of(result: Any) -> str:
    """Why a task has no result, as that each worker that had it died."""
    error = result[1] if isinstance(result, tuple) else result
    if type(error).__name__ == "KilledWorker":
        return "each of several workers died while it ran this; the last one's log says why"
    return f"on a worker: {type(error).__name__}: {error}"
