"""One answer about many captures, by the tool confluo-report."""

from __future__ import annotations

import json
import os
import pathlib
import shutil
import subprocess
import sys
import tempfile
from typing import TYPE_CHECKING, Any, Dict, Iterable, Optional, Sequence, Union

from .answers import pandas_module
from .calls import BytesLike, data_of

if TYPE_CHECKING:
    import pandas  # type: ignore[import]

Path = Union[str, "os.PathLike[str]"]
# In the repository the tool is beside this package.
BESIDE = pathlib.Path(__file__).resolve().parents[3] / "tools" / "confluo-report"
QUAD = ("count", "sum", "least", "greatest")


class Over(Dict[str, "pandas.DataFrame"]):
    """A DataFrame by the name of each question, in the order of the setup. list, find and between: `capture`, `record`;
    measure and total: `count`, `sum`, `least`, `greatest`; fired: `bucket`, `time`, `value`; top: `key`, `text`, `value`;
    groups: `key`, `text` (of an aggregate the time of the bucket), `count`, `sum`, `least`, `greatest`. Of an aggregate by keys,
    fired and groups have `bucket`, `time`, `key` and `text` before the numbers; so has `alerts` if one is of such an aggregate.

    `records` is how many there are in all. `captures` has a row for each one, `alerts` for each alert, and `left_out` for
    each capture that could not be answered.
    """

    def __init__(self, read: Dict[str, Any]) -> None:
        held = pandas_module()
        super().__init__({it["name"]: _frame(held, it) for it in read["asks"]})
        self.records: int = read["records"]
        self.captures = _of(held, read["captures"], ["capture"], ["records", "truncated"])
        self.alerts = _timed(held, read["alerts"], ["trigger"])
        self.left_out = _of(held, read["left_out"], ["capture", "why"], []).assign(
            status=held.Series([it["status"] for it in read["left_out"]], dtype="Int64")
        )


def _of(
    held: Any, rows: Sequence[Dict[str, Any]], texts: Sequence[str], numbers: Sequence[str]
) -> pandas.DataFrame:
    columns = {name: held.Series([it[name] for it in rows], dtype="object") for name in texts}
    # (of no record there is no least and no greatest)
    columns.update({name: held.Series([it.get(name) for it in rows], dtype="UInt64") for name in numbers})
    return held.DataFrame(columns)


def _timed(held: Any, rows: Sequence[Dict[str, Any]], texts: Sequence[str]) -> pandas.DataFrame:
    return _with_times(held, rows, texts, ["value"])


def _with_times(
    held: Any, rows: Sequence[Dict[str, Any]], texts: Sequence[str], numbers: Sequence[str]
) -> pandas.DataFrame:
    """Buckets with their times, and the keys beside them if there are such."""
    found = _of(held, rows, texts, ["bucket"])
    times = held.Series([it["time"] for it in rows], dtype="object")
    found["time"] = held.to_datetime(times, utc=True, errors="coerce")
    if any("key" in it for it in rows):
        found["key"] = held.Series([it.get("key") for it in rows], dtype="UInt64")
        found["text"] = held.Series([it.get("text") for it in rows], dtype="object")
    for name in numbers:
        found[name] = held.Series([it[name] for it in rows], dtype="UInt64")
    return found


def _frame(held: Any, ask: Dict[str, Any]) -> pandas.DataFrame:
    if "parts" in ask:
        rows = [
            {"capture": it["capture"], "record": number} for it in ask["parts"] for number in it["records"]
        ]
        return _of(held, rows, ["capture"], ["record"])
    if "marks" in ask:
        return _timed(held, ask["marks"], [])
    if "keys" in ask:
        return _of(held, ask["keys"], ["text"], ["key", "value"])[["key", "text", "value"]]
    if "groups" in ask and any("bucket" in it for it in ask["groups"]):
        return _with_times(held, ask["groups"], [], QUAD)
    if "groups" in ask:
        rows = [{"text": it.get("time"), **it} for it in ask["groups"]]
        return _of(held, rows, ["text"], ["key", *QUAD])[["key", "text", *QUAD]]
    return _of(held, [ask], [], QUAD)


def _tool() -> str:
    named = os.environ.get("CONFLUO_REPORT")
    found = named or (str(BESIDE) if BESIDE.is_file() else shutil.which("confluo-report"))
    if not found:
        raise RuntimeError(
            "confluo-report is needed for this: CONFLUO_REPORT=FILE names it if it is not on the path"
        )
    return found


def _address(scheduler: Any) -> str:
    """The address itself, or that of a cluster or client of Dask."""
    if isinstance(scheduler, str):
        return scheduler
    found = getattr(scheduler, "scheduler_address", None) or getattr(scheduler.scheduler, "address")
    return str(found)


def _run(words: Sequence[str]) -> str:
    """What the tool prints; RuntimeError with its words if it refuses. An interrupt lets it end what it began."""
    with subprocess.Popen(
        [sys.executable, *words], stdin=subprocess.DEVNULL, stdout=subprocess.PIPE, stderr=subprocess.PIPE
    ) as process:
        try:
            out, err = process.communicate()
        except BaseException:
            process.terminate()
            raise
    if process.returncode not in (0, 1) or not out:
        raise RuntimeError(err.decode("utf-8", "replace").strip())
    return out.decode("utf-8", "surrogateescape")


def over(
    setup: Union[str, BytesLike, "os.PathLike[str]"],
    captures: Union[Path, Iterable[Path]],
    scheduler: Any = None,
    *,
    jobs: Optional[int] = None,
    keep_going: bool = False,
    truncated: bool = False,
    split: bool = False,
) -> Over:
    """Asks the questions of a setup (its text, or a Path of its file) about captures (files, folders or patterns) as if they were
    one, and answers DataFrames by question.

    Each capture is a run of the program confluo: `jobs` at once on this machine, else one for each processor; or on the workers of
    a Dask scheduler, an address or a cluster or client of Dask. A capture that cannot be answered is a RuntimeError, or with
    `keep_going` is among `left_out`. With `truncated` captures may be cut off, and with `split` several
    processes read one. Needs confluo-report and pandas (ImportError), and
    for a scheduler Dask.
    """
    pandas_module()
    several = [captures] if isinstance(captures, (str, os.PathLike)) else list(captures)
    options = ["--keep-going"] * keep_going + ["--truncated"] * truncated + ["--split"] * split
    if scheduler is not None:
        options += ["--scheduler", _address(scheduler)]
    if jobs is not None:
        options += ["--jobs", str(jobs)]
    with tempfile.TemporaryDirectory(prefix="confluo-") as folder:
        if isinstance(setup, os.PathLike):
            path = os.fspath(setup)
        else:
            path = os.path.join(folder, "questions.setup")
            pathlib.Path(path).write_bytes(
                setup.encode("utf-8") if isinstance(setup, str) else data_of(setup)
            )
        words = [
            _tool(),
            "over",
            "--setup",
            path,
            "--format",
            "json",
            *options,
            "--",
            *map(os.fspath, several),
        ]
        return Over(json.loads(_run(words)))
