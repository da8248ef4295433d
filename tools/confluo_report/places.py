"""Files that are written whole or stay as before."""

from __future__ import annotations

import contextlib
import errno
import os
import pathlib
import shutil
import sys
import tempfile
from typing import BinaryIO, Iterator

from .errors import Complaint

NO_ROOM = (errno.ENOSPC, errno.EDQUOT, errno.EFBIG)


def replaced_at(path: str) -> pathlib.Path | None:
    """Where a new file takes the place of this one, at a link of what it leads to; nowhere if that is a device or a pipe."""
    if os.path.exists(path) and not os.path.isfile(path):
        return None
    return pathlib.Path(os.path.realpath(path) if os.path.islink(path) else path)


@contextlib.contextmanager
def written(path: str) -> Iterator[BinaryIO]:
    """What is written becomes the file in one step, at the end; after a fault it is as before. `-` is standard output."""
    place = None if path == "-" else replaced_at(path)
    if place is None:
        with tempfile.TemporaryFile() as file:
            yield file
            file.seek(0)
            _copy(file, path)
        return
    try:
        handle, name = tempfile.mkstemp(prefix=f".{place.name}.", dir=place.parent)
    except OSError as error:
        raise cannot_be_written(path, error) from error
    try:
        with os.fdopen(handle, "w+b") as new:
            yield new
        os.chmod(name, 0o644)
        os.replace(name, place)
    except BaseException as error:
        pathlib.Path(name).unlink(missing_ok=True)
        if isinstance(error, OSError) and error.errno in NO_ROOM:
            raise cannot_be_written(path, error) from error
        raise


def _copy(file: BinaryIO, path: str) -> None:
    if path == "-":
        shutil.copyfileobj(file, sys.stdout.buffer)
        sys.stdout.buffer.flush()
        return
    try:
        with open(path, "wb") as out:
            shutil.copyfileobj(file, out)
    except BrokenPipeError:
        raise
    except OSError as error:
        raise cannot_be_written(path, error) from error


def cannot_be_written(path: str, error: OSError) -> Complaint:
    """Names the file, which the system's message may not."""
    return Complaint(f"{path} cannot be written: {error.strerror}")
