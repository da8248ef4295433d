"""The library's own calls, as the last part of confluo.h lists them."""

from __future__ import annotations

import ctypes
import operator
import os
import pathlib
from typing import Any, Iterable, Sequence, SupportsIndex, Union

SHARED = "libconfluo.so.0"
VERSION = 24000  # CONFLUO_VERSION of the header that this package is written for

WORD, LONG, SIZE, TEXT = ctypes.c_uint32, ctypes.c_uint64, ctypes.c_size_t, ctypes.c_char_p
TO = ctypes.POINTER


BytesLike = Union[bytes, bytearray, memoryview]


def words(*names: str) -> list[tuple[str, Any]]:
    """Fields of 32 bits."""
    return [(name, WORD) for name in names]


class Handle(ctypes.Structure):
    _fields_ = [("full", ctypes.c_bool), ("at", ctypes.c_void_p)]


class Sizes(ctypes.Structure):
    _fields_ = words("capacity", "writers", "nodes", "reserved")


class Fault(ctypes.Structure):
    _fields_ = words("line", "code")


class Capture(ctypes.Structure):
    _fields_ = [("ns", LONG), *words("number", "length", "link", "reserved")]


class FrameOf(ctypes.Structure):
    _fields_ = [("capture", Capture), ("from_", LONG), ("count", LONG)]


class ValueOf(ctypes.Structure):
    _fields_ = [("number", LONG), *words("kind", "length"), ("bytes", ctypes.c_uint8 * 16)]


class About(ctypes.Structure):
    _fields_ = [
        *words("kind", "of", "part", "op"),
        ("low", LONG),
        ("high", LONG),
        *words("size", "reserved"),
    ]


class RoomOf(ctypes.Structure):
    _fields_ = words("capacity", "covered", "nodes_left", "reserved")


class Head(ctypes.Structure):
    _fields_ = [*words("tail", "kind"), ("count", LONG)]


CALLS = {
    "version": (WORD, []),
    "message": (SIZE, [WORD, SIZE, TEXT, SIZE]),
    "check": (WORD, [TEXT, SIZE, TO(Sizes), TO(LONG), TO(Fault)]),
    "open": (WORD, [TO(Handle), TEXT, SIZE, TO(Sizes), TO(Fault)]),
    "take_writer": (WORD, [TO(Handle), TO(Handle), TO(WORD)]),
    "take_reader": (WORD, [TO(Handle), TO(Handle)]),
    "close": (WORD, [TO(Handle), TO(Handle)]),
    "append": (WORD, [TO(Handle), TO(Capture), TEXT, SIZE, TO(WORD)]),
    "append_values": (WORD, [TO(Handle), WORD, TO(LONG), SIZE, TO(WORD)]),
    "append_many": (WORD, [TO(Handle), TO(FrameOf), SIZE, TEXT, SIZE, TO(WORD), SIZE, TO(SIZE)]),
    "append_row": (WORD, [TO(Handle), WORD, TO(ValueOf), SIZE, TO(WORD)]),
    "room_of": (WORD, [TO(Handle), TO(RoomOf)]),
    "ask": (WORD, [TO(Handle), WORD, TO(Head)]),
    "ask_seen": (WORD, [TO(Handle), WORD, TO(Head)]),
    "ask_text": (WORD, [TO(Handle), TEXT, SIZE, TO(Head), TO(Fault)]),
    "groups": (WORD, [TO(Handle), WORD, TO(Head)]),
    "merge": (WORD, [TO(LONG), SIZE, TO(LONG), SIZE, TO(LONG), SIZE, TO(SIZE)]),
    "row": (WORD, [TO(Handle), WORD, TO(WORD), TO(ValueOf), SIZE, TO(SIZE)]),
    "words": (SIZE, [TO(Handle), SIZE, TO(LONG), SIZE]),
    "span_of": (WORD, [TO(Handle), TO(Handle)]),
    "span_add": (WORD, [TO(Handle), TO(Handle)]),
    "span_drop_first": (WORD, [TO(Handle)]),
    "span_logs": (WORD, [TO(Handle), TO(SIZE)]),
    "span_tail": (WORD, [TO(Handle), TO(WORD)]),
    "span_ask": (WORD, [TO(Handle), WORD, TO(Head)]),
    "span_ask_seen": (WORD, [TO(Handle), WORD, TO(Head)]),
    "span_groups": (WORD, [TO(Handle), WORD, TO(Head)]),
    "span_row": (WORD, [TO(Handle), WORD, TO(WORD), TO(ValueOf), SIZE, TO(SIZE)]),
    "span_words": (SIZE, [TO(Handle), SIZE, TO(LONG), SIZE]),
    "span_report": (WORD, [TO(Handle), TEXT, SIZE, TO(SIZE)]),
    "report": (WORD, [TO(Handle), TEXT, SIZE, TO(SIZE)]),
    "tail": (WORD, [TO(Handle), TO(WORD)]),
    "name": (WORD, [TO(Handle), WORD, WORD, TEXT, SIZE, TO(SIZE)]),
    "tell": (WORD, [TO(Handle), WORD, WORD, TO(About)]),
    "question": (WORD, [TO(Handle), TEXT, SIZE, TO(WORD)]),
    "width": (WORD, [TO(Handle), TO(LONG)]),
    "free_log": (None, [TO(Handle)]),
    "free_writer": (None, [TO(Handle)]),
    "free_reader": (None, [TO(Handle)]),
    "free_span": (None, [TO(Handle)]),
}


def place() -> str:
    """Where the library is: at CONFLUO_LIBRARY, else in this package, else where the system seeks it."""
    inside = pathlib.Path(__file__).with_name(SHARED)
    return os.environ.get("CONFLUO_LIBRARY") or (str(inside) if inside.exists() else SHARED)


def shown(number: int) -> str:
    """A version in three numbers."""
    return f"{number // 1000000}.{number // 1000 % 1000}.{number % 1000}"


def loaded() -> ctypes.CDLL:
    """The library, with the types of its calls. ImportError if it is missing, or of a version that this package was not written for."""
    file = place()
    try:
        library = ctypes.CDLL(file)
        found = library.confluo_version()
    except OSError as fault:
        raise ImportError(
            f"the library of confluo cannot be loaded ({fault}): install libconfluo0, or build it with `make -C bindings archive` "
            f"and name bindings/out/{SHARED} in CONFLUO_LIBRARY"
        ) from None
    except AttributeError:
        raise ImportError(f"{file} is not the library of confluo") from None
    if found < VERSION or found // 1000000 != VERSION // 1000000:
        raise ImportError(
            f"{file} has version {shown(found)} of the library of confluo, and this package needs {shown(VERSION)} or a later one "
            f"with the major number {VERSION // 1000000}"
        )
    for name, (answer, parameters) in CALLS.items():
        one = getattr(library, "confluo_" + name)
        one.restype, one.argtypes = answer, parameters
    return library


LIBRARY = loaded()


def call(name: str) -> Any:
    """A call of the library by its name."""
    return getattr(LIBRARY, "confluo_" + name)


def checked(value: SupportsIndex, bits: int, name: str) -> int:
    """The value as a number of so many bits, or ValueError."""
    found = operator.index(value)
    if not 0 <= found < 1 << bits:
        raise ValueError(f"{name} is {found}, not a number of {bits} bits")
    return found


def data_of(data: BytesLike) -> bytes:
    """The bytes of a bytes-like object; TypeError for all else, such as a number, of which `bytes` would make so many zeros."""
    return data if isinstance(data, bytes) else memoryview(data).tobytes()


def array(numbers: Iterable[SupportsIndex]) -> tuple[Sequence[int], int]:
    """Numbers of 64 bits for the library, which wants a place even for none, and how many."""
    held = [checked(it, 64, "a value") for it in numbers]
    return (LONG * max(1, len(held)))(*held), len(held)  # type: ignore[return-value]
