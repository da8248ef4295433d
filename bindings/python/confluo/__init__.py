"""The confluo log, kept and asked from Python.

    import confluo

    log = confluo.Log("schema records ts:u64,host:u32,len:u32\\nask all total len *\\n", capacity=4096, writers=2, nodes=64)
    with log.writer() as writer, log.reader() as reader:
        writer.append_values(0, [1000, 7, 60])
        print(reader.ask("all").words)

A log has a fixed number of writers, each for one thread at a time, and any number of readers. A Span asks logs that follow one another
as one; a Rolling log opens them itself. Each object has a
lock, so an object may be used from several threads; different objects of one log run at the same time. Numbers that
do not fit are refused with ValueError, and never cut. What the library refuses is an Error, with its code. In a
forked child the objects of the parent must not be used, and they refuse to be; open a log of its own there. Do not
use an object from a signal handler.

The library is sought at CONFLUO_LIBRARY, then in the package, as a wheel has it, then as libconfluo.so.0 of the system. The import fails
with ImportError if it is missing, or older than this package, or of another major number. docs/LIBRARY.md says more, and confluo.h what
each call does.
"""

from .answers import Answer, Kind, Quad
from .errors import Code, Error, SetupError
from .log import Appended, Frame, Log, Reader, Room, Row, Span, Writer, check, version
from .names import Attribute, Lane, Names, Question, Trigger
from .over import Over, over
from .rolling import Rolling, RollingReader, RollingWriter

__all__ = [
    "Answer",
    "Appended",
    "Attribute",
    "Code",
    "Error",
    "Frame",
    "Kind",
    "Lane",
    "Log",
    "Names",
    "Over",
    "Quad",
    "Question",
    "Reader",
    "Rolling",
    "RollingReader",
    "RollingWriter",
    "Room",
    "Row",
    "SetupError",
    "Span",
    "Trigger",
    "Writer",
    "check",
    "over",
    "version",
]
