#!/usr/bin/env python3
"""Each allocation of a run refused in turn: the program answers that it wants memory, or goes on without.

Run it from anywhere after `make run` has built the program (it needs a C compiler as `cc`):

    bench/refusals.py [CASE ..]

It runs the program with a small library before the C library's, which refuses the allocation of one number and no other. For a
`run` with lanes, live questions and two writers, a `synth`, a `snapshot` over two hosts, a `dump` of a capture in either format,
a run over a record file and a `watch` of a capture that comes packet by packet it refuses allocation 1, 2, 3 .. until a run makes fewer.
Each run has to end with status 8 and nothing written, of a `watch` with a front of what is due; or with what it writes when nothing
is refused: a thread that could not be started, whose caller did its work, or a segment that was not opened before it was needed. The
numbers of both are printed. CONFLUO may name another build of the program. It is not part of the gate.
"""

import fcntl
import os
import pathlib
import struct
import subprocess
import sys
import tempfile
import termios
import time

ROOT = pathlib.Path(__file__).parent.parent
PROGRAM = pathlib.Path(os.environ.get("CONFLUO", ROOT / "crates/confluo/out/confluo"))
LIBRARY = r"""
#define _GNU_SOURCE
#include <dlfcn.h>
#include <errno.h>
#include <stdatomic.h>
#include <stddef.h>
#include <stdlib.h>
#include <unistd.h>
#include <fcntl.h>
static atomic_long count;
static long at = -1;
static const char *mark;
static int refused(void) {
    if (at < 0) { const char *text = getenv("REFUSE_AT"); mark = getenv("REFUSE_MARK"); at = text ? atol(text) : 0; }
    if (at == 0 || atomic_fetch_add(&count, 1) + 1 != at) return 0;
    if (mark) close(open(mark, O_CREAT | O_WRONLY, 0600));
    errno = ENOMEM;
    return 1;
}
void *malloc(size_t n) { static void *(*real)(size_t); if (!real) real = dlsym(RTLD_NEXT, "malloc"); return refused() ? NULL : real(n); }
void *realloc(void *p, size_t n) { static void *(*real)(void *, size_t); if (!real) real = dlsym(RTLD_NEXT, "realloc"); return refused() ? NULL : real(p, n); }
int posix_memalign(void **p, size_t a, size_t n) { static int (*real)(void **, size_t, size_t); if (!real) real = dlsym(RTLD_NEXT, "posix_memalign"); return refused() ? ENOMEM : real(p, a, n); }
void *aligned_alloc(size_t a, size_t n) { static void *(*real)(size_t, size_t); if (!real) real = dlsym(RTLD_NEXT, "aligned_alloc"); return refused() ? NULL : real(a, n); }
"""
SETUP = (
    "schema packet\nindex s src\nindex p dport\nfilter f len>60\naggregate a f len\ntrigger t a sum > 100\n"
    "ask x find s 10.0.0.0 10.255.255.255\nask y between f 0 9\nask z measure a 0 9\nask w fired t\nask l list dport==53\ntally u src len *\nask h top u sum 2\nask o total len len>60\nlive x\nlive w\nlive l\n"
)
RECORD_SETUP = "schema records ts:u64,src:u32,len:u32\nindex s src\nask a find s 10.0.0.0 10.0.0.255\nask b list len>100 || src==10.0.0.2\nlive a\n"
RECORDS = "ts,src,len\n0,10.0.0.1,100\n0,10.0.0.2,70\n0,10.0.0.1,20\n0,10.0.0.3,170\n"


def frames():
    for num in range(8):
        link = bytes([2, 0, 0, 0, 0, 1, 2, 0, 0, 0, 0, 2]) + b"\x08\x00"
        yield link + struct.pack(">BBHIBBHII", 0x45, 0, 60, 0, 64, 17, 0, 0x0A000000 + num % 3, 0x0A000100) + struct.pack(">HHHH", 4000, 53, 40, 0)


def pieces():
    """A capture, as it comes: its header, and each packet."""
    yield struct.pack("<IHHIIII", 0xA1B2C3D4, 2, 4, 0, 0, 65535, 1)
    for k, frame in enumerate(frames()):
        yield struct.pack("<IIII", k, 0, len(frame), len(frame) + k) + frame


def pcap():
    return b"".join(pieces())


def block(kind, body):
    body += bytes(-len(body) % 4)
    return struct.pack("<II", kind, len(body) + 12) + body + struct.pack("<I", len(body) + 12)


def pcapng():
    head = block(0x0A0D0D0A, struct.pack("<IHHq", 0x1A2B3C4D, 1, 0, -1)) + block(1, struct.pack("<HHI", 1, 0, 0))
    return head + b"".join(block(6, struct.pack("<IIIII", 0, 0, k, len(f), len(f)) + f) for k, f in enumerate(frames()))


CASES = {
    "run with lanes, live questions, two writers": ["run", "--setup", "setup", "--writers", "2", "--capacity", "64", "--nodes", "64", "--live", "1", "pcap"],
    "synth of 20 packets, two writers": ["synth", "--setup", "setup", "--seed", "1", "--count", "20", "--writers", "2", "--capacity", "64", "--nodes", "256"],
    "snapshot over two hosts": ["snapshot", "--setup", "setup", "--after", "5", "--turn", "2", "--capacity", "64", "--nodes", "256", "pcap", "pcapng"],
    "dump of a classic capture": ["dump", "pcap"],
    "dump of a pcapng capture": ["dump", "pcapng"],
    "watch, a segment beside the reads": ["watch", "--setup", "setup", "--capacity", "3", "--segments", "2", "--nodes", "2048", "--every", "2", "/dev/stdin"],
    "watch, small segments": ["watch", "--setup", "setup", "--capacity", "2", "--segments", "2", "--nodes", "256", "--every", "2", "/dev/stdin"],
    "run over a record file": ["run", "--setup", "records.setup", "--writers", "2", "--capacity", "64", "--nodes", "64", "--live", "1", "records"],
}


def is_stream(words):
    return words[-1] == "/dev/stdin"


def feed(process, pieces):
    """Writes each piece once the one before was read, until the process ends."""
    try:
        for piece in pieces:
            process.stdin.write(piece)
            while process.poll() is None and any(fcntl.ioctl(process.stdin, termios.FIONREAD, bytes(4))):
                time.sleep(0.0002)
    except BrokenPipeError:
        pass


def one(folder, words, at, library):
    mark = folder / "mark"
    mark.unlink(missing_ok=True)
    environment = dict(os.environ, LD_PRELOAD=str(library), REFUSE_AT=str(at), REFUSE_MARK=str(mark))
    streams = {"stdin": subprocess.PIPE, "stdout": subprocess.PIPE, "stderr": subprocess.DEVNULL, "bufsize": 0}
    with subprocess.Popen([PROGRAM, *words], cwd=folder, env=environment, **streams) as process:
        if is_stream(words):
            feed(process, pieces())
        text, _ = process.communicate(timeout=60)
    return process.returncode, text, mark.exists()


def is_good(words, status, text, whole):
    """Whether a run of which an allocation was refused ended as it may."""
    if is_stream(words):
        return (status == 8 and whole.startswith(text)) or (status == 0 and text == whole)
    return (status == 8 and text == b"") or (status == 0 and final_part(text) == final_part(whole))


def final_part(text):
    """What doesn't depend on how threads run: the lines from `records` to the last alert."""
    lines = text.decode().split("\n")
    return [line for line in lines if line.startswith(("records", "ask", "alert", "cut", "host"))]


def check(folder, name, words, library):
    status, whole, _ = one(folder, words, 0, library)
    if status != 0:
        sys.exit(f"{name}: status {status} where nothing is refused")
    counts = {8: 0, 0: 0}
    at = 1
    while True:
        status, text, hit = one(folder, words, at, library)
        if not hit:
            break
        if not is_good(words, status, text, whole):
            sys.exit(f"{name}: allocation {at} refused: status {status}, {text[:200]!r}")
        counts[status] += 1
        at += 1
    print(f"{name:<45} {at - 1:>5} allocations: {counts[8]} times status 8, {counts[0]} times status 0")


def main():
    wanted = sys.argv[1:]
    with tempfile.TemporaryDirectory() as name:
        folder = pathlib.Path(name)
        (folder / "refuse.c").write_text(LIBRARY)
        library = folder / "refuse.so"
        subprocess.run(["cc", "-shared", "-fPIC", "-O1", "-o", library, folder / "refuse.c", "-ldl"], check=True)
        for file, content in [("setup", SETUP.encode()), ("records.setup", RECORD_SETUP.encode()), ("records", RECORDS.encode()), ("pcap", pcap()), ("pcapng", pcapng())]:
            (folder / file).write_bytes(content)
        for case, words in CASES.items():
            if not wanted or any(word in case for word in wanted):
                check(folder, case, words, library)


if __name__ == "__main__":
    main()
