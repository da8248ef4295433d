#!/usr/bin/env python3
"""Damaged captures, setups, record files and words, drawn from a seed, and what the program says of each.

Run it from anywhere after `make run` has built the program:

    bench/damage.py [CASES] [SEED]

It draws CASES cases (default 1,000): files with flipped bits, cut, inserted, repeated and overwritten bytes, and
lengths and counts set to extremes. Each is given to the program. It fails on a signal, on a status above 9, on a text that is
not the status's, on a run of over 10 seconds, and where a dump, of either capture format, is not the one that plain.py reads
there. `dump --schema packet6` and `--truncated` are drawn too if the program takes them. It is not part of the gate.
"""

import concurrent.futures
import functools
import os
import pathlib
import random
import re
import struct
import subprocess
import sys
import tempfile

sys.dont_write_bytecode = True

import plain  # noqa: E402

PROGRAM = pathlib.Path(os.environ.get("CONFLUO", pathlib.Path(__file__).parent.parent / "crates/confluo/out/confluo"))
SECONDS = 10
EXTREMES = [0, 1, 2, 0x7F, 0x80, 0xFF, 0x7FFF, 0x8000, 0xFFFF, 0x40000, 0x40001, 0x7FFFFFFF, 0x80000000, 0xFFFFFFFF]

SETUPS = [
    b"schema packet\nask all list *\n",
    b"schema packet\nwidth 1000\nindex s src\nindex p dport\nfilter f len>100 && proto==6\naggregate a f len\n"
    b"trigger t a sum > 1000\nask x find s 10.0.0.0 10.255.255.255\nask y between f 0 99999999\nask z measure a 0 5000000\n"
    b"ask w fired t\nlive x\nlive w\n",
    b"schema packet\ntally s src len *\ntally p dport ttl proto==6\nask h top s sum 3\nask g top p count 1000\nask w total len len>60\nlive h\nlive w\n",
    b"schema packet\nwidth 9223372036854775808\nfilter f *\naggregate a f ttl\nask m measure a 0 1\nlive m\n",
]
WIDE = sorted(plain.LINKS["packet6"])
RECORD_SETUPS = [
    b"schema records ts:u64,dport:u16,len:u32,proto:u8\nindex d dport\nask a find d 0 65535\nask f list dport==80 && len>100 || proto==17\n",
    b"schema records ts:u64,mac:b6,src:u32\nindex s src\nask a list mac==0x020000000001\nask b find s 10.0.0.0 0xffffffff\nlive b\n",
]
RECORDS = [
    b"ts,dport,len,proto\n0,80,101,6\n0,80,100,6\n0,53,60,17\n0,80,200,17\n0,443,500,6\n",
    b'ts,mac,src\r\n1,0x020000000001,10.0.0.1\r\n"2",0x020000000002,167772162\r\n3,0xFFFFFFFFFFFF,0xff\r\n',
]
TEXTS = {
    1: rb"words: not a command\n",
    2: rb"setup: line \d+ code \d+\n",
    3: rb"capture: record \d+ code \d+\n",
    4: rb"",
    5: rb"(?s).*",
    6: rb"full: more than \d+ records\n",
    7: rb"nodes: more than \d+ nodes\n",
    8: rb"",
    9: rb"file: none of that name\n",
}


def frame(draw):
    """An Ethernet frame, whole or cut, of IPv4, ARP or something else, sometimes with a tag."""
    link = bytes([2, 0, 0, 0, 0, 1, 2, 0, 0, 0, 0, 2])
    if draw.random() < 0.3:
        link += b"\x81\x00" + struct.pack(">H", draw.randrange(65536))
    if draw.random() < 0.3:
        return frame6(draw, link)
    kind = draw.choice([b"\x08\x00", b"\x08\x00", b"\x08\x00", b"\x08\x06", b"\x86\xdd", b"\x81\x00"])
    header = struct.pack(">BBHHHBBHII", draw.choice([0x45, 0x46, 0x4F, 0x65, 0x44]), 0, draw.choice([0, 20, 40, 60, 1500]), 0,
                         draw.choice([0, 0, 0x4000, 1, 0x2000]), 64, draw.choice([6, 17, 1]), 0, 0x0A000000 + draw.randrange(16), 0x0A000100)
    bytes_ = link + kind + header + draw.randbytes(draw.choice([0, 4, 8, 19, 20, 40]))
    return bytes_[: draw.randrange(len(bytes_) + 1)] if draw.random() < 0.2 else bytes_


def frame6(draw, link):
    """A frame of IPv6 with up to nine headers before its transport, whole or cut."""
    kinds = [draw.choice([0, 43, 44, 51, 60, 0, 60]) for _ in range(draw.choice([0, 0, 1, 2, 7, 8, 9]))]
    kinds.append(draw.choice([6, 17, 58, 59]))
    headers = b""
    for kind, following in zip(kinds, kinds[1:]):
        units = draw.choice([0, 0, 0, 1, 2])
        size = 8 if kind == 44 else 4 * (units + 2) if kind == 51 else 8 * (units + 1)
        offset = draw.choice([0, 0, 0, 8, 1]) if kind == 44 else 0
        headers += (struct.pack(">BBH", following, units, offset) + bytes(4)).ljust(size, b"\0")
    data = headers + draw.randbytes(draw.choice([0, 7, 8, 19, 20, 40]))
    length = draw.choice([len(data), len(data), len(data), 0, max(len(data) - 1, 0), 65535])
    header = struct.pack(">IHBB", 6 << 28 | draw.randrange(2**28), length, kinds[0], 64) + draw.randbytes(32)
    bytes_ = link + b"\x86\xdd" + header + data
    return bytes_[: draw.randrange(len(bytes_) + 1)] if draw.random() < 0.2 else bytes_


def pcap(draw):
    """A file in the classic libpcap format 2.4, in one of its four forms."""
    order, magic = draw.choice("<>"), draw.choice([0xA1B2C3D4, 0xA1B23C4D])
    parts = [struct.pack(order + "IHHIIII", magic, 2, 4, 0, 0, 65535, draw.choice([1, 1, 1, 113, draw.choice(WIDE)]))]
    for num in range(draw.choice([0, 1, 2, 5, 30])):
        data = frame(draw)
        parts.append(struct.pack(order + "IIII", num // 3, draw.randrange(2**20), len(data), len(data) + draw.randrange(100)) + data)
    return b"".join(parts)


def block(order, kind, body):
    """A block of a pcapng file."""
    body += bytes(-len(body) % 4)
    return struct.pack(order + "II", kind, len(body) + 12) + body + struct.pack(order + "I", len(body) + 12)


def pcapng(draw):
    """A file in the pcapng format: sections, interfaces, packets and blocks that are passed over."""
    parts = []
    for _ in range(draw.choice([1, 1, 2])):
        order = draw.choice("<>")
        parts.append(block(order, 0x0A0D0D0A, struct.pack(order + "IHHq", 0x1A2B3C4D, 1, 0, -1)))
        interfaces = draw.choice([1, 2])
        for _ in range(interfaces):
            options = b""
            if draw.random() < 0.5:
                options = struct.pack(order + "HHB3xHH", 9, 1, draw.choice([0, 3, 6, 9, 0x8A, 29, 127]), 0, 0)
            parts.append(block(order, 1, struct.pack(order + "HHI", draw.choice([1, 1, 113, draw.choice(WIDE)]), 0, draw.choice([0, 64])) + options))
        for _ in range(draw.choice([0, 1, 4, 20])):
            data = frame(draw)
            case = draw.random()
            if case < 0.6:
                head = struct.pack(order + "IIIII", draw.randrange(interfaces), draw.randrange(2**20), draw.randrange(2**32), len(data), len(data))
                parts.append(block(order, 6, head + data))
            elif case < 0.8:
                parts.append(block(order, 3, struct.pack(order + "I", len(data)) + data))
            else:
                parts.append(block(order, draw.choice([5, 10, 0x80000001]), draw.randbytes(draw.randrange(60))))
    return b"".join(parts)


def damaged(draw, data):
    """The bytes after up to four changes."""
    data = bytearray(data)
    for _ in range(draw.choice([0, 1, 1, 1, 2, 4])):
        if not data:
            break
        at = draw.randrange(len(data))
        change = draw.randrange(7)
        if change == 0:
            data[at] ^= 1 << draw.randrange(8)
        elif change == 1:
            del data[at:]
        elif change == 2:
            data[at:at] = draw.randbytes(draw.choice([1, 2, 4, 16]))
        elif change == 3:
            data[at:at] = data[at : at + draw.randrange(64)] * draw.choice([1, 2, 100])
        elif change == 4:
            del data[at : at + draw.choice([1, 2, 4, 16])]
        elif change == 5:
            size = draw.choice([2, 4])
            data[at : at + size] = draw.choice(EXTREMES).to_bytes(4, draw.choice(["little", "big"]))[:size]
        else:
            data[at] = draw.choice(b'\x00\n\r ",0189azAZ=<>!&|*./#\xff')
    return bytes(data)


@functools.cache
def is_taken(*words):
    """Whether the program takes these words of a dump."""
    with tempfile.NamedTemporaryFile() as file:
        ran = subprocess.run([PROGRAM, "dump", *words, file.name], stdout=subprocess.DEVNULL)
    return ran.returncode != 1


def dump_of(draw, capture):
    """A dump of the capture, and the status and text that it must have."""
    schema = draw.choice(["packet", "packet6"])
    truncated = draw.random() < 0.5
    if schema == "packet6" and not is_taken("--schema", "packet6"):
        schema = "packet"
    truncated = truncated and is_taken("--truncated")
    words = ["dump"] + (["--schema", schema] if schema != "packet" else []) + ["--truncated"] * truncated
    status, text = plain.dump(capture, schema, truncated)
    return [*words, "c"], b"", capture, (status, text.encode())


def case_of(draw):
    """The command and the files of a case, with the status and text that a dump must have."""
    source = draw.randrange(10)
    if source < 4:
        capture = damaged(draw, pcap(draw))
        if draw.random() < 0.5:
            return dump_of(draw, capture)
        setup = draw.choice(SETUPS)
    elif source < 7:
        capture, setup = damaged(draw, pcapng(draw)), draw.choice(SETUPS)
        if draw.random() < 0.5:
            return dump_of(draw, capture)
    elif source < 8:
        capture, setup = pcap(draw), damaged(draw, draw.choice(SETUPS + RECORD_SETUPS))
    else:
        which = draw.randrange(2)
        capture, setup = damaged(draw, RECORDS[which]), RECORD_SETUPS[which]
    if draw.random() < 0.02:
        return ["synth", "--setup", "s", "--seed", str(draw.choice([0, 1, 2**64 - 1])), "--count", str(draw.randrange(200)),
                "--writers", str(draw.randrange(1, 16))], setup, capture, None
    if draw.random() < 0.1:
        return ["snapshot", "--setup", "s", "--after", str(draw.choice([0, 1, 5, 2**32 - 1])), "--turn", str(draw.choice([1, 3, 4096, 4097])),
                "--capacity", str(draw.choice([4, 65536])), "--nodes", str(draw.choice([8, 1024]))] + ["c"] * draw.choice([1, 2, 16, 17]), setup, capture, None
    words = ["run", "--setup", "s", "--writers", str(draw.choice([0, 1, 2, 4, 15, 16])), "--live", str(draw.choice([0, 1, 3])),
             "--capacity", str(draw.choice([1, 4, 65536])), "--nodes", str(draw.choice([0, 1, 8, 1024])), draw.choice(["c", "c", "c", "c", "x"])]
    return words, setup, capture, None


def fault_of(seed):
    """What is wrong with the program's answer to a case, if anything is, and its status."""
    words, setup, capture, expected = case_of(random.Random(seed))
    with tempfile.TemporaryDirectory() as folder:
        place = pathlib.Path(folder)
        (place / "s").write_bytes(setup)
        (place / "c").write_bytes(capture)
        try:
            ended = subprocess.run([PROGRAM, *words], cwd=folder, capture_output=True, timeout=SECONDS)
        except subprocess.TimeoutExpired:
            return f"seed {seed}: over {SECONDS} seconds: {words}", None
    status, text = ended.returncode, ended.stdout
    if status < 0 or status > 9:
        return f"seed {seed}: ended with {status}: {words}", status
    if ended.stderr:
        return f"seed {seed}: wrote to standard error: {words}", status
    if status == 0:
        if not re.match(rb"(records|cut) \d+\n", text) or not text.endswith(b"\n"):
            return f"seed {seed}: no report: {words}", status
    elif not re.fullmatch(TEXTS[status], text):
        return f"seed {seed}: status {status} with {text[:80]!r}: {words}", status
    if expected and (status, text) != expected:
        return f"seed {seed}: status {status} with {text[:80]!r} in place of {expected[0]} {expected[1][:80]!r}: {words}", status
    return None, status


def main():
    cases = int(sys.argv[1]) if len(sys.argv) > 1 else 1000
    first = int(sys.argv[2]) if len(sys.argv) > 2 else 1
    found, statuses = 0, {}
    with concurrent.futures.ProcessPoolExecutor() as pool:
        for fault, status in pool.map(fault_of, range(first, first + cases), chunksize=50):
            statuses[status] = statuses.get(status, 0) + 1
            if fault:
                found += 1
                print(fault)
    print(f"{cases} cases, {found} wrong; by status: {dict(sorted(statuses.items(), key=str))}")
    sys.exit(1 if found else 0)


if __name__ == "__main__":
    main()
