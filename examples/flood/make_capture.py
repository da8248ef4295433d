#!/usr/bin/env python3
"""Writes flood.pcap, the same bytes at each run: `examples/flood/make_capture.py [FILE]`."""

import pathlib
import struct
import sys

sys.dont_write_bytecode = True
sys.path.insert(0, str(pathlib.Path(__file__).resolve().parent.parent / "incidents"))

import make_captures  # noqa: E402

RESOLVER, CLIENTS = "192.0.2.53", range(20, 35)
# How often each client asks in each second, and which of them ask 24 times more.
EACH = (2, 2, 4, 2, 2, 2, 2, 4, 2, 2)
FLOODS = {4: 27, 5: 27, 6: 27, 8: 31}


def capture():
    """Ten seconds of questions to a resolver from 15 clients, two of which flood it at times."""
    found = make_captures.Capture(1701003600)
    for second, times in enumerate(EACH):
        for client in CLIENTS:
            count = times + 24 * (FLOODS.get(second) == client)
            for at in range(count):
                name = make_captures.name_of(f"host{at % 5}.example.com")
                question = struct.pack(">HHHHHH", at, 0x0100, 1, 0, 0, 0) + name + struct.pack(">HH", 1, 1)
                moment = second * 10**6 + at * 10**6 // count + client * 997
                found.datagram(moment, f"192.0.2.{client}", 30000 + at * 31, RESOLVER, 53, question)
    return found.bytes()


def main():
    path = sys.argv[1] if len(sys.argv) > 1 else pathlib.Path(__file__).with_name("flood.pcap")
    pathlib.Path(path).write_bytes(capture())


if __name__ == "__main__":
    main()
