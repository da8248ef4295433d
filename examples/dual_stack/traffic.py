"""Peers of make_capture.sh: `serve` answers, `ask` asks, scans and aborts, `repeat` sends segments again."""

import http.server
import socket
import struct
import sys
import threading
import time

IPV4, IPV6 = socket.AF_INET, socket.AF_INET6
UDP, TCP = socket.SOCK_DGRAM, socket.SOCK_STREAM


class Web(http.server.ThreadingHTTPServer):
    address_family = IPV6


def resolve(family, address):
    with socket.socket(family, UDP) as names:
        names.bind((address, 53))
        while True:
            data, peer = names.recvfrom(2000)
            names.sendto(data[:2] + b"\x81\x80" + data[4:] + bytes(60), peer)


def serve():
    for it in ((IPV4, "10.77.0.3"), (IPV6, "fd77::3")):
        threading.Thread(target=resolve, args=it).start()
    Web(("::", 8080), http.server.SimpleHTTPRequestHandler).serve_forever()


def look_up(family, address, count):
    with socket.socket(family, UDP) as names:
        for at in range(count):
            names.sendto(
                struct.pack(">HHQ", at, 0x100, 1 << 48) + b"\3www\7example\3org\0\0\1\0\1", (address, 53)
            )
            names.recv(2000)
            time.sleep(0.02)


def scan(family, address, ports):
    for it in ports:
        with socket.socket(family, TCP) as one:
            one.settimeout(0.05)
            one.connect_ex((address, it))


def abort(family, address):
    with socket.socket(family, TCP) as one:
        one.connect((address, 8080))
        one.send(b"GET /")
        one.setsockopt(socket.SOL_SOCKET, socket.SO_LINGER, struct.pack("ii", 1, 0))


def ask():
    look_up(IPV4, "10.77.0.3", 8)
    look_up(IPV6, "fd77::3", 5)
    scan(IPV4, "10.77.0.4", [*range(20, 70), 8080])
    time.sleep(1.1)
    scan(IPV6, "fd77::4", range(20, 50))
    for _ in range(4):
        abort(IPV4, "10.77.0.2")
        abort(IPV6, "fd77::2")
    time.sleep(0.5)
    tried = []
    for at in range(20):
        one = socket.socket(IPV4 if at % 4 else IPV6, TCP)
        one.setblocking(False)
        one.connect_ex(("10.77.0.88" if at % 4 else "fd77::88", 443))
        tried.append(one)
        time.sleep(0.01)
    time.sleep(1.5)


def segment(seq):
    head = struct.pack(">BBHHHBBH", 0x45, 0, 240, 1, 0, 64, 6, 0) + bytes([10, 77, 0, 1, 10, 77, 0, 5])
    tcp = struct.pack(">HHIIBBHI", 45000, 9000, seq, 1, 0x50, 0x18, 500, 0)
    return bytes.fromhex("020000007702 020000007701 0800") + head + tcp + b"a" * 200


def repeat():
    with socket.socket(socket.AF_PACKET, socket.SOCK_RAW) as link:
        link.bind(("v0", 0))
        for seq in (1000, 1000, 1000, 1200, 1200, 1200, 1400, 1400, 1400, 1600):
            link.send(segment(seq))


{"serve": serve, "ask": ask, "repeat": repeat}[sys.argv[1]]()
