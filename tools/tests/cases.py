"""For every code of the specification a setup or capture that the program refuses with it."""

from __future__ import annotations

import struct

from support import block, enhanced, frame, interface, pcap, section

# The setup, the line and code of its first fault, and the place in that line.
PACKET = "schema packet\n"
LANES = (
    PACKET
    + "index i src\nfilter f *\naggregate a f len\ntally y src len *\ntrigger t a sum > 5\nask q list *\n"
)
BY_KEYS = PACKET + "filter f *\naggregate a f len by src\n"
SETUPS = (
    (PACKET + "ask a list\tlen>5\n", 2, 1, 10),
    (PACKET + "foo x\n", 2, 2, 0),
    ("", 1, 2, 0),
    ("# nothing\n\n", 3, 2, 0),
    ("ask q list *\n", 1, 2, 0),
    (PACKET + PACKET, 2, 2, 0),
    (PACKET + "width 5\nwidth 6\n", 3, 2, 0),
    (PACKET + "index i\n", 2, 3, 7),
    (PACKET + "index i src dst\n", 2, 3, 12),
    (PACKET + "index 9i src\n", 2, 3, 6),
    (PACKET + "ask q foo x\n", 2, 3, 6),
    ("schema foo\n", 1, 3, 7),
    ("schema packet6 x\n", 1, 3, 15),
    ("schema packet7\n", 1, 3, 7),
    (LANES + "trigger u a most > 5\n", 8, 3, 12),
    (LANES + "trigger u a sum => 5\n", 8, 3, 16),
    ("schema records a:u9\n", 1, 4, 15),
    ("schema records len:u32\n", 1, 4, 15),
    ("schema records ts:u64,a:u8,a:u8\n", 1, 4, 27),
    (LANES + "  index i dst\n", 8, 5, 8),
    (LANES + "live q\nlive q\n", 9, 5, 5),
    (PACKET + "index i nosuch\n", 2, 6, 8),
    (PACKET + "index i src6\n", 2, 6, 8),
    ("schema packet6\nask x total src6 *\n", 2, 8, 12),
    (LANES + "aggregate b i len\n", 8, 6, 12),
    (LANES + "ask x fired u\n", 8, 6, 12),
    (LANES + "ask x find y 1 2\n", 8, 6, 11),
    (LANES + "live x\n", 8, 6, 5),
    (LANES + "ask x between f x 3\n", 8, 7, 16),
    (LANES + "ask x find i 1 10.0.0.256\n", 8, 7, 15),
    (LANES + "ask x top y sum 1001\n", 8, 7, 16),
    (PACKET + "width 0\n", 2, 7, 6),
    (PACKET + "index i dmac\n", 2, 8, 8),
    (LANES + "aggregate b f ts\n", 8, 8, 14),
    (LANES + "ask x total smac *\n", 8, 8, 12),
    (PACKET + "".join(f"index i{at} src\n" for at in range(17)), 18, 9, 0),
    (PACKET + "".join(f"ask q{at} list *\n" for at in range(33)), 34, 9, 0),
    (PACKET + "#" * 65536, 0, 9, 0),
    (PACKET + "ask q list len>\n", 2, 10, 15),
    (PACKET + "filter f\n", 2, 10, 8),
    (PACKET + "ask q list len==5 ttl==1\n", 2, 10, 18),
    (PACKET + "ask q list nope==1\n", 2, 11, 11),
    (PACKET + "ask q list len==5 && nope==1\n", 2, 11, 21),
    (PACKET + "ask q list dmac<0x020000000001\n", 2, 12, 15),
    (BY_KEYS + "aggregate b f len of src\n", 4, 3, 18),
    (BY_KEYS + "aggregate b f len by\n", 4, 3, 20),
    (BY_KEYS + "aggregate b f len by nosuch\n", 4, 6, 21),
    (BY_KEYS + "aggregate b f len by dmac\n", 4, 8, 21),
    (BY_KEYS + "ask m measure a 0 9\n", 4, 6, 14),
    (PACKET + "ask q list len=5\n", 2, 12, 14),
    (PACKET + "ask q list len not 5\n", 2, 10, 19),
    (PACKET + "ask q list len not == 5\n", 2, 12, 19),
    (PACKET + "ask q list dmac not in 1..2\n", 2, 12, 16),
    (PACKET + "ask q list len not in 6..5\n", 2, 13, 22),
    (PACKET + "ask q list dport==65536\n", 2, 13, 18),
    (PACKET + "ask q list len in 9..5\n", 2, 13, 18),
    (PACKET + "ask q list " + " || ".join(["len>1"] * 33) + "\n", 2, 14, 299),
)

WHOLE = pcap([(1, frame(1)), (2, frame(2)), (3, frame(3))])
LONG = struct.pack("<IIII", 4, 0, 262145, 262145)
BLOCKS = section() + interface()
# The capture, the record and code of its first fault, and the byte where it is.
CAPTURES = (
    (b"\x1f\x8b\x08\x00" + bytes(40), 0, 1, 0),
    (b"hello, world", 0, 1, 0),
    (WHOLE[:4] + b"\x02\x00\x03\x00" + WHOLE[8:], 0, 2, 4),
    (pcap([(1, frame())], link=276), 0, 3, 20),
    (WHOLE + LONG, 3, 4, len(WHOLE) + 8),
    (WHOLE[:-1], 2, 5, len(WHOLE) - 70),
    (WHOLE[:10], 0, 5, 10),
    (b"", 0, 5, 0),
    (section()[:8] + b"\0\0\0\0" + section()[12:], 0, 21, 8),
    (section(major=2) + interface(), 0, 22, 12),
    (section() + interface(105) + enhanced(frame()), 0, 23, 28 + 20 + 8),
    (BLOCKS + enhanced(frame()) + enhanced(bytes(262148)), 1, 24, 48 + 88 + 20),
    (BLOCKS + enhanced(frame()) + enhanced(frame())[:-4], 1, 25, 48 + 88),
    (BLOCKS + enhanced(frame()) + struct.pack("<II", 6, 30), 1, 27, 48 + 88 + 4),
    (BLOCKS + enhanced(frame()) + enhanced(frame(), captured=60), 1, 27, 48 + 88 + 20),
    (BLOCKS + enhanced(frame()) + enhanced(frame())[:-4] + b"abcd", 1, 27, 48 + 2 * 88 - 4),
    (BLOCKS + enhanced(frame()) + enhanced(frame(), number=1), 1, 28, 48 + 88 + 8),
    (section() + block(3, struct.pack("<I", 5)), 0, 28, 28 + 8),
)
RECORDS = "schema records ts:u64,src:u32,len:u16\nask big list len>100\n"
# The CSV file, the record and code of its first fault, and the byte where that record begins.
CSVS = (
    (b"\n\n", 0, 11, 0),
    (b"ts,len,src\n1,2,3\n", 0, 12, 0),
    (b"ts,src,len\n1,10.0.0.1,60\n2,10.0.0.2\n", 1, 13, 25),
    (b'ts,src,len\n1,10.0.0.1,60\n2,"10.0.0.2",65536\n', 1, 14, 25),
    (b"ts,src,len\n" + b"1,2,3\n" * (2**24 // 6), 0, 15, 2**24),
)
