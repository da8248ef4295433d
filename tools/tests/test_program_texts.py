"""Setups, expressions and command lines as the built program takes them, by tables: which it takes, and the codes of the others."""

from __future__ import annotations

import unittest

from program_cases import MISSING, NO_COMMAND, Cases, empty

RECORDS = b"schema records ts:u64,src:u32,dport:u16,len:u32,dmac:b6\n"
COLUMNS = b"schema records ts:u64,src:u32,sport:u16,dport:u16,len:u32,ttl:u8,dmac:b6\nask q list "
# An aggregate by a key: only `trigger` and `groups` take it.
KEYED = b"filter f *\naggregate a f len by src\n"

# Lines behind RECORDS with the line and the code of their first fault; 0 and 0 if there is none.
LINES = (
    (b"index i\tsrc", 2, 1),
    (b"foo x", 2, 2),
    (b"schema packet", 2, 2),
    (b"width 5\nwidth 6", 3, 2),
    (b"index i", 2, 3),
    (b"index 1i src", 2, 3),
    (b"index i src x", 2, 3),
    (b"ask q foo len", 2, 3),
    (b"trigger t a mean > 3", 2, 3),
    (b"trigger t a sum in 3", 2, 3),
    (b"trigger t a sum not 3", 2, 3),
    (b"trigger t a sum not in 3..4", 2, 3),
    (b"index s src\nindex s src", 3, 5),
    (b"index s src\nask s list *", 3, 5),
    (b"ask q list *\nlive q\nlive q", 4, 5),
    (b"index i nosuch", 2, 6),
    (b"filter f *\naggregate a f len\nask q between a 1 2", 4, 6),
    (b"ask q find nosuch x y", 2, 6),
    (b"live q", 2, 6),
    (b"filter f *\nask q find f 1 2", 3, 6),
    (b"filter f *\naggregate a f len\nask q find a 1 2", 4, 6),
    (b"index i src\nask q between i 1 2", 3, 6),
    (b"index i src\naggregate a i len", 3, 6),
    (b"filter f *\ntrigger t f sum > 3", 3, 6),
    (b"filter f *\nask q between f x 3", 3, 7),
    (b"width 0", 2, 7),
    (b"width 9223372036854775809", 2, 7),
    (b"width 9223372036854775808", 0, 0),
    (b"width 0x00000000000000001", 2, 7),
    (b"index i dmac", 2, 8),
    (b"filter f *\naggregate a f ts", 3, 8),
    (b"filter f *\naggregate a f len x", 3, 3),
    (b"filter f *\naggregate a f len by", 3, 3),
    (b"filter f *\naggregate a f len on src", 3, 3),
    (b"filter f *\naggregate a f len By src", 3, 3),
    (b"filter f *\naggregate a f len by src x", 3, 3),
    (b"filter f *\naggregate a f len   by   src  ", 0, 0),
    (b"filter f *\naggregate a f len by ts", 0, 0),
    (b"filter f *\naggregate a f len by len", 0, 0),
    (b"filter f *\naggregate f f len by src", 3, 5),
    (b"filter f *\naggregate a g len by src", 3, 6),
    (b"filter f *\naggregate a f nosuch by src", 3, 6),
    (b"filter f *\naggregate a f len by nosuch", 3, 6),
    (b"filter f *\naggregate a f ts by nosuch", 3, 6),
    (b"filter f *\naggregate a f ts by src", 3, 8),
    (b"filter f *\naggregate a f len by dmac", 3, 8),
    (KEYED + b"trigger t a sum > 3\nask q fired t\nlive q", 0, 0),
    (KEYED + b"ask q groups a\nlive q", 0, 0),
    (KEYED + b"ask q measure a 0 9", 4, 6),
    (KEYED + b"ask q between a 0 9", 4, 6),
    (KEYED + b"ask q find a 0 9", 4, 6),
    (KEYED + b"ask q top a sum 2", 4, 6),
    (KEYED + b"aggregate b a len", 4, 6),
    (KEYED + b"aggregate b a len by src", 4, 6),
    (KEYED + b"aggregate a f len", 4, 5),
    (b"filter f *\n" + b"".join(b"aggregate a%d f len by src\n" % k for k in range(16)), 18, 9),
    (b"tally t src len *", 0, 0),
    (b"tally t ts len *", 0, 0),
    (b"tally t src", 2, 3),
    (b"tally t src nosuch *", 2, 6),
    (b"tally t dmac len *", 2, 8),
    (b"tally t src ts *", 2, 8),
    (b"tally t src dmac *", 2, 8),
    (b"tally t src len", 2, 10),
    (b"tally t src len *\nask q find t 1 2", 3, 6),
    (b"tally t src len *\naggregate a t len", 3, 6),
    (b"tally t src len *\ntrigger g t sum > 3", 3, 6),
    (b"tally t src len *\nask h top t mean 3", 3, 3),
    (b"tally t src len *\nask t top t sum 3", 3, 5),
    (b"index i src\nask h top i sum 2", 3, 6),
    (b"filter f *\naggregate a f len\nask h top a sum 2", 4, 6),
    (b"tally t src len *\nask h top t sum 0", 3, 7),
    (b"tally t src len *\nask h top t sum 1", 0, 0),
    (b"tally t src len *\nask h top t sum 1000", 0, 0),
    (b"tally t src len *\nask h top t sum 1001", 3, 7),
    (b"tally t src len *\nask h groups t", 0, 0),
    (b"filter f *\naggregate a f len\nask h groups a", 0, 0),
    (b"filter f *\naggregate a f len\nask h groups f", 4, 6),
    (b"index i src\nask h groups i", 3, 6),
    (b"tally t src len *\nask h groups", 3, 3),
    (b"tally t src len *\nask h groups t 3", 3, 3),
    (b"tally t src len *\nask t groups t", 3, 5),
    (b"ask t total len len<=70", 0, 0),
    (b"ask t total", 2, 3),
    (b"ask t total nosuch *", 2, 6),
    (b"ask t total ts *", 2, 8),
    (b"ask t total dmac *", 2, 8),
    (b"ask t total len", 2, 10),
    (b"ask t total len len==4294967296", 2, 13),
    (b"filter f", 2, 10),
    (b"ask q list len>", 2, 10),
    (b"ask q list nope==1", 2, 11),
    (b"ask q list dmac<0x020000000001", 2, 12),
    (b"ask q list dmac not in 1..2", 2, 12),
    (b"ask q list len not 5", 2, 10),
    (b"ask q list len not == 5", 2, 12),
    (b"ask q list src not in 10.0.0.0/8", 0, 0),
    (b"ask q list dport==65536", 2, 13),
    (b"ask q list len==4294967295", 0, 0),
    (b"ask q list len==4294967296", 2, 13),
    (b"index s src\nask q find s 10.0.0.1 5", 0, 0),
    (b"index s src\nindex s nosuch", 3, 5),
    (b"ask q list dport==65536\nfoo", 2, 13),
)
# Whole setups, likewise.
SETUPS = (
    (b"", 1, 2),
    (b"\n", 2, 2),
    (b"# a\tb\r\n  # c\n\n  schema   packet  \r\nask q list len>=100\n", 0, 0),
    (b"schema packet\r", 1, 1),
    (b"schema packet x", 1, 3),
    (b"schema packet6", 0, 0),
    (b"schema packet6 x", 1, 3),
    (b"schema packet66", 1, 3),
    (b"schema packet6\nschema packet", 2, 2),
    (b"schema packet6\nindex a src6\nindex b src6_low\nindex c dst6\nindex d dst6_low", 0, 0),
    (b"schema packet6\nindex a src\nask q find a 1 2", 0, 0),
    (b"schema packet6\nindex a src6_high", 2, 6),
    (b"schema packet\nindex a src6", 2, 6),
    (b"schema packet6\nask q total src6 *", 2, 8),
    (
        b"schema records ts:u64,b:u8,c:u8,d:u8,e:u8,f:u8,g:u8,h:u8,i:u8,j:u8,k:u8,l:u8"
        b",m:u8,n:u8,o:u8,p:u8,q:u8,r:u8,s:u8,t:u8,u:u8,v:u8,w:u8,x:u8",
        0,
        0,
    ),
    (
        b"schema records ts:u64,b:u8,c:u8,d:u8,e:u8,f:u8,g:u8,h:u8,i:u8,j:u8,k:u8,l:u8"
        b",m:u8,n:u8,o:u8,p:u8,q:u8,r:u8,s:u8,t:u8,u:u8,v:u8,w:u8,x:u8,y:u8",
        1,
        4,
    ),
    (b"schema foo", 1, 3),
    (b"width 5\nschema packet", 1, 2),
    (b"schema records a:u9", 1, 4),
    (b"schema records ts:u64, a:u8", 1, 3),
    (b"schema records ts:u64,a:b16", 0, 0),
    (b"schema packet\nindex a2345678901234567890123456789012 len", 0, 0),
    (b"schema packet\nindex a23456789012345678901234567890123 len", 2, 3),
)
# Expressions.
EXPRESSIONS = (
    b"*",
    b" * ",
    b"len>=100",
    b"len==4294967295",
    b"dport==65535",
    b"ts==18446744073709551615",
    b"ts==0xfffffffffffffffF",
    b"src==10.0.0.1",
    b"len==10.0.0.1",
    b"dmac==0x020000000001",
    b"len in 5..5",
    b"len in 10.0.0.0/8",
    b"src in 10.0.0.0/0 ",
    b"src in 10.0.0.0/008",
    b"src not in 10.0.0.0/8",
    b"len not in 5..6",
    b"len  not   in 5..6",
    b"len==5&&ttl==1",
    b"len not in 5..6&&src not in 10.0.0.0/8 || ttl==1",
    b"dport==80 && len>100 || ttl==17",
    b"  len  ==  5  &&  len  in  1..2  ",
)
# What are none, with the code.
OTHERS = (
    (b"", 10),
    (b"   ", 10),
    (b"**", 10),
    (b"* *", 10),
    (b" * len==1", 10),
    (b"len==5 && *", 10),
    (b"Len==5", 10),
    (b"\tlen==5", 10),
    (b"len ==\t5", 10),
    (b"nope==1", 11),
    (b"lenin 5..6", 11),
    (b"len==5 && nope==1 && len=5", 11),
    (b"len", 10),
    (b"len 5", 10),
    (b"len In 5", 10),
    (b"len=5", 12),
    (b"len===5", 12),
    (b"len=!5", 12),
    (b"len is 5", 12),
    (b"len in5..6", 12),
    (b"dmac<0x020000000001", 12),
    (b"dmac in 1..2", 12),
    (b"len>", 10),
    (b"len in 5", 10),
    (b"len==1..2", 10),
    (b"len in.5", 10),
    (b"len in 1...5", 10),
    (b"len in 1..5..6", 10),
    (b"len in 1 .. 5", 10),
    (b"len in ..5", 10),
    (b"src==10.0.0.1000", 10),
    (b"src==10.0.0", 10),
    (b"src in 10.0.0.0/", 10),
    (b"src in 10.0.0.0/8..5", 10),
    (b"src in 10.0.0.0/000000000000000000008", 10),
    (b"src in 99999999999999999999..0x", 10),
    (b"ts==000018446744073709551615", 10),
    (b"ts==0Xff", 10),
    (b"ts==0x", 10),
    (b"len not", 10),
    (b"len not  ", 10),
    (b"len not 5", 10),
    (b"len not In 5..6", 10),
    (b"len not == 5", 12),
    (b"len not==5", 12),
    (b"len not not in 5..6", 12),
    (b"len not in5..6", 12),
    (b"len notin 5..6", 12),
    (b"len in not 5..6", 10),
    (b"not len in 5..6", 11),
    (b"nope not in 5..6", 11),
    (b"dmac not in 1..2", 12),
    (b"dmac not 5", 12),
    (b"len not in", 10),
    (b"len not in 5", 10),
    (b"len not in 5 .. 6", 10),
    (b"len not in 6..5", 13),
    (b"sport not in 10.0.0.0/8", 13),
    (b"len not in 5..6 7", 10),
    (b"dport==65536", 13),
    (b"dport==10.0.0.1", 13),
    (b"len==4294967296", 13),
    (b"ts==18446744073709551616", 13),
    (b"ts==0x0000000000000000f", 13),
    (b"len==10.0.0.256", 13),
    (b"dmac==5", 13),
    (b"len in 9..5", 13),
    (b"src in 10.0.0.0/33", 13),
    (b"src in 10.0.0.256/8", 13),
    (b"sport in 10.0.0.0/8", 13),
    (b"len==5 ttl==1", 10),
    (b"len==5&ttl==1", 10),
    (b"len==5 &&", 10),
    (b"len==5||||ttl==1", 10),
    (b"len==5_", 10),
)
# Lists of attributes, and whether they are a schema.
SCHEMAS = (
    ("ts:u64", True),
    ("a:u9", False),
    ("a:u8", False),
    ("ts:u64,ts:u64", False),
    ("ts:u64,", False),
    ("ts:u64,,a:u8", False),
    ("ts:u64, a:u8", False),
    ("ts:u64,a:b0", False),
    ("ts:u64,a:b01", False),
    ("ts:u64,a:b1,b:u8,c:u16,d:u32", True),
    ("ts:u64,a:b16", True),
    ("ts:u64,a:b17", False),
    ("ts:u64,a234567890123456:u8", True),
    ("ts:u64,a2345678901234567:u8", False),
)
# Command lines, of which no file is there.
COMMANDS = (
    "run --setup s c",
    "run c --capacity 4 --setup s",
    "run --nodes=0 --setup=s --writers=1 c --live=64",
    "synth --setup s --seed 18446744073709551615 --count 65536",
    "synth --setup s --seed 1 --count 1048576 --segments 16",
    "dump c",
    "snapshot --setup s --after 0 c",
    "snapshot a b --turn 4096 --setup s c --after 4294967295 --capacity 1 --nodes 0",
    "snapshot --setup s --after 1 a b c d e f g h i j k l m n o p",
    "run --truncated --setup s c",
    "dump --truncated c",
    "dump --schema packet c",
    "dump c --schema=packet6 --truncated",
    "snapshot --setup s --truncated --after 0 c d",
    "watch --setup s c",
    "watch c --every 0 --nodes 0 --segments 1 --capacity 1 --setup s",
    "watch --setup=s --every=4294967295 --segments=16 --capacity=65536 --nodes=65536 c",
    "watch --setup s --truncated c",
    "watch --setup s --capacity 4097 --segments 255 c",
    "run --long --setup s c",
    "run --setup s --long c c c",
    "run c d --setup=s --long",
    "run a b --writers 15 c --long --nodes 0 d --truncated --capacity 1 --setup s",
    "run --nodes=65536 --writers=1 --long --capacity=65536 --setup=s c",
    "run --long --setup s --capacity 4097 c",
    "run --long 1 --setup s",
    "run --setup s c",
    "run --setup s c --segments 16",
    "run --setup s c --capacity 4096 --segments 256",
    "run --setup s c --capacity 4097 --segments 1",
    "synth --setup s --seed 1 --count 1 --segments 2",
    "snapshot --setup s --after 1 c",
    "run --setup s --long c",
    "run --setup s --long --capacity 4097 c d",
)
# Words that are none.
NO_COMMANDS = (
    "run c",
    "run --setup s",
    "synth --setup s --seed 18446744073709551616 --count 1",
    "synth --setup s --seed 1 --count 1048577",
    "synth --setup s --seed 1 --count 1 c",
    "synth --setup s --count 1",
    "dump",
    "dump c d",
    "dump --setup s c",
    "dump --help",
    "snapshot --setup s --after 1 a b c d e f g h i j k l m n o p q",
    "snapshot --setup s --after 1",
    "snapshot --setup s c",
    "snapshot --after 1 c",
    "snapshot --setup s --after 4294967296 c",
    "snapshot --setup s --after 1 --turn 0 c",
    "snapshot --setup s --after 1 --turn 4097 c",
    "snapshot --setup s --after 1 --writers 1 c",
    "run --setup s --setup t c",
    "run --setup s c --truncated --truncated",
    "run --setup s c --truncated=true",
    "run --setup s c --truncated true",
    "--truncated run --setup s c",
    "synth --setup s --seed 1 --count 1 --truncated",
    "dump --truncated",
    "dump c --truncated d",
    "dump --schema packet7 c",
    "dump --schema Packet6 c",
    "dump --schema= c",
    "dump --schema records c",
    "dump --schema packet6",
    "dump --schema packet --schema packet6 c",
    "run --setup s --schema packet6 c",
    "snapshot --setup s --after 0 --schema packet6 c",
    "watch --setup s --segments 17 c",
    "watch --setup s --capacity 4097 --segments 256 c",
    "watch --setup s --segments 0 c",
    "watch --setup s --segments 257 --capacity 1 c",
    "watch --setup s --capacity 0 c",
    "watch --setup s --capacity 65537 --segments 1 c",
    "watch --setup s --nodes 65537 c",
    "watch --setup s --every 4294967296 c",
    "watch --setup s --beat 4294967296 c",
    "watch --setup s --beat c",
    "run --setup s --beat 1 c",
    "watch --setup s --every 01 c",
    "watch --setup s --writers 1 c",
    "watch --setup s --live 1 c",
    "watch --setup s",
    "watch --setup s c d",
    "watch c",
    "run --setup s c --writers=16",
    "run --setup s c --writers=0",
    "run --setup s c --live=65",
    "run --setup s c --help",
    "run --setup s c -h",
    "run --setup s c --other",
    "run --setup s c --capacity=+1",
    "run --setup s c --capacity=01",
    "run --setup s c --capacity=",
    "run --setup s c --capacity=0",
    "run --setup s c --capacity=65537",
    "run --setup s c --nodes=65537",
    "run --setup s c --nodes=18446744073709551616",
    "run --setup s c d",
    "run --long --segments 2 --setup s c",
    "run --long --segments 1 --setup s c",
    "run --long --live 0 --setup s c",
    "run --live=0 --setup s c --long",
    "run --long --long --setup s c",
    "run --long --setup s c --long",
    "run --long=1 --setup s c",
    "run --long=true --setup s c",
    "run --long= --setup s c",
    "run --long --setup s",
    "run --long c",
    "run --long --setup s --setup t c",
    "run --long --setup s --writers 0 c",
    "run --long --setup s --writers 16 c",
    "run --long --setup s --capacity 0 c",
    "run --long --setup s --capacity 65537 c",
    "run --long --setup s --capacity 01 c",
    "run --long --setup s --nodes 65537 c",
    "run --long --setup s --truncated --truncated c",
    "run --long --setup s --truncated=true c",
    "run --long --setup s --every 1 c",
    "run --long --setup s --beat 1 c",
    "run --long --setup s --schema packet6 c",
    "run --long --setup s --help c",
    "run --lon --setup s c",
    "run -long --setup s c",
    "--long run --setup s c",
    "synth --long",
    "synth --long --setup s --seed 1 --count 1",
    "dump --long c",
    "snapshot --long --setup s --after 0 c",
    "watch --long --setup s c",
    "run --setup s c --segments 17",
    "run --setup s c --segments 0",
    "run --setup s c --capacity 4096 --segments 257",
    "run --setup s c --capacity 8192 --segments 129",
    "run --setup s c --capacity 4097 --segments 2",
    "run --setup s c --capacity 2048 --segments 2",
    "snapshot --setup s --after 1 --segments 1 c",
    "run --setup s --long --segments 1 c",
)


class Texts(Cases):
    def judged(self, setup: bytes) -> tuple[int, int]:
        """The line and the code of the setup's first fault; 0 and 0 if there is none."""
        self.put(s=setup)
        status, text = self.answer(("run", "--setup", "s", "x"))
        if status == 9:
            return 0, 0
        self.assertEqual(status, 2, setup)
        word, *numbers = text.removesuffix("\n").replace(" code ", " ").removeprefix("setup: ").split()
        self.assertEqual(word, "line")
        return int(numbers[0]), int(numbers[1])

    def test_each_line_has_its_least_code(self) -> None:
        for lines, line, code in LINES:
            self.assertEqual(self.judged(RECORDS + lines), (line, code), lines)

    def test_the_schema_comes_first(self) -> None:
        for setup, line, code in SETUPS:
            self.assertEqual(self.judged(setup), (line, code), setup)
        for text, is_schema in SCHEMAS:
            line, code = self.judged(f"schema records {text}\n".encode())
            self.assertEqual((line, code in (3, 4)), (0, False) if is_schema else (1, True), text)

    def test_there_is_room_for_16_lanes_16_triggers_and_32_asks(self) -> None:
        front = RECORDS + b"filter f *\naggregate a f len\n"
        for count, first, last, line, code in (
            (14, "index ", " src\n", 0, 0),
            (15, "index ", " src\n", 18, 9),
            (15, "filter ", " len>\n", 4, 10),
            (14, "tally ", " src len *\n", 0, 0),
            (15, "tally ", " src len *\n", 18, 9),
            (16, "trigger ", " a sum > 5\n", 0, 0),
            (17, "trigger ", " a sum > 5\n", 20, 9),
            (32, "ask ", " measure a 1 2\n", 0, 0),
            (33, "ask ", " list *\n", 36, 9),
            (33, "ask ", " total len *\n", 36, 9),
        ):
            lines = "".join(f"{first}n{at}{last}" for at in range(count))
            self.assertEqual(self.judged(front + lines.encode()), (line, code), first)

    def test_expressions(self) -> None:
        for text in EXPRESSIONS:
            self.assertEqual(self.judged(COLUMNS + text + b"\n"), (0, 0), text)
        for text, code in OTHERS:
            # A tab is refused before the line is read.
            wanted = 1 if b"\t" in text else code
            self.assertEqual(self.judged(COLUMNS + text + b"\n"), (2, wanted), text)
        many = b"&&".join([b"ttl==1"] * 32)
        ranges = b"&&".join([b"ttl not in 1..2"] * 32)
        for text, code in (
            (many, 0),
            (many + b" && ttl==1", 14),
            (many + b" && nope==1", 14),
            (many + b" || ", 14),
            (many + b" || ?", 14),
            (many + b" ttl", 10),
            (ranges, 0),
            (ranges + b" || ttl not in 1..2", 14),
        ):
            self.assertEqual(self.judged(COLUMNS + text + b"\n"), (2 if code else 0, code), text)

    def test_expressions_select_rows(self) -> None:
        low, high = 10 << 24, (11 << 24) - 1
        rows = (
            (0, 0, 0),
            (low - 1, 0, 0),
            (low, 0, 0),
            (high, 0, 0),
            (high + 1, 0, 0),
            (1, 80, 4),
            (1, 80, 5),
            (1, 80, 6),
            (1, 80, 7),
            (1, 80, 100),
            (1, 80, 101),
            (7, 0, 0),
        )
        asks = (
            ("src in 10.200.3.4/8", "2: 2 3"),
            ("src in 10.0.0.0..10.255.255.255", "2: 2 3"),
            ("src not in 10.0.0.0/8", "10: 0 1 4 5 6 7 8 9 10 11"),
            ("dport==80 && len not in 5..6", "4: 5 8 9 10"),
            ("dport==80 && len>100 || src==0x7", "2: 10 11"),
            ("len < 5 && dport!=0", "1: 5"),
            ("len <= 5 && dport>=80", "2: 5 6"),
            ("dmac==0x0000", "12: 0 1 2 3 4 5 6 7 8 9 10 11"),
            ("dmac!=0x0000", "0:"),
            ("*", "12: 0 1 2 3 4 5 6 7 8 9 10 11"),
        )
        setup = "schema records ts:u64,src:u32,dport:u16,len:u32,dmac:b2\n"
        setup += "".join(f"ask q{at} list {text}\n" for at, (text, _) in enumerate(asks))
        file = "ts,src,dport,len,dmac\n" + "".join(
            f"0,{src},{dport},{size},0x0000\n" for src, dport, size in rows
        )
        report = "".join(f"ask q{at} list {found}\n" for at, (_, found) in enumerate(asks))
        words = ("run", "--setup", "s", "--writers", "1", "c")
        self.check(words, 0, f"records 12\n{report}order 0*12\n", s=setup.encode(), c=file.encode())

    def test_values(self) -> None:
        words = ("run", "--setup", "s", "--writers", "1", "c")
        for kind, value, wanted in (
            ("u8", "255", "255"),
            ("u8", "256", None),
            ("u32", "1.2.3.4", "16909060"),
            ("u64", "1.2.3.4", None),
            ("u64", "00018446744073709551615", None),
            ("u64", "0x0a", "10"),
            ("u64", " 1", None),
            ("u64", "", None),
            ("b2", "0xaB05", "0xab05"),
            ("b2", "0xaB0", None),
            ("b2", "5", None),
        ):
            setup = f"schema records ts:u64,v:{kind}\nask q list v=={wanted or 'x'}\n" if wanted else ""
            setup = setup or f"schema records ts:u64,v:{kind}\n"
            report = (
                (0, "records 1\nask q list 1: 0\norder 0*1\n")
                if wanted
                else (3, "capture: record 0 code 14\n")
            )
            self.check(words, *report, s=setup.encode(), c=f"ts,v\n1,{value}\n".encode())

    def test_keys_at_their_ends(self) -> None:
        words = ("run", "--setup", "s", "--writers", "1", "c")
        for kind, last in (
            ("u8", 2**8 - 1),
            ("u16", 2**16 - 1),
            ("u32", 2**32 - 1),
            ("u64", 2**64 - 1),
        ):
            asks = (
                (0, 0, "2: 0 3"),
                (1, 1, "0:"),
                (1, 0, "0:"),
                (1, last // 2, "1: 2"),
                (last, last, "1: 1"),
                (0, last, "4: 0 1 2 3"),
            )
            setup = f"schema records ts:u64,k:{kind}\nindex i k\n"
            setup += "".join(f"ask q{at} find i {low} {high}\n" for at, (low, high, _) in enumerate(asks))
            file = f"ts,k\n0,0\n0,{last}\n0,{last // 2}\n0,0\n"
            report = "".join(f"ask q{at} find {found}\n" for at, (_, _, found) in enumerate(asks))
            self.check(words, 0, f"records 4\n{report}order 0*4\n", s=setup.encode(), c=file.encode())
        last = (2**64 - 1) // 10
        setup = (
            "schema records ts:u64,len:u32\nwidth 10\nfilter f *\naggregate a f len\ntrigger t a sum == 6\n"
            f"ask a0 measure a 0 0\nask a1 measure a 1 {last - 1}\nask a2 measure a {last} {2**64 - 1}\n"
            f"ask a3 between f 0 {2**64 - 1}\nask a4 fired t\n"
        )
        report = (
            "records 3\nask a0 measure count 2 sum 6 least 2 greatest 4\nask a1 measure count 0 sum 0 least - greatest -\n"
            f"ask a2 measure count 1 sum 6 least 6 greatest 6\nask a3 between 3: 0 1 2\nask a4 fired 2: 0=6 {last}=6\n"
            f"alert t 0 6\nalert t {last} 6\norder 0*3\n"
        )
        self.check(words, 0, report, s=setup.encode(), c=f"ts,len\n9,4\n{2**64 - 1},6\n0,2\n".encode())

    def test_words_are_read_by_the_table(self) -> None:
        for words in COMMANDS:
            self.assertEqual(self.answer(tuple(words.split())), MISSING, words)
        for words in NO_COMMANDS:
            self.assertEqual(self.answer(tuple(words.split())), NO_COMMAND, words)
        self.assertEqual(self.answer(()), NO_COMMAND)
        for count, answer in ((4096, MISSING), (4097, NO_COMMAND)):
            self.assertEqual(self.answer(("run", "--setup", "s", "--long", *["c"] * count)), answer)
        for count, answer in ((16, MISSING), (17, NO_COMMAND)):
            self.assertEqual(
                self.answer(("snapshot", "--setup", "s", "--after", "1", *["c"] * count)), answer
            )

    def test_sizes_that_are_not_said(self) -> None:
        drawn = ("synth", "--setup", "s", "--seed", "1", "--count")
        self.check((*drawn, "65536"), 0, "records 65536\n", s=b"schema packet\n")
        self.check((*drawn, "65537"), 6, "full: more than 65536 records\n")
        self.put(c=empty(8))
        status, text = self.answer(("run", "--setup", "s", "c"))
        order = text.removeprefix("records 8\norder ").split()
        writers = {it.split("*")[0] for it in order}
        self.assertEqual((status, writers), (0, {"0", "1", "2", "3"}))
        # 13 nodes for each of 5,000 keys of 8 bytes that differ in their first 4, at least.
        rows = b"ts,k\n" + b"".join(b"0,%d\n" % (it << 44) for it in range(5000))
        keys = b"schema records ts:u64,k:u64\nindex i k\n"
        self.check(
            ("run", "--setup", "s", "--writers", "1", "c"), 7, "nodes: more than 1024 nodes\n", s=keys, c=rows
        )
        self.check(("snapshot", "--setup", "s", "--after", "9", "c"), 7, "nodes: more than 1024 nodes\n")
        setup = b"schema packet\nask q list len==1\nlive q\n"
        for count, live in ((4095, ""), (4096, "live q @0..4096 list 0:\n")):
            text = f"{live}records {count}\nwindow 0\nask q list 0:\n"
            self.check(("watch", "--setup", "s", "c"), 0, text, s=setup, c=empty(count))


if __name__ == "__main__":
    unittest.main()
