"""Ten questions of an operator about real traffic of IPv4 and IPv6, one command for each, and what tshark says."""

import pathlib
import re
import shutil
import subprocess
import tempfile
import time
import unittest
from collections import Counter
from typing import Callable

from support import EXAMPLES, needs_words, tool

CAPTURE = EXAMPLES / "dual_stack/dual_stack.pcap"
FIELDS = (
    "frame.time_epoch frame.len ip.src ipv6.src ip.dst ipv6.dst tcp.flags tcp.seq_raw tcp.len ip.proto "
    "ipv6.nxt udp.dstport tcp.srcport tcp.dstport"
).split()
Packet = dict[str, str]
SYN, SYN_ACK, RESET = ("2", "194"), ("18", "82"), ("4", "20")


def read(path: pathlib.Path) -> list[Packet]:
    """tshark's fields of each packet; of headers within headers the first."""
    words = ["tshark", "-r", str(path), "-T", "fields", "-E", "occurrence=f", "-E", "separator=,"]
    for it in FIELDS:
        words += ["-e", it]
    done = subprocess.run(words, capture_output=True, text=True, check=True)
    packets = [dict(zip(FIELDS, line.split(","))) for line in done.stdout.splitlines()]
    for it in packets:
        it["src"], it["dst"] = (it[f"ip.{side}"] or it[f"ipv6.{side}"] or "not IP" for side in ("src", "dst"))
        it["flags"] = str(int(it["tcp.flags"] or "0", 16))
        seconds = int(it["frame.time_epoch"].split(".")[0])
        it["second"] = time.strftime("%Y-%m-%d %H:%M:%S", time.gmtime(seconds))
        # Behind options of each hop and in fragments of IPv6 there is only ICMP here.
        it["proto"] = it["ip.proto"] or ("58" if it["ipv6.nxt"] in ("0", "44") else it["ipv6.nxt"]) or "0"
    return packets


@needs_words("--schema", "packet6")
@unittest.skipUnless(shutil.which("tshark"), "tshark is missing: apt-get install tshark")
class TenQuestions(unittest.TestCase):
    packets: list[Packet]

    @classmethod
    def setUpClass(cls) -> None:
        cls.packets = read(CAPTURE)

    def asked(self, *words: object) -> str:
        ended = tool("ask", CAPTURE, *words)
        self.assertEqual((ended.status, ended.err), (0, ""))
        return ended.out

    def table(self, question: str) -> list[tuple[str, int]]:
        """The rows of a ranking, or of buckets."""
        form = r"(?m)^ +(?:\d+\.  )?(not IP|\d{4}-\d\d-\d\d \S+|\S+)(?: \(\w+\))? +([\d,]+)(?: |$)"
        body = self.asked("--most", 0, question).partition(question)[2].partition("between the first")[0]
        return [(it, int(value.replace(",", ""))) for it, value in re.findall(form, body)]

    def counted(
        self, key: str, meant: Callable[[Packet], bool] = lambda it: True, weight: str = ""
    ) -> Counter[str]:
        found: Counter[str] = Counter()
        for it in self.packets:
            if meant(it):
                found[it[key]] += int(it[weight] or "0") if weight else 1
        return found

    def same(self, question: str, wanted: Counter[str]) -> None:
        self.assertEqual(dict(self.table(question)), dict(wanted), question)

    def ends(self, packet: Packet, first: str, second: str) -> tuple[str, ...]:
        """The endpoints of a TCP packet, in that order."""
        return tuple(packet[it] for end in (first, second) for it in (end, f"tcp.{end}port"))

    def test_1_who_sends_most(self) -> None:
        self.same("top 100 src by bytes", self.counted("src", weight="frame.len"))
        rows = [it for _, it in self.table("top 100 src by bytes")]
        self.assertEqual(rows, sorted(rows, reverse=True))

    def test_2_connections_without_an_answer(self) -> None:
        words = ("count flags==2 or flags==194", "count flags==18 or flags==82")
        counts = re.findall(r"(?m)^ +(\d+) +[\d,]+ +\d+ +\d+$", self.asked(*words))
        wanted = [sum(it["flags"] in its for it in self.packets) for its in (SYN, SYN_ACK)]
        self.assertEqual([int(it) for it in counts], wanted)
        self.same(
            "top 100 dst by packets where flags==2 or flags==194",
            self.counted("dst", lambda it: it["flags"] in SYN),
        )
        words = "top 100 src by packets where flags==18 or flags==82"
        self.same(words, self.counted("src", lambda it: it["flags"] in SYN_ACK))
        begun = {self.ends(it, "src", "dst") for it in self.packets if it["flags"] in SYN}
        answered = {self.ends(it, "dst", "src") for it in self.packets if it["flags"] in SYN_ACK}
        ends = (("src", "dst"), ("dst", "src"))
        reset = {self.ends(it, *way) for it in self.packets if it["flags"] in RESET for way in ends}
        silent = begun - answered
        title = f"unanswered: {len(silent)} of {len(begun)} connections, {len(silent & reset)} refused"
        self.assertIn(title, self.asked("unanswered"))

    def test_3_segments_sent_again(self) -> None:
        wanted = self.counted("tcp.seq_raw", lambda it: int(it["tcp.len"] or "0") > 0).most_common(3)
        found = self.table("top 3 seq by packets where kind==2 and payload>0")
        self.assertEqual(sorted(found), sorted(wanted))
        self.assertEqual(dict(found), {"1000": 3, "1200": 3, "1400": 3})

    def test_4_resets_in_each_second(self) -> None:
        self.same(
            "per second packets where flags==4 or flags==20",
            self.counted("second", lambda it: it["flags"] in RESET),
        )

    def test_5_the_second_with_most(self) -> None:
        wanted = self.counted("second", weight="frame.len").most_common(1)
        self.assertEqual(self.table("top 1 second by bytes"), wanted)

    def test_6_who_scanned_which_ports(self) -> None:
        self.same("top 100 src by packets where flags==2", self.counted("src", lambda it: it["flags"] == "2"))
        ports = self.counted("tcp.dstport", lambda it: it["flags"] == "2" and it["src"] == "10.77.0.1")
        self.same("top 1000 dport by packets where flags==2 and src==10.77.0.1", ports)
        self.assertGreater(len(ports), 50)
        self.assertEqual(dict(self.table("scans"))["10.77.0.1"], len(ports))
        ports = self.counted("tcp.dstport", lambda it: it["flags"] == "2" and it["src"] == "fd77::1")
        self.same("top 1000 dport by packets where flags==2 and src==fd77::1", ports)

    def test_7_shares_of_protocols(self) -> None:
        wanted = self.counted("proto", weight="frame.len")
        out = self.asked("share proto by bytes")
        for proto, size in wanted.items():
            part = 100 * size / wanted.total()
            self.assertRegex(out, rf"  {proto}( \(\w+\))? +{size:,} +{part:.1f}\n")

    def test_8_name_servers(self) -> None:
        wanted = self.counted("dst", lambda it: it["udp.dstport"] == "53")
        self.same("top dst by packets where kind==3 and dport==53", wanted)
        self.assertEqual(set(wanted), {"10.77.0.3", "fd77::3"})

    def test_9_packets_of_a_connection(self) -> None:
        def is_of_web(it: Packet) -> bool:
            return "8080" in (it["tcp.srcport"], it["tcp.dstport"])

        port = next(
            it["tcp.srcport"] for it in self.packets if it["dst"] == "fd77:0:0:5::9" and is_of_web(it)
        )
        ends = "(src==fd77:0:0:5::9 or dst==fd77:0:0:5::9)"
        with tempfile.TemporaryDirectory() as folder:
            out = pathlib.Path(folder, "flow.pcap")
            self.asked("--out", out, f"list proto==6 and {ends} and (sport=={port} or dport=={port})")
            found = read(out)
        wanted = [
            it
            for it in self.packets
            if "fd77:0:0:5::9" in (it["src"], it["dst"]) and port in (it["tcp.srcport"], it["tcp.dstport"])
        ]
        self.assertEqual([it["frame.time_epoch"] for it in found], [it["frame.time_epoch"] for it in wanted])
        self.assertGreater(len(wanted), 20)

    def test_10_a_network_in_each_second(self) -> None:
        def is_in(start: str) -> Callable[[Packet], bool]:
            return lambda it: it["src"].startswith(start) or it["dst"].startswith(start)

        words = "per second bytes where src in 10.77.0.0/24 or dst in 10.77.0.0/24"
        self.same(words, self.counted("second", is_in("10.77.0."), "frame.len"))
        words = "per second bytes where src==fd77::/64 or dst==fd77::/64"
        self.same(words, self.counted("second", is_in("fd77::"), "frame.len"))


if __name__ == "__main__":
    unittest.main()
