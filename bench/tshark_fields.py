#!/usr/bin/env python3
"""Compares what is read of packets with what tshark reads, attribute for attribute, over all captures of a folder.

    bench/tshark_fields.py [--plain] [--together] [--show N] FOLDER

For each capture and for the schemas packet and packet6 the values are those of plain.py. Unless --plain is given, what the
program ($CONFLUO, or the built one) dumps must be plain.py's text and status to the byte, for packet6 only if it takes
`--schema packet6`. Then the values are compared with the fields of `tshark -T fields`; flows must part the packets as
`tcp.stream` and `udp.stream` do. Each that differs has one of the reasons below, or is listed. With --together the packets of all captures go to tshark in one file for each link type: that takes
seconds and not minutes, and leaves out times. N differences are shown for each reason (default 0). It ends with
counts, and with status 1 if there is a difference without a reason. A capture that is refused is counted by its code; one that
is cut off is read up to there. It is not part of the gate. Captures by the hundred come with the sources of tcpdump and
wireshark, which go into a folder elsewhere:

    apt-get source --download-only tcpdump wireshark        # needs deb-src in the list of sources
    tar xf tcpdump_*.orig.tar.*; tar xf wireshark_*.orig.tar.* --wildcards '*/test/captures/*'
"""

import argparse
import collections
import concurrent.futures
import ipaddress
import pathlib
import struct
import subprocess
import sys
import tempfile
from dataclasses import dataclass, field

sys.dont_write_bytecode = True

import plain  # noqa: E402
from damage import PROGRAM, is_taken  # noqa: E402

SECONDS = 120
SETTINGS = "ip.defragment:FALSE ipv6.defragment:FALSE tcp.desegment_tcp_streams:FALSE tcp.relative_sequence_numbers:FALSE"
SETTINGS += " tcp.analyze_sequence_numbers:FALSE"
FIELDS = """frame.time_epoch frame.cap_len frame.len frame.protocols _ws.malformed eth.dst eth.src eth.type eth.len sll.etype
sll.ltype null.family null.type vlan.id vlan.etype vlan.len ieee8021ad.id ieee8021ad.svid ip.version ip.hdr_len ip.dsfield
ip.len ip.ttl ip.proto ip.src ip.dst ip.frag_offset ipv6.version ipv6.tclass ipv6.plen ipv6.nxt ipv6.hlim ipv6.src ipv6.dst
ipv6.hopopts.nxt ipv6.routing.nxt ipv6.fraghdr.nxt ipv6.dstopts.nxt ipv6.fraghdr.offset ah.next_header tcp.srcport tcp.dstport
tcp.seq_raw tcp.ack_raw tcp.flags tcp.window_size_value udp.srcport udp.dstport tcp.len tcp.stream udp.length udp.stream
tcp.flags.fin tcp.flags.syn tcp.flags.reset tcp.flags.ack icmp.type icmp.code icmpv6.type icmpv6.code""".split()
EXTENSIONS = {"ipv6.hopopts", "ipv6.routing", "ipv6.fraghdr", "ipv6.dstopts", "ah"}
LINKED = {1: "eth", 113: "sll", 276: "sll", 0: "null", 108: "null"}
RAW = {228: 0x0800, 229: 0x86DD}


@dataclass
class Layers:
    """The layers of a frame as tshark has them: its link, tags, network and transport, by its names of protocols."""

    link: str = ""
    tags: list = field(default_factory=list)
    network: str = ""
    extensions: list = field(default_factory=list)
    transport: str = ""
    message: str = ""

    @staticmethod
    def of(protocols):
        """The layers of a `frame.protocols`."""
        names = [it for it in protocols.split(":") if it not in ("", "ethertype")]
        # frames of raw IP have no name of their own
        found = Layers(names.pop(0) if names and names[0] not in ("ip", "ipv6") else "")
        while names and names[0] in ("vlan", "ieee8021ad"):
            found.tags.append(names.pop(0))
        if names and names[0] in ("ip", "ipv6"):
            found.network = names.pop(0)
        while found.network == "ipv6" and names and names[0] in EXTENSIONS:
            found.extensions.append(names.pop(0))
        if found.network and names and names[0] in ("tcp", "udp"):
            found.transport = names.pop(0)
        if found.network and names and names[0] == {"ip": "icmp", "ipv6": "icmpv6"}[found.network]:
            found.message = names.pop(0)
        return found


def fields_of(path):
    """A line of fields for each packet, as lists of their values."""
    words = ["tshark", "-n", "-r", str(path), "-T", "fields", "-E", "occurrence=a", "-E", "aggregator=|"]
    words += [it for setting in SETTINGS.split() for it in ("-o", setting)] + [it for name in FIELDS for it in ("-e", name)]
    ran = subprocess.run(words, stdout=subprocess.PIPE, stderr=subprocess.DEVNULL, timeout=SECONDS)
    lines = ran.stdout.decode("utf-8", "replace").split("\n")[:-1]
    return [{name: text.split("|") for name, text in zip(FIELDS, line.split("\t")) if text} for line in lines]


def whole(text):
    """The number of a field, decimal or hexadecimal."""
    return int(text, 0)


def nanoseconds(text):
    """The number of a time in seconds with nine digits behind the point."""
    seconds, _, fraction = text.partition(".")
    return int(seconds) * 10**9 + int(fraction.ljust(9, "0"))


def first(fields, name, read=whole, at=0):
    """The value of a field's occurrence, or None."""
    values = fields.get(name, [])
    return read(values[at]) if at < len(values) else None


def types_of(fields, layers, wide):
    """The VLAN and the type as tshark has them, behind as many tags as the schema reads."""
    most = 2 if wide else 1
    known = layers.tags if wide else layers.tags[: layers.tags.count("vlan")]
    tags = known[:most]
    vlan = None
    if tags:
        vlan = first(fields, "vlan.id" if tags[0] == "vlan" else "ieee8021ad.id")
    types = [first(fields, "eth.type"), first(fields, "sll.etype")]
    etype = next((it for it in types if it is not None), None)
    if tags:
        etype = first(fields, "vlan.etype", at=tags.count("vlan") - 1) if tags[-1] == "vlan" else None
    if etype is None and len(tags) == len(layers.tags) and layers.network:
        etype = {"ip": 0x0800, "ipv6": 0x86DD}[layers.network]
    return vlan, etype, len(tags) == len(layers.tags)


def address(text):
    return int(ipaddress.ip_address(text))


def four(fields):
    """The values of IPv4."""
    texts = {"tos": "ip.dsfield", "iplen": "ip.len", "ttl": "ip.ttl", "proto": "ip.proto"}
    found = {name: first(fields, it) for name, it in texts.items()}
    return found | {name: first(fields, f"ip.{name}", address) for name in ("src", "dst")}


def six(fields, layers):
    """The values of IPv6."""
    texts = {"tos": "ipv6.tclass", "iplen": "ipv6.plen", "ttl": "ipv6.hlim"}
    found = {name: first(fields, it) for name, it in texts.items()}
    found["iplen"] = None if found["iplen"] is None else min(found["iplen"] + 40, 65535)
    following = ["ipv6.nxt"] + ["ah.next_header" if it == "ah" else f"{it}.nxt" for it in layers.extensions]
    found["proto"] = first(fields, following[-1], at=following.count(following[-1]) - 1)
    for side in ("src", "dst"):
        number = first(fields, f"ipv6.{side}", address)
        halves = (None, None) if number is None else divmod(number, 2**64)
        found |= {f"{side}6": halves[0], f"{side}6_low": halves[1]}
    return found


def transport(fields, layers):
    """The values of TCP or UDP."""
    name = layers.transport
    found = {"sport": first(fields, f"{name}.srcport"), "dport": first(fields, f"{name}.dstport")}
    if name == "tcp":
        flags = first(fields, "tcp.flags")
        found |= {"seq": first(fields, "tcp.seq_raw"), "ack": first(fields, "tcp.ack_raw")}
        found |= {"flags": None if flags is None else flags % 256, "win": first(fields, "tcp.window_size_value")}
        found |= {it: first(fields, f"tcp.flags.{it[3:]}") for it in ("is_fin", "is_syn", "is_ack")}
        found |= {"is_rst": first(fields, "tcp.flags.reset"), "payload": first(fields, "tcp.len")}
    else:
        length = first(fields, "udp.length")
        found["payload"] = None if length is None else max(0, length - 8)
    return found


def theirs(fields, schema):
    """The values of a packet as tshark has them; None or absent if it has none."""
    layers = Layers.of(fields.get("frame.protocols", [""])[0])
    found = {"ts": first(fields, "frame.time_epoch", nanoseconds)}
    found |= {"caplen": first(fields, "frame.cap_len"), "len": first(fields, "frame.len")}
    if layers.link == "eth":
        found |= {"dmac": first(fields, "eth.dst", str), "smac": first(fields, "eth.src", str)}
    found["vlan"], found["etype"], is_reached = types_of(fields, layers, schema == "packet6")
    is_read = is_reached and (layers.network == "ip" or layers.network == "ipv6" and schema == "packet6")
    if is_read:
        found |= four(fields) if layers.network == "ip" else six(fields, layers)
        found |= {"kind": {"tcp": 2, "udp": 3}.get(layers.transport, 1)}
        found |= transport(fields, layers) if layers.transport else {}
        if layers.message:
            found |= {f"icmp_{it}": first(fields, f"{layers.message}.{it}") for it in ("type", "code")}
    return found, layers


class Streams:
    """Which flow, which endpoints and which stream of tshark's were met together first."""

    def __init__(self):
        self.flows, self.streams = {}, {}

    def flow(self, row, fields, layers):
        """The flow of tshark's stream, or the row's if there is no stream; "again" if the flow's endpoints were met in another."""
        stream = first(fields, f"{layers.transport}.stream") if layers.transport else None
        if row["kind"] not in (2, 3) or stream is None:
            return row["flow"]
        name = layers.transport, stream
        ends = {tuple(row[f"{it}{part}"] for part in ("", "6", "6_low")) + (row[f"{it[0]}port"],) for it in ("src", "dst")}
        found = self.flows.setdefault(name, row["flow"])
        other, others = self.streams.setdefault(found, (name, ends))
        return found if other == name else "again" if others == ends else "shared"


# The reasons for which a value may differ, each with a test of the attribute, the values, the frame and the layers.
def is_fraction(it):
    """The fraction of a second is one or more, and tshark carries it into the seconds or leaves it out."""
    return it.attribute == "ts" and it.fraction >= 10**9


def is_late(it):
    """The time is above 2^64 - 1 nanoseconds, which is then what a row has."""
    return it.attribute == "ts" and it.ours == 2**64 - 1 and it.theirs is not None and it.theirs > it.ours


def is_length(it):
    """IEEE 802.3 has a length in place of a type, also behind a tag; tshark shows it as such."""
    return it.attribute == "etype" and it.ours < 0x600 and it.theirs is None


def is_other_link(it):
    """The frame is of another kind than its link type says, as Cisco's ISL; tshark sees it by its first bytes."""
    if it.link in RAW:
        return it.row["etype"] != RAW[it.link]
    return it.protocols.startswith("eth:eth:") or it.link in LINKED and LINKED[it.link] != it.layers.link


def is_behind_service_tag(it):
    """tshark has no field for a type behind a tag of IEEE 802.1ad."""
    return it.attribute == "etype" and it.theirs is None and "ieee8021ad" in it.layers.tags


def is_bad_four(it):
    """The IPv4 header is cut off, of another version or shorter than 20 bytes; tshark shows what it can."""
    f, q = it.network()
    header = 4 * (f[q] % 16) if q < len(f) else 0
    is_bad = len(f) < q + 20 or f[q] // 16 != 4 or header < 20 or len(f) < q + header
    return it.layers.network == "ip" and it.row["kind"] == 0 and is_bad


def is_length_of_four(it):
    """IPv4 states a length of 0, as a sender does whose device cuts segments; tshark shows the length on the wire."""
    return it.attribute == "iplen" and it.row["etype"] == 0x0800 and it.ours == 0


def is_bad_six(it):
    """The IPv6 header is cut off or of another version; tshark shows what it can."""
    f, q = it.network()
    return it.layers.network == "ipv6" and it.row["kind"] == 0 and (len(f) < q + 40 or f[q] // 16 != 6)


def is_bad_extension(it):
    """A header behind IPv6 does not fit; tshark takes it apart all the same, or stops before it."""
    return it.attribute == "proto" and it.row["etype"] == 0x86DD and it.ours in (0, 43, 44, 51, 60)


def is_cut_transport(it):
    """The TCP or UDP header is cut off, or the packet's length ends within it; tshark shows what it can."""
    if it.layers.network != "ip" or it.row["kind"] != 1:
        return False
    f, q = it.network()
    end = min(len(f), q + it.row["iplen"]) if it.row["iplen"] else len(f)
    return end < q + 4 * (f[q] % 16) + {"tcp": 20, "udp": 8}.get(it.layers.transport, 0)


def is_same_again(it):
    """A client took its port again for another connection, which is another stream of tshark's."""
    return it.attribute == "flow" and it.theirs == "again" and it.row["kind"] == 2


def is_beyond_the_frame(it):
    """The packet states more bytes than there were on the wire; tshark counts what was there."""
    if it.attribute != "payload" or it.row["kind"] != 2:
        return False
    return it.network()[1] + it.row["iplen"] > it.frame.length


def is_bad_header_length(it):
    """TCP states a header of less than 20 bytes or of more than the packet has; tshark reads no data then."""
    return it.attribute == "payload" and it.row["kind"] == 2 and it.theirs is None


def is_cut_message(it):
    """The ICMP message is cut off, or the packet's length ends within it; tshark shows what it can."""
    if it.attribute not in ("icmp_type", "icmp_code") or it.layers.message != "icmp":
        return False
    f, q = it.network()
    end = min(len(f), q + it.row["iplen"]) if it.row["iplen"] else len(f)
    return end < q + 4 * (f[q] % 16) + 2


def is_bad_message(it):
    """tshark takes the ICMP message for malformed, and shows nothing of it."""
    return it.attribute in ("icmp_type", "icmp_code") and it.theirs is None and it.layers.message != ""


REASONS = (is_fraction, is_late, is_length, is_behind_service_tag, is_other_link, is_bad_four, is_length_of_four, is_bad_six)
REASONS += (is_bad_extension, is_cut_transport, is_same_again, is_beyond_the_frame, is_bad_header_length)
REASONS += (is_cut_message, is_bad_message)


@dataclass
class Difference:
    """A value that differs, and what its reason may be seen from."""

    place: str
    schema: str
    attribute: str
    ours: object
    theirs: object
    row: dict
    frame: object
    layers: Layers
    protocols: str

    @property
    def link(self):
        return self.frame.link

    @property
    def fraction(self):
        return self.frame.fraction

    def network(self):
        """The bytes of the frame, and where its network header begins."""
        return self.frame.data, plain.carried(self.frame, self.schema == "packet6")[2]

    def reason(self):
        """The first sentence of the reason, or nothing."""
        return next((it.__doc__.split(";")[0].rstrip(".") for it in REASONS if it(self)), "")

    def text(self):
        return f"{self.place} {self.schema} {self.attribute}: {self.ours}, tshark {self.theirs} ({self.protocols})"


def differences(place, frame, fields, schema, without, streams):
    """The attributes of a frame in which the two readings differ."""
    row = plain.row(frame, schema)
    found, layers = theirs(fields, schema)
    if schema == "packet6":
        found["flow"] = streams.flow(row, fields, layers)
    for name, value in row.items():
        ours = ":".join(f"{it:02x}" for it in value) if isinstance(value, bytes) else value
        nothing = "00:00:00:00:00:00" if isinstance(value, bytes) else 0
        theirs_ = found.get(name)
        if name in without or ours == theirs_ or (ours == nothing and theirs_ is None):
            continue
        protocols = fields.get("frame.protocols", [""])[0]
        yield Difference(place, schema, name, ours, theirs_, row, frame, layers, protocols)


@dataclass
class Counts:
    """What was found so far."""

    show: int
    packets: int = 0
    values: int = 0
    refused: collections.Counter = field(default_factory=collections.Counter)
    reasons: collections.Counter = field(default_factory=collections.Counter)
    shown: list = field(default_factory=list)

    def take(self, reason, text):
        self.reasons[reason] += 1
        if not reason or self.reasons[reason] <= self.show:
            self.shown.append(f"{reason or 'NO REASON'}: {text}")


def compare(counts, places, frames, lines, without=()):
    """Compares frames with tshark's lines."""
    if len(frames) != len(lines):
        counts.take("", f"{places[0]} and on: {len(frames)} packets, tshark has {len(lines)}")
        return
    streams = Streams()
    for place, frame, fields in zip(places, frames, lines):
        schemas = [it for it in plain.LINKS if frame.link in plain.LINKS[it]]
        counts.packets += 1
        for schema in schemas:
            counts.values += len(plain.row(frame, schema)) - len(without)
            for it in differences(place, frame, fields, schema, without, streams):
                counts.take(it.reason(), it.text())


def with_fractions(data, frames):
    """The frames with their fractions of a second, in nanoseconds, as a classic file states them."""
    Fraction = collections.namedtuple("Fraction", [*plain.Frame._fields, "fraction"])
    if data[:4] == b"\x0a\x0d\x0d\x0a":
        return [Fraction(*it, 0) for it in frames]
    order = "<" if data[0] != 0xA1 else ">"
    unit = 1 if data[:4] in (b"\x4d\x3c\xb2\xa1", b"\xa1\xb2\x3c\x4d") else 1000
    at, found = 24, []
    for it in frames:
        found.append(Fraction(*it, struct.unpack(order + "I", data[at + 4 : at + 8])[0] * unit))
        at += 16 + len(it.data)
    return found


def merged(folder, link, frames):
    """One file of all frames of a link."""
    path = pathlib.Path(folder) / f"link{link}.pcap"
    head = struct.pack("<IHHIIII", 0xA1B23C4D, 2, 4, 0, 0, plain.MOST, link)
    records = (struct.pack("<IIII", 0, 0, len(it.data), it.length) + it.data for it in frames)
    path.write_bytes(head + b"".join(records))
    return path


def wrong_dumps(path, data):
    """Of which schema the program dumps the capture in another way."""
    forms = {"packet": [], "packet6": ["--schema", "packet6"]}
    for schema, words in forms.items():
        if words and not is_taken(*words):
            continue
        ran = subprocess.run([PROGRAM, "dump", *words, path], stdout=subprocess.PIPE, timeout=SECONDS)
        if (ran.returncode, ran.stdout.decode("ascii", "replace")) != plain.dump(data, schema):
            yield f"{path.name} {schema}: the program's dump is not plain.py's"


def captures_of(folder, counts):
    """The captures that can be read, with their bytes and frames."""
    for path in sorted(it for it in pathlib.Path(folder).rglob("*") if it.is_file()):
        data = path.read_bytes()
        read = plain.read(data, plain.LINKS["packet6"], True)
        counts.refused[read.code] += 1
        if not read.code:
            yield path, data, with_fractions(data, read.frames)


def apart(counts, read):
    """Each capture by itself, four at a time."""
    with concurrent.futures.ThreadPoolExecutor(4) as pool:
        for (path, _, frames), lines in zip(read, pool.map(lambda it: fields_of(it[0]), read)):
            compare(counts, [f"{path.name} packet {k}" for k in range(len(frames))], frames, lines)


def together(counts, read):
    """All frames of a link in one file."""
    links = collections.defaultdict(list)
    for path, _, frames in read:
        for k, it in enumerate(frames):
            links[it.link].append((f"{path.name} packet {k}", it))
    with tempfile.TemporaryDirectory() as folder:
        for link, pairs in links.items():
            places, frames = zip(*pairs)
            compare(counts, places, frames, fields_of(merged(folder, link, frames)), ("ts",))


def main():
    parser = argparse.ArgumentParser(description=__doc__.split("\n")[0])
    parser.add_argument("--plain", action="store_true", help="without the program")
    parser.add_argument("--together", action="store_true", help="one file for each link type; without times")
    parser.add_argument("--show", type=int, default=0, metavar="N", help="differences shown for each reason")
    parser.add_argument("folder")
    words = parser.parse_args()
    counts = Counts(words.show)
    read = list(captures_of(words.folder, counts))
    for path, data, _ in () if words.plain else read:
        for wrong in wrong_dumps(path, data):
            counts.take("", wrong)
    (together if words.together else apart)(counts, read)
    for it in counts.shown:
        print(it)
    refused = ", ".join(f"{n} by code {code}" for code, n in sorted(counts.refused.items()) if code) or "none"
    print(f"{counts.refused[0]} captures with {counts.packets} packets; refused: {refused}")
    print(f"{counts.values} values, {sum(counts.reasons.values())} differ")
    for reason, count in counts.reasons.most_common():
        print(f"{count:8} {reason or 'NO REASON'}")
    sys.exit(1 if counts.reasons[""] else 0)


if __name__ == "__main__":
    main()
