#!/bin/sh
# `confluo watch` behind tcpdump, on a pair of virtual interfaces in network namespaces of their own. Needs root, ip and tcpdump.
#
#     bench/veth.sh [PACKETS]
#
# It sends a quiet second, then a burst of 500 packets that must be reported within a second, then PACKETS (default 20,000)
# as fast as they go. The records that `watch` counts must be the packets that its tcpdump captured; what a second
# tcpdump captured and what the kernel dropped are printed. CONFLUO may name another build. It ends within 90 seconds, and leaves nothing.
# It is not part of the gate.
set -u
here=$(cd "$(dirname "$0")/.." && pwd)
confluo=${CONFLUO:-$here/crates/confluo/out/confluo}
packets=${1:-20000}
host=confluo_a_$$ peer=confluo_b_$$
work=$(mktemp -d)
pids=

leave() {
    for pid in $pids; do kill "$pid" 2> /dev/null; done
    ip netns del "$host" 2> /dev/null
    ip netns del "$peer" 2> /dev/null
    rm -rf "$work"
}
trap leave EXIT
trap 'exit 1' INT TERM

fail() {
    echo "veth: $1"
    exit 1
}

# Waits until the file has the words, ten seconds at most.
await() {
    for _ in $(seq 100); do
        grep -q "$2" "$1" 2> /dev/null && return
        sleep 0.1
    done
    fail "$1 has no \`$2\`: $(cat "$1")"
}

for need in ip tcpdump python3; do command -v $need > /dev/null || fail "$need is missing"; done
{ ip netns add "$host" && ip netns add "$peer"; } || fail "a network namespace cannot be made: are you root?"
ip -n "$host" link add veth0 type veth peer name veth1 netns "$peer" || fail "there are no veth pairs"
ip -n "$host" addr add 10.9.0.1/24 dev veth0
ip -n "$peer" addr add 10.9.0.2/24 dev veth1
ip -n "$host" link set veth0 up
ip -n "$peer" link set veth1 up

cat > "$work/questions.setup" << 'SETUP'
schema packet
filter burst dport==9999
aggregate heard burst len
trigger loud heard count >= 100
ask all total len *
ask heard_all list dport==9999
SETUP
cat > "$work/send.py" << 'SEND'
import socket, sys, time
out = socket.socket(socket.AF_INET, socket.SOCK_DGRAM)
def send(count, port, pause):
    for _ in range(count):
        out.sendto(bytes(100), ("10.9.0.2", port))
        time.sleep(pause) if pause else None
send(20, 53, 0.05)
print(time.time(), flush=True)
send(500, 9999, 0)
time.sleep(1.5)
send(int(sys.argv[1]), 80, 0)
SEND
cat > "$work/stamp.py" << 'STAMP'
import sys, time
for line in sys.stdin:
    print(time.time(), line, end="", flush=True)
STAMP

mkfifo "$work/packets.pcap"
{
    timeout 90 "$confluo" watch --setup "$work/questions.setup" "$work/packets.pcap"
    echo $? > "$work/status"
} | "$here/tools/confluo-report" stream --json --setup "$work/questions.setup" 2> "$work/stream.err" |
    python3 "$work/stamp.py" > "$work/lines" &
last=$!
# No user is changed, as the folder is root's own.
timeout 90 ip netns exec "$peer" tcpdump -Z root -U -n -i veth1 -s 128 -B 8192 -w "$work/packets.pcap" udp 2> "$work/tcpdump" &
first=$!
timeout 90 ip netns exec "$peer" tcpdump -Z root -n -i veth1 -s 128 -B 8192 -w "$work/other.pcap" udp 2> "$work/beside" &
second=$!
pids="$first $second $last"
await "$work/tcpdump" "listening on"
await "$work/beside" "listening on"

timeout 60 ip netns exec "$host" python3 "$work/send.py" "$packets" > "$work/sent" || fail "nothing can be sent"
sleep 2
kill "$first" "$second"
wait "$first" "$second" "$last" 2> /dev/null
pids=

python3 - "$work" << 'JUDGE'
import json, pathlib, re, sys
work = pathlib.Path(sys.argv[1])
def counts(name):
    text = (work / name).read_text()
    return [int(n) for n in re.findall(r"(\d+) packets (?:captured|received by filter|dropped by kernel)", text)]
lines = [line.split(" ", 1) for line in (work / "lines").read_text().splitlines()]
found = [(float(at), json.loads(text)) for at, text in lines]
alerts = [(at, it) for at, it in found if it["kind"] == "alert"]
reports = [it for _, it in found if it["kind"] == "report"]
if not alerts or not reports:
    sys.exit(f"veth: {len(alerts)} alerts, {len(reports)} final parts\n{(work / 'stream.err').read_text()}")
delay = alerts[0][0] - float((work / "sent").read_text())
captured, received, dropped = counts("tcpdump")
beside = counts("beside")
status = (work / "status").read_text().strip()
heard = next(len(it["records"]) for it in reports[0]["asks"] if it["name"] == "heard_all")
print(f"alert {delay * 1000:.0f} milliseconds after the burst began: {alerts[0][1]['value']} packets by then")
print(f"watch: status {status}, {reports[0]['records']} records, {heard} of the burst in the window from {reports[0]['window']}")
print(f"tcpdump: {captured} captured, {received} received by filter, {dropped} dropped by kernel")
print(f"beside it: {beside[0]} captured, {beside[1]} received by filter, {beside[2]} dropped by kernel")
wrong = [
    text
    for text, holds in (
        ("the alert took more than a second", delay <= 1),
        ("watch has other records than tcpdump captured", reports[0]["records"] == captured),
        ("watch did not end well", status == "0"),
        ("packets are missing that nobody dropped", captured + dropped >= beside[0]),
    )
    if not holds
]
sys.exit("".join(f"veth: {it}\n" for it in wrong) or 0)
JUDGE
