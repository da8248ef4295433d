#!/bin/sh
# The monitor of bindings/daemon on a pair of virtual interfaces in network namespaces of their own. Needs root, ip, tcpdump and Python.
#
#     bench/library_veth.sh [PACKETS]
#
# It sends a quiet second, then PACKETS (default 60,000, which one log takes) as fast as they go, then a second again. The frames that the monitor
# reads must be those that a tcpdump beside it captures, none dropped, and its last report what `confluo run` prints about tcpdump's file; CONFLUO
# may name the program, and without one a plain walk takes its place. MONITOR may name another build of the monitor, MONITOR_WORDS its
# words. It ends within 90 seconds, and leaves nothing. It is not part of the gate.
set -u
here=$(cd "$(dirname "$0")/.." && pwd)
monitor=${MONITOR:-$here/bindings/out/confluo-monitor}
confluo=${CONFLUO:-$here/crates/confluo/out/confluo}
packets=${1:-60000}
host=confluo_a_$$ peer=confluo_b_$$
work=$(mktemp -d)
pids=

leave() {
    for pid in $pids; do kill "$pid" 2> /dev/null; done
    ip netns del "$host" 2> /dev/null
    ip netns del "$peer" 2> /dev/null
    rm -rf "$work"
}
trap leave EXIT
trap 'exit 1' INT TERM

fail() {
    echo "library_veth: $1"
    exit 1
}

for need in ip tcpdump python3; do command -v $need > /dev/null || fail "$need is missing"; done
[ -x "$monitor" ] || fail "there is no $monitor: make -C bindings daemon builds it"
{ ip netns add "$host" && ip netns add "$peer"; } || fail "a network namespace cannot be made: are you root?"
for end in "$host" "$peer"; do ip netns exec "$end" sysctl -qw net.ipv6.conf.default.disable_ipv6=1; done
ip -n "$host" link add veth0 type veth peer name veth1 netns "$peer" || fail "there are no veth pairs"
ip -n "$host" addr add 10.9.0.1/24 dev veth0
ip -n "$peer" addr add 10.9.0.2/24 dev veth1
ip -n "$host" link set veth0 up
ip -n "$peer" link set veth1 up

cat > "$work/setup" << 'SETUP'
schema packet
index sources src
filter udp kind==3
aggregate lengths udp len
tally ports dport len kind==3
trigger loud lengths count >= 1000
ask all total len *
ask quiet list dport==53
ask from_host find sources 10.9.0.3 10.9.0.255
ask loud_seconds fired loud
ask heaviest top ports sum 10
ask seconds measure lengths 0 18446744073709551615
SETUP
cat > "$work/send.py" << 'SEND'
import socket, sys, time
out = socket.socket(socket.AF_INET, socket.SOCK_DGRAM)
def send(count, port, pause):
    for k in range(count):
        out.sendto(bytes(100 + k % 7), ("10.9.0.2", port + k % 5 * (pause == 0)))
        time.sleep(pause) if pause else None
send(20, 53, 0.05)
began = time.time()
send(int(sys.argv[1]), 9000, 0)
print(f"{int(sys.argv[1]) / (time.time() - began):.0f} packets a second were sent")
send(20, 53, 0.05)
SEND

# shellcheck disable=SC2086
timeout -k 5 -s INT 90 ip netns exec "$peer" "$monitor" -s "$work/setup" -i veth1 -n 1 ${MONITOR_WORDS:-} > "$work/reports" 2> "$work/said" &
first=$!
# No user is changed, as the folder is root's own.
timeout -k 5 -s INT 90 ip netns exec "$peer" tcpdump -Z root --immediate-mode --nano -n -i veth1 -s 256 -B 32768 -w "$work/beside.pcap" 2> "$work/tcpdump" &
second=$!
pids="$first $second"
for _ in $(seq 100); do
    [ "$(ip netns exec "$peer" grep -c . /proc/net/packet)" -ge 3 ] && break
    sleep 0.1
done
sleep 0.5
timeout 60 ip netns exec "$host" python3 "$work/send.py" "$packets" || fail "nothing can be sent"
sleep 1
kill -INT "$first" "$second"
wait "$first" "$second" 2> /dev/null
pids=

cat "$work/said"
grep packets "$work/tcpdump"
captured=$(sed -n 's/ packets captured//p' "$work/tcpdump")
dropped=$(sed -n 's/ packets dropped by kernel//p' "$work/tcpdump")
read=$(sed -n 's/^frames \([0-9]*\) appended.*/\1/p' "$work/said")
[ "$dropped" = 0 ] || fail "tcpdump dropped $dropped packets: nothing can be compared"
grep -q "lost 0 dropped 0$" "$work/said" || fail "the monitor lost or dropped packets"
[ "$captured" = "$read" ] || fail "the monitor read $read frames, and tcpdump captured $captured"
awk '/^records / { text = "" } !/^order/ { text = text $0 "\n" } END { printf "%s", text }' "$work/reports" > "$work/found"
if [ -x "$confluo" ]; then
    "$confluo" run --setup "$work/setup" --writers 1 --segments 16 --nodes 16384 "$work/beside.pcap" | grep '^\(records\|ask\|alert\) ' > "$work/wanted"
else
    python3 -B "$here/bench/plain_answers.py" "$work/setup" "$work/beside.pcap" > "$work/wanted"
fi
cmp -s "$work/wanted" "$work/found" || {
    diff "$work/wanted" "$work/found" | cut -c 1-200 | head
    fail "the last report differs"
}
echo "library_veth: the monitor read the $read frames that tcpdump captured, and its last report is the one about tcpdump's file"
