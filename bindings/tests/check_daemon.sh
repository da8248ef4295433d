#!/bin/sh
# The monitor in the folder OUT reports captures under examples/ as a plain walk does, ends as it says, and stops at once.
#
#     tests/check_daemon.sh OUT [--ends]
#
# With --ends only the second and the third are tried, for which a stand-in of the library is enough.
set -eu
monitor=$(cd "$1" && pwd)/confluo-monitor
cd "$(dirname "$0")/../.."
folder=$(mktemp -d)
trap 'rm -rf "$folder"' EXIT
fail() {
    echo "check-daemon: $1"
    exit 1
}
# status WANTED WORDS..: what the monitor says is in the folder.
status() {
    wanted=$1 found=0
    shift
    timeout -k 5 60 "$monitor" "$@" > "$folder/found" 2> "$folder/said" || found=$?
    [ "$found" = "$wanted" ] || fail "$*: status $found, not $wanted: $(cat "$folder/said")"
}
says() { grep -q "$1" "$folder/said" || fail "there is no \"$1\" in: $(cat "$folder/said")"; }

printf 'schema packet\nask all list *\n' > "$folder/setup"
capture=examples/web_and_dns.pcap
status 0 -s "$folder/setup" -r $capture
says "frames 16 appended 16 lost 0"
status 0 -s "$folder/setup" -r $capture -c 7
[ "$(grep '^records' "$folder/found" | tr -d '\n')" = "records 7records 7records 2" ] || fail "a full log is followed by another one"
status 0 -s "$folder/setup" -r $capture udp port 53
says "frames 4 "
status 2 -s "$folder/setup" -r $capture udp prt 53
status 2 -s "$folder/setup" -r $capture -c 4294967297
status 2 -s "$folder/setup" -r "$folder/none"
head -c 1000 $capture > "$folder/cut.pcap"
status 1 -s "$folder/setup" -r "$folder/cut.pcap"
says "truncated dump file"
{ head -c 20 $capture && printf '\223\0\0\0'; } > "$folder/link.pcap"
status 2 -s "$folder/setup" -r "$folder/link.pcap"
says "does not read link 147"
printf 'schema packet\nindex\n' > "$folder/faulty"
status 2 -s "$folder/faulty" -r $capture
says "line 2: a statement has its words"
# A pipe on which nothing comes.
mkfifo "$folder/pipe"
{ head -c 24 $capture && sleep 20; } > "$folder/pipe" &
feeder=$!
"$monitor" -s "$folder/setup" -r "$folder/pipe" > "$folder/found" 2> "$folder/said" &
pid=$!
sleep 1
kill -TERM $pid
for _ in 1 2 3 4 5 6 7 8 9 10; do
    kill -0 $pid 2> /dev/null || break
    sleep 0.1
done
! kill -0 $pid 2> /dev/null || { kill -KILL $pid && fail "the monitor goes on a second after SIGTERM"; }
wait $pid || fail "the monitor ends with a status after SIGTERM: $(cat "$folder/said")"
kill $feeder
grep -q '^records 0' "$folder/found" || fail "there is no last report"
[ "${2:-}" != --ends ] || { echo "check-daemon: the monitor ends as it says"; exit 0; }

command -v python3 > /dev/null || { echo "check-daemon: reports are skipped, there is no Python for the plain walk"; exit 0; }
count=0
for name in web_and_dns incidents/full_link incidents/port_scan incidents/resolver incidents/syn_flood incidents/many_addresses; do
    python3 -B bench/plain_answers.py "examples/$name.setup" "examples/$name.pcap" > "$folder/wanted"
    status 0 -s "examples/$name.setup" -r "examples/$name.pcap"
    grep -v '^order' "$folder/found" | cmp -s "$folder/wanted" - || fail "the report of $name differs"
    count=$((count + 1))
done
echo "check-daemon: $count reports are those of a plain walk, and the monitor ends as it says"
