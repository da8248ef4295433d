#!/bin/sh
# What check.sh runs as a service of the system that it boots. Each step waits for what an operator would see.
# shellcheck disable=SC2016
set -u
name=br-12
watch=confluo-watch@$name.service capture=confluo-capture@$name.service
metrics=/run/confluo/$name/metrics.prom

say() { echo "check-units: $1"; }
fail() {
    say "$1"
    systemctl status --no-pager -n 0 "$watch" "$capture"
    journalctl --no-pager -o short-monotonic -n 60 -u "$watch" -u "$capture"
    exit 1
}
# Half a minute for the words to hold.
await() {
    for _ in $(seq 150); do
        eval "$2" && return
        sleep 0.2
    done
    fail "$1"
}
of() { systemctl show -P "$2" "$1"; }
value() { sed -n "s/^$1{[^}]*interface=\"$name\"[^}]*} //p" "$metrics" 2> /dev/null; }
has_more() { v=$(value "$1"); [ -n "$v" ] && [ "$v" -gt "$2" ]; }
stream() {
    for it in /proc/[0-9]*; do
        grep -zqx stream "$it/cmdline" 2> /dev/null && echo "${it#/proc/}"
    done | head -n 1
}
pid_of() { pgrep -x "$1" | head -n 1; }
# The processes of this kernel without procps: by their names.
pgrep() {
    for it in /proc/[0-9]*; do
        [ "$(cat "$it/comm" 2> /dev/null)" = "$2" ] && echo "${it#/proc/}"
    done
}
is_new() { new=$(pid_of "$1"); [ -n "$new" ] && [ "$new" != "$2" ]; }

# An interface with five packets a second.
begin() {
    ip link add $name type veth peer name peer0
    ip address add 10.1.0.1/24 dev $name
    ip link set $name up
    ip link set peer0 up
    ping -q -b -i 0.2 -I $name 10.1.0.255 > /dev/null 2>&1 &
}

begin
systemd-sysusers confluo.conf
mkdir -p /etc/confluo

# Without a setup it tries again; with a faulty one it stays down, and the capture with it.
systemctl start $watch
await "a watch without a setup does not try again" '[ "$(of $watch NRestarts)" -ge 1 ]'
printf 'schema packet\nfilter f len=\n' > /etc/confluo/$name.setup
await "a faulty setup is tried again" '[ "$(of $watch ActiveState)" = failed ]'
[ "$(of $watch ExecMainStatus)" = 2 ] || fail "a faulty setup has another status"
await "the capture goes on behind a watch that failed" '[ "$(of $capture ActiveState)" != active ]'
say "a faulty setup stops both"

cat > /etc/confluo/$name.setup << 'END'
schema packet
filter every *
aggregate sent every len
trigger any sent count >= 1
END
# An older program has no beats.
beat="--beat 1"
confluo watch --setup /etc/confluo/$name.setup --beat 1 /dev/null > /dev/null
[ $? != 1 ] || beat=
cat > /etc/confluo/$name.env << 'END'
CAPTURE=not port 22
COUNTS=1
STREAM='--exec "logger -t fired \$CONFLUO_TRIGGER \$CONFLUO_KIND"'
END
echo "WATCH=--truncated --segments 2 $beat" >> /etc/confluo/$name.env
systemctl start $watch
await "no packet is counted" 'has_more confluo_records_total 0'
await "tcpdump counts no packets" 'has_more confluo_captured_packets_total 0'
grep -q "^confluo_dropped_packets_total{interface=\"$name\",by=\"kernel\"} 0$" $metrics || fail "drops are no metric"
[ -z "$beat" ] || await "an aggregate has no total" 'has_more confluo_aggregate_sum_total 0'
setpriv --reuid 65534 --clear-groups cat $metrics > /dev/null || fail "node_exporter may not read the metrics"
await "a command has no alert" 'journalctl -o cat -t fired | grep -q "^any alert$"'
say "packets, drops and a command are seen"

for killed in tcpdump confluo; do
    old=$(pid_of $killed)
    kill -9 "$old"
    await "$killed does not come back" "is_new $killed $old"
    await "no packet comes after $killed was killed" '[ "$(value confluo_stream_running)" = 1 ] && has_more confluo_records_total 0'
done
say "both come back when one is killed"

mkdir -p "/run/systemd/system/$watch.d"
printf '[Service]\nWatchdogSec=4\n' > "/run/systemd/system/$watch.d/short.conf"
systemctl daemon-reload
systemctl restart $watch
await "no packet comes after a restart" '[ "$(value confluo_stream_running)" = 1 ] && has_more confluo_records_total 0'
old=$(stream)
sleep 9
[ "$(stream)" = "$old" ] || fail "a stream that goes on is begun anew"
kill -STOP "$old"
await "a stream that stands still is not begun anew" '[ -n "$(stream)" ] && [ "$(stream)" != "$old" ]'
await "no packet comes behind a stream that stood still" '[ "$(value confluo_stream_running)" = 1 ] && has_more confluo_records_total 0'
say "a stream that stands still is begun anew"

ip link delete $name
await "the capture of an interface that is gone goes on" '[ "$(of $capture ActiveState)" != active ]'
begin
await "no packet comes after the interface was gone" '[ "$(value confluo_stream_running)" = 1 ] && has_more confluo_records_total 0'
say "an interface that was gone is watched again"

systemctl stop $watch
[ "$(of $watch ActiveState)" = inactive ] || fail "a watch that is stopped has failed"
[ "$(of $capture ActiveState)" = inactive ] || fail "the capture is not stopped with its watch"
journalctl -o cat -u $watch | grep -q '^[0-9,]* packets' || fail "the final part is not in the journal"
journalctl -o cat -u $watch | grep -q 'tcpdump: .*packets captured' || fail "the last words of tcpdump are not in the journal"
say "a stop writes the final part"
say good
