#!/bin/sh
# Records real traffic of two network namespaces, joined by a veth pair, as dual_stack.pcap. Each run gives other times, ports and
# sequence numbers. Needs root, iproute2, ethtool, tcpdump, curl, iperf3, ping and python3.
set -eu
cd "$(dirname "$0")"
out=$PWD/dual_stack.pcap
near() { ip netns exec near "$@"; }
far() { ip netns exec far "$@"; }
folder=$(mktemp -d)
end() {
    for it in near far; do
        for process in $(ip netns pids $it 2> /dev/null); do kill "$process" 2> /dev/null || true; done
        ip netns del $it 2> /dev/null || true
    done
    rm -r "$folder"
}
trap end EXIT
ip netns add near
ip netns add far
ip link add v0 netns near address 02:00:00:00:77:01 type veth peer name v0 netns far address 02:00:00:00:77:02
for it in near far; do
    ip netns exec $it sysctl -qw net.ipv6.conf.v0.accept_dad=0
    # Packets are captured as they would be on a wire.
    ip netns exec $it ethtool -K v0 tso off gso off gro off
    ip -n $it link set lo up
done
ip -n near address add 10.77.0.1/24 dev v0
ip -n near address add fd77::1/64 dev v0
for it in 2 3 4 5; do
    ip -n far address add 10.77.0.$it/24 dev v0
    ip -n far address add fd77::$it/64 dev v0
done
ip -n far address add fd77:0:0:5::9/64 dev v0
ip -n near link set v0 up
ip -n far link set v0 up
ip -n near route add fd77:0:0:5::/64 dev v0
# .88 is silent: packets to it arrive, and nobody answers.
ip -n near neighbour add 10.77.0.88 lladdr 02:00:00:00:77:88 dev v0
ip -n near neighbour add fd77::88 lladdr 02:00:00:00:77:88 dev v0

near tcpdump -i v0 -s 96 -U -w "$folder/all.pcap" 2> "$folder/said" &
head -c 30000 /dev/urandom > "$folder/body"
cp traffic.py "$folder"
cd "$folder"
far python3 traffic.py serve > /dev/null 2>&1 &
far iperf3 -s > /dev/null &
sleep 2
near python3 traffic.py ask
for it in 10.77.0.2 '[fd77::2]' 10.77.0.5 '[fd77:0:0:5::9]'; do near curl -gs -o /dev/null "http://$it:8080/body"; done
sleep 1.2
near iperf3 -c 10.77.0.2 -t 1 -b 1M > /dev/null
near ping -qc 3 -i .2 10.77.0.2 > /dev/null
near ping -qc 3 -i .2 fd77::5 > /dev/null
# In fragments.
near ping -qc 1 -s 3000 10.77.0.2 > /dev/null
near ping -qc 1 -s 3000 fd77::2 > /dev/null
near python3 traffic.py repeat
sleep .5
cat "$folder/all.pcap" > "$out"
