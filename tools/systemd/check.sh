#!/bin/sh
# Boots a system of its own in a container, and watches an interface there by the units, as an operator does: see inside.sh.
#
#     tools/systemd/check.sh [FOLDER]
#
# FOLDER may have a system of an earlier call; without, debootstrap makes one, which is removed. Needs root, systemd-nspawn, debootstrap
# and a mirror, and a built program (CONFLUO may name it). Where these are not at hand it says so and ends with 0.
set -eu
here=$(cd "$(dirname "$0")/../.." && pwd)
skip() { echo "check-units: skipped, $1"; exit 0; }
[ "$(id -u)" = 0 ] || skip "it needs root"
for need in debootstrap systemd-nspawn make; do
    command -v $need > /dev/null || skip "$need is missing: apt-get install debootstrap systemd-container make"
done
program=${CONFLUO:-$here/crates/confluo/out/confluo}
[ -x "$program" ] || skip "there is no program: make run builds it"
program=$(realpath "$program")
work=$(mktemp -d)
trap 'rm -rf "$work"' EXIT
root=${1:-$work/root}
if [ ! -e "$root/lib/systemd/systemd" ]; then
    needs=systemd,systemd-sysv,dbus,python3,tcpdump,iproute2,iputils-ping
    debootstrap --variant=minbase --include=$needs bookworm "$root" > "$work/log" 2>&1 || skip "debootstrap made no system: $(tail -n 1 "$work/log")"
fi
make -s -C "$here" install DESTDIR="$root" PREFIX=/usr PROGRAM="$program" LIBRARY= > "$work/log" 2>&1 || { cat "$work/log"; exit 1; }
install -m 755 "$here/tools/systemd/inside.sh" "$root/root/inside.sh"
cat > "$root/etc/systemd/system/check.service" << 'END'
[Unit]
After=multi-user.target
SuccessAction=exit
FailureAction=exit
[Service]
Type=oneshot
ExecStart=/root/inside.sh
StandardOutput=file:/root/said
StandardError=file:/root/said
TimeoutStartSec=300
END
mkdir -p "$root/etc/systemd/system/multi-user.target.wants"
ln -sf ../check.service "$root/etc/systemd/system/multi-user.target.wants/check.service"
rm -rf "$root/root/said" "$root/etc/confluo"
timeout -k 10 400 systemd-nspawn --quiet --directory="$root" --register=no --keep-unit --private-network --boot < /dev/null > "$work/boot" 2>&1 || true
[ -e "$root/root/said" ] || { tail -n 3 "$work/boot"; skip "this machine boots no system in a container"; }
cat "$root/root/said"
[ "$(tail -n 1 "$root/root/said")" = "check-units: good" ]
