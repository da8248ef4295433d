#!/bin/sh
# Installs, uses, upgrades and removes the Debian packages in an empty system made by debootstrap, and reads them with lintian.
#
#     tools/deb/check.sh [SUITE]
#
# The built program and library are packed; a stand-in takes the place of one that is not built, and is said to. Needs root, debootstrap
# and a mirror; where these are not at hand it says so and ends with 0. It leaves nothing.
set -eu
here=$(cd "$(dirname "$0")/../.." && pwd)
suite=${1:-bookworm}
skip() { echo "check-packages: skipped, $1"; exit 0; }
fail() { echo "check-packages: $1"; exit 1; }
[ "$(id -u)" = 0 ] || skip "it needs root"
for need in debootstrap dpkg-deb dpkg-architecture cc strip; do
    command -v $need > /dev/null || skip "$need is missing: apt-get install debootstrap dpkg-dev build-essential"
done
work=$(mktemp -d)
root=$work/root
leave() {
    umount "$root/proc" 2> /dev/null || true
    rm -rf "$work"
}
trap leave EXIT

"$here/tools/deb/stand_in.sh" "$work/stand_in"
program=${CONFLUO:-$here/crates/confluo/out/confluo}
library=$here/bindings/out
[ -x "$program" ] || { program=$work/stand_in/confluo; echo "check-packages: a stand-in is the program (make run builds it)"; }
[ -f "$library/libconfluo.so.0" ] || { library=$work/stand_in; echo "check-packages: a stand-in is the library (make -C bindings archive builds it)"; }
version=$(cat "$here/VERSION")
build() { python3 "$here/tools/deb/build.py" --program "$program" --library "$library" --out "$work/$1" --version "$1" > /dev/null; }
build "$version"
build "$version+1"
if command -v lintian > /dev/null; then
    lintian --allow-root --fail-on error,warning "$work/$version"/*.deb || fail "lintian refuses a package"
else
    echo "check-packages: lintian is missing: apt-get install lintian"
fi

debootstrap --variant=minbase --include=python3,tcpdump,libc6-dev "$suite" "$root" > "$work/log" 2>&1 || skip "debootstrap made no system: $(tail -n 1 "$work/log")"
mount -t proc proc "$root/proc"
# As if systemd ran: what the packages ask of it is written down.
mkdir -p "$root/run/systemd/system"
for name in systemctl deb-systemd-invoke systemd-sysusers; do
    # shellcheck disable=SC2016
    printf '#!/bin/sh\necho "%s $*" >> /asked\n' $name > "$root/usr/bin/$name"
    chmod 755 "$root/usr/bin/$name"
done
inside() { chroot "$root" env -u CONFLUO -u CONFLUO_LIBRARY DEBIAN_FRONTEND=noninteractive LC_ALL=C "$@"; }
asked() { grep -qF "$1" "$root/asked" || fail "the packages did not ask: $1"; }
put() { rm -f "$root/asked" "$root"/root/*.deb && : > "$root/asked" && cp "$work/$1"/*.deb "$root/root"; }

put "$version"
find "$root/usr" "$root/etc" "$root/var/lib/systemd" | sort > "$work/before"
inside sh -c 'dpkg -i /root/*.deb' > "$work/log" 2>&1 || { cat "$work/log"; fail "dpkg does not install the packages"; }
asked "systemd-sysusers confluo.conf"
grep -q restart "$root/asked" && fail "a first installation restarts units"
inside confluo-report --version > /dev/null || fail "confluo-report does not run"
inside python3 -c 'import confluo' || fail "the Python package does not find the library"
if [ "$program" != "$work/stand_in/confluo" ]; then
    examples=/usr/share/doc/confluo/examples
    inside confluo run --setup $examples/web_and_dns.setup --writers 1 $examples/web_and_dns.pcap | grep -q '^records 16$' || fail "confluo gives another answer"
    inside confluo-report ask $examples/web_and_dns.pcap 'top 3 src by bytes' | grep -q '10.0.0.5' || fail "confluo-report gives another answer"
fi
echo "check-packages: installed and used"

put "$version+1"
inside sh -c 'dpkg -i /root/*.deb' > "$work/log" 2>&1 || { cat "$work/log"; fail "dpkg does not upgrade the packages"; }
asked "deb-systemd-invoke restart confluo-watch@*.service"
grep -q stop "$root/asked" && fail "an upgrade stops units"
# shellcheck disable=SC2016
[ "$(inside dpkg-query -W -f '${Version}' confluo)" = "$version+1" ] || fail "the old version is still there"
echo "check-packages: upgraded"

: > "$root/asked"
mkdir -p "$root/etc/systemd/system/multi-user.target.wants" "$root/etc/confluo"
ln -s /usr/lib/systemd/system/confluo-watch@.service "$root/etc/systemd/system/multi-user.target.wants/confluo-watch@eth0.service"
echo 'schema packet' > "$root/etc/confluo/eth0.setup"
inside apt-get purge -y -qq confluo libconfluo0 libconfluo-dev python3-confluo > "$work/log" 2>&1 || { cat "$work/log"; fail "the packages are not removed"; }
asked "deb-systemd-invoke stop confluo-watch@*.service confluo-capture@*.service"
[ -f "$root/etc/confluo/eth0.setup" ] || fail "the operator's setup is gone"
rm -r "$root/etc/confluo"
find "$root/usr" "$root/etc" "$root/var/lib/systemd" | grep -v '/etc/systemd/system/multi-user.target.wants$' | sort > "$work/after"
left=$(comm -13 "$work/before" "$work/after" | grep confluo || true)
[ -z "$left" ] || fail "this is left: $left"
echo "check-packages: removed, and nothing is left"
