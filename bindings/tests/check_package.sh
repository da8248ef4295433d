#!/bin/sh
# Installs the library from the folder OUT into a folder of its own, and builds and runs the example as pkg-config says, linked either way.
set -eu
cd "$(dirname "$0")/.."
cc=${CC:-cc}
for need in nm readelf; do
    command -v $need > /dev/null || { echo "check-package: skipped, $need is missing"; exit 0; }
done
folder=$(mktemp -d)
trap 'rm -rf "$folder"' EXIT
exported=$(nm -D --defined-only "$OUT/libconfluo.so.0" | awk '$2 != "A" { print $3 }' | grep -v '^confluo_' || true)
[ -z "$exported" ] || { echo "check-package: the shared object exports $exported"; exit 1; }
missing=$(sed -n 's/.*__asm__("\(confluo_[a-z_]*\)").*/\1/p' confluo.h | sort -u | while read -r name; do
    nm -D --defined-only "$OUT/libconfluo.so.0" | grep -q " $name\(@\|\$\)" || echo "$name"
done)
[ -z "$missing" ] || { echo "check-package: the shared object lacks $missing"; exit 1; }
readelf -d "$OUT/libconfluo.so.0" | grep -q 'soname: \[libconfluo.so.0\]' || { echo "check-package: another soname"; exit 1; }
${MAKE:-make} --no-print-directory install DESTDIR="$folder" PREFIX=/usr > /dev/null
for file in include/confluo.h include/confluo_rolling.h lib/libconfluo.a lib/libconfluo.so.0 lib/libconfluo.so lib/pkgconfig/confluo.pc; do
    [ -e "$folder/usr/$file" ] || { echo "check-package: $file is not installed"; exit 1; }
done
if ! command -v pkg-config > /dev/null || ! command -v "$cc" > /dev/null; then
    echo "check-package: the example is skipped, pkg-config or a C compiler is missing"
    exit 0
fi
export PKG_CONFIG_PATH="$folder/usr/lib/pkgconfig" PKG_CONFIG_SYSROOT_DIR="$folder"
# shellcheck disable=SC2046
"$cc" -std=c11 -o "$folder/shared" example.c $(pkg-config --cflags --libs confluo) -pthread
# shellcheck disable=SC2046
"$cc" -std=c11 -o "$folder/static" example.c $(pkg-config --cflags confluo) "$folder/usr/lib/libconfluo.a" -pthread
# The other header finds the first one there.
# shellcheck disable=SC2046
echo '#include <confluo_rolling.h>' | "$cc" -std=c11 $(pkg-config --cflags confluo) -fsyntax-only -x c -
for linked in shared static; do
    printed=$(LD_LIBRARY_PATH="$folder/usr/lib" "$folder/$linked")
    [ "$printed" = "2000 records, 200000 bytes" ] || { echo "check-package: the $linked example prints $printed"; exit 1; }
done
echo "check-package: the library is installed as said"
