#!/bin/sh
# Builds stand-ins for the program and the library in the folder OUT, from stubs in C: packages can be tried before anything is proved.
#
#     tools/deb/stand_in.sh OUT
#
# The program prints its words; of the library only `confluo_version` answers as the real one does.
set -eu
out=$1
here=$(cd "$(dirname "$0")/../.." && pwd)
mkdir -p "$out"
hardened="-O2 -g -Wall -fstack-protector-strong -D_FORTIFY_SOURCE=2"
cat > "$out/program.c" << 'END'
#include <stdio.h>
int main(int count, char **words) {
    for (int k = 0; k < count; k++) printf("%s ", words[k]);
    return putchar('\n') < 0;
}
END
{
    echo '#include <stdint.h>'
    echo '#include <stdlib.h>'
    sed -n 's/.*__asm__("\(confluo_[a-z_]*\)").*/\1/p' "$here/bindings/confluo.h" | sort -u | while read -r name; do
        if [ "$name" = confluo_version ]; then
            echo "uint32_t $name(void) { return $(sed -n 's/^#define CONFLUO_VERSION //p' "$here/bindings/confluo.h"); }"
        else
            echo "uint32_t $name(void); uint32_t $name(void) { return (uint32_t)rand(); }"
        fi
    done
} > "$out/library.c"
# shellcheck disable=SC2086
cc $hardened -fPIE -pie -Wl,-z,relro,-z,now -o "$out/confluo" "$out/program.c"
# shellcheck disable=SC2086
cc $hardened -fPIC -c -o "$out/library.o" "$out/library.c"
ar rcs "$out/libconfluo.a" "$out/library.o"
cc -shared -o "$out/libconfluo.so.0" -Wl,-soname,libconfluo.so.0 -Wl,-z,relro,-z,now -Wl,--version-script="$here/bindings/confluo.map" "$out/library.o"
