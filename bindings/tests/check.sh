#!/bin/sh
# Builds the example and the tests against the archive in the folder OUT, plain and with sanitizers, and runs them. The sanitizers see
# the C side and each malloc, realloc and free; the archive itself is not instrumented.
set -eu
out=$(cd "$1" && pwd)
here=$(cd "$(dirname "$0")" && pwd)
cc=${CC:-cc}
folder=$(mktemp -d)
trap 'rm -rf "$folder"' EXIT
build() {
    name=$1
    shift
    "$cc" -std=c11 -g -Wall -Wextra -Werror -I"$here/.." "$@" "$out/libconfluo.a" -pthread -o "$folder/$name"
}
# The examples of the header and of the documents.
{
    echo '#include "confluo.h"'
    echo '#include <stdio.h>'
    echo '#include <string.h>'
    echo 'int main(void) { const uint64_t now = 1000; const uint8_t frame[60] = {[12] = 8, [14] = 0x45, [17] = 20, [26] = 10, [29] = 1};'
    sed -n '/^\*\* EXAMPLE/,/^\*\*   bindings/{s/^\*\*   //; /^\*\*/d; /^bindings/d; p}' "$here/../confluo.h"
    echo 'return (int)code; }'
} > "$folder/header.c"
# A rolling log's, in C and in C++.
{
    echo '#include "confluo_rolling.h"'
    echo '#include <stdio.h>'
    echo 'int main(void) {'
    sed -n '/^\*\* EXAMPLE/,/^\*\* WHAT/{s/^\*\*   //; /^\*\*/d; p}' "$here/../confluo_rolling.h"
    echo 'return 0; }'
} > "$folder/rolling_header.c"
# shellcheck disable=SC2016
sed -n '/^```c$/,/^```$/{/^```/d; p}' "$here/../../docs/LIBRARY.md" > "$folder/page.c"
example_prints() {
    [ "$("$folder/example")" = "2000 records, 200000 bytes" ] || { echo "check-c: the example prints something else"; exit 1; }
}
for standard in c99 c11 c17; do
    echo '#include "confluo_rolling.h"' | "$cc" -std=$standard -Wall -Wextra -Wpedantic -Werror -I"$here/.." -fsyntax-only -x c -
done
if echo 'int main() { return 0; }' | "$cc" -x c++ -fsyntax-only - 2> /dev/null; then
    for standard in c++98 c++11 c++20; do
        echo '#include "confluo_rolling.h"' | "$cc" -std=$standard -Wall -Wextra -Werror -I"$here/.." -fsyntax-only -x c++ -
    done
fi
for flags in -O2 -fsanitize=address,undefined -fsanitize=thread; do
    if ! echo 'int main(void) { return 0; }' | "$cc" -x c "$flags" -o "$folder/empty" - 2> /dev/null; then
        echo "check-c: $flags skipped, the compiler does not have it"
        continue
    fi
    build example "$flags" "$here/../example.c"
    example_prints
    build header "$flags" "$folder/header.c"
    [ "$("$folder/header")" = "record 0" ] || { echo "check-c: the example of confluo.h prints something else"; exit 1; }
    # Programs written from the headers alone, in C and in C++.
    for language in c:c99:-lc c++:c++20:-lstdc++; do
        links=${language##*:} language=${language%:*}
        words="-x ${language%:*} -std=${language#*:}"
        # shellcheck disable=SC2086
        if ! echo 'int main() { return 0; }' | "$cc" $words "$flags" -o "$folder/empty" - "$links" 2> /dev/null; then
            echo "check-c: $language skipped, the compiler does not have it"
            continue
        fi
        # shellcheck disable=SC2086
        "$cc" $words -g -Wall -Wextra -Wpedantic -Werror -I"$here/.." "$flags" -c "$here/program.c" -o "$folder/program.o"
        "$cc" "$flags" "$folder/program.o" "$out/libconfluo.a" -pthread "$links" -o "$folder/program"
        "$folder/program" > "$folder/report"
        cmp -s "$folder/report" "$here/program.report" || { echo "check-c: the program prints another report in $language"; exit 1; }
        # shellcheck disable=SC2086
        "$cc" $words -g -Wall -Wextra -Wpedantic -Werror -I"$here/.." "$flags" -c "$folder/rolling_header.c" -o "$folder/program.o"
        "$cc" "$flags" "$folder/program.o" "$out/libconfluo.a" -pthread "$links" -o "$folder/program"
        [ "$("$folder/program")" = "9888 records after 90112, 593280 bytes" ] || { echo "check-c: the example of confluo_rolling.h prints something else in $language"; exit 1; }
    done
    build page "$flags" "$folder/page.c"
    [ "$("$folder/page")" = "2000 records, 120000 bytes" ] || { echo "check-c: the example of docs/LIBRARY.md prints something else"; exit 1; }
    for name in calls asks names batches closes inline raw waits threads spans rolling; do
        build $name "$flags" "$here/$name.c"
        "$folder/$name"
    done
done
for name in refusals rolling_refusals; do
    build $name -fsanitize=address -Wl,--wrap=malloc,--wrap=realloc "$here/$name.c" && "$folder/$name"
done
echo "check-c: the library is clean in C by $cc"
