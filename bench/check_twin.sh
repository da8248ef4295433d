#!/bin/sh
# Builds the plain twin with warnings as errors, with and without sanitizers, and runs it small: it ends with 0 if its log is whole.
# The same of the bare chain.
set -eu
here=$(cd "$(dirname "$0")" && pwd)
folder=$(mktemp -d)
trap 'rm -rf "$folder"' EXIT
for sanitizer in none address,undefined thread; do
    flags="-fsanitize=$sanitizer"
    [ "$sanitizer" = none ] && flags=-O2
    cc -std=c11 -g -Wall -Wextra -Werror "$flags" -pthread -o "$folder/twin" "$here/plain_twin.c"
    for writers in 1 4; do
        "$folder/twin" --records 9001 --lanes 4 --writers "$writers" --batch 1000 --chains 16 --finds 32 > "$folder/said"
        # Each record is found twice, since 32 keys are the 16 two times.
        grep -q "^finds 32 links 18002 " "$folder/said"
    done
    cc -std=c11 -g -Wall -Wextra -Werror "$flags" -o "$folder/chase" "$here/chase.c"
    "$folder/chase" 4 | grep -q "^4 words, 4246 links: "
done
for words in "--writers 0" "--lanes 17" "--batch" "--records -1" "--other 1"; do
    status=0
    # shellcheck disable=SC2086
    "$folder/twin" $words 2> /dev/null || status=$?
    [ "$status" -eq 2 ] || { echo "check-twin: status $status for: $words"; exit 1; }
done
if command -v rustc > /dev/null; then
    rustc --edition 2021 -O -D warnings -o "$folder/twin_rust" "$here/plain_twin.rs"
    "$folder/twin_rust" rows 4 2 > /dev/null && "$folder/twin_rust" frames 0 2 256 > /dev/null
else
    echo "check-twin: the twin in Rust is skipped, there is no rustc"
fi
echo "check-twin: the plain twin is clean and its log whole"
