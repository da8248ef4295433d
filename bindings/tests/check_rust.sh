#!/bin/sh
# Tests the Rust crate against the archive in the folder OUT, and lints it if clippy and rustfmt are there.
set -eu
export CONFLUO_LIB_DIR CARGO_TARGET_DIR
CONFLUO_LIB_DIR=$(cd "$1" && pwd)
CARGO_TARGET_DIR=$CONFLUO_LIB_DIR/rust
cd "$(dirname "$0")/../rust"
cargo=${CARGO:-cargo}
said=$("$cargo" test --offline --quiet 2>&1) || { echo "$said"; exit 1; }
if "$cargo" clippy --version > /dev/null 2>&1; then
    "$cargo" clippy --offline --quiet --all-targets -- -D warnings
else
    echo "check-rust: clippy is missing"
fi
# Versions of rustfmt differ in small things, so this is no failure.
if "$cargo" fmt --version > /dev/null 2>&1; then
    "$cargo" fmt --check > /dev/null || echo "check-rust: cargo fmt would change files"
else
    echo "check-rust: rustfmt is missing"
fi
echo "check-rust: the crate is clean"
