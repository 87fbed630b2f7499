#!/bin/sh
# Makes the fixed lists of crates/replay_shipped and crates/replay_test anew from the Rust's answers.
# list.sh --check: only says whether they are what the Rust answers today.
set -eu
cd "$(dirname "$0")"
top=$(cd ../.. && pwd -P)
./build.sh
for name in shipped test; do
    crate=$top/crates/replay_$name
    if [ "${1:-}" = --check ]; then
        mkdir -p target/list
        target/cargo/release/compare list "$name" target/list
        cmp target/list/stdin "$crate/stdin"
        cmp target/list/stdout "$crate/stdout"
    else
        target/cargo/release/compare list "$name" "$crate"
    fi
done
