#!/bin/sh
# tests/oracle/run.sh SEED COUNT: builds the comparison and runs it: the listed differences, the fixed lists, a quarter of COUNT made-up
# cases, all sets, COUNT random images, the large images. Status 0: no difference; 1: one, which is printed; 77: not run, since this machine
# lacks the Rust or its crates.
set -eu
cd "$(dirname "$0")"
[ $# -eq 2 ] || {
    echo 'usage: run.sh SEED COUNT' >&2
    exit 64
}
./build.sh
compare=target/cargo/release/compare
$compare spoilt
$compare differences
./list.sh --check
$compare run "$1" "$2"
