#!/bin/sh
# fuzz/run.sh SECONDS FOLDER: fuzzes for so long, on one processor. Inputs that reach something new stay in FOLDER, which gets seeds where
# it is empty; one that shows a difference is written to FOLDER.found-* and ends the run with a status that is not 0.
set -eu
[ $# -eq 2 ] || {
    echo 'usage: run.sh SECONDS FOLDER' >&2
    exit 64
}
mkdir -p "$2"
inputs=$(cd "$2" && pwd -P)
cd "$(dirname "$0")/.."
./fuzz/build.sh
[ -n "$(ls -A "$inputs")" ] || target/cargo/release/compare seeds "$inputs"
exec nice -n 19 target/fuzz/x86_64-unknown-linux-gnu/release/fuzz -max_total_time="$1" -max_len=8192 -rss_limit_mb=8192 -malloc_limit_mb=8192 \
    -print_final_stats=1 -artifact_prefix="$inputs.found-" "$inputs"
