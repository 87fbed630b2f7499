#!/bin/sh
# The file that the program `vectors` is held to is what Debian's libxxhash says. With the word `write` it is made anew, else compared.
set -eu
cd "$(dirname "$0")/.."
. tests/package.sh
have libxxhash-dev test -e /usr/include/xxhash.h
dir=$(mktemp -d)
trap 'rm -rf "$dir"' EXIT
cc -O2 -o "$dir/vectors" tests/vectors.c -lxxhash
"$dir/vectors" >"$dir/stdout"
if [ "${1-}" = write ]; then
    cp "$dir/stdout" crates/vectors/stdout
fi
cmp "$dir/stdout" crates/vectors/stdout
echo "vectors: $(wc -l <"$dir/stdout") lines are libxxhash's"
