#!/bin/sh
# The program xxh3sum against Debian's `xxhsum -H3`: random bytes of every length from 0 to 2,000 and 64 MiB from a file, a pipe that
# brings small pieces slowly, and zeros up to the limit of 4,294,967,295 bytes and one past it.
set -u
cd "$(dirname "$0")/.." || exit 2
. tests/package.sh
have xxhash xxhsum --version
ours=$(pwd -P)/target/bin/xxh3sum
sh tools/program xxh3sum >/dev/null || exit 1
dir=$(mktemp -d) || exit 2
trap 'rm -rf "$dir"' EXIT
# files of zeros without a block: where files are in memory, if there is such a place, they are read fast
zeros=$(mktemp -d -p /dev/shm 2>/dev/null || mktemp -d) || exit 2
trap 'rm -rf "$dir" "$zeros"' EXIT
truncate -s 4294967295 "$zeros/limit" && truncate -s 4294967296 "$zeros/past" || exit 2
keep=$(pwd -P)/target/xxh3sum-differs

mkdir "$dir/part" && head -c 2002000 /dev/urandom >"$dir/random" || exit 2
n=0
while [ $n -le 2000 ]; do
    head -c $n <&3 >"$dir/part/$n"
    n=$((n + 1))
done 3<"$dir/random"
[ "$(cat "$dir"/part/* | wc -c)" -eq 2001000 ] || exit 2
head -c 67108864 /dev/urandom >"$dir/large" || exit 2

slowly() { # SIZE: the file's first fifty pieces, one by one
    i=0
    while [ $i -lt 50 ]; do
        dd if="$dir/large" bs="$1" skip=$i count=1 status=none
        sleep 0.01
        i=$((i + 1))
    done
}
for size in 1 61 256 1000; do
    head -c $((size * 50)) "$dir/large" >"$dir/slow$size"
    slowly $size | "$ours" >"$dir/slow$size.ours" &
done

cd "$dir" || exit 2
set -- part/* large "$zeros/limit"
for file in "$@"; do
    "$ours" <"$file"
done >sums
wait
set -- "$@" slow1 slow61 slow256 slow1000
cat slow1.ours slow61.ours slow256.ours slow1000.ours >>sums
printf '%s\n' "$@" | paste -d ' ' sums - >ours
xxhsum -q -H3 "$@" 2>/dev/null | sed 's/XXH3 (\(.*\)) = \(.*\)/\2 \1/' >theirs
seen=$(wc -l <theirs)
[ "$seen" -eq 2007 ] || {
    echo "xxh3sum: xxhsum answered $seen of 2,007 files"
    exit 1
}
cmp -s ours theirs || {
    diff ours theirs | head -n 8 | sed 's/^/xxh3sum: /'
    first=$(diff ours theirs | sed -n 's/^> [0-9a-f]* //p' | head -n 1)
    [ -z "$first" ] || [ "$first" = "$zeros/limit" ] || cp "$first" "$keep"
    exit 1
}
[ "$("$ours" <"$zeros/past")" = 'refused 21' ] || {
    echo "xxh3sum: past the limit: it should be 'refused 21'"
    exit 1
}
echo "xxh3sum: $((seen + 1)) inputs agree with xxhsum"
