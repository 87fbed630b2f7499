#!/bin/sh
# samples/batches.c, which is there to be copied: a journal longer than its first buffer, and everything that can be in its way.
# shellcheck disable=SC2015
set -u
cd "$(dirname "$0")/../.." || exit 2
out=target/c
mkdir -p "$out"
seen=0
compile() { # PROGRAM WORDS..
    program=$1
    shift
    cc -std=c99 -Wall -Wextra -pedantic -Werror "$@" -Iinclude samples/batches.c target/staticlib/libpierloft.a -o "$out/$program"
}
compile batches -O2 || exit 1

differs() {
    echo "batches: $*"
    exit 1
}

says() { # STATUS LAST-LINE WHAT COMMAND: its status, and the last line of all that it says
    sh -c "$4" >"$out/batches.said" 2>&1
    got=$?
    last=$(tail -n 1 "$out/batches.said")
    [ $got -eq "$1" ] && [ "$last" = "$2" ] || differs "$3: status $got, '$last'; it should be $1, '$2'"
    seen=$((seen + 1))
}

# the sample's kept part is a clean journal, and so is any number of them
kept=$(sed -n 's/^end 1 .* kept //p' samples/claims.txt)
head -c "$kept" samples/claims.jnl >"$out/one"
n=0
while [ $n -lt 50 ]; do
    cat "$out/one"
    n=$((n + 1))
done >"$out/fifty"
n=0
while [ $n -lt 100 ]; do
    cat "$out/fifty"
    n=$((n + 1))
done >"$out/long"
total=$((kept * 5000))
batches=$(($(grep -c '^@' samples/claims.txt) * 5000))
calls() { # PROGRAM
    says 0 "outcome 0, $total of $total bytes kept" 'a long journal' "$1 <$out/long"
    says 0 "$batches" 'the batches of a long journal' "$1 <$out/long | grep -c '^batch'"
    says 0 'outcome 0, 0 of 0 bytes kept' 'nothing' "$1 </dev/null"
    says 1 "outcome 1, $kept of $(wc -c <samples/claims.jnl) bytes kept" 'the sample' "$1 <samples/claims.jnl"
    says 66 'batches: standard input cannot be read' 'a folder' "$1 </"
    says 66 'batches: standard input cannot be read' 'no standard input' "$1 <&-"
    says 74 'batches: standard output cannot be written' 'no standard output' "$1 <$out/one >&-"
    says 74 'batches: standard output cannot be written' 'a full disk' "$1 <$out/one >/dev/full"
    says 74 'batches: standard output cannot be written' 'a full disk, noticed early' "$1 <$out/long >/dev/full"
}
calls "$out/batches"
says 70 'batches: not enough memory for the journal' 'no memory' "ulimit -v 65536; head -c 67108864 /dev/zero | $out/batches"
if compile batches.sanitized -O1 -fsanitize=address,undefined -fno-sanitize-recover=all 2>/dev/null; then
    calls "$out/batches.sanitized"
else
    echo 'the sanitizers of cc, for the sample' >>"$out/missing" # run.sh says so, and is no pass then
fi
echo "batches: $seen calls answered as they should"
