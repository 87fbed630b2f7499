#!/bin/sh
# What the README shows is what happens: the listing of the sample, the C program and what it prints. Status 77 where this machine has no C
# compiler.
set -u
cd "$(dirname "$0")/.." || exit 2
out=target/readme
mkdir -p "$out" || exit 2

# the indented lines behind the one that has the command
shown() {
    awk -v command="    \$ $1" '
        $0 == command { on = 1; next }
        on && /^    \$ / { exit }
        on && /^    / { print substr($0, 5); next }
        on { exit }' README.md
}

same() { # COMMAND FILE: the file is what the README shows behind the command
    shown "$1" >"$out/shown"
    [ -s "$out/shown" ] || {
        echo "readme: it shows nothing behind '$1'"
        exit 1
    }
    cmp "$out/shown" "$2" || {
        echo "readme: '$1' prints something else"
        exit 1
    }
}

sh -c './pierloft dump samples/claims.jnl' >"$out/printed"
[ $? -eq 1 ] || exit 1
same './pierloft dump samples/claims.jnl' "$out/printed"

command -v cc >/dev/null || {
    echo 'readme: the C program was not tried: no C compiler'
    exit 77
}
sh tools/archive --if-older >/dev/null || exit 1
compile='cc -Iinclude samples/batches.c target/staticlib/libpierloft.a -o target/batches'
grep -qxF "    \$ $compile" README.md || {
    echo "readme: it does not say '$compile'"
    exit 1
}
$compile || exit 1
target/batches <samples/claims.jnl >"$out/all"
[ $? -eq 1 ] || exit 1
tail -n 5 "$out/all" >"$out/printed"
same 'target/batches <samples/claims.jnl | tail -n 5' "$out/printed"
echo 'readme: the sample is listed, by the program and from C, as it says'
