#!/bin/sh
# Holds include/pierloft.h to the static library: the structs and the functions' types to the source, every function's answers and every
# enumerator to the library, the names to the archive, the number of the layout to the linker. By gcc and clang, as C99 and C++17, without a
# warning; and once more with the sanitizers of addresses and of undefined behaviour. Status 77 where one of these is not there, and it says
# which.
set -eu
cd "$(dirname "$0")/../.."
. tests/package.sh
command -v cc >/dev/null || {
    echo 'c: not run: no C compiler'
    exit 77
}
have binutils objcopy --version
archive=target/staticlib/libpierloft.a out=target/c
mkdir -p "$out"
sh tools/archive --if-older >"$out/archive.log" 2>&1 || {
    cat "$out/archive.log"
    exit 1
}
(cd crates && awk -f ../tests/c/layout.awk dialect/src/lib.rt stream/src/lib.rt flat/src/lib.rt pierloft/src/lib.rt) >"$out/layout.h"
sed -n '/enum.*{/,/}/p' include/pierloft.h | grep -o 'PIERLOFT_[A-Z0-9_]*' | sed 's/.*/NAME(&)/' >"$out/names.h"
# each number has one layout: where a struct or a call has changed the number rises, and the sum is set; where a call was added, the sum alone
number=$(sed -n 's/^#define PIERLOFT_ABI //p' include/pierloft.h)
sum=$(grep -v like_pierloft_abi "$out/layout.h" | cksum)
[ "$number: $sum" = '1: 1806980534 9501' ] || {
    echo "c: the structs and calls are not those that this number of the layout stands for: their sum is $sum"
    exit 1
}
# a program that has nothing of ours: what does not compile it is not there
echo 'int main(void) { return 0; }' >"$out/none.c"
# one call and no more: what refers to the number of the layout is the header alone
printf '#include "pierloft.h"\nint main(void) { return (int)pierloft_hasher_new().total; }\n' >"$out/one.c"
abi=pierloft_abi_$number
objcopy --redefine-sym "$abi=${abi}0" "$archive" "$out/other.a"

compile() { # COMPILER STANDARD SOURCE ARCHIVE WORDS..
    compiler=$1 standard=$2 source=$3 with=$4
    shift 4
    "$compiler" -x "${standard%%[0-9]*}" "-std=$standard" -Wall -Wextra -pedantic -Werror "$@" -Iinclude "-I$out" "$source" -x none "$with" \
        -o "$out/$compiler.program"
}

answers() { # COMPILER STANDARD PROGRAM WORDS..
    compiler=$1 standard=$2 program=$3 said=$out/$1.said
    shift 3
    compile "$compiler" "$standard" "tests/c/$program.c" "$archive" "$@"
    "$out/$compiler.program" >"$said" 2>&1 || {
        echo "c: $compiler -std=$standard $* tests/c/$program.c:"
        cat "$said"
        exit 1
    }
    tail -n 1 "$said" >>"$out/seen"
}

links() { # COMPILER STANDARD WORDS..: with this library, and not with one of another number
    compiler=$1 standard=$2 said=$out/$1.said
    shift 2
    compile "$compiler" "$standard" "$out/one.c" "$archive" "$@"
    if compile "$compiler" "$standard" "$out/one.c" "$out/other.a" "$@" 2>"$said"; then
        echo "c: $compiler -std=$standard $*: links with a library of another number"
        exit 1
    fi
    grep -q "undefined reference.*$abi\\>" "$said" || {
        cat "$said"
        exit 1
    }
    echo link >>"$out/seen"
}

holds() { # COMPILER STANDARD
    sanitized=-fsanitize=address,undefined
    compile "$1" "$2" "$out/none.c" "$archive" $sanitized 2>/dev/null || {
        echo "the sanitizers of $1" >>"$out/missing"
        sanitized=''
    }
    for program in answers names pages; do
        answers "$1" "$2" "$program" -O2
        [ -z "$sanitized" ] || answers "$1" "$2" "$program" -O1 $sanitized -fno-sanitize-recover=all
    done
    links "$1" "$2" -O2
    links "$1" "$2" -O2 -ffunction-sections -fdata-sections -Wl,--gc-sections
}

: >"$out/seen" && : >"$out/missing"
running=''
for pair in gcc:c99 g++:c++17 clang:c99 clang++:c++17; do
    compiler=${pair%:*}
    if command -v "$compiler" >/dev/null; then
        holds "$compiler" "${pair#*:}" >"$out/$compiler.log" 2>&1 &
        running="$running $compiler:$!"
    else
        echo "$compiler" >>"$out/missing"
    fi
done
failed=''
for run in $running; do
    wait "${run#*:}" || {
        cat "$out/${run%:*}.log"
        failed=yes
    }
done
[ -z "$failed" ] || exit 1
links cc c11 -O2
answers cc c99 stack -O2
sh tests/c/batches.sh

# the header declares what the archive has, and no more
nm --defined-only "$archive" 2>/dev/null | sed -n 's/^.* T //p' | sort >"$out/has"
sed -n 's/^[a-z].*\b\(pierloft_[a-z0-9_]*\)(.*$/\1/p' include/pierloft.h | sort >"$out/declares"
diff "$out/has" "$out/declares"
# which calls nothing else
[ "$(nm -u "$archive" 2>/dev/null | sed -n 's/^ *U //p' | sort | tr '\n' ' ')" = 'memcpy memset ' ] || {
    echo 'c: the archive calls something else than memcpy and memset:' && nm -u "$archive"
    exit 1
}
awk '/ checks, / { checks += $2; runs++ }
    END { print "c: " runs " programs with " checks " checks; " NR - runs " links, each seen to fail with another number" }' "$out/seen"
echo "c: $(wc -l <"$out/has") functions, $(wc -l <"$out/names.h") enumerators, $(grep -c HELD "$out/layout.h") facts of the layout held"
[ ! -s "$out/missing" ] || {
    echo 'c: not run, since it is not there:' && cat "$out/missing"
    exit 77
}
