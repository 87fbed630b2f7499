#!/bin/sh
# The script pierloft, called in every way that its help names: what it prints, on which stream, and its exit status.
# shellcheck disable=SC2015,SC2016,SC2059,SC2086
set -u
cd "$(dirname "$0")/.." || exit 2
top=$(pwd -P)
for name in dump dump_test xxh3sum; do
    sh tools/program "$name" >/dev/null 2>&1 || {
        echo "script: $name could not be built"
        exit 1
    }
done
dir=$(mktemp -d) || exit 2
trap 'rm -rf "$dir"' EXIT
seen=0

differs() {
    echo "script: $*"
    exit 1
}

# STATUS STDOUT STDERR WORDS..: standard input is $in, or nothing. STDOUT is the exact text; STDERR a part of one line, '' for silence.
in=/dev/null
call() {
    status=$1 text=$2 message=$3
    shift 3
    ./pierloft "$@" <"$in" >"$dir/out" 2>"$dir/err"
    got=$?
    seen=$((seen + 1))
    [ $got -eq "$status" ] || differs "pierloft $*: status $got, and it should be $status"
    [ "$(cat "$dir/out")" = "$text" ] || differs "pierloft $*: printed '$(cat "$dir/out")', and it should be '$text'"
    if [ -n "$message" ]; then
        grep -qF -- "$message" "$dir/err" || differs "pierloft $*: said '$(cat "$dir/err")', without '$message'"
    else
        [ ! -s "$dir/err" ] || differs "pierloft $*: said '$(cat "$dir/err")'"
    fi
}

# STATUS STDOUT WORDS FILE [MESSAGE]: by name, on standard input, and by -
both() {
    want=$1 listing=$2 words=$3 file=$4 said=${5-}
    call "$want" "$listing" "${said:+$file: $said}" $words "$file"
    in=$file
    call "$want" "$listing" "${said:+standard input: $said}" $words
    call "$want" "$listing" "${said:+standard input: $said}" $words -
    in=/dev/null
}

# entries: under both dialects but for the magic
start() { printf "\\001\\00$1\\000\\000\\000\\007\\000\\000\\000\\000\\000\\000\\000"; }
clear='\004\002\000\000\000\000\000\000\000'
zero='\003\000\000\000\000\000\000\000\000'
item='\002\000\000\002\000\000\000\000\000\000\000\001\000\002\000\000\000\002\000\000\000axy'
sum='\003\130\255\045\272\116\261\121\335'

for dialect in '' --test; do
    magic='FJL\003'
    [ -z "$dialect" ] || magic='JL1\001'
    dump="dump${dialect:+ $dialect}"

    # document 01's batch of 50 bytes, with three zeros behind it and without
    { start 1 && printf "$item$sum$magic"; } >"$dir/clean"
    { cat "$dir/clean" && printf '\000\000\000'; } >"$dir/torn"
    lines='@0 seq 7 entries 1
item 2 V 61 7879'
    both 0 "journal 50 bytes
$lines
end 0 valid 50 kept 50" "$dump" "$dir/clean"
    both 1 "journal 53 bytes
$lines
end 1 valid 50 kept 50" "$dump" "$dir/torn"

    # the errors: document 01's P7 and P10, and an empty batch with a checksum of 0
    { start 1 && printf "$zero$magic"; } >"$dir/insufficient"
    { start 0 && printf "$clear"; } >"$dir/many"
    { start 0 && printf "$zero$magic"; } >"$dir/mismatch"
    both 2 'journal 26 bytes
end 2 valid 0 kept 26' "$dump" "$dir/insufficient"
    both 3 'journal 22 bytes
end 3 valid 0 kept 22' "$dump" "$dir/many"
    both 4 'journal 26 bytes
end 4 valid 0 kept 26' "$dump" "$dir/mismatch"

    # nothing at all; as long as may be; one byte longer
    : >"$dir/empty"
    both 0 'journal 0 bytes
end 0 valid 0 kept 0' "$dump" "$dir/empty"
    head -c 65536 /dev/zero >"$dir/limit"
    head -c 65537 /dev/zero >"$dir/long"
    both 1 'journal 65536 bytes
end 1 valid 0 kept 0' "$dump" "$dir/limit"
    both 21 'refused 21' "$dump" "$dir/long" 'longer than 65,536 bytes'
done

# the other dialect's magic is not there
call 1 'journal 50 bytes
end 1 valid 0 kept 0' '' dump "$dir/clean"

# a name that is no word of the script, a folder with a space, a link to the script, another folder to stand in
mkdir "$dir/a b" && cp "$dir/clean" "$dir/a b/-x" && ln -s "$top/pierloft" "$dir/a b/link" && cp "$dir/clean" "$dir/a b/help"
listing=$(./pierloft dump --test "$dir/clean")
for words in 'dump --test -- -x' 'dump --test help'; do
    text=$(cd "$dir/a b" && "$top/pierloft" $words) || differs "pierloft $words: status $?"
    linked=$(cd "$dir/a b" && ./link $words) || differs "a link to pierloft, $words: status $?"
    [ "$text" = "$listing" ] && [ "$linked" = "$listing" ] || differs "pierloft $words: printed '$text' and '$linked'"
    seen=$((seen + 2))
done

# xxh3sum: of no bytes as published, of the entry of the batch above as its End has it
call 0 2d06800538d394c2 '' xxh3sum
both 0 2d06800538d394c2 xxh3sum "$dir/empty"
printf "$item" >"$dir/item"
both 0 dd51b14eba25ad58 xxh3sum "$dir/item"
call 0 dd51b14eba25ad58 '' xxh3sum -- "$dir/item"

# files that cannot be read
for word in dump 'dump --test' xxh3sum; do
    call 66 '' "$dir/none: no such file" $word "$dir/none"
    call 66 '' "$dir: is a folder" $word "$dir"
    [ ! -e /proc/self/mem ] || call 66 '' '/proc/self/mem: cannot be read' $word /proc/self/mem
    ./pierloft $word <&- >"$dir/out" 2>"$dir/err"
    [ $? -eq 66 ] && grep -qF 'standard input: cannot be read' "$dir/err" || differs "pierloft $word with no standard input: '$(cat "$dir/err")'"
    seen=$((seen + 1))
done
touch "$dir/shut" && chmod 0 "$dir/shut"
if [ -r "$dir/shut" ]; then
    echo 'script: a file that may not be read was not tried: this user may read all'
else
    call 66 '' "$dir/shut: cannot be read" dump "$dir/shut"
fi

# wrong calls, and help
call 64 '' 'nothing is not known' nothing
call 64 '' 'dump takes one file' dump a b
call 64 '' 'dump: --all is not known' dump --all
call 64 '' 'dump: -v is not known' dump --test -v
call 64 '' 'xxh3sum: --test is not known' xxh3sum --test
call 64 '' 'xxh3sum takes one file' xxh3sum a b
call 64 '' 'test takes no words' test it
call 64 '' 'bench takes no words' bench it
help=$(./pierloft help)
case $help in
'pierloft dump '*) ;;
*) differs "help: '$help'" ;;
esac
call 0 "$help" '' help
call 0 "$help" '' --help
call 0 "$help" ''

# a program that cannot be built: a copy of the script alone, with no toolchain
mkdir "$dir/alone" "$dir/path" && cp pierloft "$dir/alone/"
for tool in dirname tail; do ln -s "$(command -v $tool)" "$dir/path/$tool"; done
PATH=$dir/path "$dir/alone/pierloft" dump "$dir/clean" >"$dir/out" 2>"$dir/err"
[ $? -eq 70 ] && grep -q 'not on the PATH' "$dir/err" || differs "with no toolchain: '$(cat "$dir/err")'"
seen=$((seen + 1))

# MESSAGE COMMAND: what cannot be written is 74, and nothing else is said
unwritten() {
    sh -c "$2" 2>"$dir/err"
    got=$?
    seen=$((seen + 1))
    [ $got -eq 74 ] && [ "$(cat "$dir/err")" = 'pierloft: standard output cannot be written' ] ||
        differs "$1: status $got, '$(cat "$dir/err")', and it should be 74"
}

# FILE BYTES LENGTH: under TEST, a batch with a value of so many bytes (LENGTH is that number as printf takes its four bytes), and behind it
# one with a wrong checksum; FILE.txt is its listing
damaged() {
    { printf "\\002\\000\\000\\002\\000\\000\\000\\000\\000\\000\\000\\001\\000$3$3a" && head -c "$2" /dev/zero; } >"$1.item"
    hash=$(./pierloft xxh3sum "$1.item")
    {
        start 1 && cat "$1.item" && printf '\003'
        for digit in 15 13 11 9 7 5 3 1; do # the checksum's bytes, the lowest first
            printf "\\$(printf %o "0x$(printf %s "$hash" | cut -c $digit-$((digit + 1)))")"
        done
        printf 'JL1\001' && start 0 && printf "${zero}JL1\\001"
    } >"$1"
    ./pierloft dump --test "$1" >"$1.txt"
    [ $? -eq 4 ] && [ "$(wc -l <"$1.txt")" -eq 4 ] || differs "a value of $2 bytes: '$(cut -c -60 "$1.txt")'"
}
damaged "$dir/small" 300 '\054\001\000\000'
damaged "$dir/large" 60000 '\140\352\000\000'

# no room for files: none is needed
(TMPDIR=$dir/none && export TMPDIR && call 4 "$(cat "$dir/large.txt")" '' dump --test "$dir/large") || exit 1
for file in small large; do
    { (trap '' XFSZ && ulimit -f 1 && ./pierloft dump --test "$dir/$file"); echo $? >&2; } 2>"$dir/err" | cat >"$dir/out"
    [ "$(cat "$dir/err")" = 4 ] && cmp "$dir/out" "$dir/$file.txt" || differs "where a file has room for 512 bytes: '$(cat "$dir/err")'"
done
seen=$((seen + 3))

# an output that is full, shut, cut, or that nobody reads on
for words in "dump $dir/clean" "dump --test $dir/large" "dump --test $dir/long" "xxh3sum $dir/item" help; do
    [ ! -e /dev/full ] || unwritten "pierloft $words, on a full disk" "./pierloft $words >/dev/full"
    unwritten "pierloft $words, with no standard output" "./pierloft $words >&-"
done
unwritten 'pierloft dump, on a disk of 512 bytes' "trap '' XFSZ; ulimit -f 1; ./pierloft dump --test $dir/large >$dir/out"
{ (trap '' PIPE && ./pierloft dump --test "$dir/large" 2>/dev/null) || echo $? >"$dir/err"; } | head -c 1 >"$dir/out"
[ "$(cat "$dir/err")" = 74 ] || differs "pierloft dump, not read on: status '$(cat "$dir/err")'"
seen=$((seen + 1))

# PROGRAM END TEXT [STATUS]: in place of the real program one that reads its input, prints this (as printf takes it) and ends so
mkdir -p "$dir/fake/target/bin" && cp pierloft "$dir/fake/"
fake() {
    printf '#!/bin/sh\ncat >/dev/null\nprintf "%s"\n%s\n' "$3" "$2" >"$dir/fake/target/bin/$1"
    chmod +x "$dir/fake/target/bin/$1"
    "$dir/fake/pierloft" "$1" "$dir/clean" >"$dir/out" 2>"$dir/err"
    got=$?
    seen=$((seen + 1))
    [ $got -eq "${4-70}" ] && { [ $got -eq 0 ] || { [ ! -s "$dir/out" ] && grep -q "^pierloft: $dir/clean: " "$dir/err"; }; } ||
        differs "where $1 prints '$3' and ends by '$2': status $got, '$(cat "$dir/out")', '$(cat "$dir/err")'"
}
whole='journal 50 bytes\nend 0 valid 50 kept 50'
fake dump 'exit 0' "$whole\n" 0
fake dump 'exit 0' "$whole"
fake dump 'exit 0' 'journal 50 bytes\nend 0 valid 50 kept \n'
fake dump 'exit 0' 'journal 50 bytes\nend 0 valid 50\n'
fake dump 'exit 0' 'journal 50 bytes\nend 5 valid 50 kept 50\n'
fake dump 'exit 0' 'journal 50 bytes\n@0 seq 7 entries 1\n'
fake dump 'exit 0' 'end 0 valid 50 kept 50\n'
fake dump 'exit 0' 'refused 99\n'
fake dump 'exit 0' 'journal 50 bytes\nrefused 21\n'
fake dump 'exit 0' 'dd51b14eba25ad58\n'
fake dump 'exit 0' ''
fake dump 'exit 1' "$whole\n"
fake dump 'kill -9 \$\$' "$whole\n"
fake xxh3sum 'exit 0' 'dd51b14eba25ad58\n' 0
fake xxh3sum 'exit 0' 'dd51b14eba25ad58'
fake xxh3sum 'exit 0' 'dd51b14eba25ad5\n'
fake xxh3sum 'exit 0' 'dd51b14eba25ad5x\n'
fake xxh3sum 'exit 0' "$whole\n"
fake xxh3sum 'kill -9 \$\$' 'dd51b14eba25ad58\n'
fake xxh3sum 'exit 0' '' 66

# what hands the journal on to the program is ended before it has, as where one process more cannot be started: that is no journal of no bytes
mkdir "$dir/ended" && printf '#!/bin/sh\nkill -9 "$PPID"\n' >"$dir/ended/head" && chmod +x "$dir/ended/head"
PATH=$dir/ended:$PATH ./pierloft dump "$dir/mismatch" >"$dir/out" 2>"$dir/err"
got=$?
[ $got -eq 70 ] && [ ! -s "$dir/out" ] || differs "where the journal is not handed on: status $got, '$(cat "$dir/out")', '$(cat "$dir/err")'"
seen=$((seen + 1))

skipped=''
# no process more: the shell then ends by a status of its own choice. Only a user who is not root has such a limit.
as=''
[ "$(id -u)" -ne 0 ] || as='setpriv --reuid=65534 --regid=65534 --clear-groups'
chmod 755 "$dir" && cp target/bin/dump "$dir/fake/target/bin/dump"
if $as true 2>/dev/null; then
    $as sh -c "ulimit -p 0 2>/dev/null || ulimit -u 0; exec '$dir/fake/pierloft' dump '$dir/clean'" >"$dir/out" 2>"$dir/err"
    [ $? -eq 70 ] && [ ! -s "$dir/out" ] || differs "where no process can be started: '$(cat "$dir/out")', '$(cat "$dir/err")'"
    seen=$((seen + 1))
else
    skipped=', nor without processes: this is root and setpriv is not there'
fi

# the samples, as samples/ lists them; at a terminal they are shown where no file is given
terminal() { # runs the script with a terminal as its standard input
    if command -v script >/dev/null; then
        script -qec "./pierloft $* >'$dir/out' 2>'$dir/err'" /dev/null >/dev/null </dev/null
    elif command -v python3 >/dev/null; then
        python3 -c 'import pty, subprocess, sys; sys.exit(subprocess.call(sys.argv[1:], stdin=pty.openpty()[1]))' ./pierloft "$@" >"$dir/out" 2>"$dir/err"
    else
        return 77
    fi
}
for dialect in '' --test; do
    sample=samples/claims
    [ -z "$dialect" ] || sample=samples/test
    call 1 "$(cat $sample.txt)" '' dump $dialect $sample.jnl
    terminal dump $dialect
    case $? in
    1) ;;
    77) skipped="$skipped, nor at a terminal: neither script nor python3 is there" && continue ;;
    *) differs "pierloft dump $dialect at a terminal: '$(cat "$dir/err")'" ;;
    esac
    cmp "$dir/out" $sample.txt || differs "pierloft dump $dialect at a terminal printed another listing"
    grep -qF "no file given: this is the sample, $sample.jnl" "$dir/err" || differs "pierloft dump $dialect at a terminal: '$(cat "$dir/err")'"
    seen=$((seen + 1))
done
echo "script: $seen calls answered as they should"
[ -z "$skipped" ] || {
    echo "script: not run${skipped#, nor}"
    exit 77
}
