#!/bin/sh
# The script install: what it puts, that a program is compiled with it by pkg-config, that it takes away what it put, and that it changes
# nothing where it refuses. Status 77 where there is no C compiler or no pkg-config.
# shellcheck disable=SC2015
set -u
cd "$(dirname "$0")/.." || exit 2
top=$(pwd -P)
. tests/package.sh
command -v cc >/dev/null || {
    echo 'install: not run: no C compiler'
    exit 77
}
have pkg-config pkg-config --version
have binutils objcopy --version
dir=$(mktemp -d) || exit 2
trap 'rm -rf "$dir"' EXIT
unset PREFIX DESTDIR
seen=0

differs() {
    echo "install: $*"
    exit 1
}

there() { (cd "$1" && find . | sort && find . -type f -exec cksum {} + | sort); } # FOLDER: all that is in it

files="include/pierloft.h
lib/libpierloft.a
lib/pkgconfig/pierloft.pc
share/doc/pierloft/NOTICE"
has() { # FOLDER: the four files and no other, as they are in the source, for everyone to read
    [ "$(cd "$1" && find . -type f | sed 's/^\.\///' | sort)" = "$files" ] || differs "it put $(cd "$1" && find . -type f)"
    cmp "$1/include/pierloft.h" include/pierloft.h && cmp "$1/lib/libpierloft.a" target/staticlib/libpierloft.a &&
        cmp "$1/share/doc/pierloft/NOTICE" NOTICE || differs 'it put another file'
    shut=$(find "$1" -mindepth 1 ! \( -type f -perm 644 -o -type d -perm 755 \))
    [ -z "$shut" ] || differs "not for everyone to read: $shut"
    seen=$((seen + 1))
}

compiles() { # FOR WORDS..: the sample, far from here, by what pkg-config says in this environment
    what=$1
    shift
    rm -f "$dir/batches"
    words=$(env "$@" pkg-config --cflags --libs pierloft) || differs "$what: pkg-config does not know it"
    (cd "$dir" && eval "cc $top/samples/batches.c -o batches $words") || differs "$what: it does not compile"
    "$dir/batches" <samples/claims.jnl >"$dir/out"
    [ $? -eq 1 ] && grep -q '^outcome 1, ' "$dir/out" || differs "$what: the program says '$(cat "$dir/out")'"
    seen=$((seen + 1))
}

refuses() { # STATUS MESSAGE FOLDER COMMAND: what is in the folder stays as it is
    there "$3" >"$dir/before"
    sh -c "$4" >"$dir/out" 2>"$dir/err"
    got=$?
    there "$3" >"$dir/after"
    [ $got -eq "$1" ] && grep -qF -- "$2" "$dir/err" || differs "$4: status $got, '$(cat "$dir/err")', and it should be $1, '$2'"
    cmp "$dir/before" "$dir/after" || differs "$4: it is refused, and something changed"
    seen=$((seen + 1))
}

# gathered under DESTDIR; then anew, by a user whose files are for no one else
mkdir "$dir/pkg"
DESTDIR=$dir/pkg ./install || differs "status $?"
has "$dir/pkg/usr/local"
(umask 077 && DESTDIR=$dir/pkg ./install) || differs "a second time: status $?"
has "$dir/pkg/usr/local"
pc=$dir/pkg/usr/local/lib/pkgconfig
! grep -qF "$dir" "$pc/pierloft.pc" || differs 'DESTDIR stands in the file for pkg-config'
compiles 'DESTDIR' "PKG_CONFIG_PATH=$pc" "PKG_CONFIG_SYSROOT_DIR=$dir/pkg"
version=$(PKG_CONFIG_PATH=$pc pkg-config --modversion pierloft) abi=$(PKG_CONFIG_PATH=$pc pkg-config --variable=abi pierloft)
grep -qxF "version = \"$version\"" rust/pierloft/Cargo.toml || differs "pkg-config says version $version"
grep -qxF "#define PIERLOFT_ABI $abi" include/pierloft.h || differs "pkg-config says abi $abi"

# under a PREFIX of its own, with a space in it; called from elsewhere
(cd "$dir" && umask 077 && PREFIX="$dir/own place/" "$top/install") || differs "PREFIX: status $?"
has "$dir/own place"
compiles 'PREFIX' "PKG_CONFIG_PATH=$dir/own place/lib/pkgconfig"
touch "$dir/own place/lib/other"
PREFIX="$dir/own place" ./install --uninstall || differs "--uninstall: status $?"
[ "$(find "$dir/own place" -type f)" = "$dir/own place/lib/other" ] && [ ! -d "$dir/own place/share/doc/pierloft" ] ||
    differs '--uninstall leaves something'
PREFIX="$dir/own place" ./install --uninstall || differs "--uninstall with nothing there: status $?"

# refused
mkdir "$dir/none"
refuses 64 'no absolute path' "$dir/none" "cd $dir/none && PREFIX=here $top/install"
refuses 64 'no absolute path' "$dir/none" "cd $dir/none && PREFIX= $top/install"
refuses 64 'cannot hold' "$dir/none" "PREFIX='$dir/none/a\"b' ./install"
refuses 64 'cannot hold' "$dir/none" "PREFIX='$dir/none/a\$b' ./install"
refuses 64 'install --uninstall' "$dir/none" "DESTDIR=$dir/none ./install now"
mkdir -p "$dir/file/usr/local" "$dir/folder/usr/local/lib/pkgconfig/pierloft.pc"
touch "$dir/file/usr/local/share"
refuses 73 'NOTICE cannot be written' "$dir/file" "DESTDIR=$dir/file ./install"
refuses 73 'pierloft.pc is a folder' "$dir/folder" "DESTDIR=$dir/folder ./install"
mkdir "$dir/folder/usr/local/include" && touch "$dir/folder/usr/local/include/pierloft.h"
refuses 73 'pierloft.pc is a folder' "$dir/folder" "DESTDIR=$dir/folder ./install --uninstall"
refuses 73 'cannot be written' "$dir/none" "trap '' XFSZ; ulimit -f 8; DESTDIR=$dir/none ./install"
refuses 73 'cannot be written' "$dir/pkg" "trap '' XFSZ; ulimit -f 8; DESTDIR=$dir/pkg ./install"

# a library of another number, and none
mkdir -p "$dir/tree/target/staticlib" "$dir/tree/rust/pierloft" "$dir/path"
cp -R install include NOTICE "$dir/tree/" && cp rust/pierloft/Cargo.toml "$dir/tree/rust/pierloft/"
for tool in dirname sed grep find; do ln -s "$(command -v $tool)" "$dir/path/$tool"; done
refuses 70 'is not on the PATH' "$dir/none" "DESTDIR=$dir/none PATH=$dir/path $(command -v sh) $dir/tree/install"
objcopy --redefine-sym "pierloft_abi_$abi=pierloft_abi_${abi}0" --rename-section ".text.pierloft_abi_$abi=.text.pierloft_abi_${abi}0" \
    target/staticlib/libpierloft.a "$dir/tree/target/staticlib/libpierloft.a"
refuses 70 'is no library for this header' "$dir/none" "DESTDIR=$dir/none $dir/tree/install"
echo "install: $seen calls did as they should"
