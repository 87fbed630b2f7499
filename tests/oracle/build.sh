#!/bin/sh
# Builds the comparison of the static library with the Rust: target/cargo/release/compare. Status 77, with a line that says why, where
# this machine lacks what it needs. FJALL names the folder that holds fjall's sources (journal/, batch/, file.rs).
set -eu
here=$(cd "$(dirname "$0")" && pwd -P)
top=$(cd "$here/../.." && pwd -P)
FJALL=${FJALL:-$top/../shared/docs/src}
packages='librust-byteorder-dev librust-xxhash-rust-dev librust-log-dev librust-cfg-if-dev'

# shellcheck source=tests/package.sh
cd "$top" && . tests/package.sh && cd "$here"

lack() {
    echo "oracle: not run: $*"
    exit 77
}

# Writes standard input to a file, and leaves a file that has it already: cargo goes by the time of a file.
put() {
    mkdir -p "$(dirname "$1")"
    cat >"$1.new"
    if cmp -s "$1.new" "$1"; then rm "$1.new"; else mv "$1.new" "$1"; fi
}

# Debian's own packages of the crates that fjall uses, unpacked and not installed.
crates() {
    [ ! -d target/vendor ] || return 0
    # shellcheck disable=SC2015
    command -v apt-get >/dev/null && command -v dpkg >/dev/null || lack "no apt-get to get the packages $packages with"
    rm -rf target/debs
    mkdir -p target/debs
    # shellcheck disable=SC2086
    (cd target/debs && { apt-get download $packages || { alone apt-get update && apt-get download $packages; }; }) >target/debs.log 2>&1 ||
        lack "the packages $packages cannot be had"
    for deb in target/debs/*.deb; do dpkg -x "$deb" target/debs/unpacked; done
    mv target/debs/unpacked/usr/share/cargo/registry target/vendor
    rm -rf target/debs
}

# One crate lsm-tree and one crate fjall for a dialect: NAME MAGIC VALUE TOMBSTONE WEAK INDIRECTION NONE
dialect() {
    lsm=target/dialects/$1/lsm_tree fjall=target/dialects/$1/fjall
    put "$lsm/Cargo.toml" <<EOF
[package]
name = "lsm-tree-$1"
version = "3.0.0"
edition = "2021"
[lib]
name = "lsm_tree"
path = "src/lib.rs"
EOF
    { cat standin/lsm_tree.rs && echo "pub const CODES: [u8; 5] = [$3, $4, $5, $6, $7];"; } | put "$lsm/src/lib.rs"
    put "$fjall/Cargo.toml" <<EOF
[package]
name = "fjall-$1"
version = "3.1.13"
edition = "2021"
[lib]
name = "fjall_$1"
path = "src/lib.rs"
[features]
# named by the sources, never enabled
lz4 = []
__internal_whitebox = []
[dependencies]
answers = { path = "../../../../answers" }
byteorder = "1"
log = "0.4"
lsm-tree = { package = "lsm-tree-$1", path = "../lsm_tree" }
xxhash-rust = { version = "0.8", features = ["xxh3"] }
EOF
    for f in entry reader writer error mod recovery; do put "$fjall/src/journal/$f.rs" <"$FJALL/journal/$f.rs"; done
    put "$fjall/src/batch/item.rs" <"$FJALL/batch/item.rs"
    put "$fjall/src/journal/origin_batch_reader.rs" <"$FJALL/journal/batch_reader.rs"
    put "$fjall/src/journal/batch_reader.rs" <standin/batch_reader.rs
    put "$fjall/src/journal/manager.rs" <standin/manager.rs
    put "$fjall/src/lib.rs" <standin/fjall.rs
    { cat standin/drive.rs && echo "const NAME: &str = \"$1\";"; } | put "$fjall/src/drive.rs"
    if [ "$1" = shipped ]; then
        put "$fjall/src/file.rs" <"$FJALL/file.rs"
    else
        put "$fjall/src/origin_file.rs" <"$FJALL/file.rs"
        bytes=$(echo "$2" | sed 's/../0x&, /g')
        { cat standin/file.rs && echo "pub const MAGIC_BYTES: &[u8] = &[$bytes];"; } | put "$fjall/src/file.rs"
    fi
}

command -v cargo >/dev/null || lack 'no cargo on this machine'
[ -d "$FJALL/journal" ] || lack "fjall's sources are not at $FJALL (set FJALL)"
(cd "$FJALL" && sha256sum --quiet -c "$here/fjall.sha256") || {
    echo "oracle: the sources at $FJALL are not those of fjall 3.1.13 (fjall.sha256)"
    exit 1
}
mkdir -p target
crates
while read -r name magic codes; do
    case $name in '#'* | '') continue ;; esac
    # shellcheck disable=SC2086
    dialect "$name" "$magic" $codes
done <dialects
sh "$top/tools/archive" --if-older >target/archive.log 2>&1 || {
    cat target/archive.log
    exit 1
}
PIERLOFT_ARCHIVE=$top/target/staticlib/libpierloft.a cargo build -q --release --offline
