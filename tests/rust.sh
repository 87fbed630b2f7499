#!/bin/sh
# The Rust crate: its tests, with and without std, warnings of the compiler, of clippy and of rustdoc as errors, layout, the package; then a
# program that uses it, to see what links and what must not. Status 77 where this machine has no cargo, or no cc, by which it links; and,
# once all else has passed, where it has no clippy or no rustfmt.
set -u
cd "$(dirname "$0")/.." || exit 2
top=$(pwd -P)
crate=$top/rust/pierloft
say() { echo "rust: $*"; }
fail() {
    say "$*"
    exit 1
}
for tool in cargo cc; do
    command -v "$tool" >/dev/null || {
        say "not run: no $tool"
        exit 77
    }
done
# shellcheck source=tests/package.sh
. tests/package.sh

cd "$crate" || exit 2
export CARGO_NET_OFFLINE=true
missing=''
cargo test --quiet || fail 'a test failed'
RUSTDOCFLAGS='-D warnings' cargo doc --quiet --no-deps || fail 'the documentation has warnings'
if cargo clippy --version >/dev/null 2>&1; then
    lint() { cargo clippy --quiet --all-targets "$@" -- -D warnings; }
else
    missing="$missing clippy"
    lint() { RUSTFLAGS='-D warnings' cargo check --quiet --all-targets "$@"; }
fi
lint || fail 'warnings'
lint --no-default-features || fail 'warnings, without std'
cargo test --quiet --no-default-features --lib --test writing || fail 'a test failed, without std'
if cargo fmt --version >/dev/null 2>&1; then
    cargo fmt --check || fail 'the layout is not that of cargo fmt'
else
    missing="$missing rustfmt"
fi

# what a user unpacks: it builds, and has the licences
export PIERLOFT_LIB_DIR="$top/target/staticlib"
rm -rf "$top/target/rust/package"
cargo package --quiet --allow-dirty 2>"$top/target/rust/package.log" || {
    cat "$top/target/rust/package.log"
    fail 'the package does not build'
}
for unpacked in "$top"/target/rust/package/pierloft-*/; do
    for page in NOTICE README.md; do cmp "$unpacked/$page" "$top/$page" || fail "the package lacks $page"; done
done

# A program of one call, in a workspace of its own, with archives in folders named from there: the library's, and one whose layout has
# another number.
app=$top/target/rust/app
mkdir -p "$app/src" "$app/libs" "$app/other" || exit 2
cat >"$app/Cargo.toml" <<EOF
[package]
name = "app"
version = "0.1.0"
edition = "2021"
[dependencies]
pierloft = { path = "$crate" }
[workspace]
EOF
echo 'fn main() { println!("{:x}", pierloft::xxh3_64(b"").unwrap()); }' >"$app/src/main.rs"
cp "$PIERLOFT_LIB_DIR/libpierloft.a" "$app/libs/" || exit 2
have binutils objcopy --version
objcopy --redefine-sym pierloft_abi_1=pierloft_abi_2 "$app/libs/libpierloft.a" "$app/other/libpierloft.a" || exit 2
cd "$app" || exit 2
log=$app/log
for profile in dev release; do
    hash=$(PIERLOFT_LIB_DIR=libs cargo run --quiet --profile "$profile") || fail "a program does not link ($profile)"
    [ "$hash" = 2d06800538d394c2 ] || fail "a program answers $hash ($profile)"
    PIERLOFT_LIB_DIR=other cargo build --quiet --profile "$profile" >"$log" 2>&1 && fail "another layout links ($profile)"
    grep -q 'undefined .*pierloft_abi_1' "$log" || {
        cat "$log"
        fail "another layout: not what was to be said ($profile)"
    }
done

# what the build script says, and that it names the whole path
said() { # TEXT COMMAND..: it fails and says the text
    text=$1
    shift
    "$@" >"$log" 2>&1 && fail "no error: $text"
    grep -qF "pierloft: $text" "$log" || {
        cat "$log"
        fail "not said: $text"
    }
}
said "there is no $app/nowhere/libpierloft.a" env PIERLOFT_LIB_DIR=nowhere cargo check --quiet
for target in aarch64-unknown-linux-gnu x86_64-unknown-linux-gnux32 x86_64-pc-windows-gnu; do
    said 'the library is there for x86-64 alone' cargo check --quiet --target "$target"
done
say 'tested with and without std; packaged; an archive of another layout does not link'
[ -z "$missing" ] || {
    say "not run, since it is not there:$missing"
    exit 77
}
