#!/bin/sh
# Builds the fuzzer: target/fuzz/x86_64-unknown-linux-gnu/release/fuzz. Both sides count which of their branches were taken: the Rust,
# and the static library, which is proved and compiled from the same module as ever, by the kit's own clang with -fsanitize-coverage.
# Status 77 where this machine lacks what it needs.
set -eu
cd "$(dirname "$0")/.."
here=$(pwd -P)
top=$(cd ../.. && pwd -P)
lack() {
    echo "fuzz: not built: $*"
    exit 77
}
./build.sh
command -v clang >/dev/null || lack 'no clang (Debian: clang, libclang-rt-14-dev)'
FUZZER=$(clang -print-file-name=libclang_rt.fuzzer-x86_64.a)
[ -f "$FUZZER" ] || FUZZER=$(clang -print-resource-dir)/lib/linux/libclang_rt.fuzzer-x86_64.a
[ -f "$FUZZER" ] || lack 'no fuzzer library (Debian: libclang-rt-14-dev)'
export FUZZER

# A kit like the machine's, but for its clang, and a copy of the crates, so that target/staticlib keeps the plain archive. Both lie outside this
# repository, where `rt ci` refuses links and a second crates.txt. rt works with the kit that its own file lies in.
kit=$(dirname "$(rt doc)")
room=$(mktemp -d)
trap 'rm -rf "$room"' EXIT
mkdir -p "$room/kit/bin" "$room/kit/toolchain/bin" "$room/repository" target/fuzzed
for f in "$kit"/*; do
    case $(basename "$f") in bin | toolchain) ;; *) ln -s "$f" "$room/kit/" ;; esac
done
ln -s "$kit"/bin/rattle* "$room/kit/bin/"
cp "$kit"/bin/rt* "$room/kit/bin/"
ln -s "$kit/toolchain/lib" "$room/kit/toolchain/lib"
ln -s "$kit"/toolchain/bin/* "$room/kit/toolchain/bin/"
rm "$room/kit/toolchain/bin/clang"
cat >"$room/kit/toolchain/bin/clang" <<EOF
#!/bin/sh
exec "$kit/toolchain/bin/clang" "\$@" -fsanitize-coverage=inline-8bit-counters,pc-table,trace-cmp
EOF
chmod +x "$room/kit/toolchain/bin/clang"

# what rt kept comes along, so that little is proved once more
cp -r "$top/crates" "$top/crates.txt" "$room/repository/"
(cd "$room/repository/crates/pierloft" && "$room/kit/bin/rt" lib) >target/fuzzed/log 2>&1 || {
    cat target/fuzzed/log
    exit 1
}
cp "$room/repository/crates/pierloft/out/libpierloft.a" target/fuzzed/
PIERLOFT_ARCHIVE=$here/target/fuzzed/libpierloft.a
nm "$PIERLOFT_ARCHIVE" 2>/dev/null | grep -q __sanitizer_cov || lack 'the archive counts no branches'
export PIERLOFT_ARCHIVE
RUSTFLAGS='-Cpasses=sancov-module -Cllvm-args=-sanitizer-coverage-level=3 -Cllvm-args=-sanitizer-coverage-inline-8bit-counters -Cllvm-args=-sanitizer-coverage-pc-table -Cllvm-args=-sanitizer-coverage-trace-compares -Ccodegen-units=1' \
    cargo build -q --release --offline -p fuzz --target x86_64-unknown-linux-gnu --target-dir target/fuzz
