//! Builds the C side of the comparison of hashes: libxxhash's own code without vector instructions asked for, and calls of the library as
//! installed (Debian's package libxxhash-dev has both).
use std::path::Path;
use std::process::Command;

fn main() {
    println!("cargo:rerun-if-changed=c/hash.c");
    let out = std::env::var("OUT_DIR").expect("cargo sets it");
    object(&out, "scalar", &["-DSCALAR", "-DXXH_INLINE_ALL", "-DXXH_VECTOR=0"]);
    object(&out, "shipped", &[]);
    println!("cargo:rustc-link-search=native={out}");
    println!("cargo:rustc-link-lib=dylib=xxhash");
}

fn object(out: &str, name: &str, words: &[&str]) {
    let object = Path::new(out).join(format!("{name}.o"));
    let archive = Path::new(out).join(format!("lib{name}.a"));
    let named = format!("-DNAME={name}");
    let mut compile = Command::new("cc");
    compile.args(["-O3", "-c", "c/hash.c", &named]).args(words).arg("-o").arg(&object);
    let mut bundle = Command::new("ar");
    bundle.arg("crs").arg(&archive).arg(&object);
    for mut command in [compile, bundle] {
        let done = command.status().is_ok_and(|status| status.success());
        assert!(done, "{command:?} failed; is libxxhash-dev there?");
    }
    println!("cargo:rustc-link-lib=static={name}");
}
