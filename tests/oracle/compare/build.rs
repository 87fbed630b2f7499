//! Links the static library: PIERLOFT_ARCHIVE, or target/staticlib/libpierloft.a of the repository.
use std::path::PathBuf;

fn main() {
    let here = PathBuf::from(std::env::var_os("CARGO_MANIFEST_DIR").expect("cargo sets it"));
    let archive = std::env::var_os("PIERLOFT_ARCHIVE")
        .map_or_else(|| here.join("../../../target/staticlib/libpierloft.a"), PathBuf::from);
    println!("cargo:rerun-if-env-changed=PIERLOFT_ARCHIVE");
    println!("cargo:rerun-if-changed={}", archive.display());
    println!("cargo:rustc-link-search=native={}", archive.parent().expect("a folder").display());
    println!("cargo:rustc-link-lib=static=pierloft");
}
