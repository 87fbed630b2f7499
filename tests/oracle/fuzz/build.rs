//! Links LLVM's fuzzer, which has `main`: FUZZER is its archive.
fn main() {
    println!("cargo:rerun-if-env-changed=FUZZER");
    if let Ok(archive) = std::env::var("FUZZER") {
        println!("cargo:rustc-link-arg={archive}");
        println!("cargo:rustc-link-lib=dylib=stdc++");
    }
}
