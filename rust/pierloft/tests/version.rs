//! rust-version, held to what clippy does not: it looks at calls, and passes over traits and attributes.
use std::path::Path;

/// A text that needs this much of Rust 1. Written in two parts, so that they are not found here.
const NEEDS: [(&str, u32); 2] = [
    (concat!("core::", "error::"), 81),
    (concat!("reason", " = "), 81),
];

/// The text of every source in a folder, or of a file.
fn text(of: &Path) -> String {
    if of.is_file() {
        let is_source = of.extension().is_some_and(|end| end == "rs");
        return if is_source {
            std::fs::read_to_string(of).unwrap()
        } else {
            String::new()
        };
    }
    let entries = std::fs::read_dir(of).unwrap();
    entries.map(|entry| text(&entry.unwrap().path())).collect()
}

#[test]
fn is_as_new_as_what_is_used() {
    let told = env!("CARGO_PKG_RUST_VERSION");
    let told: u32 = told
        .strip_prefix("1.")
        .and_then(|rest| rest.parse().ok())
        .expect("1.N");
    let here = Path::new(env!("CARGO_MANIFEST_DIR"));
    let source: String = ["build.rs", "src", "examples", "tests"]
        .map(|part| text(&here.join(part)))
        .concat();
    for (what, since) in NEEDS {
        assert!(
            told >= since || !source.contains(what),
            "`{what}` is there since 1.{since}, and rust-version says 1.{told}"
        );
    }
}
