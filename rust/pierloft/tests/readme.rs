//! The Rust that the README shows is the code of `shown` below, so it compiles and runs.
use std::error::Error;

const README: &str = include_str!("../../../README.md");
const HERE: &str = include_str!("readme.rs");
const CLAIMS: &[u8] = include_bytes!("../../../samples/claims.jnl");

#[rustfmt::skip]
fn shown(image: Vec<u8>) -> Result<(), Box<dyn Error>> {
    use pierloft::{batches, Dialect, Entry, Item};

    let mut journal = batches(&image, Dialect::SHIPPED);
    for batch in &mut journal {
        let batch = batch?; // an error for damage that is no crash
        for entry in batch {
            match entry {
                // key and value are parts of the image
                Entry::Item(Item { keyspace, key, value, value_type }) => println!("{keyspace} {value_type} {key:?} {value:?}"),
                Entry::Clear { keyspace } => println!("{keyspace} cleared"),
            }
        }
    }
    println!("{}, keep {} bytes", journal.outcome()?, journal.kept()?);
    Ok(())
}

fn between<'a>(text: &'a str, before: &str, behind: &str) -> &'a str {
    let (_, rest) = text.split_once(before).expect(before);
    rest.split_once(behind).expect(behind).0
}

#[test]
fn is_the_code_here() {
    let code = between(HERE, "Box<dyn Error>> {\n", "    Ok(())\n");
    let lines = code
        .lines()
        .map(|line| line.strip_prefix("    ").unwrap_or(line));
    let readme = between(README, "```rust\n", "```");
    assert_eq!(
        readme.lines().collect::<Vec<_>>(),
        lines.collect::<Vec<_>>()
    );
    assert_eq!(README.matches("```rust").count(), 1);
}

#[test]
fn runs() {
    shown(CLAIMS.to_vec()).unwrap();
    let mut damaged = CLAIMS.to_vec();
    damaged[34] ^= 1;
    let error = shown(damaged).unwrap_err();
    assert!(error.to_string().starts_with("4 MISMATCH"), "{error}");
}
