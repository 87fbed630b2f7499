//! The files in samples/ are what examples/sample.rs makes, and examples/dump.rs lists them.
use pierloft::{batches, Dialect, Item, Outcome, ValueType};

#[path = "../examples/sample.rs"]
mod sample;

const CLAIMS: &[u8] = include_bytes!("../../../samples/claims.jnl");
const TEST: &[u8] = include_bytes!("../../../samples/test.jnl");

#[test]
fn are_as_made() {
    assert_eq!(sample::claims().as_deref(), Ok(CLAIMS));
    assert_eq!(sample::test().as_deref(), Ok(TEST));
}

/// Several batches, items of these types and no other, a Clear, an empty value; torn at the end.
fn holds(image: &[u8], dialect: Dialect, types: &[ValueType]) {
    let mut journal = batches(image, dialect);
    let batches: Vec<_> = journal.by_ref().map(Result::unwrap).collect();
    let items: Vec<Item> = batches.iter().flat_map(|batch| batch.items()).collect();
    for one in ValueType::ALL {
        let is = |item: &Item| item.value_type == one;
        assert_eq!(items.iter().any(is), types.contains(&one), "{one}");
    }
    let empty = |item: &Item| item.value_type == ValueType::Value && item.value.is_empty();
    assert!(items.iter().any(empty));
    assert!(batches.iter().any(|batch| batch.clears().count() > 0));
    assert!(batches.len() >= 3);
    assert_eq!(journal.outcome(), Ok(Outcome::Torn));
    assert!(journal.kept().unwrap() < image.len());
}

/// No Indirection among the claims: fjall's recovery of a sealed journal panics at one.
#[test]
fn hold_every_kind_of_entry() {
    holds(CLAIMS, Dialect::SHIPPED, &ValueType::ALL[..3]);
    holds(TEST, Dialect::TEST, &ValueType::ALL);
}
