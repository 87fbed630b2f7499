//! A coverage-guided fuzzer over the cases of compare/src/cases.rs. A difference ends the run, and the fuzzer keeps the input.
#![no_main]
use compare::cases::case;
use compare::{pairs, Pair};
use std::cell::RefCell;

thread_local! {
    static FOUR: RefCell<Vec<Pair>> = RefCell::new(pairs());
}

#[no_mangle]
pub extern "C" fn LLVMFuzzerTestOneInput(bytes: *const u8, length: usize) -> i32 {
    // the fuzzer lends so many bytes for the call; an empty input may come with no address
    let bytes = if length == 0 { &[] } else { unsafe { std::slice::from_raw_parts(bytes, length) } };
    if let Err(how) = FOUR.with_borrow_mut(|four| case(four, bytes)) {
        println!("DIFFERENCE: {how}");
        std::process::abort();
    }
    0
}
