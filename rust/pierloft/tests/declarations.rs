//! The declarations in src/ffi.rs against the library's source. Nothing else holds them to it.
use ffi::*;
use std::mem::{offset_of, size_of};

#[path = "../src/ffi.rs"]
mod ffi;

const HERE: &str = include_str!("../src/ffi.rs");
const LIBRARY: &str = include_str!("../../../crates/pierloft/src/lib.rt");
/// The crates whose structs cross.
const DECLARING: [&str; 3] = [
    include_str!("../../../crates/dialect/src/lib.rt"),
    include_str!("../../../crates/stream/src/lib.rt"),
    include_str!("../../../crates/flat/src/lib.rt"),
];

/// The fields of each `#[repr(C)]` struct, as they stand in the text.
fn structs(text: &str) -> Vec<(&str, &str)> {
    text.split("\n#[repr(C)]\n")
        .skip(1)
        .map(|rest| {
            let rest = &rest[rest.find("pub struct ").expect("a struct") + 11..];
            rest.split_once(" {\n").expect("its fields")
        })
        .map(|(name, rest)| (name, rest.split_once("\n}").expect("its end").0))
        .collect()
}

/// A type as it crosses: a slice as a pointer and a length, any other reference as a pointer.
fn crossing(of: &str) -> Vec<String> {
    match of {
        "&[u8]" => vec!["*const u8".into(), "usize".into()],
        "&mut [u8]" => vec!["*mut u8".into(), "usize".into()],
        of => match of.strip_prefix("&mut ") {
            Some(to) => vec![format!("*mut {to}")],
            None => vec![of.replacen('&', "*const ", 1)],
        },
    }
}

/// A function's name, the types of its arguments and of its answer, as they cross.
fn signature(text: &str) -> (String, Vec<String>, String) {
    let text = text.split_whitespace().collect::<Vec<_>>().join(" ");
    let (name, rest) = text.split_once('(').expect("arguments");
    let (arguments, answer) = rest.split_once(") -> ").expect("an answer");
    let types = arguments
        .split(", ")
        .filter(|argument| !argument.is_empty())
        .flat_map(|argument| {
            let of = argument.split_once(": ").expect("a type").1;
            crossing(of.trim_end_matches(','))
        })
        .collect();
    (name.into(), types, answer.into())
}

#[test]
fn structs_are_the_librarys() {
    let mut theirs: Vec<_> = DECLARING.into_iter().flat_map(structs).collect();
    let mut ours = structs(HERE);
    theirs.sort_unstable();
    ours.sort_unstable();
    assert_eq!(ours, theirs);
}

#[test]
fn functions_are_the_librarys() {
    let mut theirs: Vec<_> = LIBRARY
        .split("\npub extern \"C\" fn ")
        .skip(1)
        .map(|rest| signature(rest.split("\n    ensures").next().expect("a contract")))
        .collect();
    let block = HERE
        .split("extern \"C\" {\n")
        .nth(1)
        .expect("the declarations");
    let mut ours: Vec<_> = block
        .split("\n    }\n")
        .next()
        .expect("their end")
        .split("pub fn ")
        .skip(1)
        .map(|rest| signature(rest.rsplit_once(';').expect("its end").0))
        .collect();
    theirs.sort_unstable();
    ours.sort_unstable();
    assert_eq!(ours, theirs);
}

#[test]
fn sizes_and_offsets() {
    assert_eq!(size_of::<Dialect>(), 24);
    assert_eq!(offset_of!(Dialect, length), 8);
    assert_eq!(offset_of!(Dialect, none), 20);
    assert_eq!(size_of::<FlatEntry>(), 80);
    assert_eq!(offset_of!(FlatEntry, value_type), 5);
    assert_eq!(offset_of!(FlatEntry, count), 8);
    assert_eq!(offset_of!(FlatEntry, next), 56);
    assert_eq!(size_of::<FlatReader>(), 16);
    assert_eq!(offset_of!(FlatReader, outcome), 12);
    assert_eq!(size_of::<FlatStepped>(), 72);
    assert_eq!(offset_of!(FlatStepped, seqno), 16);
    assert_eq!(offset_of!(FlatStepped, reader), 56);
    assert_eq!(size_of::<FlatCount>(), 16);
    assert_eq!(size_of::<FlatSpan>(), 24);
    assert_eq!(size_of::<FlatHash>(), 16);
    assert_eq!(size_of::<Hasher>(), 328);
    assert_eq!(offset_of!(Hasher, total), 320);
    assert_eq!(size_of::<Absorbed>(), 336);
    assert_eq!(offset_of!(Absorbed, state), 8);
    assert_eq!(size_of::<FlatWriter>(), 32);
    assert_eq!(offset_of!(FlatWriter, left), 24);
    assert_eq!(size_of::<FlatReply>(), 48);
    assert_eq!(offset_of!(FlatReply, writer), 16);
}

/// A program that was built for one layout must not link with another, so each has a number of its own. Where this fails a struct has changed:
/// give `pierloft_abi_1` the next number, here, in the header and in the library, and set the sum behind it.
#[test]
fn the_layout_has_its_number() {
    let text: String = structs(HERE)
        .iter()
        .map(|(name, fields)| format!("{name} {{\n{fields}\n}}\n"))
        .collect();
    let sum = pierloft::xxh3_64(text.as_bytes()).unwrap();
    assert_eq!(
        (abi(), format!("{sum:x}")),
        (1, "4b3cb78c76ec9fae".into()),
        "{text}"
    );
}
