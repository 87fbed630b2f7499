//! The departures that docs/DIFFERENCES.md lists, under the names it gives them: each with its smallest input, both sides run and held
//! to what is written there.
use crate::make::{image, Sum, Token};
use crate::ours::{self, FlatReply, FlatWriter, Op, Ours, Put};
use answers::{Call, Dialect, Item, Judge, Kind};
use fjall_test::Fjall;
use std::panic::{catch_unwind, AssertUnwindSafe};

fn start(count: u32) -> Token {
    Token::Start { count, seqno: 7 }
}

/// A1 to A10: the Rust, called on behind its first end or error. An image, what both sides say of it (outcome, bytes kept), and what
/// the Rust says to the next two calls.
type Onward = (&'static str, Vec<Token>, (u32, usize), [&'static str; 2]);

fn onward(d: &Dialect) -> Vec<Onward> {
    let hash = |tokens: &[Token]| Token::End(Sum::Number(xxhash_rust::xxh3::xxh3_64(&image(d, tokens))));
    let clear = || Token::Clear(2);
    let zero = || Token::Bytes(vec![0]);
    let end = || Token::End(Sum::Number(0));
    let right = || hash(&[clear()]);
    vec![
        ("A1", vec![start(1), end()], (2, 26), ["none, valid 0, file 0", "none, valid 0, file 0"]),
        (
            "A2",
            vec![start(1), clear(), end(), Token::End(Sum::OfNone)],
            (4, 48),
            ["batch seq 7 items 0 clears 1, valid 48, file 48", "none, valid 48, file 48"],
        ),
        ("A3", vec![start(0), clear(), right()], (3, 35), ["batch seq 7 items 0 clears 0, valid 35, file 35", "none, valid 35, file 35"]),
        (
            "A4",
            vec![start(1), start(1), clear(), right()],
            (1, 0),
            ["batch seq 7 items 0 clears 1, valid 48, file 0", "none, valid 48, file 0"],
        ),
        (
            "A5",
            vec![start(1), start(1), clear(), right(), zero()],
            (1, 0),
            ["batch seq 7 items 0 clears 1, valid 48, file 0", "none, valid 48, file 48"],
        ),
        ("A6", vec![zero(), start(1), clear(), right()], (1, 0), ["batch seq 7 items 0 clears 1, valid 36, file 0", "none, valid 36, file 0"]),
        ("A7", vec![end(), start(1), clear(), right()], (1, 0), ["batch seq 7 items 0 clears 1, valid 48, file 0", "none, valid 48, file 0"]),
        ("A8", vec![start(1), zero(), clear(), right()], (1, 0), ["batch seq 7 items 0 clears 1, valid 36, file 0", "none, valid 36, file 0"]),
        ("A9", vec![clear(), start(1), clear(), right()], (1, 0), ["outcome 4, valid 0, file 0", "none, valid 0, file 0"]),
        (
            "A10",
            vec![clear(), start(1), clear(), hash(&[clear(), clear()])],
            (1, 0),
            ["batch seq 7 items 0 clears 1, valid 44, file 0", "none, valid 44, file 0"],
        ),
    ]
}

/// Their images.
pub fn onward_images(d: &Dialect) -> Vec<Vec<u8>> {
    onward(d).iter().map(|o| image(d, &o.1)).collect()
}

fn held(name: &str, so: bool) {
    if !so {
        println!("{name}: NOT as docs/DIFFERENCES.md lists it");
        std::process::exit(1);
    }
    println!("{name}: as listed");
}

/// The library answers the same outcome again: Ours::read asks twice.
fn called_on(rust: &mut Fjall, library: &mut Ours) {
    for (name, tokens, (outcome, kept), says) in onward(&rust.dialect()) {
        let bytes = image(&rust.dialect(), &tokens);
        let reading = rust.read(&bytes);
        let alike = reading == library.read(&bytes) && (reading.outcome, reading.kept) == (outcome, kept);
        held(name, alike && rust.again(&bytes, 2) == says);
    }
}

fn item(key: &[u8]) -> Item {
    Item { keyspace: 2, kind: Kind::Value, key: key.to_vec(), value: b"xy".to_vec() }
}

fn panics(f: impl FnOnce()) -> bool {
    catch_unwind(AssertUnwindSafe(f)).is_err()
}

/// The library's number for a call on a fresh buffer of 100,000 bytes, or on the state that an open left.
fn number(library: &Ours, opened: Option<u64>, op: Op) -> u32 {
    let d = ours::flat(library.dialect());
    let mut buf = vec![0; 100_000];
    let mut w = FlatWriter { position: 0, start: 0, open: 0, left: 0 };
    if let Some(count) = opened {
        w = ours::call(&mut buf, d, w, Op::Open { count, seqno: 7 }).writer;
    }
    ours::call(&mut buf, d, w, op).number
}

fn put(key: &[u8]) -> Put<'_> {
    Put::Item { value_type: 0, keyspace: 2, key, value: b"xy" }
}

fn writer(rust: &mut Fjall, library: &Ours) {
    let counted = |w: answers::Written| (w.counts[0], w.bytes[1..5].to_vec());
    let long = [b'k'; 65_536];
    let two = counted(rust.write_counted(7, &[item(b"a")], 2)) == (50, vec![2, 0, 0, 0]);
    held("W1", two && number(library, Some(2), Op::Close) == 26);
    let many = counted(rust.write_counted(7, &[item(b"a")], 1 << 32)) == (50, vec![0, 0, 0, 0]);
    held("W2", many && number(library, None, Op::Open { count: 1 << 32, seqno: 7 }) == 23);
    let raw = rust.write(&[Call::Raw { seqno: 7, item: item(&long) }]);
    let cut = raw.bytes[24..26] == [0, 0] && raw.bytes.len() == 13 + 21 + 65_536 + 2 + 13;
    held("W3", cut && rust.read(&raw.bytes).outcome == 1 && number(library, None, Op::Write { seqno: 7, put: put(&long) }) == 25);
    let keys: [&[u8]; 2] = [&[], &long];
    let refused = keys.iter().all(|key| {
        panics(|| drop(rust.write(&[Call::Batch { seqno: 7, items: vec![item(key)] }]))) && number(library, Some(1), Op::Put(put(key))) == 25
    });
    held("W4", refused && number(library, None, Op::Write { seqno: 7, put: put(&[]) }) == 0);
    held("W5", rust.fresh() == (64 * 1024 * 1024, true));
    let mut buf = vec![0; 49];
    let w = FlatWriter { position: 0, start: 0, open: 0, left: 0 };
    let reply = ours::call(&mut buf, ours::flat(library.dialect()), w, Op::Write { seqno: 7, put: put(b"a") });
    held("W7", reply == FlatReply { number: 27, bytes: 0, writer: w } && buf == [0; 49]);
}

/// W6: a Clear and an Item in one batch, put here and read by both.
fn mixed(rust: &mut Fjall, library: &mut Ours) {
    let d = ours::flat(library.dialect());
    let mut buf = vec![0; 13 + 24 + 9 + 13];
    let mut w = FlatWriter { position: 0, start: 0, open: 0, left: 0 };
    for op in [Op::Open { count: 2, seqno: 7 }, Op::Put(put(b"a")), Op::Put(Put::Clear { keyspace: 3 }), Op::Close] {
        let reply = ours::call(&mut buf, d, w, op);
        held("W6", reply.number == 0);
        w = reply.writer;
    }
    let reading = rust.read(&buf);
    held("W6", reading == library.read(&buf) && reading.outcome == 0 && reading.batches[0].entries.len() == 2);
}

/// L1: a buffer that is too long, of zeros that are never touched.
fn limits(library: &Ours) {
    let d = ours::flat(library.dialect());
    let zeros = vec![0u8; 1 << 32];
    let over = ours::step(&zeros, ours::BEGIN, d).number == 21 && ours::decode(&zeros, 0, d).number == 21;
    let most = &zeros[..(1 << 32) - 1];
    let step = ours::step(most, ours::BEGIN, d);
    held("L1", over && step.number == 0 && step.outcome == 1 && ours::decode(most, 0, d).number == 31);
}

/// L2: an Item whose value length is 9 and whose on-disk length is 2, with the checksum of the new encoding. L3: a step from behind it.
fn forms(rust: &mut Fjall, library: &mut Ours) {
    let d = library.dialect();
    let odd = Token::Item { code: d.codes[0], none: d.none, keyspace: 2, key: b"a".to_vec(), stated: 9, disk: 2, value: b"xy".to_vec() };
    let bytes = image(&d, &[start(1), odd, Token::End(Sum::Anew), start(1), Token::Clear(2), Token::End(Sum::Anew)]);
    let reading = rust.read(&bytes);
    held("L2", reading == library.read(&bytes) && reading.outcome == 0 && reading.batches.len() == 2 && bytes[26..34] == [9, 0, 0, 0, 2, 0, 0, 0]);
    let step = ours::step(&bytes, ours::FlatReader { position: 50, ended: 0, outcome: 0 }, ours::flat(d));
    held("L3", step.accepted == 1 && step.next == bytes.len() && rust.read(&bytes[50..]).batches.len() == 1);
}

pub fn run() {
    let mut rust = Fjall::new().expect("a file in memory");
    let mut library = Ours::new(rust.dialect());
    called_on(&mut rust, &mut library);
    writer(&mut rust, &library);
    mixed(&mut rust, &mut library);
    limits(&library);
    forms(&mut rust, &mut library);
}
