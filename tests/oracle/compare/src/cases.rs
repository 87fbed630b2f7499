//! A case is made of bytes, so that a fuzzer can turn them. The first says what the rest is:
//!   0 an image, and 1 a list of entries from which an image with true checksums is made: read by the library and by the Rust;
//!   2 and 3 a dialect and a state, made up, and an image or a list: a step, an entry and what to keep, held to the plain reading of
//!     document 01, and to the Rust where the dialect is one of its four;
//!   4 bytes and where they are cut: the hash in one go and by pieces, held to the crate that fjall uses; then a state made up;
//!   5 a dialect, a writer's state, a buffer and calls, all made up: every answer and every byte, held to the plain document 01;
//!   6 a script for fjall's writer: bytes and counts of both sides, and both read both back.
use crate::check::{difference, Tally};
use crate::make::{self, Sum, Token};
use crate::ours::{self, Alone, FlatHash, FlatHasher, FlatReader, FlatWriter, Op, Put};
use crate::{plain, Pair};
use answers::{hex, Call, Dialect, Item, Judge, KINDS as KINDS_OF_VALUE};
use std::fmt::Debug;

pub const KINDS: u8 = 7;

/// The bytes of a case, taken from the front; 0 where there are no more.
struct Input<'a>(&'a [u8]);

impl<'a> Input<'a> {
    fn byte(&mut self) -> u8 {
        let Some((first, rest)) = self.0.split_first() else { return 0 };
        self.0 = rest;
        *first
    }

    fn number(&mut self, width: usize) -> u64 {
        (0..width).fold(0, |n, i| n | u64::from(self.byte()) << (8 * i))
    }

    fn take(&mut self, n: usize) -> &'a [u8] {
        let (part, rest) = self.0.split_at(n.min(self.0.len()));
        self.0 = rest;
        part
    }

    /// Small, or around a length, or anything.
    fn near(&mut self, length: usize) -> usize {
        match self.byte() % 4 {
            0 => self.byte() as usize,
            1 => length.wrapping_sub(self.byte() as usize),
            2 => length.wrapping_add(self.byte() as usize),
            _ => self.number(8) as usize,
        }
    }
}

type Said = Result<(), String>;

fn same<T: PartialEq + Debug>(what: &str, library: T, other: T) -> Said {
    if library == other {
        return Ok(());
    }
    Err(format!("{what}\nthe library: {library:?}\nit should be: {other:?}"))
}

fn token(i: &mut Input, d: &Dialect) -> Token {
    match i.byte() % 8 {
        0 => Token::Start { count: u32::from(i.byte() % 4), seqno: i.number(2) },
        1 => Token::Start { count: i.number(4) as u32, seqno: i.number(8) },
        2 => Token::Clear(i.number(8)),
        3 => Token::End(Sum::Anew),
        4 => Token::End([Sum::AsTheyStand, Sum::OfNone, Sum::Number(0), Sum::Anew][i.byte() as usize % 4]),
        5 => {
            let n = i.byte() as usize;
            Token::Bytes(i.take(n).to_vec())
        }
        6 => {
            let (kind, keyspace, k, v) = (i.byte() as usize % 4, i.number(2), i.byte() as usize, i.number(2) as usize);
            make::item(d, keyspace, kind, i.take(k), i.take(v))
        }
        _ => {
            let (code, none, stated, disk, n) = (i.byte(), i.byte(), i.number(4) as u32, i.number(4) as u32, i.byte() as usize);
            Token::Item { code, none, keyspace: i.number(1), key: i.take(n).to_vec(), stated, disk, value: i.take(disk as usize).to_vec() }
        }
    }
}

fn read(pair: &mut Pair, image: &[u8]) -> Said {
    difference(pair, image, &mut Tally::default())
        .map_or(Ok(()), |how| Err(format!("under {}, {} bytes: {}\n{how}", pair.ours.dialect().name, image.len(), hex(image))))
}

fn tokens(i: &mut Input, d: &Dialect) -> Vec<u8> {
    let mut all = vec![];
    while !i.0.is_empty() {
        all.push(token(i, d));
    }
    make::image(d, &all)
}

/// One of the four, or one with a field or all fields made up.
fn dialect(i: &mut Input, four: &[Pair]) -> Dialect {
    let mut d = four[i.byte() as usize % 4].ours.dialect();
    match i.byte() % 8 {
        0 => {
            d.magic.copy_from_slice(&i.number(8).to_le_bytes());
            d.length = i.near(8);
            d.codes = std::array::from_fn(|_| i.byte());
            d.none = i.byte();
        }
        1 => d.length = i.near(d.length),
        2 => d.magic[i.byte() as usize % 8] = i.byte(),
        3 => d.codes[i.byte() as usize % 4] = i.byte(),
        _ => {}
    }
    d
}

/// A place: the beginning, anywhere in the image, or around its end.
fn place(i: &mut Input, length: usize) -> usize {
    match i.byte() {
        0..=99 => 0,
        b @ 100..=199 => (b - 100) as usize % (length + 1),
        _ => i.near(length.saturating_sub(2)),
    }
}

fn made_up(four: &mut [Pair], i: &mut Input, listed: bool) -> Said {
    let given = dialect(i, four);
    let d = ours::flat(given);
    let head = &mut Input(i.take(12));
    let made = if listed { tokens(i, &given) } else { i.0.to_vec() };
    let image = &made[..];
    let at = place(head, image.len());
    let ended = [0, 0, 1, u32::MAX][head.byte() as usize % 4];
    let outcome = head.byte() % 8;
    let reader = FlatReader { position: at, ended, outcome: if outcome == 7 { u32::MAX } else { outcome.into() } };
    let step = ours::step(image, reader, d);
    same("step", step, plain::step(image, reader, &d))?;
    same("decode", ours::decode(image, at, d), plain::decode(image, at, &d))?;
    same("key and value", [ours::key(image, at, d), ours::value(image, at, d)], plain::views(image, at, &d))?;
    let end = place(head, image.len());
    same("body", ours::body(image.len(), at, end), plain::body(image.len(), at, end))?;
    same("kept", ours::kept(image.len(), reader), plain::kept(image.len(), reader))?;
    let Some(pair) = four.iter_mut().find(|p| ours::flat(p.ours.dialect()) == d) else { return Ok(()) };
    if step.number != 0 || ended != 0 {
        return Ok(());
    }
    // the Rust reads from 0: what stands from there on is a journal of its own to it
    let rust = pair.rust.read(&image[at..]);
    match rust.batches.first() {
        Some(b) => same("batch", (step.accepted, step.seqno, step.count, step.next), (1, b.seqno, b.count, at + b.next)),
        None => same("end", (step.accepted, step.outcome), (0, rust.outcome)),
    }
}

/// The state after n bytes holds input byte k at place k mod 256, for the last ones.
fn holds(state: &FlatHasher, bytes: &[u8]) -> bool {
    let held = if bytes.is_empty() { 0 } else { (bytes.len() - 1) % 256 + 1 };
    state.total == bytes.len() as u64 && (bytes.len() - held..bytes.len()).all(|k| state.hold[k % 256] == bytes[k])
}

fn hash(i: &mut Input) -> Said {
    let cuts = &mut Input(i.take(8));
    let all = i.0;
    let mut value = ours::hasher_new();
    let (mut lent, mut parts) = (value, value);
    let mut theirs = xxhash_rust::xxh3::Xxh3::new();
    let mut rest = Input(all);
    while !rest.0.is_empty() {
        let piece = match cuts.byte() {
            0 => rest.take(usize::MAX),
            b @ 1..=200 => rest.take(b as usize),
            b => rest.take(b as usize * 16),
        };
        theirs.update(piece);
        let absorbed = ours::absorb(value, piece);
        same("absorb", absorbed.number, 0)?;
        value = absorbed.state;
        same("absorb_into", ours::absorb_into(&mut lent, piece), 0)?;
        same("the lent state", lent, value)?;
        same("absorb_at", ours::absorb_at(&mut parts, piece), 0)?;
        same("the lent parts", parts, value)?;
        same("the bytes held", holds(&value, &all[..all.len() - rest.0.len()]), true)?;
        same("finish", ours::finish(value), FlatHash { number: 0, hash: theirs.digest() })?;
        same("finish_at", ours::finish_at(&parts), ours::finish(value))?;
    }
    same("one shot", ours::xxh3_64(all), FlatHash { number: 0, hash: xxhash_rust::xxh3::xxh3_64(all) })?;
    made_up_hasher(value, all)
}

/// Totals around the limit: a piece too many is 21, a total too large 22, and the state comes back.
fn made_up_hasher(state: FlatHasher, piece: &[u8]) -> Said {
    let limit = u64::from(u32::MAX);
    for total in [limit - piece.len() as u64, limit, limit + 1, u64::MAX, state.acc[0], state.acc[1] >> 32] {
        let mut made = FlatHasher { total, ..state };
        let over = total.checked_add(piece.len() as u64).is_none_or(|n| n > limit);
        let absorbed = ours::absorb(made, piece);
        same("21", absorbed.number, if over { 21 } else { 0 })?;
        if over {
            same("the state as it came", absorbed.state, made)?;
        }
        let finished = ours::finish(made);
        same("22", finished.number, if total > limit { 22 } else { 0 })?;
        same("no sum", total > limit && finished.hash != 0, false)?;
        same("finish_at", ours::finish_at(&made), finished)?;
        let mut parts = made;
        same("21, by parts", ours::absorb_at(&mut parts, piece), absorbed.number)?;
        same("the lent parts", parts, absorbed.state)?;
        same("21, lent", ours::absorb_into(&mut made, piece), absorbed.number)?;
        same("the lent state", made, absorbed.state)?;
    }
    Ok(())
}

fn put<'a>(i: &mut Input<'a>) -> Put<'a> {
    if i.byte() % 3 == 0 {
        return Put::Clear { keyspace: i.number(8) };
    }
    let (value_type, keyspace, k, v) = (i.byte() % 5, i.number(2), i.byte() as usize % 8, i.byte() as usize);
    let key = if k == 7 { &LONG_KEY[..65_534 + v % 4] } else { i.take(k) };
    Put::Item { value_type, keyspace, key, value: i.take(v) }
}

static LONG_KEY: [u8; 65_540] = [b'k'; 65_540];

fn op<'a>(i: &mut Input<'a>) -> Op<'a> {
    match i.byte() % 8 {
        0 => Op::Open { count: u64::from(i.byte() % 4), seqno: i.number(2) },
        1 => Op::Open { count: i.near(u32::MAX as usize) as u64, seqno: i.number(8) },
        2..=4 => Op::Put(put(i)),
        5 => Op::Close,
        _ => Op::Write { seqno: i.number(2), put: put(i) },
    }
}

fn alone<'a>(i: &mut Input<'a>) -> Alone<'a> {
    match i.byte() % 4 {
        0 => Alone::Start { count: i.number(4) as u32, seqno: i.number(8) },
        1 => Alone::End { checksum: i.number(8) },
        _ => Alone::Put(put(i)),
    }
}

/// Calls from a made-up state, each given what the one before it returned; or with the state made up anew.
fn writer(four: &[Pair], i: &mut Input) -> Said {
    let d = ours::flat(dialect(i, four));
    let length = match i.byte() {
        b @ 0..=199 => b as usize,
        b => (b as usize - 199) * 1500,
    };
    let mut buf: Vec<u8> = (0..length).map(|k| (k * 7 + 1) as u8).collect();
    let mut w = made_up_writer(i, length);
    while !i.0.is_empty() {
        let mut twin = buf.clone();
        if i.byte() % 8 == 0 {
            let entry = alone(i);
            same("encode", ours::encode(&mut buf, d, entry), plain::encode(&mut twin, &d, &entry))?;
        } else {
            let op = op(i);
            let reply = ours::call(&mut buf, d, w, op);
            same("reply", reply, plain::call(&mut twin, &d, w, &op)).map_err(|e| format!("{op:?} on {length} bytes at {w:?}\n{e}"))?;
            w = reply.writer;
        }
        same("buffer", &buf, &twin)?;
        if i.byte() % 16 == 0 {
            w = made_up_writer(i, length);
        }
    }
    Ok(())
}

fn made_up_writer(i: &mut Input, length: usize) -> FlatWriter {
    let position = place(i, length);
    match i.byte() % 4 {
        0 => FlatWriter { position, start: i.near(position), open: i.byte().into(), left: i.near(u32::MAX as usize) as u64 },
        1 => FlatWriter { position, start: position.wrapping_sub(13 + i.byte() as usize % 3), open: 1, left: u64::from(i.byte() % 3) },
        2 => FlatWriter { position, start: 0, open: 1, left: u64::from(i.byte() % 3) },
        _ => FlatWriter { position, start: 0, open: 0, left: 0 },
    }
}

fn item(i: &mut Input, least: usize) -> Item {
    let (kind, keyspace, k, v) = (KINDS_OF_VALUE[i.byte() as usize % 4], i.number(2), i.byte() as usize % 16, i.number(2) as usize % 3000);
    let mut key = i.take(k).to_vec();
    key.resize(key.len().max(least), b'k');
    Item { keyspace, kind, key, value: i.take(v).to_vec() }
}

fn script(four: &mut [Pair], i: &mut Input) -> Said {
    let pair = &mut four[i.byte() as usize % 4];
    let mut calls = vec![];
    while !i.0.is_empty() && calls.len() < 12 {
        let seqno = i.number(2);
        calls.push(match i.byte() % 4 {
            0 | 1 => Call::Batch { seqno, items: (0..i.byte() % 5).map(|_| item(i, 1)).collect() },
            2 => Call::Raw { seqno, item: item(i, 0) },
            _ => Call::Clear { seqno, keyspace: i.number(8) },
        });
    }
    let rust = pair.rust.write(&calls);
    let ours = pair.ours.write(&calls);
    same("the bytes and counts written", &ours, &rust)?;
    read(pair, &rust.bytes)?;
    let wrote = calls.iter().filter(|c| !matches!(c, Call::Batch { items, .. } if items.is_empty())).count();
    let back = pair.ours.read(&rust.bytes);
    same("read back", (back.outcome, back.batches.len(), back.valid), (0, wrote, rust.bytes.len()))
}

pub fn case(four: &mut [Pair], bytes: &[u8]) -> Said {
    let i = &mut Input(bytes);
    match i.byte() % KINDS {
        0 => {
            let n = i.byte() as usize % 4;
            read(&mut four[n], i.0)
        }
        1 => {
            let n = i.byte() as usize % 4;
            let d = four[n].ours.dialect();
            let image = tokens(i, &d);
            read(&mut four[n], &image)
        }
        4 => hash(i),
        5 => writer(four, i),
        6 => script(four, i),
        kind => made_up(four, i, kind == 3),
    }
}
