//! Document 01 once more, as plain Rust over any dialect and any state, for what fjall has no answer to: other dialects, made-up
//! states, refusals, the writer's calls one by one. Where fjall has one, this is compared with it too.
use crate::ours::{Alone, FlatCount, FlatDialect, FlatEntry, FlatReader, FlatReply, FlatSpan, FlatStepped, FlatWriter, Op, Put, NOTHING};
use xxhash_rust::xxh3::xxh3_64;

const LIMIT: usize = 0xffff_ffff;

fn codes(d: &FlatDialect) -> [u8; 4] {
    [d.value, d.tombstone, d.weak, d.indirection]
}

pub fn good(d: &FlatDialect) -> bool {
    let c = codes(d);
    (1..=8).contains(&d.length)
        && d.magic[d.length - 1] != 0
        && d.magic[d.length..].iter().all(|b| *b == 0)
        && (0..4).all(|i| (0..i).all(|j| c[i] != c[j]))
}

/// The first of the numbers whose test holds, else 0.
fn first(tests: &[(bool, u32)]) -> u32 {
    tests.iter().find(|t| t.0).map_or(0, |t| t.1)
}

/// Takes n bytes at a place and moves it on, or gives 30.
fn take<'a>(image: &'a [u8], at: &mut usize, n: usize) -> Result<&'a [u8], u32> {
    let bytes = image.get(*at..).and_then(|rest| rest.get(..n)).ok_or(30u32)?;
    *at += n;
    Ok(bytes)
}

fn number(image: &[u8], at: &mut usize, width: usize) -> Result<u64, u32> {
    Ok(take(image, at, width)?.iter().rev().fold(0, |n, b| n << 8 | u64::from(*b)))
}

fn entry(image: &[u8], at: usize, d: &FlatDialect) -> Result<FlatEntry, u32> {
    let p = &mut { at };
    let mut e = NOTHING;
    match take(image, p, 1)?[0] {
        1 => {
            e.tag = 1;
            e.count = number(image, p, 4)?;
            e.seqno = number(image, p, 8)?;
        }
        2 => {
            e.tag = 2;
            let code = take(image, p, 1)?[0];
            e.value_type = codes(d).iter().position(|c| *c == code).ok_or(32u32)? as u8;
            if take(image, p, 1)?[0] != d.none {
                return Err(33);
            }
            e.keyspace = number(image, p, 8)?;
            e.key_len = number(image, p, 2)? as usize;
            number(image, p, 4)?;
            e.value_len = number(image, p, 4)? as usize;
            e.key_at = *p;
            take(image, p, e.key_len)?;
            e.value_at = *p;
            take(image, p, e.value_len)?;
        }
        3 => {
            e.tag = 3;
            e.checksum = number(image, p, 8)?;
            if take(image, p, d.length)? != &d.magic[..d.length] {
                return Err(34);
            }
        }
        4 => {
            e.tag = 4;
            e.keyspace = number(image, p, 8)?;
        }
        _ => return Err(31),
    }
    e.next = *p;
    Ok(e)
}

pub fn decode(image: &[u8], at: usize, d: &FlatDialect) -> FlatEntry {
    let refused = first(&[(!good(d), 20), (image.len() > LIMIT, 21), (at > image.len(), 22)]);
    let got = if refused == 0 { entry(image, at, d) } else { Err(refused) };
    got.unwrap_or_else(|number| FlatEntry { number, ..NOTHING })
}

/// The key, and the value, of the Item at a position.
pub fn views(image: &[u8], at: usize, d: &FlatDialect) -> [FlatSpan; 2] {
    let e = decode(image, at, d);
    let number = if e.number == 0 && e.tag != 2 { 35 } else { e.number };
    [FlatSpan { number, at: e.key_at, length: e.key_len }, FlatSpan { number, at: e.value_at, length: e.value_len }]
}

pub fn body(length: usize, body: usize, end: usize) -> FlatSpan {
    let number = first(&[(length > LIMIT, 21), (end > length, 22), (body > end, 22)]);
    if number == 0 {
        FlatSpan { number, at: body, length: end - body }
    } else {
        FlatSpan { number, at: 0, length: 0 }
    }
}

/// The bytes of an Item or a Clear, encoded anew.
fn anew(image: &[u8], e: &FlatEntry, d: &FlatDialect, to: &mut Vec<u8>) {
    if e.tag == 4 {
        to.push(4);
        to.extend(e.keyspace.to_le_bytes());
        return;
    }
    to.extend([2, codes(d)[e.value_type as usize], d.none]);
    to.extend(e.keyspace.to_le_bytes());
    to.extend((e.key_len as u16).to_le_bytes());
    to.extend((e.value_len as u32).to_le_bytes());
    to.extend((e.value_len as u32).to_le_bytes());
    to.extend(&image[e.key_at..e.next]);
}

/// A batch from a position outside one: seqno, count, body, end, next; or the outcome.
fn batch(image: &[u8], at: usize, d: &FlatDialect) -> Result<[u64; 5], u32> {
    if at == image.len() {
        return Err(0);
    }
    let torn = |_| 1u32;
    let start = entry(image, at, d).map_err(torn)?;
    if start.tag != 1 {
        return Err(1);
    }
    let (mut left, mut place, mut body) = (start.count, start.next, vec![]);
    loop {
        let e = entry(image, place, d).map_err(torn)?;
        match e.tag {
            1 => return Err(1),
            3 if left > 0 => return Err(2),
            3 if xxh3_64(&body) != e.checksum => return Err(4),
            3 => return Ok([start.seqno, start.count, start.next as u64, place as u64, e.next as u64]),
            _ if left == 0 => return Err(3),
            _ => {
                left -= 1;
                anew(image, &e, d, &mut body);
                place = e.next;
            }
        }
    }
}

/// 21 and 22 of a state on an image of so many bytes.
fn state(length: usize, reader: FlatReader) -> u32 {
    first(&[(length > LIMIT, 21), (reader.position > length, 22), (reader.ended != 0 && reader.outcome > 4, 22)])
}

pub fn step(image: &[u8], reader: FlatReader, d: &FlatDialect) -> FlatStepped {
    let number = first(&[(!good(d), 20), (true, state(image.len(), reader))]);
    let none = FlatStepped { number, accepted: 0, outcome: 0, seqno: 0, count: 0, body: 0, end: 0, next: 0, reader };
    if number != 0 {
        return none;
    }
    let found = if reader.ended != 0 { Err(reader.outcome) } else { batch(image, reader.position, d) };
    match found {
        Err(outcome) => FlatStepped { outcome, reader: FlatReader { ended: 1, outcome, ..reader }, ..none },
        Ok([seqno, count, body, end, next]) => FlatStepped {
            accepted: 1,
            seqno,
            count,
            body: body as usize,
            end: end as usize,
            next: next as usize,
            reader: FlatReader { position: next as usize, ended: 0, outcome: 0 },
            ..none
        },
    }
}

pub fn kept(length: usize, reader: FlatReader) -> FlatCount {
    let number = state(length, reader);
    let torn = reader.ended != 0 && reader.outcome == 1;
    let bytes = if torn { reader.position } else { length };
    FlatCount { number, bytes: if number == 0 { bytes } else { 0 } }
}

fn put_bytes(d: &FlatDialect, put: &Put) -> Vec<u8> {
    let mut bytes = vec![];
    match put {
        Put::Clear { keyspace } => {
            bytes.push(4);
            bytes.extend(keyspace.to_le_bytes());
        }
        Put::Item { value_type, keyspace, key, value } => {
            bytes.extend([2, codes(d)[*value_type as usize], d.none]);
            bytes.extend(keyspace.to_le_bytes());
            bytes.extend((key.len() as u16).to_le_bytes());
            bytes.extend((value.len() as u32).to_le_bytes());
            bytes.extend((value.len() as u32).to_le_bytes());
            bytes.extend(*key);
            bytes.extend(*value);
        }
    }
    bytes
}

fn start_bytes(count: u32, seqno: u64) -> Vec<u8> {
    [&[1][..], &count.to_le_bytes(), &seqno.to_le_bytes()].concat()
}

fn end_bytes(d: &FlatDialect, checksum: u64) -> Vec<u8> {
    [&[3][..], &checksum.to_le_bytes(), &d.magic[..d.length.min(8)]].concat()
}

/// Whether a value type is one of the four: the library's own rule for its callers, 32 before all else.
fn typed(put: &Put) -> bool {
    !matches!(put, Put::Item { value_type, .. } if *value_type > 3)
}

fn key_len(put: &Put) -> Option<usize> {
    match put {
        Put::Item { key, .. } => Some(key.len()),
        Put::Clear { .. } => None,
    }
}

pub fn encode(buf: &mut [u8], d: &FlatDialect, entry: &Alone) -> FlatCount {
    let refused = |number| FlatCount { number, bytes: 0 };
    let (bytes, key) = match entry {
        Alone::Put(p) if !typed(p) => return refused(32),
        Alone::Put(p) => (put_bytes(d, p), key_len(p)),
        Alone::Start { count, seqno } => (start_bytes(*count, *seqno), None),
        Alone::End { checksum } => (end_bytes(d, *checksum), None),
    };
    let number =
        first(&[(!good(d), 20), (buf.len() > LIMIT, 21), (key.is_some_and(|k| k > 65_535), 25), (buf.len() < bytes.len(), 27)]);
    if number != 0 {
        return refused(number);
    }
    buf[..bytes.len()].copy_from_slice(&bytes);
    FlatCount { number: 0, bytes: bytes.len() }
}

/// What a call writes, the bytes that it needs beyond them, and the state behind it; or its number.
fn written(buf: &[u8], d: &FlatDialect, w: FlatWriter, op: &Op) -> Result<(Vec<u8>, FlatWriter), u32> {
    if matches!(op, Op::Put(p) | Op::Write { put: p, .. } if !typed(p)) {
        return Err(32);
    }
    let open = w.open != 0;
    let range = w.position > buf.len()
        || (open && w.start.checked_add(13).is_none_or(|body| body > w.position))
        || (!open && w.left != 0)
        || w.left > LIMIT as u64;
    let shared = first(&[(!good(d), 20), (buf.len() > LIMIT, 21), (range, 22)]);
    if shared != 0 {
        return Err(shared);
    }
    let room = buf.len() - w.position;
    let end = 9 + d.length;
    let outside = |at| FlatWriter { position: at, start: 0, open: 0, left: 0 };
    let (number, bytes, mut after) = match op {
        Op::Open { count, seqno } => {
            let number = first(&[(open, 24), (*count > LIMIT as u64, 23), (*count != 0 && room < 13 + end, 27)]);
            if *count == 0 && number == 0 {
                return Ok((vec![], w));
            }
            (number, start_bytes(*count as u32, *seqno), FlatWriter { position: 0, start: w.position, open: 1, left: *count })
        }
        Op::Put(p) => {
            let bytes = put_bytes(d, p);
            let wrong = key_len(p).is_some_and(|k| k == 0 || k > 65_535);
            let number = first(&[(!open, 24), (w.left == 0, 26), (wrong, 25), (room < bytes.len() + end, 27)]);
            (number, bytes, FlatWriter { position: 0, start: w.start, open: 1, left: w.left.saturating_sub(1) })
        }
        Op::Close => {
            let number = first(&[(!open, 24), (w.left > 0, 26), (room < end, 27)]);
            let body = if number == 0 { &buf[w.start + 13..w.position] } else { &[] };
            (number, end_bytes(d, xxh3_64(body)), outside(0))
        }
        Op::Write { seqno, put } => {
            let body = put_bytes(d, put);
            let bytes = [start_bytes(1, *seqno), body.clone(), end_bytes(d, xxh3_64(&body))].concat();
            let number = first(&[(open, 24), (key_len(put).is_some_and(|k| k > 65_535), 25), (room < bytes.len(), 27)]);
            (number, bytes, outside(0))
        }
    };
    if number != 0 {
        return Err(number);
    }
    after.position = w.position + bytes.len();
    Ok((bytes, after))
}

pub fn call(buf: &mut [u8], d: &FlatDialect, w: FlatWriter, op: &Op) -> FlatReply {
    match written(buf, d, w, op) {
        Err(number) => FlatReply { number, bytes: 0, writer: w },
        Ok((bytes, after)) => {
            buf[w.position..w.position + bytes.len()].copy_from_slice(&bytes);
            // a state that comes back from a call has its flag as 0 or 1
            FlatReply { number: 0, bytes: bytes.len(), writer: FlatWriter { open: u32::from(after.open != 0), ..after } }
        }
    }
}
