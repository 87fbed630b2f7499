//! Images: every short one, and structured, damaged and random ones from a seed.
use crate::random::Random;
use answers::Dialect;
use xxhash_rust::xxh3::xxh3_64;

/// What an End claims.
#[derive(Clone, Copy, Debug, PartialEq, Eq)]
pub enum Sum {
    /// of the entries encoded anew, as the reading rule has it
    Anew,
    /// of the bytes as they stand
    AsTheyStand,
    /// of no bytes
    OfNone,
    Number(u64),
}

#[derive(Clone, Debug, PartialEq, Eq)]
pub enum Token {
    Start { count: u32, seqno: u64 },
    /// `stated` is the value length, `disk` the on-disk length that is written; `value` is what follows.
    Item { code: u8, none: u8, keyspace: u64, key: Vec<u8>, stated: u32, disk: u32, value: Vec<u8> },
    End(Sum),
    Clear(u64),
    Bytes(Vec<u8>),
}

pub fn item(d: &Dialect, keyspace: u64, kind: usize, key: &[u8], value: &[u8]) -> Token {
    let length = value.len() as u32;
    Token::Item { code: d.codes[kind], none: d.none, keyspace, key: key.to_vec(), stated: length, disk: length, value: value.to_vec() }
}

fn item_bytes(to: &mut Vec<u8>, code: u8, none: u8, keyspace: u64, key: &[u8], lengths: [u32; 2], value: &[u8]) {
    to.extend_from_slice(&[2, code, none]);
    to.extend_from_slice(&keyspace.to_le_bytes());
    to.extend_from_slice(&(key.len() as u16).to_le_bytes());
    to.extend_from_slice(&lengths[0].to_le_bytes());
    to.extend_from_slice(&lengths[1].to_le_bytes());
    to.extend_from_slice(key);
    to.extend_from_slice(value);
}

/// The bytes of the tokens one after the other. A checksum covers what stands behind the last Start.
pub fn image(d: &Dialect, tokens: &[Token]) -> Vec<u8> {
    let mut bytes = vec![];
    let mut body = 0;
    let mut anew: Vec<u8> = vec![];
    for t in tokens {
        match t {
            Token::Start { count, seqno } => {
                bytes.push(1);
                bytes.extend_from_slice(&count.to_le_bytes());
                bytes.extend_from_slice(&seqno.to_le_bytes());
                body = bytes.len();
                anew.clear();
            }
            Token::Item { code, none, keyspace, key, stated, disk, value } => {
                item_bytes(&mut bytes, *code, *none, *keyspace, key, [*stated, *disk], value);
                item_bytes(&mut anew, *code, *none, *keyspace, key, [*disk, *disk], value);
            }
            Token::End(sum) => {
                let sum = match sum {
                    Sum::Anew => xxh3_64(&anew),
                    Sum::AsTheyStand => xxh3_64(&bytes[body..]),
                    Sum::OfNone => xxh3_64(&[]),
                    Sum::Number(n) => *n,
                };
                bytes.push(3);
                bytes.extend_from_slice(&sum.to_le_bytes());
                bytes.extend_from_slice(d.trailer());
            }
            Token::Clear(keyspace) => {
                bytes.push(4);
                bytes.extend_from_slice(&keyspace.to_le_bytes());
                let from = bytes.len() - 9;
                anew.extend_from_slice(&bytes[from..]);
            }
            Token::Bytes(b) => bytes.extend_from_slice(b),
        }
    }
    bytes
}

/// Around each boundary of the hash, the buffer of fjall's reader, and the widths of the lengths.
const LENGTHS: [usize; 44] = [
    0, 1, 2, 3, 4, 7, 8, 9, 15, 16, 17, 31, 32, 33, 63, 64, 65, 95, 96, 97, 107, 108, 127, 128, 129, 207, 208, 218, 219, 220, 239, 240, 241, 255, 256, 257, 511, 512,
    513, 1003, 1023, 1024, 1025, 2048,
];
const LONG: [usize; 12] = [4095, 4096, 8125, 8126, 8147, 8170, 8171, 8172, 8191, 8192, 8193, 16_384];

fn length(r: &mut Random, long: bool) -> usize {
    match r.below(16) {
        0 if long => r.pick(&LONG),
        0..=2 => r.pick(&LENGTHS),
        3 => r.below(300),
        _ => r.below(6),
    }
}

fn entry(r: &mut Random, d: &Dialect, long: bool) -> Token {
    if r.once_in(3) {
        return Token::Clear(r.number());
    }
    let key = length(r, false);
    let key = r.bytes(key);
    let value = length(r, long);
    let value = r.bytes(value);
    item(d, r.number(), r.below(4), &key, &value)
}

fn batch(r: &mut Random, d: &Dialect, long: bool) -> Vec<Token> {
    let count = r.pick(&[0, 1, 1, 1, 2, 2, 3, 4, 5, 7]);
    let mut tokens = vec![Token::Start { count, seqno: r.number() }];
    tokens.extend((0..count).map(|_| entry(r, d, long)));
    tokens.push(Token::End(Sum::Anew));
    tokens
}

fn batches(r: &mut Random, d: &Dialect, long: bool) -> Vec<Token> {
    let n = r.pick(&[1, 1, 1, 2, 2, 3, 4]);
    (0..n).flat_map(|_| batch(r, d, long)).collect()
}

/// Lies about a token, or takes it out, doubles it, or puts it elsewhere.
fn bend(r: &mut Random, d: &Dialect, tokens: &mut Vec<Token>) {
    if tokens.is_empty() {
        return;
    }
    let at = r.below(tokens.len());
    let other = r.below(tokens.len());
    let code = if r.once_in(2) { r.byte() } else { d.codes[r.below(4)] };
    let lie = match r.below(4) {
        0 => r.number() as u32,
        1 => u32::MAX - r.below(40) as u32,
        _ => r.below(12) as u32,
    };
    match (r.below(9), &mut tokens[at]) {
        (0, _) => {
            tokens.remove(at);
        }
        (1, t) => {
            let t = t.clone();
            tokens.insert(at, t);
        }
        (2, _) => tokens.swap(at, other),
        (3, _) => {
            let t = entry(r, d, false);
            tokens.insert(at, t);
        }
        (_, Token::Start { count, .. }) => *count = if r.once_in(2) { count.wrapping_add(1) } else { count.wrapping_sub(1).wrapping_add(lie) },
        (_, Token::End(sum)) => *sum = r.pick(&[Sum::AsTheyStand, Sum::OfNone, Sum::Number(0), Sum::Number(1), Sum::Number(u64::MAX)]),
        (4, Token::Item { code: c, .. }) => *c = code,
        (5, Token::Item { none, .. }) => *none = code,
        (6, Token::Item { disk, .. }) => *disk = lie,
        (_, Token::Item { stated, .. }) => *stated = lie,
        (_, t) => *t = Token::Start { count: lie % 3, seqno: 7 },
    }
}

/// Changes bytes: a bit, a byte, a cut, zeros behind, parts doubled, dropped or moved.
fn damage(r: &mut Random, image: &mut Vec<u8>) {
    let n = image.len();
    if n == 0 {
        image.push(r.below(5) as u8);
        return;
    }
    let at = r.below(n);
    let most = if r.once_in(4) { n } else { 16.min(n) };
    let width = 1 + r.below(most);
    let end = n.min(at + width);
    match r.below(10) {
        0 | 1 => image[at] ^= 1 << r.below(8),
        2 => image[at] = r.byte(),
        3 => image[at] = r.pick(&[0, 1, 2, 3, 4, 5, 255]),
        4 => image.truncate(at),
        5 => image.resize(n + width, 0),
        6 => image[at..].fill(0),
        7 => {
            image.drain(at..end);
        }
        8 => {
            let part = image[at..end].to_vec();
            let to = r.below(n);
            image.splice(to..to, part);
        }
        _ => image[at..end].fill(0),
    }
}

/// The kinds of random image.
#[derive(Clone, Copy, Debug, PartialEq, Eq)]
pub enum Family {
    Bytes,
    Batches,
    Bent,
    Damaged,
    Tokens,
    Unequal,
}

pub const FAMILIES: [Family; 6] = [Family::Bytes, Family::Batches, Family::Bent, Family::Damaged, Family::Tokens, Family::Unequal];

/// Bytes, with tags, codes and the magic among them more often than chance has it.
fn bytes(r: &mut Random, d: &Dialect) -> Vec<u8> {
    let n = if r.once_in(8) { r.below(200) } else { r.below(48) };
    let mut v = vec![];
    while v.len() < n {
        match r.below(8) {
            0..=2 => v.push(r.below(6) as u8),
            3 => v.push(d.codes[r.below(4)]),
            4 => v.push(d.none),
            5 => v.extend_from_slice(d.trailer()),
            6 => v.extend_from_slice(&[0; 3]),
            _ => v.push(r.byte()),
        }
    }
    v
}

/// Entries in any order, each with fields that could be right.
fn tokens(r: &mut Random, d: &Dialect) -> Vec<Token> {
    (0..r.below(9))
        .map(|_| match r.below(6) {
            0 | 1 => Token::Start { count: r.below(3) as u32, seqno: r.number() },
            2 => entry(r, d, false),
            3 => Token::Clear(r.number()),
            4 => Token::End(Sum::Anew),
            _ => Token::End(r.pick(&[Sum::Anew, Sum::OfNone, Sum::AsTheyStand, Sum::Number(0)])),
        })
        .collect()
}

/// Whole batches whose Items' lengths differ, with the checksum of the new encoding or of the bytes as they stand.
fn unequal(r: &mut Random, d: &Dialect) -> Vec<Token> {
    let sum = r.pick(&[Sum::Anew, Sum::AsTheyStand]);
    let mut all = batches(r, d, false);
    for t in &mut all {
        match t {
            Token::Item { stated, .. } if r.once_in(2) => *stated = r.number() as u32,
            Token::End(s) => *s = sum,
            _ => {}
        }
    }
    all
}

pub fn random(r: &mut Random, d: &Dialect, family: Family) -> Vec<u8> {
    let long = r.once_in(64);
    match family {
        Family::Bytes => bytes(r, d),
        Family::Batches => image(d, &batches(r, d, long)),
        Family::Bent => {
            let mut all = batches(r, d, long);
            for _ in 0..=r.below(3) {
                bend(r, d, &mut all);
            }
            image(d, &all)
        }
        Family::Damaged => {
            let mut bytes = image(d, &batches(r, d, long));
            for _ in 0..=r.below(3) {
                damage(r, &mut bytes);
            }
            bytes
        }
        Family::Tokens => image(d, &tokens(r, d)),
        Family::Unequal => image(d, &unequal(r, d)),
    }
}

/// Every image of up to two bytes.
pub fn short(mut each: impl FnMut(&[u8])) {
    each(&[]);
    for a in 0..=255 {
        each(&[a]);
        for b in 0..=255 {
            each(&[a, b]);
        }
    }
}

/// Every sequence of up to `most` of eleven tokens. An End with the right checksum is right for what stands before it.
pub fn sequences(d: &Dialect, most: usize, mut each: impl FnMut(&[u8])) {
    let alphabet = [
        Token::Start { count: 0, seqno: 7 },
        Token::Start { count: 1, seqno: 8 },
        Token::Start { count: 2, seqno: u64::MAX },
        item(d, 2, 0, b"a", b"xy"),
        item(d, 3, 3, b"", b""),
        Token::Clear(2),
        Token::End(Sum::Anew),
        Token::End(Sum::Number(0)),
        Token::End(Sum::OfNone),
        Token::Bytes(vec![0]),
        Token::Bytes(vec![1, 1]),
    ];
    let mut now: Vec<usize> = vec![];
    loop {
        let tokens: Vec<Token> = now.iter().map(|i| alphabet[*i].clone()).collect();
        each(&image(d, &tokens));
        // the next sequence: shorter ones first
        let mut i = now.len();
        loop {
            if i == 0 {
                if now.len() == most {
                    return;
                }
                now = vec![0; now.len() + 1];
                break;
            }
            i -= 1;
            now[i] += 1;
            if now[i] < alphabet.len() {
                break;
            }
            now[i] = 0;
        }
    }
}

/// A batch of one Item under every pair of a type code and a compression code.
pub fn codes(d: &Dialect, mut each: impl FnMut(&[u8])) {
    for code in 0..=255 {
        for none in 0..=255 {
            let item = Token::Item { code, none, keyspace: 2, key: b"a".to_vec(), stated: 2, disk: 2, value: b"xy".to_vec() };
            each(&image(d, &[Token::Start { count: 1, seqno: 7 }, item, Token::End(Sum::Anew)]));
        }
    }
}

/// Journals that the next sets start from.
pub fn samples(d: &Dialect) -> Vec<Vec<u8>> {
    let two = [
        Token::Start { count: 3, seqno: 7 },
        item(d, 2, 0, b"a", b"xy"),
        Token::Clear(300),
        item(d, u64::MAX, 1, b"key", b""),
        Token::End(Sum::Anew),
        Token::Start { count: 1, seqno: 8 },
        item(d, 1, 2, b"", b"v"),
        Token::End(Sum::Anew),
        Token::Start { count: 0, seqno: 9 },
        Token::End(Sum::Anew),
    ];
    let bent = [
        Token::Start { count: 2, seqno: 1 },
        Token::Item { code: d.codes[3], none: d.none, keyspace: 5, key: b"k".to_vec(), stated: 9, disk: 2, value: b"ab".to_vec() },
        Token::Clear(1),
        Token::End(Sum::Anew),
        Token::Start { count: 1, seqno: 2 },
        Token::Clear(4),
    ];
    vec![image(d, &two), image(d, &bent)]
}

/// Each sample cut at every place, with zeros behind every cut, and with every value at every place.
pub fn around(d: &Dialect, mut each: impl FnMut(&[u8])) {
    for sample in samples(d) {
        for cut in 0..=sample.len() {
            each(&sample[..cut]);
            for zeros in [1, 2, 8, 64] {
                let mut bytes = sample[..cut].to_vec();
                bytes.resize(cut + zeros, 0);
                each(&bytes);
            }
        }
        for at in 0..sample.len() {
            let mut bytes = sample.clone();
            for value in 0..=255 {
                bytes[at] = value;
                each(&bytes);
            }
        }
    }
}

/// One Item whose value, and one whose key, has every length up to 1,100, and some around wider boundaries; then one byte less, and
/// one zero more.
pub fn lengths(d: &Dialect, mut each: impl FnMut(&[u8])) {
    let bytes: Vec<u8> = (0..70_000u32).map(|i| (i * 31 % 251) as u8).collect();
    let wide = [2047, 2048, 2049, 4096, 8125, 8126, 8170, 8171, 8172, 8191, 8192, 8193, 16_383, 16_384, 65_535];
    for n in (0..=1100).chain(wide) {
        for (key, value) in [(&bytes[..1], &bytes[..n]), (&bytes[..n], &bytes[..2])] {
            let whole = image(d, &[Token::Start { count: 1, seqno: 7 }, item(d, 2, 0, key, value), Token::End(Sum::Anew)]);
            each(&whole);
            each(&whole[..whole.len() - 1]);
            let mut behind = whole;
            behind.push(0);
            each(&behind);
        }
    }
}

const LARGE: usize = 64 * 1024 * 1024;

/// Images of 64 MiB: a fresh journal, zeros behind a batch, one value that fills it, and many batches.
pub fn large(d: &Dialect, r: &mut Random, mut each: impl FnMut(&[u8])) {
    each(&vec![0; LARGE]);
    let mut bytes = image(d, &[Token::Start { count: 1, seqno: 7 }, item(d, 2, 0, b"a", b"xy"), Token::End(Sum::Anew)]);
    bytes.resize(LARGE, 0);
    each(&bytes);
    let value = r.bytes(LARGE - 13 - 22 - 9 - d.length);
    let mut bytes = image(d, &[Token::Start { count: 1, seqno: 7 }, item(d, 2, 0, b"a", &value), Token::End(Sum::Anew)]);
    assert!(bytes.len() == LARGE);
    each(&bytes);
    bytes[LARGE / 2] ^= 1;
    each(&bytes);
    drop((bytes, value));
    let mut bytes = vec![];
    while bytes.len() < LARGE - 4096 {
        let one = batch(r, d, false);
        bytes.extend(image(d, &one));
    }
    bytes.resize(LARGE, 0);
    each(&bytes);
}
