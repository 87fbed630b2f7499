//! XXH3-64 in plain scalar Rust, seed 0, written from the public xxHash document: what the proved library is compared with.

const SECRET: [u8; 192] = [
    0xb8, 0xfe, 0x6c, 0x39, 0x23, 0xa4, 0x4b, 0xbe, 0x7c, 0x01, 0x81, 0x2c, 0xf7, 0x21, 0xad, 0x1c, 0xde, 0xd4, 0x6d, 0xe9,
    0x83, 0x90, 0x97, 0xdb, 0x72, 0x40, 0xa4, 0xa4, 0xb7, 0xb3, 0x67, 0x1f, 0xcb, 0x79, 0xe6, 0x4e, 0xcc, 0xc0, 0xe5, 0x78,
    0x82, 0x5a, 0xd0, 0x7d, 0xcc, 0xff, 0x72, 0x21, 0xb8, 0x08, 0x46, 0x74, 0xf7, 0x43, 0x24, 0x8e, 0xe0, 0x35, 0x90, 0xe6,
    0x81, 0x3a, 0x26, 0x4c, 0x3c, 0x28, 0x52, 0xbb, 0x91, 0xc3, 0x00, 0xcb, 0x88, 0xd0, 0x65, 0x8b, 0x1b, 0x53, 0x2e, 0xa3,
    0x71, 0x64, 0x48, 0x97, 0xa2, 0x0d, 0xf9, 0x4e, 0x38, 0x19, 0xef, 0x46, 0xa9, 0xde, 0xac, 0xd8, 0xa8, 0xfa, 0x76, 0x3f,
    0xe3, 0x9c, 0x34, 0x3f, 0xf9, 0xdc, 0xbb, 0xc7, 0xc7, 0x0b, 0x4f, 0x1d, 0x8a, 0x51, 0xe0, 0x4b, 0xcd, 0xb4, 0x59, 0x31,
    0xc8, 0x9f, 0x7e, 0xc9, 0xd9, 0x78, 0x73, 0x64, 0xea, 0xc5, 0xac, 0x83, 0x34, 0xd3, 0xeb, 0xc3, 0xc5, 0x81, 0xa0, 0xff,
    0xfa, 0x13, 0x63, 0xeb, 0x17, 0x0d, 0xdd, 0x51, 0xb7, 0xf0, 0xda, 0x49, 0xd3, 0x16, 0x55, 0x26, 0x29, 0xd4, 0x68, 0x9e,
    0x2b, 0x16, 0xbe, 0x58, 0x7d, 0x47, 0xa1, 0xfc, 0x8f, 0xf8, 0xb8, 0xd1, 0x7a, 0xd0, 0x31, 0xce, 0x45, 0xcb, 0x3a, 0x8f,
    0x95, 0x16, 0x04, 0x28, 0xaf, 0xd7, 0xfb, 0xca, 0xbb, 0x4b, 0x40, 0x7e,
];

const PRIME32_1: u64 = 0x9E3779B1;
const PRIME32_2: u64 = 0x85EBCA77;
const PRIME32_3: u64 = 0xC2B2AE3D;
const PRIME64_1: u64 = 0x9E3779B185EBCA87;
const PRIME64_2: u64 = 0xC2B2AE3D27D4EB4F;
const PRIME64_3: u64 = 0x165667B19E3779F9;
const PRIME64_4: u64 = 0x85EBCA77C2B2AE63;
const PRIME64_5: u64 = 0x27D4EB2F165667C5;
const PRIME_MX1: u64 = 0x165667919E3779F9;
const PRIME_MX2: u64 = 0x9FB21C651E98DF25;

const INITIAL: [u64; 8] =
    [PRIME32_3, PRIME64_1, PRIME64_2, PRIME64_3, PRIME64_4, PRIME32_2, PRIME64_5, PRIME32_1];

fn word32(s: &[u8], i: usize) -> u64 {
    u32::from_le_bytes(s[i..i + 4].try_into().unwrap()) as u64
}

fn word64(s: &[u8], i: usize) -> u64 {
    u64::from_le_bytes(s[i..i + 8].try_into().unwrap())
}

fn folded(a: u64, b: u64) -> u64 {
    let product = a as u128 * b as u128;
    product as u64 ^ (product >> 64) as u64
}

fn avalanche(mut x: u64) -> u64 {
    x ^= x >> 37;
    x = x.wrapping_mul(PRIME_MX1);
    x ^ x >> 32
}

fn avalanche_xxh64(mut x: u64) -> u64 {
    x ^= x >> 33;
    x = x.wrapping_mul(PRIME64_2);
    x ^= x >> 29;
    x = x.wrapping_mul(PRIME64_3);
    x ^ x >> 32
}

fn small(s: &[u8]) -> u64 {
    let n = s.len();
    if n == 0 {
        return avalanche_xxh64(word64(&SECRET, 56) ^ word64(&SECRET, 64));
    }
    if n <= 3 {
        let combined = s[n - 1] as u64 | (n as u64) << 8 | (s[0] as u64) << 16 | (s[n >> 1] as u64) << 24;
        return avalanche_xxh64((word32(&SECRET, 0) ^ word32(&SECRET, 4)) ^ combined);
    }
    if n <= 8 {
        let combined = word32(s, n - 4) | word32(s, 0) << 32;
        let mut value = (word64(&SECRET, 8) ^ word64(&SECRET, 16)) ^ combined;
        value ^= value.rotate_left(49) ^ value.rotate_left(24);
        value = value.wrapping_mul(PRIME_MX2);
        value ^= (value >> 35) + n as u64;
        value = value.wrapping_mul(PRIME_MX2);
        return value ^ value >> 28;
    }
    let low = (word64(&SECRET, 24) ^ word64(&SECRET, 32)) ^ word64(s, 0);
    let high = (word64(&SECRET, 40) ^ word64(&SECRET, 48)) ^ word64(s, n - 8);
    let value = (n as u64).wrapping_add(low.swap_bytes()).wrapping_add(high);
    avalanche(value.wrapping_add(folded(low, high)))
}

fn mix_step(s: &[u8], i: usize, j: usize) -> u64 {
    folded(word64(s, i) ^ word64(&SECRET, j), word64(s, i + 8) ^ word64(&SECRET, j + 8))
}

fn medium(s: &[u8]) -> u64 {
    let n = s.len();
    let mut acc = (n as u64).wrapping_mul(PRIME64_1);
    if n <= 128 {
        for i in (0..((n - 1) >> 5) + 1).rev() {
            acc = acc.wrapping_add(mix_step(s, i * 16, i * 32));
            acc = acc.wrapping_add(mix_step(s, n - i * 16 - 16, i * 32 + 16));
        }
        return avalanche(acc);
    }
    for i in 0..8 {
        acc = acc.wrapping_add(mix_step(s, i * 16, i * 16));
    }
    acc = avalanche(acc);
    for i in 8..n >> 4 {
        acc = acc.wrapping_add(mix_step(s, i * 16, (i - 8) * 16 + 3));
    }
    avalanche(acc.wrapping_add(mix_step(s, n - 16, 119)))
}

fn accumulate(acc: &mut [u64; 8], stripe: &[u8], secret: &[u8]) {
    for i in 0..8 {
        let word = word64(stripe, i * 8);
        let value = word ^ word64(secret, i * 8);
        acc[i ^ 1] = acc[i ^ 1].wrapping_add(word);
        acc[i] = acc[i].wrapping_add((value & 0xffff_ffff).wrapping_mul(value >> 32));
    }
}

fn round_scramble(acc: &mut [u64; 8]) {
    for i in 0..8 {
        acc[i] ^= acc[i] >> 47;
        acc[i] ^= word64(&SECRET, 128 + i * 8);
        acc[i] = acc[i].wrapping_mul(PRIME32_1);
    }
}

fn final_merge(acc: &[u64; 8], n: u64) -> u64 {
    let mut result = n.wrapping_mul(PRIME64_1);
    for i in 0..4 {
        let x = acc[i * 2] ^ word64(&SECRET, 11 + i * 16);
        let y = acc[i * 2 + 1] ^ word64(&SECRET, 11 + i * 16 + 8);
        result = result.wrapping_add(folded(x, y));
    }
    avalanche(result)
}

fn large(s: &[u8]) -> u64 {
    let n = s.len();
    let mut acc = INITIAL;
    let blocks = (n - 1) / 1024;
    for block in s[..blocks * 1024].chunks_exact(1024) {
        for (i, stripe) in block.chunks_exact(64).enumerate() {
            accumulate(&mut acc, stripe, &SECRET[i * 8..i * 8 + 64]);
        }
        round_scramble(&mut acc);
    }
    let last = &s[blocks * 1024..];
    for (i, stripe) in last[..(last.len() - 1) / 64 * 64].chunks_exact(64).enumerate() {
        accumulate(&mut acc, stripe, &SECRET[i * 8..i * 8 + 64]);
    }
    accumulate(&mut acc, &s[n - 64..], &SECRET[121..185]);
    final_merge(&acc, n as u64)
}

pub fn xxh3_64(s: &[u8]) -> u64 {
    match s.len() {
        0..=16 => small(s),
        17..=240 => medium(s),
        _ => large(s),
    }
}

/// Piece by piece: the last 1 to 256 bytes are held back, input byte n at place n mod 256.
#[derive(Clone, Copy)]
pub struct Hasher {
    acc: [u64; 8],
    hold: [u8; 256],
    total: u64,
}

fn stripes(acc: &mut [u64; 8], s: &[u8], first: usize) {
    for (i, stripe) in s.chunks_exact(64).enumerate() {
        let at = (first + i) % 16 * 8;
        accumulate(acc, stripe, &SECRET[at..at + 64]);
        if (first + i) % 16 == 15 {
            round_scramble(acc);
        }
    }
}

impl Hasher {
    pub fn new() -> Hasher {
        Hasher { acc: INITIAL, hold: [0; 256], total: 0 }
    }

    pub fn absorb(&mut self, mut piece: &[u8]) {
        while !piece.is_empty() {
            let at = (self.total % 256) as usize;
            if at == 0 && self.total > 0 {
                stripes(&mut self.acc, &self.hold, (self.total / 64 - 4) as usize);
            }
            let n = piece.len().min(256 - at);
            self.hold[at..at + n].copy_from_slice(&piece[..n]);
            self.total += n as u64;
            piece = &piece[n..];
        }
    }

    pub fn finish(&self) -> u64 {
        let n = self.total;
        if n <= 240 {
            return xxh3_64(&self.hold[..n as usize]);
        }
        let mut acc = self.acc;
        let held = ((n - 1) % 256 / 64) as usize;
        stripes(&mut acc, &self.hold[..held * 64], ((n - 1) / 256 * 4) as usize);
        let mut last = [0; 64];
        for (i, byte) in last.iter_mut().enumerate() {
            *byte = self.hold[(n as usize - 64 + i) % 256];
        }
        accumulate(&mut acc, &last, &SECRET[121..185]);
        final_merge(&acc, n)
    }
}
