//! XXH3-64 beside plain scalar Rust and libxxhash.
use crate::clock::race;
use crate::{line, plain};
use pierloft::{xxh3_64, Xxh3};
use std::hint::black_box;

mod c {
    extern "C" {
        pub fn scalar_once(bytes: *const u8, length: usize) -> u64;
        pub fn scalar_pieces(bytes: *const u8, length: usize, piece: usize) -> u64;
        pub fn shipped_once(bytes: *const u8, length: usize) -> u64;
        pub fn shipped_pieces(bytes: *const u8, length: usize, piece: usize) -> u64;
    }
}

/// libxxhash's hash, as it is installed.
pub fn shipped(bytes: &[u8]) -> u64 {
    // it reads the bytes of one slice and keeps no pointer
    unsafe { c::shipped_once(bytes.as_ptr(), bytes.len()) }
}

const SCALAR: &str = "libxxhash, scalar";
const SHIPPED: &str = "libxxhash, as shipped";
const PLAIN: &str = "plain Rust";

fn ours_in_pieces(bytes: &[u8], piece: usize) -> u64 {
    let mut hasher = Xxh3::new();
    for part in bytes.chunks(piece) {
        hasher.update(part).expect("within the limit");
    }
    hasher.digest()
}

fn plain_in_pieces(bytes: &[u8], piece: usize) -> u64 {
    let mut hasher = plain::Hasher::new();
    bytes.chunks(piece).for_each(|part| hasher.absorb(part));
    hasher.finish()
}

/// Every length up to 2,100, in one shot and by pieces of several sizes.
fn agree(input: &[u8]) {
    for n in 0..=2100 {
        let bytes = &input[..n];
        let sum = plain::xxh3_64(bytes);
        assert_eq!(xxh3_64(bytes), Ok(sum), "in one shot, {n} bytes");
        for piece in [1, 21, 64, 255, 256, 1000] {
            assert_eq!(ours_in_pieces(bytes, piece), sum, "ours, {n} bytes by {piece}");
            assert_eq!(plain_in_pieces(bytes, piece), sum, "plain, {n} bytes by {piece}");
        }
    }
}

/// Each hashes `bytes` again and again; all must agree first.
fn compare(what: &str, bytes: &[u8], hashes: [&dyn Fn(&[u8]) -> u64; 4], rounds: usize) {
    let sum = hashes[0](bytes);
    assert!(hashes.iter().all(|hash| hash(bytes) == sum), "{what}: the hashes differ");
    let calls = (1 << 20) / (bytes.len() + 64) + 1;
    let again = |hash: &dyn Fn(&[u8]) -> u64| {
        for _ in 0..calls {
            black_box(hash(black_box(bytes)));
        }
    };
    let [ours, plain, scalar, shipped] = race(
        rounds,
        [&mut || again(hashes[0]), &mut || again(hashes[1]), &mut || again(hashes[2]), &mut || again(hashes[3])],
    );
    let input = match bytes.len() {
        n if n >= 1 << 20 => format!("{} MiB", n >> 20),
        n if n >= 1 << 10 => format!("{} KiB", n >> 10),
        n => format!("{n} B"),
    };
    line(what, &input, PLAIN, ours, plain, "time at most 1.3");
    line(what, &input, SCALAR, ours, scalar, "");
    line(what, &input, SHIPPED, ours, shipped, "");
}

pub fn run(quick: bool) {
    let rounds = if quick { 20 } else { 300 };
    let mut word = 2654435761u64;
    let input: Vec<u8> = (0..1 << 20)
        .map(|_| {
            word = word.wrapping_mul(6364136223846793005).wrapping_add(1442695040888963407);
            (word >> 56) as u8
        })
        .collect();
    agree(&input);
    for size in [64, 1 << 10, 1 << 20] {
        compare(
            "XXH3 in one shot",
            &input[..size],
            [
                &|b| xxh3_64(b).expect("within the limit"),
                &|b| plain::xxh3_64(b),
                &|b| unsafe { c::scalar_once(b.as_ptr(), b.len()) },
                &|b| shipped(b),
            ],
            rounds,
        );
    }
    for (what, piece, sizes) in [
        ("XXH3 by pieces of 256 B", 256, &[64, 1 << 10, 1 << 20][..]),
        ("XXH3 by pieces of 64 KiB", 1 << 16, &[1 << 20]),
    ] {
        for size in sizes {
            compare(
                what,
                &input[..*size],
                [
                    &|b| ours_in_pieces(b, piece),
                    &|b| plain_in_pieces(b, piece),
                    &|b| unsafe { c::scalar_pieces(b.as_ptr(), b.len(), piece) },
                    &|b| unsafe { c::shipped_pieces(b.as_ptr(), b.len(), piece) },
                ],
                rounds,
            );
        }
    }
}
