//! One image, both sides.
use crate::Pair;
use answers::{Decoded, Judge, Reading};
use std::panic::{catch_unwind, AssertUnwindSafe};

/// What was compared.
#[derive(Default)]
pub struct Tally {
    pub images: u64,
    pub bytes: u64,
    pub batches: u64,
    pub entries: u64,
    pub outcomes: [u64; 5],
    /// Faults 30 to 34, and at 5 the entries that could be decoded.
    pub decoded: [u64; 6],
}

impl Tally {
    fn read(&mut self, length: usize, r: &Reading) {
        self.images += 1;
        self.bytes += length as u64;
        self.batches += r.batches.len() as u64;
        self.entries += r.batches.iter().map(|b| b.entries.len() as u64).sum::<u64>();
        self.outcomes[r.outcome as usize] += 1;
    }

    fn decoded(&mut self, d: &Decoded) -> usize {
        match d {
            Decoded::Entry { next, .. } => {
                self.decoded[5] += 1;
                *next
            }
            Decoded::Fault(n) => {
                self.decoded[*n as usize - 30] += 1;
                0
            }
        }
    }
}

/// Where entries are decoded: everywhere in a short image; else entry after entry from 0 for a while, then at places that the image
/// itself picks.
fn places(image: &[u8], seen: &mut Tally, mut same: impl FnMut(usize) -> Result<Decoded, String>) -> Result<(), String> {
    if image.len() <= 40 {
        for at in 0..=image.len() {
            seen.decoded(&same(at)?);
        }
        return Ok(());
    }
    let mut at = 0;
    for _ in 0..12 {
        at = seen.decoded(&same(at)?);
        if at == 0 {
            break;
        }
    }
    let mut mix = xxhash_rust::xxh3::xxh3_64(&image[..image.len().min(4096)]);
    for _ in 0..4 {
        seen.decoded(&same((mix % (image.len() as u64 + 1)) as usize)?);
        mix = mix.rotate_left(21).wrapping_mul(0x9e37_79b9_7f4a_7c15);
    }
    Ok(())
}

fn compared(pair: &mut Pair, image: &[u8], seen: &mut Tally) -> Result<(), String> {
    let rust = pair.rust.read(image);
    let ours = pair.ours.read(image);
    if rust != ours {
        return Err(format!("the Rust:    {rust:?}\nthe library: {ours:?}"));
    }
    seen.read(image.len(), &rust);
    places(image, seen, |at| {
        let rust = pair.rust.decode(image, at);
        let ours = pair.ours.decode(image, at);
        if rust == ours {
            Ok(rust)
        } else {
            Err(format!("at {at}\nthe Rust:    {rust:?}\nthe library: {ours:?}"))
        }
    })
}

/// None, or how the two sides differ. A panic of either is a difference.
pub fn difference(pair: &mut Pair, image: &[u8], seen: &mut Tally) -> Option<String> {
    match catch_unwind(AssertUnwindSafe(|| compared(pair, image, seen))) {
        Ok(said) => said.err(),
        Err(what) => {
            let text = what.downcast_ref::<String>().cloned().or_else(|| what.downcast_ref::<&str>().map(|s| s.to_string()));
            Some(format!("panic: {}", text.unwrap_or_default()))
        }
    }
}
