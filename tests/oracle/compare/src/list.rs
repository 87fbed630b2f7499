//! The fixed list: some 400 images and the Rust's answers, for a program that replays them with no Rust at hand.
use crate::differences::onward_images;
use crate::make::{self, image, item, Sum, Token, FAMILIES};
use crate::random::Random;
use crate::Pair;
use answers::{Decoded, Dialect, Judge};
use std::path::Path;

/// The largest image of the list.
const MOST: usize = 2048;

/// Document 01's own examples: the dump's journal, P4 to P12 and what they are made of.
fn paper(d: &Dialect) -> Vec<Vec<u8>> {
    let start = |count| Token::Start { count, seqno: 7 };
    let end = || Token::End(Sum::Number(0));
    let clear = || Token::Clear(2);
    let xy = || item(d, 2, 0, b"a", b"xy");
    let mut unended = image(d, &[end()]);
    *unended.last_mut().expect("an End has bytes") = 0;
    let mut all = vec![
        image(d, &[start(1), xy(), Token::End(Sum::Anew), Token::Bytes(vec![0; 3])]),
        vec![],
        vec![0],
        image(d, &[start(1)]),
        image(d, &[clear()]),
        image(d, &[xy()]),
        image(d, &[start(1), end()]),
        image(d, &[start(1), start(1)]),
        image(d, &[end()]),
        image(d, &[start(0), clear()]),
        unended,
    ];
    all.extend([1, 2, 3, 4, 5, 255].map(|b| vec![b]));
    all
}

/// Bodies whose length lies on either side of each boundary of the hash.
fn boundaries(d: &Dialect) -> Vec<Vec<u8>> {
    [28, 127, 128, 129, 239, 240, 241, 255, 256, 257, 319, 320, 321, 511, 512, 513, 1023, 1024, 1025, 1087, 1088, 1089, 1280, 1536]
        .map(|hashed: usize| {
            let value: Vec<u8> = (0..hashed - 22).map(|i| (i * 37 % 251) as u8).collect();
            image(d, &[Token::Start { count: 1, seqno: hashed as u64 }, item(d, 1, 0, b"k", &value), Token::End(Sum::Anew)])
        })
        .to_vec()
}

fn cuts(d: &Dialect) -> Vec<Vec<u8>> {
    let mut all = vec![];
    for sample in make::samples(d) {
        for cut in (0..=sample.len()).step_by(5) {
            all.push(sample[..cut].to_vec());
            let mut behind = sample[..cut].to_vec();
            behind.resize(cut + 9, 0);
            all.push(behind);
        }
        all.push(sample);
    }
    all
}

fn images(d: &Dialect) -> Vec<Vec<u8>> {
    let mut all = paper(d);
    all.extend(onward_images(d));
    make::sequences(d, 2, |i| all.push(i.to_vec()));
    all.extend(cuts(d));
    all.extend(boundaries(d));
    let mut r = Random::new(3113);
    for family in FAMILIES {
        let mut left = 20;
        while left > 0 {
            let image = make::random(&mut r, d, family);
            if image.len() <= MOST {
                all.push(image);
                left -= 1;
            }
        }
    }
    all
}

/// Writes to a folder `stdin`, each image behind its length in four bytes, and `stdout`, the Rust's answers: the fault of the entry at 0,
/// or 0, and document 01's dump.
pub fn write(pair: &mut Pair, folder: &Path) -> std::io::Result<usize> {
    let (mut given, mut told) = (vec![], String::new());
    let all = images(&pair.ours.dialect());
    for (n, image) in all.iter().enumerate() {
        given.extend((image.len() as u32).to_le_bytes());
        given.extend(image);
        let entry = match pair.rust.decode(image, 0) {
            Decoded::Entry { .. } => 0,
            Decoded::Fault(n) => n,
        };
        told += &format!("image {n} entry {entry}\n{}", pair.rust.read(image).listing(image.len()));
    }
    std::fs::write(folder.join("stdin"), given)?;
    std::fs::write(folder.join("stdout"), told)?;
    Ok(all.len())
}
