//! XXH3-64 in one shot and by pieces.
use pierloft::{xxh3_64, Refusal, Xxh3};
use std::hash::Hasher;

fn input(length: usize) -> Vec<u8> {
    (0..length as u64)
        .map(|i| ((i * i) ^ (i >> 3)) as u8)
        .collect()
}

#[test]
fn published() {
    assert_eq!(xxh3_64(b""), Ok(0x2d06800538d394c2));
    assert_eq!(Xxh3::new().digest(), 0x2d06800538d394c2);
    assert_eq!(Xxh3::default(), Xxh3::new());
}

/// Lengths on either side of each class, whole and cut at every place.
#[test]
fn pieces_joined() {
    for length in [
        0, 1, 3, 4, 8, 9, 16, 17, 128, 129, 240, 241, 256, 257, 1024, 1025, 2100,
    ] {
        let bytes = input(length);
        let whole = xxh3_64(&bytes).unwrap();
        for cut in 0..=length {
            let mut hasher = Xxh3::new();
            hasher.update(&bytes[..cut]).unwrap();
            hasher.digest();
            hasher.update(&[]).unwrap();
            hasher.update(&bytes[cut..]).unwrap();
            assert_eq!(hasher.digest(), whole, "{length} bytes cut at {cut}");
            assert_eq!(hasher.total(), length as u64);
        }
    }
}

#[test]
fn byte_by_byte() {
    let bytes = input(3000);
    let mut hasher = Xxh3::new();
    for (i, byte) in bytes.iter().enumerate() {
        assert_eq!(hasher.digest(), xxh3_64(&bytes[..i]).unwrap());
        hasher.update(std::slice::from_ref(byte)).unwrap();
    }
}

#[test]
fn too_long() {
    // asked for and never touched: it takes no memory
    let bytes = vec![0; 1 << 32];
    assert_eq!(xxh3_64(&bytes), Err(Refusal::TooLong));
    let mut hasher = Xxh3::new();
    assert_eq!(hasher.update(&bytes), Err(Refusal::TooLong));
    assert_eq!(hasher, Xxh3::new(), "a refused piece is not taken in");
    hasher.update(b"a").unwrap();
    let came = hasher.clone();
    assert_eq!(hasher.update(&bytes[1..]), Err(Refusal::TooLong));
    assert_eq!(hasher, came);
    assert_eq!(Ok(hasher.digest()), xxh3_64(b"a"));
}

/// Through the traits of std: the same hash, and `Debug` that shows nothing of what was hashed.
#[test]
fn as_a_hasher() {
    let bytes = input(1000);
    let mut hasher = Xxh3::new();
    for piece in bytes.chunks(300) {
        Hasher::write(&mut hasher, piece);
    }
    assert_eq!(Ok(hasher.finish()), xxh3_64(&bytes));
    assert_eq!(format!("{hasher:?}"), "Xxh3 { total: 1000, .. }");
}

#[test]
#[should_panic(expected = "21 TOO LONG")]
fn a_hasher_cannot_refuse() {
    Hasher::write(&mut Xxh3::new(), &vec![0; 1 << 32]);
}

#[cfg(feature = "std")]
#[test]
fn as_a_writer() {
    use std::io::{copy, ErrorKind, Write};
    let bytes = input(100_000);
    let mut hasher = Xxh3::new();
    assert_eq!(copy(&mut &bytes[..], &mut hasher).unwrap(), 100_000);
    hasher.flush().unwrap();
    assert_eq!(Ok(hasher.digest()), xxh3_64(&bytes));
    let refused = Write::write(&mut hasher, &vec![0; 1 << 32]).unwrap_err();
    assert_eq!(refused.kind(), ErrorKind::InvalidInput);
    assert_eq!(hasher.total(), 100_000);
}
