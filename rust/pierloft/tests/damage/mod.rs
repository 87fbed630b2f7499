//! Entries under TEST, and the three kinds of damage that are no crash.
use pierloft::ReadError;

pub const fn start(count: u8) -> [u8; 13] {
    [1, count, 0, 0, 0, 7, 0, 0, 0, 0, 0, 0, 0]
}

pub const CLEAR: [u8; 9] = [4, 2, 0, 0, 0, 0, 0, 0, 0];

/// With a checksum of 0, which no entries have.
pub const END: [u8; 13] = [3, 0, 0, 0, 0, 0, 0, 0, 0, 0x4a, 0x4c, 0x31, 1];

/// A batch of each kind, and the error that it is where it begins at `at`: document 01's P7 and P10, and an empty batch with another checksum.
pub fn damages(at: usize) -> [(Vec<u8>, ReadError); 3] {
    [
        (
            [&start(1)[..], &END].concat(),
            ReadError::Insufficient { at },
        ),
        ([&start(0)[..], &CLEAR].concat(), ReadError::TooMany { at }),
        ([&start(0)[..], &END].concat(), ReadError::Mismatch { at }),
    ]
}
