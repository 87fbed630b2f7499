use crate::ffi;
use crate::Refusal;
use core::fmt;
use core::hash::Hasher;

/// XXH3-64, seed 0 and the default secret, of at most 4,294,967,295 bytes.
///
/// ```
/// assert_eq!(pierloft::xxh3_64(b""), Ok(0x2d06800538d394c2));
/// ```
///
/// # Errors
///
/// [`Refusal::TooLong`] where there are more bytes.
pub fn xxh3_64(bytes: &[u8]) -> Result<u64, Refusal> {
    let answer = ffi::xxh3_64(bytes);
    Refusal::of(answer.number)?;
    Ok(answer.hash)
}

/// XXH3-64 by pieces. It has 328 bytes and allocates nothing.
///
/// ```
/// use pierloft::{xxh3_64, Xxh3};
///
/// let mut hasher = Xxh3::new();
/// hasher.update(b"claim 4711, ")?;
/// hasher.update(b"settled")?;
/// assert_eq!(hasher.digest(), xxh3_64(b"claim 4711, settled")?);
/// # Ok::<(), pierloft::Refusal>(())
/// ```
///
/// With the feature `std` it is a `std::io::Write` too, for `std::io::copy` and its like.
#[derive(Clone, PartialEq, Eq)]
pub struct Xxh3(ffi::Hasher);

impl Xxh3 {
    /// The hash of no bytes yet.
    pub fn new() -> Xxh3 {
        Xxh3(ffi::hasher_new())
    }

    /// Takes a piece in.
    ///
    /// # Errors
    ///
    /// [`Refusal::TooLong`] where all pieces together would exceed 4,294,967,295 bytes. The piece is then not taken in.
    #[inline]
    pub fn update(&mut self, piece: &[u8]) -> Result<(), Refusal> {
        Refusal::of(ffi::absorb_at(&mut self.0, piece))
    }

    /// The hash of the pieces joined. More pieces may follow.
    #[inline]
    pub fn digest(&self) -> u64 {
        // refused only where the total is past the limit, and `update` takes no total there
        ffi::finish_at(&self.0).hash
    }

    /// How many bytes the pieces have together.
    pub fn total(&self) -> u64 {
        self.0.total
    }
}

impl Default for Xxh3 {
    fn default() -> Xxh3 {
        Xxh3::new()
    }
}

/// Shows how many bytes were taken in, and nothing of what they were.
impl fmt::Debug for Xxh3 {
    fn fmt(&self, f: &mut fmt::Formatter<'_>) -> fmt::Result {
        f.debug_struct("Xxh3")
            .field("total", &self.total())
            .finish_non_exhaustive()
    }
}

/// Bytes that are written are taken in as they are. A value that is hashed by `std::hash::Hash` writes what it likes: text, for one, a byte
/// more than it has, and numbers in the machine's order.
impl Hasher for Xxh3 {
    /// # Panics
    ///
    /// Where all bytes together exceed 4,294,967,295: this trait has no way to refuse, and going on would give a wrong hash.
    /// [`Xxh3::update`] refuses.
    fn write(&mut self, bytes: &[u8]) {
        if let Err(why) = self.update(bytes) {
            panic!("{why}");
        }
    }

    fn finish(&self) -> u64 {
        self.digest()
    }
}

/// Takes in all that is written, or refuses as [`Xxh3::update`] does.
#[cfg(feature = "std")]
impl std::io::Write for Xxh3 {
    fn write(&mut self, piece: &[u8]) -> std::io::Result<usize> {
        self.update(piece)?;
        Ok(piece.len())
    }

    fn flush(&mut self) -> std::io::Result<()> {
        Ok(())
    }
}
