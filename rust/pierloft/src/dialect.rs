use crate::ffi;
use crate::Refusal;
use core::fmt;

/// The numbers that the layout leaves open: the magic that ends a batch, the codes of the four types of value, and the code for no
/// compression. Only good ones can be had.
///
/// ```
/// use pierloft::{Dialect, Refusal};
///
/// let test = Dialect::new(&[0x4a, 0x4c, 0x31, 0x01], [0, 1, 2, 3], 0)?;
/// assert_eq!(test, Dialect::TEST);
///
/// // two codes alike
/// assert_eq!(Dialect::new(b"PIER", [0, 1, 1, 3], 0), Err(Refusal::Dialect));
/// # Ok::<(), Refusal>(())
/// ```
#[derive(Clone, Copy, PartialEq, Eq, Hash)]
pub struct Dialect(pub(crate) ffi::Dialect);

impl Dialect {
    /// fjall 3.1.13's. Its magic is read off fjall's source; the codes of the types and of no compression are our best knowledge of
    /// lsm_tree 3 and not confirmed (docs/DECISIONS.md).
    pub const SHIPPED: Dialect = Dialect(ffi::Dialect {
        magic: [0x46, 0x4a, 0x4c, 0x03, 0, 0, 0, 0],
        length: 4,
        value: 0,
        tombstone: 1,
        weak: 2,
        indirection: 4,
        none: 0,
    });

    /// Document 01's: magic 4A 4C 31 01, codes 0, 1, 2, 3, compression 0.
    pub const TEST: Dialect = Dialect(ffi::Dialect {
        magic: [0x4a, 0x4c, 0x31, 0x01, 0, 0, 0, 0],
        length: 4,
        value: 0,
        tombstone: 1,
        weak: 2,
        indirection: 3,
        none: 0,
    });

    /// A magic of 1 to 8 bytes whose last is not 0; the codes of value, tombstone, weak tombstone and indirection, all different; and the
    /// code for no compression.
    ///
    /// # Errors
    ///
    /// [`Refusal::Dialect`] for any other.
    pub fn new(magic: &[u8], types: [u8; 4], none: u8) -> Result<Dialect, Refusal> {
        let used = magic.len().min(8);
        let mut array = [0; 8];
        array[..used].copy_from_slice(&magic[..used]);
        let [value, tombstone, weak, indirection] = types;
        let flat = ffi::Dialect {
            magic: array,
            length: magic.len(),
            value,
            tombstone,
            weak,
            indirection,
            none,
        };
        Refusal::of(ffi::check(flat))?;
        Ok(Dialect(flat))
    }

    /// The bytes that end a batch, 1 to 8.
    pub fn magic(&self) -> &[u8] {
        &self.0.magic[..self.0.length]
    }

    /// The codes of value, tombstone, weak tombstone and indirection.
    pub fn types(&self) -> [u8; 4] {
        [
            self.0.value,
            self.0.tombstone,
            self.0.weak,
            self.0.indirection,
        ]
    }

    /// The code for no compression.
    pub fn none(&self) -> u8 {
        self.0.none
    }
}

impl fmt::Debug for Dialect {
    fn fmt(&self, f: &mut fmt::Formatter<'_>) -> fmt::Result {
        f.debug_struct("Dialect")
            .field("magic", &self.magic())
            .field("types", &self.types())
            .field("none", &self.none())
            .finish()
    }
}

/// What an item says of its key, under fjall's names.
#[derive(Clone, Copy, Debug, PartialEq, Eq, Hash)]
pub enum ValueType {
    /// The key has this value.
    Value,
    /// The key was deleted.
    Tombstone,
    /// The key was deleted, and had been written at most once.
    WeakTombstone,
    /// The value says where the key's value lies.
    ///
    /// Where such an item is to be replayed, fjall's own recovery of a sealed journal panics (`unreachable!` in its recovery.rs). So it can be
    /// read here, but do not write one into a journal that fjall shall open.
    Indirection,
}

impl ValueType {
    /// The four, in the order that [`Dialect::types`] has their codes in.
    pub const ALL: [ValueType; 4] = [
        ValueType::Value,
        ValueType::Tombstone,
        ValueType::WeakTombstone,
        ValueType::Indirection,
    ];
}

/// As the dump prints it: `V`, `T`, `W`, `Vb`.
impl fmt::Display for ValueType {
    fn fmt(&self, f: &mut fmt::Formatter<'_>) -> fmt::Result {
        f.write_str(match self {
            ValueType::Value => "V",
            ValueType::Tombstone => "T",
            ValueType::WeakTombstone => "W",
            ValueType::Indirection => "Vb",
        })
    }
}

#[cfg(test)]
mod tests {
    use super::*;

    #[test]
    fn constants_are_the_librarys() {
        assert_eq!(Dialect::SHIPPED.0, ffi::shipped());
        assert_eq!(Dialect::TEST.0, ffi::test());
    }
}
