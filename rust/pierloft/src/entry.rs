use crate::ffi::{self, FlatItem};
use crate::{Dialect, Refusal, ValueType};
use core::fmt;

/// What `Debug` shows of bytes: how many, and not which. They may be somebody's claim, and `Debug` ends in logs.
pub(crate) struct Bytes(pub usize);

impl fmt::Debug for Bytes {
    fn fmt(&self, f: &mut fmt::Formatter<'_>) -> fmt::Result {
        write!(f, "{} bytes", self.0)
    }
}

/// A key that was written or deleted. The fields stand in fjall's order.
#[derive(Clone, Copy, PartialEq, Eq, Hash)]
pub struct Item<'a> {
    /// The number of the keyspace that the key is in.
    pub keyspace: u64,
    /// At most 65,535 bytes.
    pub key: &'a [u8],
    /// The bytes of the value, often none where the key was deleted.
    pub value: &'a [u8],
    /// What the item says of its key.
    pub value_type: ValueType,
}

impl<'a> Item<'a> {
    #[inline]
    pub(crate) fn flat(self) -> FlatItem<'a> {
        FlatItem {
            value_type: self.value_type as u8,
            keyspace: self.keyspace,
            key: self.key,
            value: self.value,
        }
    }
}

/// Shows the lengths of key and value and not their bytes.
impl fmt::Debug for Item<'_> {
    fn fmt(&self, f: &mut fmt::Formatter<'_>) -> fmt::Result {
        f.debug_struct("Item")
            .field("keyspace", &self.keyspace)
            .field("key", &Bytes(self.key.len()))
            .field("value", &Bytes(self.value.len()))
            .field("value_type", &self.value_type)
            .finish()
    }
}

/// An entry of a batch. Its key and value are parts of the image and never copies, so the image cannot change while they are looked at:
///
/// ```compile_fail,E0502
/// use pierloft::{batches, Dialect};
///
/// let mut image = vec![0; 53];
/// let batches: Vec<_> = batches(&image, Dialect::TEST).collect();
/// image[0] = 1; // the batches borrow the image
/// drop(batches);
/// ```
///
/// `Debug` shows how long key and value are, and not what they say.
#[derive(Clone, Copy, Debug, PartialEq, Eq, Hash)]
pub enum Entry<'a> {
    /// A key was written or deleted.
    Item(Item<'a>),
    /// All keys of a keyspace were deleted.
    Clear {
        /// The number of the keyspace.
        keyspace: u64,
    },
}

/// What stands at a position of an image, with the position behind it.
#[derive(Clone, Copy, Debug, PartialEq, Eq, Hash)]
pub enum Decoded<'a> {
    /// A batch begins.
    Start {
        /// How many entries are to come.
        count: u64,
        /// The batch's sequence number.
        seqno: u64,
        /// Where the Start ends.
        next: usize,
    },
    /// An entry of a batch.
    Entry {
        /// The entry.
        entry: Entry<'a>,
        /// Where it ends.
        next: usize,
    },
    /// A batch ends.
    End {
        /// The XXH3-64 of the batch's entries.
        checksum: u64,
        /// Where the End ends.
        next: usize,
    },
}

/// One entry, wherever it stands: no batch is looked for and no checksum is looked at. This is for finding out what is wrong with an image;
/// to read one, use [`batches`](crate::batches).
///
/// ```
/// use pierloft::{decode, Dialect, Refusal};
///
/// let image = [0];
/// assert_eq!(decode(&image, 0, Dialect::TEST), Err(Refusal::Tag));
/// assert_eq!(decode(&image, 1, Dialect::TEST), Err(Refusal::Incomplete));
/// assert_eq!(decode(&image, 2, Dialect::TEST), Err(Refusal::State));
/// ```
///
/// # Errors
///
/// [`Refusal::TooLong`] for an image of more than 4,294,967,295 bytes, [`Refusal::State`] where `at` lies past it, and the first fault of an
/// entry that cannot be read: [`Refusal::Incomplete`], [`Refusal::Tag`], [`Refusal::ValueType`], [`Refusal::Compression`],
/// [`Refusal::Trailer`].
#[inline]
pub fn decode(image: &[u8], at: usize, dialect: Dialect) -> Result<Decoded<'_>, Refusal> {
    let e = ffi::decode(image, at, dialect.0);
    Refusal::of(e.number)?;
    let (keyspace, next) = (e.keyspace, e.next);
    Ok(match e.tag {
        1 => Decoded::Start {
            count: e.count,
            seqno: e.seqno,
            next,
        },
        2 => Decoded::Entry {
            entry: Entry::Item(Item {
                keyspace,
                key: &image[e.key_at..][..e.key_len],
                value: &image[e.value_at..][..e.value_len],
                value_type: ValueType::ALL[usize::from(e.value_type)],
            }),
            next,
        },
        3 => Decoded::End {
            checksum: e.checksum,
            next,
        },
        _ => Decoded::Entry {
            entry: Entry::Clear { keyspace },
            next,
        },
    })
}
