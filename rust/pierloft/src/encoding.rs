use crate::ffi::{self, FlatCount};
use crate::{Dialect, Entry, Item, Refusal, ValueType};

// Document 01's table of entries, the lengths that don't depend on what is put. tests/encoding.rs holds them to the library.
const START: usize = 13;
/// All of an Item but its key and value.
const ITEM: usize = 21;
const CLEAR: usize = 9;
/// All of an End but its magic.
const END: usize = 9;

impl Entry<'_> {
    /// How many bytes the entry has in a journal.
    ///
    /// ```
    /// use pierloft::{encode_clear, Dialect, Entry};
    ///
    /// let mut buffer = [0; 16];
    /// let wrote = encode_clear(&mut buffer, 9, Dialect::SHIPPED)?;
    /// assert_eq!(Entry::Clear { keyspace: 9 }.encoded_len(), wrote);
    /// # Ok::<(), pierloft::Refusal>(())
    /// ```
    pub fn encoded_len(&self) -> usize {
        match self {
            Entry::Item(item) => item.encoded_len(),
            Entry::Clear { .. } => CLEAR,
        }
    }
}

impl Item<'_> {
    /// How many bytes the item has in a journal.
    pub fn encoded_len(&self) -> usize {
        ITEM.saturating_add(self.key.len())
            .saturating_add(self.value.len())
    }
}

/// How many bytes a batch of these entries has in a journal, and so how much room [`Writer::batch`](crate::Writer::batch) needs. None for no
/// entries, which write nothing.
///
/// ```
/// use pierloft::{encoded_len, Dialect, Entry, Writer};
///
/// let entries = [Entry::Clear { keyspace: 9 }, Entry::Clear { keyspace: 10 }];
/// let mut buffer = vec![0; encoded_len(&entries, Dialect::SHIPPED)];
/// let mut writer = Writer::new(&mut buffer, Dialect::SHIPPED);
/// assert_eq!(writer.batch(&entries, 41), Ok(writer.written().len()));
/// ```
pub fn encoded_len(entries: &[Entry<'_>], dialect: Dialect) -> usize {
    if entries.is_empty() {
        return 0;
    }
    let lengths = entries.iter().map(Entry::encoded_len);
    // what overflows is more than any buffer has
    lengths.fold(batch_len(0, dialect), usize::saturating_add)
}

/// A batch's length, of that of its entries.
pub(crate) fn batch_len(entries: usize, dialect: Dialect) -> usize {
    (START + end_len(dialect)).saturating_add(entries)
}

pub(crate) fn end_len(dialect: Dialect) -> usize {
    END + dialect.magic().len()
}

/// What an encoder answers, with the room that it had and needed.
fn answer(count: FlatCount, left: usize, needed: usize) -> Result<usize, Refusal> {
    Refusal::of(count.number).map_err(|why| why.with_room(left, needed))?;
    Ok(count.bytes)
}

/// Writes a Start over the front of a buffer; gives its length. With the other encoders this is for making an image entry by entry, be it
/// a wrong one; to write a journal, use [`Writer`](crate::Writer), which counts and adds the checksum.
///
/// ```
/// use pierloft::{encode_clear, encode_end, encode_start, xxh3_64, Dialect, Writer};
///
/// let mut image = [0; 35];
/// let body = encode_start(&mut image, 1, 41, Dialect::SHIPPED)?;
/// let end = body + encode_clear(&mut image[body..], 9, Dialect::SHIPPED)?;
/// let checksum = xxh3_64(&image[body..end])?;
/// encode_end(&mut image[end..], checksum, Dialect::SHIPPED)?;
///
/// let mut buffer = [0; 35];
/// Writer::new(&mut buffer, Dialect::SHIPPED).write_clear(9, 41)?;
/// assert_eq!(image, buffer);
/// # Ok::<(), pierloft::Refusal>(())
/// ```
///
/// # Errors
///
/// [`Refusal::TooLong`] for a buffer of more than 4,294,967,295 bytes, [`Refusal::NoRoom`] where the entry does not fit.
pub fn encode_start(
    buffer: &mut [u8],
    count: u32,
    seqno: u64,
    dialect: Dialect,
) -> Result<usize, Refusal> {
    let left = buffer.len();
    let count = ffi::encode_start(buffer, dialect.0, count, seqno);
    answer(count, left, START)
}

/// Writes an Item over the front of a buffer; gives its length. Its key may be empty.
///
/// # Errors
///
/// Those of [`encode_start`], and before the last of them [`Refusal::Key`] for a key of more than 65,535 bytes.
pub fn encode_item(
    buffer: &mut [u8],
    keyspace: u64,
    key: &[u8],
    value: &[u8],
    value_type: ValueType,
    dialect: Dialect,
) -> Result<usize, Refusal> {
    let item = Item {
        keyspace,
        key,
        value,
        value_type,
    };
    let left = buffer.len();
    let count = ffi::encode_item(buffer, dialect.0, item.flat());
    answer(count, left, item.encoded_len())
}

/// Writes a Clear over the front of a buffer; gives its length.
///
/// # Errors
///
/// Those of [`encode_start`].
pub fn encode_clear(buffer: &mut [u8], keyspace: u64, dialect: Dialect) -> Result<usize, Refusal> {
    let left = buffer.len();
    let count = ffi::encode_clear(buffer, dialect.0, keyspace);
    answer(count, left, CLEAR)
}

/// Writes an End over the front of a buffer; gives its length.
///
/// # Errors
///
/// Those of [`encode_start`].
pub fn encode_end(buffer: &mut [u8], checksum: u64, dialect: Dialect) -> Result<usize, Refusal> {
    let left = buffer.len();
    let count = ffi::encode_end(buffer, dialect.0, checksum);
    answer(count, left, end_len(dialect))
}
