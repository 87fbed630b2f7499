use crate::entry::Bytes;
use crate::ffi::{self, FlatReader};
use crate::{decode, Decoded, Dialect, Entry, Item, Outcome, ReadError, Refusal};
use core::fmt;
use core::iter::FusedIterator;

/// Reads an image from its first byte: an iterator of its accepted batches.
///
/// ```
/// use pierloft::{batches, Dialect, Entry, Item, Outcome, ValueType, Writer};
///
/// # let mut image = [0; 53];
/// # Writer::new(&mut image, Dialect::TEST).write_raw(2, b"a", b"xy", ValueType::Value, 7)?;
/// // one batch of 50 bytes, and three zeros behind it
/// let mut journal = batches(&image, Dialect::TEST);
/// for batch in &mut journal {
///     let batch = batch?;
///     assert_eq!(batch.seqno(), 7);
///     for entry in batch {
///         assert_eq!(entry, Entry::Item(Item { keyspace: 2, key: b"a", value: b"xy", value_type: ValueType::Value }));
///     }
/// }
/// assert_eq!(journal.outcome()?, Outcome::Torn);
/// assert_eq!(journal.valid(), 50);
/// assert_eq!(journal.kept()?, 50);
/// # Ok::<(), pierloft::ReadError>(())
/// ```
///
/// Nothing of a batch is shown before all of it was read and its checksum agreed. A clean or torn end ends the iteration, and
/// [`outcome`](Batches::outcome) tells which it was. Where the reading ends by one of the outcomes that are no crash, the last that the
/// iterator gives is one `Err`, behind the batches that were accepted. So it does where the image is refused: of more than 4,294,967,295
/// bytes no batch is shown.
pub fn batches(image: &[u8], dialect: Dialect) -> Batches<'_> {
    batches_from(image, 0, dialect)
}

/// Reads an image from a position on, as if nothing lay before it: where a batch ended that was read before ([`Batch::end`]), say. A position
/// where no batch begins is for the reading to find out, and mostly torn. One past the image is refused by [`Refusal::State`].
///
/// ```
/// use pierloft::{batches, batches_from, Dialect, Writer};
///
/// let mut buffer = [0; 128];
/// let mut writer = Writer::new(&mut buffer, Dialect::SHIPPED);
/// writer.write_clear(9, 41)?;
/// let seen = writer.position();
/// writer.write_clear(9, 42)?;
///
/// let mut rest = batches_from(writer.written(), seen, Dialect::SHIPPED);
/// assert_eq!(rest.valid(), seen);
/// assert_eq!(rest.next().unwrap()?.seqno(), 42);
/// assert!(rest.next().is_none());
/// # Ok::<(), pierloft::ReadError>(())
/// ```
pub fn batches_from(image: &[u8], position: usize, dialect: Dialect) -> Batches<'_> {
    Batches {
        image,
        dialect,
        reader: FlatReader {
            position,
            ended: 0,
            outcome: 0,
        },
        over: false,
    }
}

/// The accepted batches of an image, in order: see [`batches`].
#[derive(Clone)]
#[must_use = "batches are read one by one, as they are asked for"]
pub struct Batches<'a> {
    image: &'a [u8],
    dialect: Dialect,
    reader: FlatReader,
    /// The iterator has given its last.
    over: bool,
}

impl Batches<'_> {
    /// Why the image is not read at all: [`Refusal::TooLong`]; [`Refusal::State`] where the reading was to begin past it; or none. This is
    /// known from the start.
    pub fn refusal(&self) -> Option<Refusal> {
        Refusal::of(ffi::kept(self.image.len(), self.reader).number).err()
    }

    /// How the reading ends. Batches that were not asked for yet are read and passed over, and so is the error behind them.
    ///
    /// # Errors
    ///
    /// The [`refusal`](Batches::refusal), where there is one. Outcomes 2 to 4 are no errors here.
    pub fn outcome(&mut self) -> Result<Outcome, Refusal> {
        self.for_each(|_| ());
        match self.refusal() {
            Some(refusal) => Err(refusal),
            None => Ok(Outcome::ALL[self.reader.outcome as usize]),
        }
    }

    /// The last valid position: where the last accepted batch ends, and where there is none, where the reading began. All of the image's is
    /// known once it has been read to its end. Where the reading was refused it is still the position that it was to begin at.
    pub fn valid(&self) -> usize {
        self.reader.position
    }

    /// How many of the image's bytes to keep: all, but of a torn one those before the last valid position. Batches that were not asked
    /// for yet are read and passed over, and so is the error behind them.
    ///
    /// # Errors
    ///
    /// The [`refusal`](Batches::refusal), where there is one.
    pub fn kept(&mut self) -> Result<usize, Refusal> {
        self.outcome()?;
        let answer = ffi::kept(self.image.len(), self.reader);
        Refusal::of(answer.number)?;
        Ok(answer.bytes)
    }
}

impl<'a> Iterator for Batches<'a> {
    type Item = Result<Batch<'a>, ReadError>;

    #[inline]
    fn next(&mut self) -> Option<Result<Batch<'a>, ReadError>> {
        if self.over {
            return None;
        }
        let at = self.reader.position;
        let stepped = ffi::step(self.image, self.reader, self.dialect.0);
        self.reader = stepped.reader;
        if stepped.accepted == 1 {
            return Some(Ok(Batch {
                at,
                end: stepped.next,
                seqno: stepped.seqno,
                count: stepped.count,
                body: &self.image[stepped.body..stepped.end],
                dialect: self.dialect,
            }));
        }
        self.over = true;
        match Refusal::of(stepped.number) {
            Err(refusal) => Some(Err(refusal.into())),
            Ok(()) => ReadError::of(Outcome::ALL[stepped.outcome as usize], at).map(Err),
        }
    }
}

impl FusedIterator for Batches<'_> {}

/// Shows the image's length and not its bytes.
impl fmt::Debug for Batches<'_> {
    fn fmt(&self, f: &mut fmt::Formatter<'_>) -> fmt::Result {
        f.debug_struct("Batches")
            .field("image", &Bytes(self.image.len()))
            .field("dialect", &self.dialect)
            .field("valid", &self.valid())
            .field("over", &self.over)
            .finish()
    }
}

/// An accepted batch: an iterator over it gives its entries in order.
#[derive(Clone, Copy)]
pub struct Batch<'a> {
    at: usize,
    end: usize,
    seqno: u64,
    count: u64,
    body: &'a [u8],
    dialect: Dialect,
}

impl<'a> Batch<'a> {
    /// Where in the image the batch begins.
    pub fn at(&self) -> usize {
        self.at
    }

    /// Where in the image the batch ends, which is where the next one begins.
    pub fn end(&self) -> usize {
        self.end
    }

    /// How many bytes the batch has in the image.
    pub fn encoded_len(&self) -> usize {
        self.end - self.at
    }

    /// The batch's sequence number.
    pub fn seqno(&self) -> u64 {
        self.seqno
    }

    /// The number of its entries.
    pub fn count(&self) -> u64 {
        self.count
    }

    /// The bytes of its entries, a part of the image.
    pub fn body(&self) -> &'a [u8] {
        self.body
    }

    /// Its entries, in order.
    pub fn entries(&self) -> Entries<'a> {
        Entries {
            body: self.body,
            at: 0,
            // a usize has 64 bits wherever the library is: build.rs
            left: self.count as usize,
            dialect: self.dialect,
        }
    }

    /// Its Items, in order: the first of the two lists that fjall's reader gives.
    pub fn items(&self) -> impl Iterator<Item = Item<'a>> + Clone {
        self.entries().filter_map(item)
    }

    /// The keyspaces of its Clears, in order: the second of the two lists. fjall's recovery of a sealed journal replays it behind the first,
    /// whatever the order of the entries.
    pub fn clears(&self) -> impl Iterator<Item = u64> + Clone + 'a {
        self.entries().filter_map(cleared)
    }
}

fn item(entry: Entry<'_>) -> Option<Item<'_>> {
    match entry {
        Entry::Item(item) => Some(item),
        Entry::Clear { .. } => None,
    }
}

fn cleared(entry: Entry<'_>) -> Option<u64> {
    match entry {
        Entry::Item(_) => None,
        Entry::Clear { keyspace } => Some(keyspace),
    }
}

impl<'a> IntoIterator for Batch<'a> {
    type Item = Entry<'a>;
    type IntoIter = Entries<'a>;

    fn into_iter(self) -> Entries<'a> {
        self.entries()
    }
}

impl<'a> IntoIterator for &Batch<'a> {
    type Item = Entry<'a>;
    type IntoIter = Entries<'a>;

    fn into_iter(self) -> Entries<'a> {
        self.entries()
    }
}

/// Shows the body's length and not its bytes.
impl fmt::Debug for Batch<'_> {
    fn fmt(&self, f: &mut fmt::Formatter<'_>) -> fmt::Result {
        f.debug_struct("Batch")
            .field("at", &self.at)
            .field("end", &self.end)
            .field("seqno", &self.seqno)
            .field("count", &self.count)
            .field("body", &Bytes(self.body.len()))
            .finish()
    }
}

/// The entries of a batch, in order. How many are still to come is known.
#[derive(Clone)]
pub struct Entries<'a> {
    body: &'a [u8],
    at: usize,
    left: usize,
    dialect: Dialect,
}

impl<'a> Iterator for Entries<'a> {
    type Item = Entry<'a>;

    #[inline]
    fn next(&mut self) -> Option<Entry<'a>> {
        self.left = self.left.checked_sub(1)?;
        // an accepted batch's body holds as many Items and Clears as it counts, and nothing else
        let (entry, next) = match decode(self.body, self.at, self.dialect).ok()? {
            Decoded::Entry { entry, next } => (entry, next),
            Decoded::Start { .. } | Decoded::End { .. } => return None,
        };
        self.at = next;
        Some(entry)
    }

    #[inline]
    fn size_hint(&self) -> (usize, Option<usize>) {
        (self.left, Some(self.left))
    }
}

impl ExactSizeIterator for Entries<'_> {}

impl FusedIterator for Entries<'_> {}

/// Shows the body's length and not its bytes.
impl fmt::Debug for Entries<'_> {
    fn fmt(&self, f: &mut fmt::Formatter<'_>) -> fmt::Result {
        f.debug_struct("Entries")
            .field("body", &Bytes(self.body.len()))
            .field("at", &self.at)
            .field("left", &self.left)
            .finish()
    }
}
