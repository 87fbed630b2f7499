use crate::encoding::{batch_len, encoded_len, end_len};
use crate::entry::Bytes;
use crate::ffi::{self, FlatReply, FlatWriter, Place};
use crate::{batches, Dialect, Entry, Item, ReadError, Refusal, ValueType};
use core::fmt;
use core::ops::{Deref, DerefMut};

/// Writes batches into a lent buffer, one behind the other. What [`batches`] reads of it afterwards is what was put.
///
/// ```
/// use pierloft::{batches, Dialect, Outcome, ValueType, Writer};
///
/// let mut buffer = [0; 256];
/// let mut writer = Writer::new(&mut buffer, Dialect::SHIPPED);
///
/// writer.open(2, 41)?; // two entries under sequence number 41
/// writer.put_item(1, b"C-2081", b"open", ValueType::Value)?;
/// writer.put_clear(9)?;
/// writer.close()?;
///
/// // a batch of one entry, in one call
/// writer.write_raw(1, b"C-1990", b"", ValueType::Tombstone, 42)?;
///
/// let mut journal = batches(writer.written(), Dialect::SHIPPED);
/// assert_eq!(journal.next().unwrap()?.seqno(), 41);
/// assert_eq!(journal.next().unwrap()?.seqno(), 42);
/// assert_eq!(journal.outcome()?, Outcome::Clean);
/// # Ok::<(), pierloft::ReadError>(())
/// ```
///
/// Arguments stand in fjall's order: keyspace, key, value, type, and the sequence number last.
///
/// Every call that writes answers the number of bytes that it wrote, or a refusal; a refused call has written nothing, and the writer stands
/// where it stood. Any call may answer [`Refusal::TooLong`] for the buffer. A batch that is not closed is torn to every reader;
/// [`abort`](Writer::abort) takes it back.
///
/// # What lies behind a writer
///
/// A reader goes on behind the last batch as long as batches stand there, be they a former journal's or planted in the value of a torn one.
/// So behind a writer's position there must be nothing but zeros. [`new`](Writer::new) and [`resume`](Writer::resume) see to it, and a writer
/// leaves it so.
pub struct Writer<'a> {
    buffer: &'a mut [u8],
    state: Held<'a>,
}

impl<'a> Writer<'a> {
    /// A new journal: a writer at the buffer's first byte. The whole buffer is set to zero first, so that nothing of what stood there can
    /// be taken for a batch. A buffer of more than 4,294,967,295 bytes is not touched, and every call is refused by [`Refusal::TooLong`].
    pub fn new(buffer: &'a mut [u8], dialect: Dialect) -> Writer<'a> {
        let state = WriterState::new(buffer, dialect);
        Writer {
            buffer,
            state: Held::Own(state),
        }
    }

    /// Goes on with a journal. The buffer is read; where it ends clean or torn, all bytes behind the last valid position are set to zero, and
    /// the writer stands there. fjall cuts a torn file for the same reason. What lies behind the torn place is lost; under another dialect than
    /// it was written in, a journal is torn at its first batch. Where that can be, look at [`batches`] first, or keep a copy.
    ///
    /// ```
    /// use pierloft::{batches, Dialect, Writer};
    ///
    /// let mut buffer = [0; 128];
    /// Writer::new(&mut buffer, Dialect::SHIPPED).write_clear(9, 41)?;
    ///
    /// let mut writer = Writer::resume(&mut buffer, Dialect::SHIPPED)?;
    /// writer.write_clear(9, 42)?;
    /// assert_eq!(batches(writer.written(), Dialect::SHIPPED).count(), 2);
    /// # Ok::<(), pierloft::ReadError>(())
    /// ```
    ///
    /// # Errors
    ///
    /// What a reading gives: one of the outcomes that are no crash, where a person must look, or [`Refusal::TooLong`]. The buffer is then as
    /// it was.
    pub fn resume(buffer: &'a mut [u8], dialect: Dialect) -> Result<Writer<'a>, ReadError> {
        let state = WriterState::resume(buffer, dialect)?;
        Ok(Writer {
            buffer,
            state: Held::Own(state),
        })
    }

    /// A writer over a state that is kept elsewhere, beside its buffer: see [`WriterState`]. The buffer is not touched. Where the state's
    /// position lies past it, every call is refused by [`Refusal::State`].
    pub fn attach(buffer: &'a mut [u8], state: &'a mut WriterState) -> Writer<'a> {
        Writer {
            buffer,
            state: Held::Lent(state),
        }
    }

    /// Opens a batch of `count` entries. A count of 0 opens and writes nothing.
    ///
    /// # Errors
    ///
    /// [`Refusal::Order`] inside a batch, [`Refusal::Count`], [`Refusal::NoRoom`] where the batch could not be closed even if it were empty.
    #[inline]
    pub fn open(&mut self, count: u64, seqno: u64) -> Result<usize, Refusal> {
        let reply = ffi::open(self.place(), count, seqno);
        self.take(reply, |dialect| batch_len(0, dialect))
    }

    /// Puts an item into the open batch.
    ///
    /// # Errors
    ///
    /// [`Refusal::Order`] outside a batch, [`Refusal::Counted`] where no more entry is to come, [`Refusal::Key`] for an empty key or one
    /// above 65,535 bytes, [`Refusal::NoRoom`] where it and the batch's end do not fit.
    #[inline]
    pub fn put_item(
        &mut self,
        keyspace: u64,
        key: &[u8],
        value: &[u8],
        value_type: ValueType,
    ) -> Result<usize, Refusal> {
        self.put(&Entry::Item(Item {
            keyspace,
            key,
            value,
            value_type,
        }))
    }

    /// Puts into the open batch that a keyspace is cleared.
    ///
    /// fjall's own writer has a Clear only as a batch of its own ([`write_clear`](Writer::write_clear)). Its reader takes one in any batch, but
    /// its recovery of a sealed journal replays a batch's Items first and then its Clears, whatever their order here: an Item that is put
    /// behind the Clear of its keyspace is gone then. To clear a keyspace and then fill it, write two batches.
    ///
    /// # Errors
    ///
    /// As [`put_item`](Writer::put_item), without [`Refusal::Key`].
    #[inline]
    pub fn put_clear(&mut self, keyspace: u64) -> Result<usize, Refusal> {
        self.put(&Entry::Clear { keyspace })
    }

    #[inline]
    fn put(&mut self, entry: &Entry<'_>) -> Result<usize, Refusal> {
        let reply = match *entry {
            Entry::Item(item) => ffi::put_item(self.place(), item.flat()),
            Entry::Clear { keyspace } => ffi::put_clear(self.place(), keyspace),
        };
        self.take(reply, |dialect| {
            entry.encoded_len().saturating_add(end_len(dialect))
        })
    }

    /// Closes the open batch with its checksum.
    ///
    /// # Errors
    ///
    /// [`Refusal::Order`] outside a batch, [`Refusal::Counted`] where entries are still to come.
    #[inline]
    pub fn close(&mut self) -> Result<usize, Refusal> {
        let reply = ffi::close(self.place());
        self.take(reply, end_len)
    }

    /// Takes the open batch back: the writer stands where the batch began, and the bytes that it had are zero.
    ///
    /// ```
    /// use pierloft::{Dialect, Refusal, Writer};
    ///
    /// let mut buffer = [0; 64];
    /// let mut writer = Writer::new(&mut buffer, Dialect::SHIPPED);
    /// writer.open(2, 41)?;
    /// writer.put_clear(9)?;
    /// writer.abort()?;
    /// assert_eq!(writer.position(), 0);
    /// assert_eq!(writer.abort(), Err(Refusal::Order));
    /// assert_eq!(buffer, [0; 64]);
    /// # Ok::<(), Refusal>(())
    /// ```
    ///
    /// # Errors
    ///
    /// [`Refusal::Order`] outside a batch.
    pub fn abort(&mut self) -> Result<(), Refusal> {
        match self.open(0, 0) {
            Ok(_) => Err(Refusal::Order),
            // inside a batch, and the library has found the state in range
            Err(Refusal::Order) => {
                let FlatWriter {
                    start, position, ..
                } = self.state.flat;
                self.buffer[start..position].fill(0);
                self.state.flat = FlatWriter::closed(start);
                Ok(())
            }
            Err(why) => Err(why),
        }
    }

    /// Writes a batch of one item. Its key may be empty.
    ///
    /// # Errors
    ///
    /// [`Refusal::Order`] inside a batch, [`Refusal::Key`] for a key above 65,535 bytes, [`Refusal::NoRoom`].
    #[inline]
    pub fn write_raw(
        &mut self,
        keyspace: u64,
        key: &[u8],
        value: &[u8],
        value_type: ValueType,
        seqno: u64,
    ) -> Result<usize, Refusal> {
        let item = Item {
            keyspace,
            key,
            value,
            value_type,
        };
        let reply = ffi::write_raw(self.place(), seqno, item.flat());
        self.take(reply, |dialect| batch_len(item.encoded_len(), dialect))
    }

    /// Writes a batch of one Clear.
    ///
    /// # Errors
    ///
    /// [`Refusal::Order`] inside a batch, [`Refusal::NoRoom`].
    #[inline]
    pub fn write_clear(&mut self, keyspace: u64, seqno: u64) -> Result<usize, Refusal> {
        let reply = ffi::write_clear(self.place(), seqno, keyspace);
        self.take(reply, |dialect| {
            encoded_len(&[Entry::Clear { keyspace }], dialect)
        })
    }

    /// Writes a whole batch, or not a byte of it. Of no entries it writes nothing, as fjall does.
    ///
    /// ```
    /// use pierloft::{Dialect, Entry, Item, Refusal, ValueType, Writer};
    ///
    /// let mut buffer = [0; 64];
    /// let mut writer = Writer::new(&mut buffer, Dialect::SHIPPED);
    /// let item = Entry::Item(Item { keyspace: 1, key: b"C-2081", value: b"open", value_type: ValueType::Value });
    ///
    /// assert_eq!(writer.batch(&[item], 41), Ok(57));
    /// assert_eq!(writer.batch(&[item], 42), Err(Refusal::NoRoom { left: 7, needed: 57 }));
    /// assert_eq!(writer.written().len(), 57);
    /// ```
    ///
    /// # Errors
    ///
    /// The entries are judged before the first byte is written, by the order of numbers that every call has, over all of them at once:
    /// [`Refusal::Order`] inside a batch, [`Refusal::Count`] for too many entries, [`Refusal::Key`] where any key is empty or above 65,535 bytes,
    /// and only then [`Refusal::NoRoom`] where not all of it fits. So a wrong key is told even if entries before it had no room.
    pub fn batch(&mut self, entries: &[Entry<'_>], seqno: u64) -> Result<usize, Refusal> {
        self.judge(entries)?;
        // none of these calls is refused now
        let mut wrote = self.open(entries.len() as u64, seqno)?;
        for entry in entries {
            wrote += self.put(entry)?;
        }
        if self.is_open() {
            wrote += self.close()?;
        }
        Ok(wrote)
    }

    /// What a batch of these entries is refused by, without a byte written.
    fn judge(&mut self, entries: &[Entry<'_>]) -> Result<(), Refusal> {
        // writes nothing, and has the library judge all that comes before the count
        self.open(0, 0)?;
        if u32::try_from(entries.len()).is_err() {
            return Err(Refusal::Count);
        }
        let wrong_key = |entry: &Entry<'_>| match entry {
            Entry::Item(item) => item.key.is_empty() || u16::try_from(item.key.len()).is_err(),
            Entry::Clear { .. } => false,
        };
        if entries.iter().any(wrong_key) {
            return Err(Refusal::Key);
        }
        let (left, needed) = (self.room(), encoded_len(entries, self.state.dialect));
        if left < needed {
            return Err(Refusal::NoRoom { left, needed });
        }
        Ok(())
    }

    /// Where the next byte goes.
    pub fn position(&self) -> usize {
        self.state.position()
    }

    /// Whether a batch is open.
    pub fn is_open(&self) -> bool {
        self.state.is_open()
    }

    /// How many entries of the open batch are still to come; 0 outside a batch.
    pub fn left(&self) -> u64 {
        self.state.left()
    }

    /// What was written, an open batch's bytes among it. Where the position lies past the buffer, all of the buffer.
    pub fn written(&self) -> &[u8] {
        &self.buffer[..self.position().min(self.buffer.len())]
    }

    /// How many bytes lie behind the position.
    fn room(&self) -> usize {
        self.buffer.len().saturating_sub(self.position())
    }

    #[inline]
    fn place(&mut self) -> Place<'_> {
        Place {
            buf: self.buffer,
            dialect: self.state.dialect.0,
            writer: self.state.flat,
        }
    }

    /// What a call answers. `needed` is the room that it asks for.
    #[inline]
    fn take(
        &mut self,
        reply: FlatReply,
        needed: impl FnOnce(Dialect) -> usize,
    ) -> Result<usize, Refusal> {
        Refusal::of(reply.number)
            .map_err(|why| why.with_room(self.room(), needed(self.state.dialect)))?;
        self.state.flat = reply.writer;
        Ok(reply.bytes)
    }
}

/// Shows the buffer's length and not its bytes.
impl fmt::Debug for Writer<'_> {
    fn fmt(&self, f: &mut fmt::Formatter<'_>) -> fmt::Result {
        f.debug_struct("Writer")
            .field("buffer", &Bytes(self.buffer.len()))
            .field("state", &*self.state)
            .finish()
    }
}

/// Where a writer stands, apart from the buffer: for a writer that is kept beside its buffer and lent to for each call.
///
/// ```
/// use pierloft::{batches, Dialect, Refusal, Writer, WriterState};
///
/// struct Journal {
///     buffer: Vec<u8>,
///     state: WriterState,
/// }
///
/// impl Journal {
///     fn clear(&mut self, keyspace: u64, seqno: u64) -> Result<usize, Refusal> {
///         Writer::attach(&mut self.buffer, &mut self.state).write_clear(keyspace, seqno)
///     }
/// }
///
/// let mut buffer = vec![0; 40];
/// let state = WriterState::new(&mut buffer, Dialect::SHIPPED);
/// let mut journal = Journal { buffer, state };
/// journal.clear(9, 41)?;
///
/// assert_eq!(journal.clear(9, 42), Err(Refusal::NoRoom { left: 5, needed: 35 }));
/// journal.buffer.resize(80, 0);
/// journal.clear(9, 42)?;
/// assert_eq!(batches(&journal.buffer[..journal.state.position()], Dialect::SHIPPED).count(), 2);
/// # Ok::<(), Refusal>(())
/// ```
///
/// The rule: a state goes with the buffer that it was made on, whose bytes nothing else changes. The buffer may grow, by zeros, and move. What
/// is written by a state over another buffer, or over one that a newer writer has been on, is safe but need not read back: [`Refusal::State`]
/// is given only where the position lies past the buffer. There is no `Clone`, since a copy is out of date with the next call.
#[derive(PartialEq, Eq)]
pub struct WriterState {
    dialect: Dialect,
    flat: FlatWriter,
}

impl WriterState {
    /// A new journal, as [`Writer::new`] has it: the buffer is set to zero, unless it is too long.
    pub fn new(buffer: &mut [u8], dialect: Dialect) -> WriterState {
        if batches(buffer, dialect).refusal().is_none() {
            buffer.fill(0);
        }
        WriterState::over_zeros(dialect)
    }

    /// A new journal in a buffer that is known to hold nothing but zeros, as `vec![0; n]` does. Where it holds something else, what stands
    /// there may be read as batches behind those that are written.
    pub fn over_zeros(dialect: Dialect) -> WriterState {
        WriterState {
            dialect,
            flat: FlatWriter::closed(0),
        }
    }

    /// Goes on with a journal, as [`Writer::resume`] has it.
    ///
    /// # Errors
    ///
    /// As [`Writer::resume`].
    pub fn resume(buffer: &mut [u8], dialect: Dialect) -> Result<WriterState, ReadError> {
        let mut journal = batches(buffer, dialect);
        for batch in &mut journal {
            batch?;
        }
        let valid = journal.valid();
        buffer[valid..].fill(0);
        Ok(WriterState {
            dialect,
            flat: FlatWriter::closed(valid),
        })
    }

    /// Where the next byte goes.
    pub fn position(&self) -> usize {
        self.flat.position
    }

    /// Whether a batch is open.
    pub fn is_open(&self) -> bool {
        self.flat.open != 0
    }

    /// How many entries of the open batch are still to come; 0 outside a batch.
    pub fn left(&self) -> u64 {
        self.flat.left
    }
}

impl fmt::Debug for WriterState {
    fn fmt(&self, f: &mut fmt::Formatter<'_>) -> fmt::Result {
        f.debug_struct("WriterState")
            .field("dialect", &self.dialect)
            .field("position", &self.position())
            .field("is_open", &self.is_open())
            .field("left", &self.left())
            .finish()
    }
}

impl FlatWriter {
    /// At a position, with no batch open.
    fn closed(position: usize) -> FlatWriter {
        FlatWriter {
            position,
            start: 0,
            open: 0,
            left: 0,
        }
    }
}

/// A writer's state, its own or one that is kept elsewhere.
enum Held<'a> {
    Own(WriterState),
    Lent(&'a mut WriterState),
}

impl Deref for Held<'_> {
    type Target = WriterState;

    #[inline]
    fn deref(&self) -> &WriterState {
        match self {
            Held::Own(state) => state,
            Held::Lent(state) => state,
        }
    }
}

impl DerefMut for Held<'_> {
    #[inline]
    fn deref_mut(&mut self) -> &mut WriterState {
        match self {
            Held::Own(state) => state,
            Held::Lent(state) => state,
        }
    }
}
