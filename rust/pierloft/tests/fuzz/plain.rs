//! Document 01 in plain words, for comparison: entries, a reading, the writer's calls. Only the hash is the crate's own.
use pierloft::{xxh3_64, Decoded, Dialect, Entry, Item, Outcome, Refusal, ValueType};

pub fn start(count: u32, seqno: u64) -> Vec<u8> {
    [&[1][..], &count.to_le_bytes(), &seqno.to_le_bytes()].concat()
}

pub fn end(checksum: u64, dialect: Dialect) -> Vec<u8> {
    [&[3][..], &checksum.to_le_bytes(), dialect.magic()].concat()
}

pub fn entry(entry: &Entry<'_>, dialect: Dialect) -> Vec<u8> {
    match entry {
        Entry::Clear { keyspace } => [&[4][..], &keyspace.to_le_bytes()].concat(),
        Entry::Item(item) => {
            let length = (item.value.len() as u32).to_le_bytes();
            [
                &[2, code(item.value_type, dialect), dialect.none()][..],
                &item.keyspace.to_le_bytes(),
                &(item.key.len() as u16).to_le_bytes(),
                &length,
                &length,
                item.key,
                item.value,
            ]
            .concat()
        }
    }
}

fn code(value_type: ValueType, dialect: Dialect) -> u8 {
    let place = ValueType::ALL.iter().position(|one| *one == value_type);
    dialect.types()[place.unwrap()]
}

/// The hash of entries encoded anew.
pub fn checksum(entries: &[Entry<'_>], dialect: Dialect) -> u64 {
    let bytes: Vec<u8> = entries.iter().flat_map(|e| entry(e, dialect)).collect();
    xxh3_64(&bytes).unwrap()
}

struct Cursor<'a> {
    image: &'a [u8],
    at: usize,
}

impl<'a> Cursor<'a> {
    fn take(&mut self, length: usize) -> Result<&'a [u8], Refusal> {
        let rest = &self.image[self.at..];
        let part = rest.get(..length).ok_or(Refusal::Incomplete)?;
        self.at += length;
        Ok(part)
    }

    fn number(&mut self, length: usize) -> Result<u64, Refusal> {
        let bytes = self.take(length)?.iter().rev();
        Ok(bytes.fold(0, |number, byte| number << 8 | u64::from(*byte)))
    }

    fn item(&mut self, dialect: Dialect) -> Result<Item<'a>, Refusal> {
        let code = self.number(1)? as u8;
        let place = dialect.types().iter().position(|one| *one == code);
        let value_type = ValueType::ALL[place.ok_or(Refusal::ValueType)?];
        if self.number(1)? as u8 != dialect.none() {
            return Err(Refusal::Compression);
        }
        let keyspace = self.number(8)?;
        let key = self.number(2)? as usize;
        self.number(4)?;
        let value = self.number(4)? as usize;
        Ok(Item {
            keyspace,
            key: self.take(key)?,
            value: self.take(value)?,
            value_type,
        })
    }
}

pub fn decode(image: &[u8], at: usize, dialect: Dialect) -> Result<Decoded<'_>, Refusal> {
    if at > image.len() {
        return Err(Refusal::State);
    }
    let mut cursor = Cursor { image, at };
    Ok(match cursor.number(1)? {
        1 => Decoded::Start {
            count: cursor.number(4)?,
            seqno: cursor.number(8)?,
            next: cursor.at,
        },
        2 => Decoded::Entry {
            entry: Entry::Item(cursor.item(dialect)?),
            next: cursor.at,
        },
        3 => {
            let checksum = cursor.number(8)?;
            if cursor.take(dialect.magic().len())? != dialect.magic() {
                return Err(Refusal::Trailer);
            }
            let next = cursor.at;
            Decoded::End { checksum, next }
        }
        4 => {
            let keyspace = cursor.number(8)?;
            let (entry, next) = (Entry::Clear { keyspace }, cursor.at);
            Decoded::Entry { entry, next }
        }
        _ => return Err(Refusal::Tag),
    })
}

/// A batch as it was read.
#[derive(Debug, PartialEq)]
pub struct Seen<'a> {
    pub at: usize,
    pub end: usize,
    pub seqno: u64,
    pub entries: Vec<Entry<'a>>,
}

impl Seen<'_> {
    fn new(at: usize, seqno: u64) -> Self {
        Seen {
            at,
            end: at,
            seqno,
            entries: vec![],
        }
    }
}

/// All batches from a position on, the outcome, and the last valid position.
pub fn read(image: &[u8], from: usize, dialect: Dialect) -> (Vec<Seen<'_>>, Outcome, usize) {
    let (mut all, mut valid, mut at) = (vec![], from, from);
    let mut batch: Option<(u64, Seen)> = None;
    let outcome = loop {
        if at == image.len() && batch.is_none() {
            break Outcome::Clean;
        }
        at = match (decode(image, at, dialect), &mut batch) {
            (Ok(Decoded::Start { count, seqno, next }), None) => {
                batch = Some((count, Seen::new(at, seqno)));
                next
            }
            (Ok(Decoded::Entry { .. }), Some((0, _))) => break Outcome::TooMany,
            (Ok(Decoded::Entry { entry, next }), Some((left, seen))) => {
                *left -= 1;
                seen.entries.push(entry);
                next
            }
            (
                Ok(Decoded::End {
                    checksum: sum,
                    next,
                }),
                Some((0, seen)),
            ) => {
                if checksum(&seen.entries, dialect) != sum {
                    break Outcome::Mismatch;
                }
                seen.end = next;
                all.extend(batch.take().map(|(_, seen)| seen));
                valid = next;
                next
            }
            (Ok(Decoded::End { .. }), Some(_)) => break Outcome::Insufficient,
            _ => break Outcome::Torn,
        };
    };
    (all, outcome, valid)
}

/// A call of the writer.
pub enum Call<'a> {
    Open { count: u64, seqno: u64 },
    Put(Entry<'a>),
    Close,
    Abort,
    Write { entry: Entry<'a>, seqno: u64 },
    Batch { entries: Vec<Entry<'a>>, seqno: u64 },
}

#[derive(Clone, Copy, Debug, Default, PartialEq)]
pub struct State {
    pub position: usize,
    pub start: usize,
    pub open: bool,
    pub left: u64,
}

impl State {
    /// The first number that applies, in document 01's order.
    fn judge(&self, buffer: &[u8], call: &Call<'_>, dialect: Dialect) -> Result<(), Refusal> {
        if self.position > buffer.len() {
            return Err(Refusal::State);
        }
        let outside = matches!(call, Call::Put(_) | Call::Close | Call::Abort);
        if self.open != outside {
            return Err(Refusal::Order);
        }
        if matches!(call, Call::Open { count, .. } if *count > 0xffff_ffff) {
            return Err(Refusal::Count);
        }
        let counted = match call {
            Call::Put(_) => self.left == 0,
            Call::Close => self.left > 0,
            _ => false,
        };
        if counted {
            return Err(Refusal::Counted);
        }
        if wrong_key(call) {
            return Err(Refusal::Key);
        }
        let (left, needed) = (buffer.len() - self.position, needed(call, dialect));
        if left < needed {
            return Err(Refusal::NoRoom { left, needed });
        }
        Ok(())
    }

    pub fn call(
        &mut self,
        buffer: &mut [u8],
        call: &Call<'_>,
        dialect: Dialect,
    ) -> Result<usize, Refusal> {
        self.judge(buffer, call, dialect)?;
        let whole = |entries: &[Entry<'_>], seqno: u64| {
            let body: Vec<u8> = entries.iter().flat_map(|e| entry(e, dialect)).collect();
            let sum = checksum(entries, dialect);
            [start(entries.len() as u32, seqno), body, end(sum, dialect)].concat()
        };
        let bytes = match call {
            Call::Open { count: 0, .. } => vec![],
            Call::Open { count, seqno } => start(*count as u32, *seqno),
            Call::Put(put) => entry(put, dialect),
            Call::Close => end(
                xxh3_64(&buffer[self.start + 13..self.position]).unwrap(),
                dialect,
            ),
            Call::Write { entry, seqno } => whole(&[*entry], *seqno),
            Call::Batch { entries, .. } if entries.is_empty() => vec![],
            Call::Batch { entries, seqno } => whole(entries, *seqno),
            Call::Abort => {
                buffer[self.start..self.position].fill(0);
                *self = State {
                    position: self.start,
                    ..State::default()
                };
                return Ok(0);
            }
        };
        buffer[self.position..][..bytes.len()].copy_from_slice(&bytes);
        self.go_on(call, bytes.len());
        Ok(bytes.len())
    }

    fn go_on(&mut self, call: &Call<'_>, wrote: usize) {
        match call {
            Call::Open { count, .. } if *count > 0 => {
                (self.start, self.open, self.left) = (self.position, true, *count);
            }
            Call::Put(_) => self.left -= 1,
            Call::Close => (self.start, self.open) = (0, false),
            _ => {}
        }
        self.position += wrote;
    }
}

fn wrong_key(call: &Call<'_>) -> bool {
    let key = |entry: &Entry<'_>| match entry {
        Entry::Item(item) => Some(item.key.len()),
        Entry::Clear { .. } => None,
    };
    let put = |entry: &Entry<'_>| key(entry).is_some_and(|n| n == 0 || n > 65535);
    match call {
        Call::Put(entry) => put(entry),
        Call::Write { entry, .. } => key(entry).is_some_and(|n| n > 65535),
        Call::Batch { entries, .. } => entries.iter().any(put),
        _ => false,
    }
}

fn needed(call: &Call<'_>, dialect: Dialect) -> usize {
    let m = dialect.magic().len();
    let long = |entry: &Entry<'_>| match entry {
        Entry::Item(item) => 21 + item.key.len() + item.value.len(),
        Entry::Clear { .. } => 9,
    };
    match call {
        Call::Open { count: 0, .. } | Call::Abort => 0,
        Call::Open { .. } => 22 + m,
        Call::Put(entry) => long(entry) + 9 + m,
        Call::Close => 9 + m,
        Call::Write { entry, .. } => 22 + m + long(entry),
        Call::Batch { entries, .. } if entries.is_empty() => 0,
        Call::Batch { entries, .. } => 22 + m + entries.iter().map(long).sum::<usize>(),
    }
}
