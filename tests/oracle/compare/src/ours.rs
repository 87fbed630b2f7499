//! The static library, asked in document 01's words.
use answers::{Batch, Call, Decoded, Dialect, Entry, Item, Judge, Reading, Written, KINDS};

#[path = "../../../../rust/pierloft/src/ffi.rs"]
mod ffi;
use ffi::{FlatItem, Place};
pub use ffi::{
    absorb, absorb_at, absorb_into, body, decode, finish, finish_at, hasher_new, kept, key, step, value, xxh3_64, Dialect as FlatDialect, FlatCount, FlatEntry,
    FlatHash, FlatReader, FlatReply, FlatSpan, FlatStepped, FlatWriter, Hasher as FlatHasher,
};

/// An entry to encode, or to put.
#[derive(Clone, Copy, Debug)]
pub enum Put<'a> {
    Item { value_type: u8, keyspace: u64, key: &'a [u8], value: &'a [u8] },
    Clear { keyspace: u64 },
}

/// A call of the writer.
#[derive(Clone, Copy, Debug)]
pub enum Op<'a> {
    Open { count: u64, seqno: u64 },
    Put(Put<'a>),
    Close,
    Write { seqno: u64, put: Put<'a> },
}

pub fn call(buf: &mut [u8], dialect: FlatDialect, writer: FlatWriter, op: Op) -> FlatReply {
    let to = Place { buf, dialect, writer };
    match op {
        Op::Open { count, seqno } => ffi::open(to, count, seqno),
        Op::Put(Put::Item { value_type, keyspace, key, value }) => ffi::put_item(to, FlatItem { value_type, keyspace, key, value }),
        Op::Put(Put::Clear { keyspace }) => ffi::put_clear(to, keyspace),
        Op::Close => ffi::close(to),
        Op::Write { seqno, put: Put::Item { value_type, keyspace, key, value } } => {
            ffi::write_raw(to, seqno, FlatItem { value_type, keyspace, key, value })
        }
        Op::Write { seqno, put: Put::Clear { keyspace } } => ffi::write_clear(to, seqno, keyspace),
    }
}

/// An entry to encode alone.
#[derive(Clone, Copy, Debug)]
pub enum Alone<'a> {
    Start { count: u32, seqno: u64 },
    Put(Put<'a>),
    End { checksum: u64 },
}

pub fn encode(buf: &mut [u8], d: FlatDialect, entry: Alone) -> FlatCount {
    match entry {
        Alone::Start { count, seqno } => ffi::encode_start(buf, d, count, seqno),
        Alone::Put(Put::Item { value_type, keyspace, key, value }) => {
            ffi::encode_item(buf, d, FlatItem { value_type, keyspace, key, value })
        }
        Alone::Put(Put::Clear { keyspace }) => ffi::encode_clear(buf, d, keyspace),
        Alone::End { checksum } => ffi::encode_end(buf, d, checksum),
    }
}

pub fn flat(d: Dialect) -> FlatDialect {
    let [value, tombstone, weak, indirection] = d.codes;
    FlatDialect { magic: d.magic, length: d.length, value, tombstone, weak, indirection, none: d.none }
}

pub const NOTHING: FlatEntry = FlatEntry {
    number: 0,
    tag: 0,
    value_type: 0,
    count: 0,
    seqno: 0,
    keyspace: 0,
    checksum: 0,
    key_at: 0,
    key_len: 0,
    value_at: 0,
    value_len: 0,
    next: 0,
};

pub const BEGIN: FlatReader = FlatReader { position: 0, ended: 0, outcome: 0 };

/// The library under a dialect.
pub struct Ours {
    dialect: Dialect,
    flat: FlatDialect,
    /// Answers wrongly on purpose, to see that a difference is found: a tag of 0 where a batch may begin ends clean.
    pub spoilt: bool,
}

impl Ours {
    pub fn new(dialect: Dialect) -> Self {
        Self { dialect, flat: flat(dialect), spoilt: false }
    }

    fn entry(&self, image: &[u8], e: &FlatEntry) -> Entry {
        match e.tag {
            1 => Entry::Start { count: e.count, seqno: e.seqno },
            2 => {
                assert!(e.key_at + e.key_len == e.value_at && e.value_at + e.value_len == e.next);
                Entry::Item(Item {
                    keyspace: e.keyspace,
                    kind: KINDS[e.value_type as usize],
                    key: image[e.key_at..e.value_at].to_vec(),
                    value: image[e.value_at..e.next].to_vec(),
                })
            }
            3 => Entry::End { checksum: e.checksum },
            4 => Entry::Clear { keyspace: e.keyspace },
            t => panic!("tag {t}"),
        }
    }

    /// A batch's body, walked entry by entry.
    fn batch(&self, image: &[u8], at: usize, s: &FlatStepped) -> Batch {
        assert!(s.reader == FlatReader { position: s.next, ended: 0, outcome: 0 } && s.body == at + 13);
        assert!(body(image.len(), s.body, s.end) == FlatSpan { number: 0, at: s.body, length: s.end - s.body });
        let mut entries = vec![];
        let mut place = s.body;
        while place < s.end {
            let e = decode(image, place, self.flat);
            assert!(e.number == 0 && (e.tag == 2 || e.tag == 4) && place < e.next && e.next <= s.end);
            entries.push(self.entry(image, &e));
            place = e.next;
        }
        let end = decode(image, s.end, self.flat);
        assert!(end.number == 0 && end.tag == 3 && end.next == s.next);
        Batch { at, next: s.next, seqno: s.seqno, count: s.count, entries }
    }
}

impl Judge for Ours {
    fn dialect(&self) -> Dialect {
        self.dialect
    }

    fn read(&mut self, image: &[u8]) -> Reading {
        let mut batches = vec![];
        let mut reader = BEGIN;
        loop {
            let s = step(image, reader, self.flat);
            assert!(s.number == 0);
            if s.accepted == 1 {
                batches.push(self.batch(image, reader.position, &s));
                reader = s.reader;
                continue;
            }
            let ended = FlatReader { position: reader.position, ended: 1, outcome: s.outcome };
            assert!(s.accepted == 0 && s.reader == ended);
            assert!(step(image, ended, self.flat) == s, "an ended state answers its outcome again");
            let outcome = if self.spoilt && image.get(ended.position) == Some(&0) { 0 } else { s.outcome };
            let kept = kept(image.len(), ended);
            assert!(kept.number == 0);
            return Reading { batches, outcome, valid: ended.position, kept: kept.bytes };
        }
    }

    fn decode(&mut self, image: &[u8], at: usize) -> Decoded {
        let e = decode(image, at, self.flat);
        match e.number {
            0 => Decoded::Entry { entry: self.entry(image, &e), next: e.next },
            n => {
                assert!(e == FlatEntry { number: n, ..NOTHING });
                Decoded::Fault(n)
            }
        }
    }

    /// A buffer that has just enough room: with one byte less the last call that writes is refused, and writes nothing.
    fn write(&mut self, calls: &[Call]) -> Written {
        let room = calls.iter().map(|c| self.room(c)).sum();
        let mut bytes = vec![0xaa; room];
        let counts = self.run(&mut bytes, calls, true);
        let (last, before) = match calls.iter().rposition(|c| self.room(c) > 0) {
            Some(i) => (&calls[i..=i], &calls[..i]),
            None => (&calls[..0], calls),
        };
        if let Some(less) = room.checked_sub(1) {
            let mut short = vec![0xaa; less];
            self.run(&mut short, before, true);
            let written = short.clone();
            self.run(&mut short, &[before, last].concat(), false);
            let stood = room - self.room(&last[0]);
            assert!(short[..stood] == written[..stood] && short[stood..].len() + 1 == self.room(&last[0]));
        }
        Written { counts, bytes }
    }
}

const EMPTY: FlatWriter = FlatWriter { position: 0, start: 0, open: 0, left: 0 };

fn put(i: &Item) -> Put<'_> {
    Put::Item { value_type: i.kind as u8, keyspace: i.keyspace, key: &i.key, value: &i.value }
}

impl Ours {
    /// How many bytes a call writes.
    fn room(&self, call: &Call) -> usize {
        let item = |i: &Item| 21 + i.key.len() + i.value.len();
        let ends = 22 + self.dialect.length;
        match call {
            Call::Batch { items, .. } if items.is_empty() => 0,
            Call::Batch { items, .. } => ends + items.iter().map(item).sum::<usize>(),
            Call::Raw { item: i, .. } => ends + item(i),
            Call::Clear { .. } => ends + 9,
        }
    }

    /// The calls that a call of fjall's writer comes to.
    fn ops<'a>(&self, call: &'a Call) -> Vec<Op<'a>> {
        match call {
            Call::Batch { seqno, items } => {
                let mut ops = vec![Op::Open { count: items.len() as u64, seqno: *seqno }];
                ops.extend(items.iter().map(|i| Op::Put(put(i))));
                if !items.is_empty() {
                    ops.push(Op::Close);
                }
                ops
            }
            Call::Raw { seqno, item } => vec![Op::Write { seqno: *seqno, put: put(item) }],
            Call::Clear { seqno, keyspace } => vec![Op::Write { seqno: *seqno, put: Put::Clear { keyspace: *keyspace } }],
        }
    }

    /// Runs them; `room`: none may be refused, else the last call's must be, by 27.
    fn run(&self, buf: &mut [u8], calls: &[Call], room: bool) -> Vec<usize> {
        let (mut w, mut counts) = (EMPTY, vec![]);
        for (i, one) in calls.iter().enumerate() {
            let mut wrote = 0;
            for op in self.ops(one) {
                let before = (!room && i + 1 == calls.len()).then(|| buf.to_vec());
                let reply = call(buf, self.flat, w, op);
                if reply.number != 0 {
                    assert!(reply.number == 27 && reply.bytes == 0 && reply.writer == w && before.as_deref() == Some(&*buf));
                    return counts;
                }
                wrote += reply.bytes;
                w = reply.writer;
            }
            counts.push(wrote);
        }
        assert!(room && w == FlatWriter { position: counts.iter().sum(), ..EMPTY });
        counts
    }
}
