//! Made-up calls of the crate, in any order, each compared with a plain model of document 01: the answer, the state, and every byte of the
//! buffer. States are lent to buffers that they were not made on, buffers are changed behind a writer's back, images are damaged.
//!
//! FUZZ_STEPS and FUZZ_SEED in the environment say how many steps and which, most of them one call or several; a run of one seed is always the same:
//!
//!     FUZZ_STEPS=10000000 FUZZ_SEED=4101 cargo test --release --test fuzz -- --nocapture
use pierloft::{
    batches_from, decode, encode_clear, encode_end, encode_item, encode_start, encoded_len,
    xxh3_64, Batch, Batches, Dialect, Entry, Item, Outcome, ReadError, Refusal, ValueType, Writer,
    WriterState, Xxh3,
};
use plain::{Call, State};
use std::collections::BTreeMap;

mod plain;

/// Long enough for a key that is too long.
static BYTES: [u8; 70_000] = {
    let mut bytes = [0; 70_000];
    let mut at = 0;
    while at < bytes.len() {
        bytes[at] = (at * at / 7) as u8;
        at += 1;
    }
    bytes
};

/// Xorshift, from a seed.
struct Numbers(u64);

impl Numbers {
    fn below(&mut self, bound: usize) -> usize {
        self.0 ^= self.0 << 13;
        self.0 ^= self.0 >> 7;
        self.0 ^= self.0 << 17;
        (self.0.wrapping_mul(0x2545_f491_4f6c_dd1d) >> 33) as usize % bound
    }

    fn one_in(&mut self, many: usize) -> bool {
        self.below(many) == 0
    }

    fn byte(&mut self) -> u8 {
        self.below(256) as u8
    }

    fn part(&mut self, longest: usize) -> &'static [u8] {
        let length = self.below(longest + 1);
        &BYTES[self.below(1000)..][..length]
    }

    /// A number that is small, or as large as can be.
    fn number(&mut self) -> u64 {
        [1, 7, 1 << 32, u64::MAX][self.below(4)] - self.below(2) as u64
    }

    fn entry(&mut self) -> Entry<'static> {
        let keyspace = self.number();
        if self.one_in(3) {
            return Entry::Clear { keyspace };
        }
        let key = match self.below(40) {
            0 => &BYTES[..65535 + self.below(3)],
            1 => &[],
            _ => self.part(12),
        };
        Entry::Item(Item {
            keyspace,
            key,
            value: self.part(30),
            value_type: ValueType::ALL[self.below(4)],
        })
    }

    fn entries(&mut self) -> Vec<Entry<'static>> {
        (0..self.below(4)).map(|_| self.entry()).collect()
    }

    fn call(&mut self, open: bool) -> Call<'static> {
        // mostly what is in order
        let inside = open != self.one_in(12);
        match (inside, self.below(8)) {
            (true, 0..=3) => Call::Put(self.entry()),
            (true, 4..=6) => Call::Close,
            (true, _) => Call::Abort,
            (false, 0..=2) => Call::Open {
                count: [0, 1, 1, 2, 3, 0xffff_ffff, 1 << 32, u64::MAX][self.below(8)],
                seqno: self.number(),
            },
            (false, 3..=5) => Call::Write {
                entry: self.entry(),
                seqno: self.number(),
            },
            (false, _) => Call::Batch {
                entries: self.entries(),
                seqno: self.number(),
            },
        }
    }

    /// Magics and codes of any kind, most of them good.
    fn dialect(&mut self) -> (Vec<u8>, [u8; 4], u8) {
        let length = if self.one_in(9) {
            self.below(11)
        } else {
            1 + self.below(8)
        };
        let mut magic: Vec<u8> = (0..length).map(|_| self.byte()).collect();
        if self.one_in(9) {
            magic.iter_mut().for_each(|byte| *byte &= 1);
        }
        let first = self.byte();
        let mut codes = [0, 1, 2, 3].map(|by| first.wrapping_add(by * 5));
        if self.one_in(9) {
            codes[self.below(4)] = codes[self.below(4)];
        }
        (magic, codes, self.byte())
    }
}

/// A buffer, and what it should hold; a state, and what it should be. `accepted` has the sequence numbers and bodies of the batches that were
/// written, as long as one writer alone has been on the buffer.
struct Journal {
    buffer: Vec<u8>,
    wanted: Vec<u8>,
    state: WriterState,
    model: State,
    accepted: Option<Vec<(u64, Vec<u8>)>>,
    seqno: u64,
}

impl Journal {
    fn new(size: usize, dialect: Dialect) -> Journal {
        let mut buffer = BYTES[..size].to_vec();
        let state = WriterState::new(&mut buffer, dialect);
        Journal {
            buffer,
            wanted: vec![0; size],
            state,
            model: State::default(),
            accepted: Some(vec![]),
            seqno: 0,
        }
    }

    fn holds(&self) {
        assert!(self.buffer == self.wanted, "the buffer");
        let stands = (
            self.state.position(),
            self.state.is_open(),
            self.state.left(),
        );
        let model = (self.model.position, self.model.open, self.model.left);
        assert_eq!(stands, model, "the state");
    }

    /// What was accepted is what is read, up to the position and over all of the buffer.
    fn reads_back(&self, dialect: Dialect) {
        let Some(accepted) = &self.accepted else {
            return;
        };
        for image in [&self.buffer[..self.model.position], &self.buffer] {
            let mut seen = batches_from(image, 0, dialect).map(Result::unwrap);
            for (seqno, body) in accepted {
                let batch = seen.next().unwrap();
                assert_eq!((batch.seqno(), batch.body()), (*seqno, &body[..]));
            }
            assert!(seen.next().is_none());
        }
    }

    /// Notes what a call that was not refused has added.
    fn accept(&mut self, call: &Call<'_>, before: State, m: usize) {
        let (from, seqno) = match call {
            Call::Open { seqno, .. } => return self.seqno = *seqno,
            Call::Close => (before.start, self.seqno),
            Call::Write { seqno, .. } | Call::Batch { seqno, .. } => (before.position, *seqno),
            _ => return,
        };
        let to = self.model.position;
        if let (Some(accepted), true) = (&mut self.accepted, from < to) {
            accepted.push((seqno, self.wanted[from + 13..to - 9 - m].to_vec()));
        }
    }
}

fn answer(writer: &mut Writer<'_>, call: &Call<'_>) -> Result<usize, Refusal> {
    match call {
        Call::Open { count, seqno } => writer.open(*count, *seqno),
        Call::Put(Entry::Item(i)) => writer.put_item(i.keyspace, i.key, i.value, i.value_type),
        Call::Put(Entry::Clear { keyspace }) => writer.put_clear(*keyspace),
        Call::Close => writer.close(),
        Call::Abort => writer.abort().map(|()| 0),
        Call::Write { entry, seqno } => match entry {
            Entry::Item(i) => writer.write_raw(i.keyspace, i.key, i.value, i.value_type, *seqno),
            Entry::Clear { keyspace } => writer.write_clear(*keyspace, *seqno),
        },
        Call::Batch { entries, seqno } => writer.batch(entries, *seqno),
    }
}

/// Two journals and a hasher, under one dialect.
struct World {
    numbers: Numbers,
    dialect: Dialect,
    journals: [Journal; 2],
    hasher: Xxh3,
    hashed: Vec<u8>,
    /// How often each number was answered: the refusals', the outcomes', 0 of a call that was not refused.
    seen: BTreeMap<String, u64>,
}

impl World {
    fn new(seed: u64) -> World {
        let dialect = Dialect::SHIPPED;
        World {
            numbers: Numbers(seed.max(1)), // 0 would stay 0
            dialect,
            journals: [0, 300].map(|size| Journal::new(size, dialect)),
            hasher: Xxh3::new(),
            hashed: vec![],
            seen: BTreeMap::new(),
        }
    }

    fn note<T>(&mut self, answer: &Result<T, Refusal>) {
        let name = match answer {
            Ok(_) => "done".into(),
            Err(why) => format!("{} {}", why.number(), why.name()),
        };
        *self.seen.entry(name).or_default() += 1;
    }

    fn step(&mut self) {
        match self.numbers.below(64) {
            0 => self.other_dialect(),
            1 => self.other_journal(),
            2 => self.resume(),
            3 => self.states_swapped(),
            4 => self.byte_changed(),
            5 => self.short_lived_writer(),
            6..=11 => self.read(),
            12..=15 => self.decode(),
            16..=19 => self.encode(),
            20..=23 => self.hash(),
            _ => self.write(),
        }
    }

    fn other_dialect(&mut self) {
        let (magic, codes, none) = self.numbers.dialect();
        let differ = (0..4).all(|i| (0..i).all(|j| codes[i] != codes[j]));
        let good = (1..=8).contains(&magic.len()) && magic.last() != Some(&0) && differ;
        let dialect = Dialect::new(&magic, codes, none);
        self.note(&dialect);
        assert_eq!(dialect.is_ok(), good, "{magic:?} {codes:?}");
        if let Ok(dialect) = dialect {
            assert_eq!(dialect.magic(), magic);
            assert_eq!((dialect.types(), dialect.none()), (codes, none));
            self.dialect = dialect;
            self.journals = [200, 300].map(|size| Journal::new(size, dialect));
        } else {
            assert_eq!(dialect, Err(Refusal::Dialect));
        }
    }

    fn journal(&mut self) -> &mut Journal {
        let one = self.numbers.below(2);
        &mut self.journals[one]
    }

    fn other_journal(&mut self) {
        let size = match self.numbers.below(50) {
            0 => BYTES.len(),
            _ => self.numbers.below(500),
        };
        *self.journal() = Journal::new(size, self.dialect);
    }

    /// What was made on one buffer is lent to the other.
    fn states_swapped(&mut self) {
        let [one, other] = &mut self.journals;
        std::mem::swap(&mut one.state, &mut other.state);
        std::mem::swap(&mut one.model, &mut other.model);
        (one.accepted, other.accepted) = (None, None);
    }

    fn byte_changed(&mut self) {
        let (at, byte) = (self.numbers.below(500), self.numbers.byte());
        let journal = self.journal();
        if let Some(place) = journal.buffer.get_mut(at) {
            *place = byte;
            journal.wanted[at] = byte;
            journal.accepted = None;
        }
    }

    /// One call, over all of the buffer or a part of it; now and then the buffer grows first.
    fn write(&mut self) {
        let one = self.numbers.below(2);
        let call = self.numbers.call(self.journals[one].model.open);
        let journal = &mut self.journals[one];
        if self.numbers.one_in(30) && journal.buffer.len() < 1000 {
            let size = journal.buffer.len() + self.numbers.below(40);
            journal.buffer.resize(size, 0);
            journal.wanted.resize(size, 0);
        }
        let mut size = journal.buffer.len();
        if self.numbers.one_in(16) {
            size = self.numbers.below(size + 1);
        }
        let before = journal.model;
        let wanted = journal
            .model
            .call(&mut journal.wanted[..size], &call, self.dialect);
        let mut writer = Writer::attach(&mut journal.buffer[..size], &mut journal.state);
        let answer = answer(&mut writer, &call);
        assert_eq!(answer, wanted);
        assert_eq!(writer.written().len(), journal.model.position.min(size));
        journal.holds();
        if answer.is_ok() {
            journal.accept(&call, before, self.dialect.magic().len());
            journal.reads_back(self.dialect);
        }
        self.note(&answer);
    }

    /// A writer that has its own state, new or going on, and a few calls of it. The journal's state is out of date then.
    fn short_lived_writer(&mut self) {
        let (one, is_new, calls) = (
            self.numbers.below(2),
            self.numbers.one_in(2),
            self.numbers.below(5),
        );
        let journal = &mut self.journals[one];
        let (_, outcome, valid) = plain::read(&journal.wanted, 0, self.dialect);
        let writer = match is_new {
            true => Ok(Writer::new(&mut journal.buffer, self.dialect)),
            false => Writer::resume(&mut journal.buffer, self.dialect),
        };
        let position = if is_new { 0 } else { valid };
        let Ok(mut writer) = writer else {
            assert_eq!(writer.err(), error(outcome, valid));
            return journal.holds();
        };
        journal.wanted[position..].fill(0);
        journal.accepted = None;
        let mut model = State {
            position,
            ..State::default()
        };
        for _ in 0..calls {
            let call = self.numbers.call(model.open);
            let wanted = model.call(&mut journal.wanted, &call, self.dialect);
            assert_eq!(answer(&mut writer, &call), wanted);
            assert_eq!(
                (writer.position(), writer.is_open(), writer.left()),
                (model.position, model.open, model.left)
            );
        }
        journal.holds();
    }

    fn resume(&mut self) {
        let dialect = self.dialect;
        let journal = self.journal();
        let (seen, outcome, valid) = plain::read(&journal.wanted, 0, dialect);
        let body = |seen: &plain::Seen| {
            let body = &journal.wanted[seen.at + 13..seen.end - 9 - dialect.magic().len()];
            (seen.seqno, body.to_vec())
        };
        let accepted = seen.iter().map(body).collect();
        match WriterState::resume(&mut journal.buffer, dialect) {
            Err(why) => assert_eq!(Some(why), error(outcome, valid)),
            Ok(state) => {
                assert_eq!(error(outcome, valid), None);
                journal.wanted[valid..].fill(0);
                journal.state = state;
                journal.model = State {
                    position: valid,
                    ..State::default()
                };
                journal.accepted = Some(accepted);
                journal.reads_back(dialect);
            }
        }
        journal.holds();
    }

    /// A journal with some bytes changed, or entries in any order.
    fn image(&mut self) -> Vec<u8> {
        if self.numbers.one_in(2) {
            let mut image = self.journal().buffer.clone();
            image.truncate(600);
            for _ in 0..self.numbers.below(4).min(image.len()) {
                let at = self.numbers.below(image.len());
                image[at] ^= 1 << self.numbers.below(8);
            }
            return image;
        }
        let (mut image, mut entries) = (vec![], vec![]);
        for _ in 0..self.numbers.below(8) {
            match self.numbers.below(12) {
                0..=3 => {
                    entries.clear();
                    image.extend(plain::start(
                        self.numbers.below(3) as u32,
                        self.numbers.number(),
                    ));
                }
                4..=7 => {
                    let entry = self.numbers.entry();
                    if entry.encoded_len() < 600 {
                        entries.push(entry);
                        image.extend(plain::entry(&entry, self.dialect));
                    }
                }
                8..=10 => {
                    let sum = plain::checksum(&entries, self.dialect);
                    image.extend(plain::end(sum, self.dialect));
                }
                _ => image.push(self.numbers.below(5) as u8),
            }
        }
        image
    }

    fn read(&mut self) {
        let image = self.image();
        let mut from = 0;
        if self.numbers.one_in(3) {
            from = self.numbers.below(image.len() + 3);
        }
        let mut journal = batches_from(&image, from, self.dialect);
        if from > image.len() {
            return is_refused(journal, from);
        }
        let (wanted, outcome, valid) = plain::read(&image, from, self.dialect);
        for seen in &wanted {
            is_batch(&journal.next().unwrap().unwrap(), seen);
        }
        let last = journal.next().map(|last| last.unwrap_err());
        assert_eq!(last, error(outcome, valid));
        assert!(journal.next().is_none());
        assert_eq!((journal.outcome(), journal.valid()), (Ok(outcome), valid));
        let torn = outcome == Outcome::Torn;
        assert_eq!(journal.kept(), Ok(if torn { valid } else { image.len() }));
        *self.seen.entry(outcome.to_string()).or_default() += 1;
    }

    fn decode(&mut self) {
        let image = self.image();
        // often where an entry does stand
        let at = match self.numbers.below(4) {
            0 => 0,
            1 => 13,
            _ => self.numbers.below(image.len() + 3),
        };
        let decoded = decode(&image, at, self.dialect);
        assert_eq!(decoded, plain::decode(&image, at, self.dialect));
        self.note(&decoded);
    }

    fn encode(&mut self) {
        let (entry, number, dialect) = (self.numbers.entry(), self.numbers.number(), self.dialect);
        let mut buffer = self.numbers.part(60).to_vec();
        let mut wanted = buffer.clone();
        let (bytes, answer) = match self.numbers.below(4) {
            0 => {
                let count = number as u32;
                let answer = encode_start(&mut buffer, count, number, dialect);
                (plain::start(count, number), answer)
            }
            1 => {
                let answer = encode_end(&mut buffer, number, dialect);
                (plain::end(number, dialect), answer)
            }
            _ => {
                let answer = encode(&mut buffer, &entry, dialect);
                (plain::entry(&entry, dialect), answer)
            }
        };
        let (left, needed) = (buffer.len(), bytes.len());
        match answer {
            Err(Refusal::Key) => assert!(is_too_long(&entry)),
            Err(why) => assert!(left < needed && why == Refusal::NoRoom { left, needed }),
            Ok(wrote) => {
                assert_eq!(wrote, needed);
                wanted[..wrote].copy_from_slice(&bytes);
            }
        }
        assert!(buffer == wanted);
        let whole = 22 + dialect.magic().len() + entry.encoded_len();
        assert_eq!(encoded_len(&[entry], dialect), whole);
        self.note(&answer);
    }

    fn hash(&mut self) {
        if self.hashed.len() > 3000 {
            (self.hasher, self.hashed) = (Xxh3::new(), vec![]);
        }
        let longest = if self.numbers.one_in(4) { 600 } else { 40 };
        let piece = self.numbers.part(longest);
        self.hasher.update(piece).unwrap();
        self.hashed.extend(piece);
        assert_eq!(self.hasher.total(), self.hashed.len() as u64);
        assert_eq!(Ok(self.hasher.digest()), xxh3_64(&self.hashed));
    }
}

fn is_refused(mut journal: Batches<'_>, from: usize) {
    let refused = Refusal::State;
    assert_eq!(journal.refusal(), Some(refused));
    assert_eq!(journal.next().unwrap().unwrap_err(), refused.into());
    assert!(journal.next().is_none());
    assert_eq!(journal.outcome(), Err(refused));
    assert_eq!(journal.kept(), Err(refused));
    assert_eq!(journal.valid(), from);
}

fn is_batch(batch: &Batch<'_>, seen: &plain::Seen<'_>) {
    let place = (batch.at(), batch.end(), batch.seqno());
    assert_eq!(place, (seen.at, seen.end, seen.seqno));
    assert_eq!(batch.count(), seen.entries.len() as u64);
    let entries = batch.entries();
    assert_eq!(entries.len(), seen.entries.len());
    assert!(entries.eq(seen.entries.iter().copied()));
    let (items, clears) = (batch.items().count(), batch.clears().count());
    assert_eq!(items + clears, seen.entries.len());
}

fn encode(buffer: &mut [u8], entry: &Entry<'_>, dialect: Dialect) -> Result<usize, Refusal> {
    match *entry {
        Entry::Clear { keyspace } => encode_clear(buffer, keyspace, dialect),
        Entry::Item(i) => encode_item(buffer, i.keyspace, i.key, i.value, i.value_type, dialect),
    }
}

fn is_too_long(entry: &Entry<'_>) -> bool {
    matches!(entry, Entry::Item(item) if item.key.len() > 65535)
}

fn error(outcome: Outcome, at: usize) -> Option<ReadError> {
    match outcome {
        Outcome::Clean | Outcome::Torn => None,
        Outcome::Insufficient => Some(ReadError::Insufficient { at }),
        Outcome::TooMany => Some(ReadError::TooMany { at }),
        Outcome::Mismatch => Some(ReadError::Mismatch { at }),
    }
}

fn told(name: &str, otherwise: u64) -> u64 {
    std::env::var(name).map_or(otherwise, |text| text.parse().expect(name))
}

#[test]
fn made_up_calls() {
    let (seed, steps) = (told("FUZZ_SEED", 4101), told("FUZZ_STEPS", 100_000));
    let mut world = World::new(seed);
    for _ in 0..steps {
        world.step();
    }
    let answers: u64 = world.seen.values().sum();
    println!(
        "seed {seed}, {steps} steps, {answers} answers compared: {:#?}",
        world.seen
    );
    // a run that is long enough has seen every answer but 21, which needs 4 GiB, and 35, which this crate cannot ask for
    let numbers = [
        20, 22, 23, 24, 25, 26, 27, 30, 31, 32, 33, 34, 0, 1, 2, 3, 4,
    ];
    for number in numbers.map(|number| format!("{number} ")) {
        let seen = world.seen.keys().any(|name| name.starts_with(&number));
        assert!(seen || steps < 100_000, "{number} was never answered");
    }
}
