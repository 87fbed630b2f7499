//! What is asked of both sides, the Rust and the library, and what they answer, in document 01's words. Two answers are the same
//! exactly if they are equal as values.

#[derive(Clone, Copy, Debug, PartialEq, Eq)]
pub enum Kind {
    Value,
    Tombstone,
    WeakTombstone,
    Indirection,
}

pub const KINDS: [Kind; 4] = [Kind::Value, Kind::Tombstone, Kind::WeakTombstone, Kind::Indirection];

/// A magic of `length` bytes, the codes of the four kinds, and the code for no compression.
#[derive(Clone, Copy, Debug, PartialEq, Eq)]
pub struct Dialect {
    pub name: &'static str,
    pub magic: [u8; 8],
    pub length: usize,
    pub codes: [u8; 4],
    pub none: u8,
}

impl Dialect {
    pub fn new(name: &'static str, used: &[u8], codes: [u8; 5]) -> Self {
        let mut magic = [0; 8];
        magic[..used.len()].copy_from_slice(used);
        Self { name, magic, length: used.len(), codes: [codes[0], codes[1], codes[2], codes[3]], none: codes[4] }
    }

    /// The bytes that end an End; of a made-up dialect at most eight.
    pub fn trailer(&self) -> &[u8] {
        &self.magic[..self.length.min(8)]
    }
}

#[derive(Clone, Debug, PartialEq, Eq)]
pub struct Item {
    pub keyspace: u64,
    pub kind: Kind,
    pub key: Vec<u8>,
    pub value: Vec<u8>,
}

#[derive(Clone, Debug, PartialEq, Eq)]
pub enum Entry {
    Start { count: u64, seqno: u64 },
    Item(Item),
    End { checksum: u64 },
    Clear { keyspace: u64 },
}

/// What stands at a position.
#[derive(Clone, Debug, PartialEq, Eq)]
pub enum Decoded {
    Entry { entry: Entry, next: usize },
    Fault(u32),
}

/// An accepted batch, its Items and Clears in the order of its body.
#[derive(Clone, Debug, PartialEq, Eq)]
pub struct Batch {
    pub at: usize,
    pub next: usize,
    pub seqno: u64,
    pub count: u64,
    pub entries: Vec<Entry>,
}

/// A whole image, read from 0 up to the first end or error.
#[derive(Clone, Debug, PartialEq, Eq)]
pub struct Reading {
    pub batches: Vec<Batch>,
    pub outcome: u32,
    pub valid: usize,
    pub kept: usize,
}

/// A call of the Rust's writer.
#[derive(Clone, Debug, PartialEq, Eq)]
pub enum Call {
    Batch { seqno: u64, items: Vec<Item> },
    Raw { seqno: u64, item: Item },
    Clear { seqno: u64, keyspace: u64 },
}

/// The bytes that each call says it wrote, and all that stands there afterwards.
#[derive(Clone, Debug, PartialEq, Eq)]
pub struct Written {
    pub counts: Vec<usize>,
    pub bytes: Vec<u8>,
}

pub trait Judge {
    fn dialect(&self) -> Dialect;
    fn read(&mut self, image: &[u8]) -> Reading;
    fn decode(&mut self, image: &[u8], at: usize) -> Decoded;
    fn write(&mut self, calls: &[Call]) -> Written;
}

/// Lower-case digits; no bytes are `-`.
pub fn hex(bytes: &[u8]) -> String {
    if bytes.is_empty() {
        return "-".into();
    }
    bytes.iter().map(|b| format!("{b:02x}")).collect()
}

pub fn unhex(digits: &str) -> Option<Vec<u8>> {
    if digits == "-" {
        return Some(vec![]);
    }
    if digits.len() % 2 != 0 {
        return None;
    }
    (0..digits.len() / 2).map(|i| u8::from_str_radix(digits.get(2 * i..2 * i + 2)?, 16).ok()).collect()
}

impl Entry {
    fn line(&self) -> String {
        match self {
            Entry::Item(i) => {
                let kind = match i.kind {
                    Kind::Value => "V",
                    Kind::Tombstone => "T",
                    Kind::WeakTombstone => "W",
                    Kind::Indirection => "Vb",
                };
                format!("item {} {kind} {} {}\n", i.keyspace, hex(&i.key), hex(&i.value))
            }
            Entry::Clear { keyspace } => format!("clear {keyspace}\n"),
            Entry::Start { .. } | Entry::End { .. } => unreachable!("a body has neither"),
        }
    }
}

impl Reading {
    /// Document 01's dump of an image of `length` bytes.
    pub fn listing(&self, length: usize) -> String {
        let mut text = format!("journal {length} bytes\n");
        for b in &self.batches {
            text += &format!("@{} seq {} entries {}\n", b.at, b.seqno, b.count);
            text.extend(b.entries.iter().map(Entry::line));
        }
        text + &format!("end {} valid {} kept {}\n", self.outcome, self.valid, self.kept)
    }
}
