// The driver: fjall's reader, decoder and writer, asked in document 01's words. The file that they work on is in memory, where the
// machine has such a folder, and has no name there: it is opened again through /proc.
use crate::batch::item::Item as BatchItem;
use crate::journal::batch_reader::{Batch as FjallBatch, JournalBatchReader};
use crate::journal::entry::Entry as FjallEntry;
use crate::journal::reader::JournalReader;
use crate::journal::writer::{PersistMode, Writer};
use crate::{Error, JournalRecoveryError, Keyspace};
use answers::{Batch, Call, Decoded, Dialect, Entry, Item, Judge, Kind, Reading, Written};
use lsm_tree::{ValueType, CODES};
use std::fs::File;
use std::os::fd::AsRawFd;
use std::os::unix::fs::FileExt;
use std::path::PathBuf;

pub struct Fjall {
    file: File,
    path: PathBuf,
}

impl Fjall {
    pub fn new() -> std::io::Result<Self> {
        let shm = PathBuf::from("/dev/shm");
        let dir = if shm.is_dir() { shm } else { std::env::temp_dir() };
        let name = dir.join(format!("pierloft-oracle-{}-{}", NAME, std::process::id()));
        let file = File::options().read(true).write(true).create_new(true).open(&name)?;
        std::fs::remove_file(&name)?;
        let path = PathBuf::from(format!("/proc/self/fd/{}", file.as_raw_fd()));
        Ok(Self { file, path })
    }

    fn lay(&self, image: &[u8]) {
        self.file.write_all_at(image, 0).expect("write the image");
        self.file.set_len(image.len() as u64).expect("cut the file");
    }

    fn length(&self) -> usize {
        self.file.metadata().expect("metadata").len() as usize
    }

    fn reader(&self) -> JournalBatchReader {
        JournalBatchReader::new(JournalReader::new(&self.path).expect("open"))
    }

    /// What the Rust says when it is called on behind its first end or error: `calls` lines.
    pub fn again(&mut self, image: &[u8], calls: usize) -> Vec<String> {
        self.lay(image);
        let mut reader = self.reader();
        while let Some(Ok(_)) = reader.next() {}
        let mut said = vec![];
        for _ in 0..calls {
            let what = match reader.next() {
                None => "none".to_string(),
                Some(Ok(b)) => format!("batch seq {} items {} clears {}", b.seqno, b.items.len(), b.cleared_keyspaces.len()),
                Some(Err(e)) => format!("outcome {}", outcome(&e)),
            };
            said.push(format!("{what}, valid {}, file {}", reader.valid(), self.length()));
        }
        said
    }

    /// Writer::create_new with no call: the file's length and whether it is all zeros.
    pub fn fresh(&mut self) -> (usize, bool) {
        let name = PathBuf::from("/dev/shm").join(format!("pierloft-oracle-fresh-{}-{}", NAME, std::process::id()));
        let writer = Writer::create_new(&name).expect("create_new");
        drop(writer);
        let bytes = std::fs::read(&name).expect("read");
        std::fs::remove_file(&name).expect("remove");
        (bytes.len(), bytes.iter().all(|b| *b == 0))
    }

    /// write_batch with a count that is not the number of items.
    pub fn write_counted(&mut self, seqno: u64, items: &[Item], count: usize) -> Written {
        self.lay(&[]);
        let mut writer = Writer::from_file(&self.path).expect("from_file");
        let items: Vec<BatchItem> = items.iter().map(batch_item).collect();
        let wrote = writer.write_batch(items.iter(), count, seqno).expect("write");
        self.written(writer, vec![wrote])
    }

    fn written(&self, mut writer: Writer, counts: Vec<usize>) -> Written {
        writer.persist(PersistMode::Buffer).expect("flush");
        drop(writer);
        let mut bytes = vec![0; self.length()];
        self.file.read_exact_at(&mut bytes, 0).expect("read");
        Written { counts, bytes }
    }
}

fn kind(t: ValueType) -> Kind {
    match t {
        ValueType::Value => Kind::Value,
        ValueType::Tombstone => Kind::Tombstone,
        ValueType::WeakTombstone => Kind::WeakTombstone,
        ValueType::Indirection => Kind::Indirection,
    }
}

fn value_type(k: Kind) -> ValueType {
    match k {
        Kind::Value => ValueType::Value,
        Kind::Tombstone => ValueType::Tombstone,
        Kind::WeakTombstone => ValueType::WeakTombstone,
        Kind::Indirection => ValueType::Indirection,
    }
}

fn batch_item(i: &Item) -> BatchItem {
    BatchItem::new(Keyspace { id: i.keyspace }, i.key.as_slice(), i.value.as_slice(), value_type(i.kind))
}

fn entry(e: FjallEntry) -> Entry {
    match e {
        FjallEntry::Start { item_count, seqno } => Entry::Start { count: item_count.into(), seqno },
        FjallEntry::End(checksum) => Entry::End { checksum },
        FjallEntry::Clear { keyspace_id } => Entry::Clear { keyspace: keyspace_id },
        FjallEntry::Item { keyspace_id, key, value, value_type, .. } => Entry::Item(Item {
            keyspace: keyspace_id,
            kind: kind(value_type),
            key: key.to_vec(),
            value: value.to_vec(),
        }),
    }
}

/// Document 01's number of an entry fault.
fn fault(e: &Error) -> u32 {
    let short = |e: &std::io::Error| e.kind() == std::io::ErrorKind::UnexpectedEof;
    match e {
        Error::Io(e) if short(e) => 30,
        Error::Storage(lsm_tree::Error::Io(e)) if short(e) => 30,
        Error::InvalidTag(("JournalMarkerTag", _)) => 31,
        Error::Storage(lsm_tree::Error::InvalidTag(("ValueType", _))) => 32,
        Error::Storage(lsm_tree::Error::InvalidTag(("CompressionType", _))) => 33,
        Error::InvalidTrailer => 34,
        e => panic!("unexpected error {e:?}"),
    }
}

/// Document 01's outcome of a reader's error.
fn outcome(e: &Error) -> u32 {
    match e {
        Error::JournalRecovery(JournalRecoveryError::InsufficientLength) => 2,
        Error::JournalRecovery(JournalRecoveryError::TooManyItems) => 3,
        Error::JournalRecovery(JournalRecoveryError::ChecksumMismatch) => 4,
        e => panic!("unexpected error {e:?}"),
    }
}

/// A Batch has lost the order of Items and Clears, the count and its place: its bytes are walked by Entry::decode_from, and the Items
/// and the Clears met must be its two lists.
fn batch(image: &[u8], at: usize, next: usize, b: FjallBatch) -> Batch {
    let mut rest = &image[at..next];
    let FjallEntry::Start { item_count, seqno } = FjallEntry::decode_from(&mut rest).expect("a batch decodes") else {
        panic!("a batch begins with a Start");
    };
    assert!(seqno == b.seqno && item_count as usize == b.items.len() + b.cleared_keyspaces.len());
    let (mut items, mut clears) = (b.items.iter(), b.cleared_keyspaces.iter());
    let mut entries = vec![];
    loop {
        let e = FjallEntry::decode_from(&mut rest).expect("a batch decodes");
        match &e {
            FjallEntry::Item { keyspace_id, key, value, value_type, .. } => {
                let i = items.next().expect("an item");
                assert!(i.keyspace_id == *keyspace_id && i.key == *key && i.value == *value && i.value_type == *value_type);
            }
            FjallEntry::Clear { keyspace_id } => assert!(clears.next() == Some(keyspace_id)),
            FjallEntry::End(_) => break,
            FjallEntry::Start { .. } => panic!("a Start in a batch"),
        }
        entries.push(entry(e));
    }
    assert!(rest.is_empty() && items.next().is_none() && clears.next().is_none());
    Batch { at, next, seqno: b.seqno, count: item_count.into(), entries }
}

impl Judge for Fjall {
    fn dialect(&self) -> Dialect {
        Dialect::new(NAME, crate::file::MAGIC_BYTES, CODES)
    }

    /// A reading that ends with no error is clean exactly if the file is as long as it was: a torn one is cut to less.
    fn read(&mut self, image: &[u8]) -> Reading {
        self.lay(image);
        let mut reader = self.reader();
        let mut batches = vec![];
        loop {
            let at = reader.valid() as usize;
            match reader.next() {
                Some(Ok(b)) => batches.push(batch(image, at, reader.valid() as usize, b)),
                end => {
                    let kept = self.length();
                    let outcome = match end {
                        Some(Err(e)) => outcome(&e),
                        _ if kept == image.len() => 0,
                        _ => 1,
                    };
                    return Reading { batches, outcome, valid: reader.valid() as usize, kept };
                }
            }
        }
    }

    fn decode(&mut self, image: &[u8], at: usize) -> Decoded {
        let mut rest = &image[at..];
        match FjallEntry::decode_from(&mut rest) {
            Ok(e) => Decoded::Entry { entry: entry(e), next: image.len() - rest.len() },
            Err(e) => Decoded::Fault(fault(&e)),
        }
    }

    fn write(&mut self, calls: &[Call]) -> Written {
        self.lay(&[]);
        let mut writer = Writer::from_file(&self.path).expect("from_file");
        let mut counts = vec![];
        for call in calls {
            let wrote = match call {
                Call::Batch { seqno, items } => {
                    let items: Vec<BatchItem> = items.iter().map(batch_item).collect();
                    writer.write_batch(items.iter(), items.len(), *seqno)
                }
                Call::Raw { seqno, item: i } => writer.write_raw(i.keyspace, &i.key, &i.value, value_type(i.kind), *seqno),
                Call::Clear { seqno, keyspace } => writer.write_clear(*keyspace, *seqno),
            };
            counts.push(wrote.expect("write"));
        }
        self.written(writer, counts)
    }
}
