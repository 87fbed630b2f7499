// fjall's reader and writer on a file in memory, for the stopwatch: nothing is copied, compared or kept beside what they do themselves.
use crate::batch::item::Item as BatchItem;
use crate::journal::batch_reader::JournalBatchReader;
use crate::journal::reader::JournalReader;
use crate::journal::writer::{PersistMode, Writer};
use crate::Keyspace;
use lsm_tree::ValueType;
use std::fs::File;
use std::os::fd::AsRawFd;
use std::os::unix::fs::FileExt;
use std::path::PathBuf;

/// A file in memory, with no name there: it is opened again through /proc.
pub struct Fjall {
    file: File,
    path: PathBuf,
}

/// What a batch is made of, as fjall takes it.
pub struct Items(Vec<BatchItem>);

impl Items {
    pub fn new<'a>(keyspace: u64, items: impl Iterator<Item = (&'a [u8], &'a [u8])>) -> Self {
        Self(
            items
                .map(|(key, value)| BatchItem::new(Keyspace { id: keyspace }, key, value, ValueType::Value))
                .collect(),
        )
    }
}

impl Fjall {
    pub fn new() -> std::io::Result<Self> {
        let name = PathBuf::from("/dev/shm").join(format!("pierloft-bench-{}", std::process::id()));
        let file = File::options().read(true).write(true).create_new(true).open(&name)?;
        std::fs::remove_file(&name)?;
        let path = PathBuf::from(format!("/proc/self/fd/{}", file.as_raw_fd()));
        Ok(Self { file, path })
    }

    pub fn lay(&self, image: &[u8]) {
        self.file.write_all_at(image, 0).expect("write the image");
        self.file.set_len(image.len() as u64).expect("cut the file");
    }

    /// The file, for those who read it into memory themselves.
    pub fn file(&self) -> &File {
        &self.file
    }

    /// Reads the file to its end: items, and the bytes of their keys and values.
    pub fn read(&self) -> (usize, usize) {
        let reader = JournalBatchReader::new(JournalReader::new(&self.path).expect("open"));
        let (mut items, mut bytes) = (0, 0);
        for batch in reader {
            for item in &batch.expect("an image without fault").items {
                items += 1;
                bytes += item.key.len() + item.value.len();
            }
        }
        (items, bytes)
    }

    /// Writes the items `times` times, one batch each, and flushes: the bytes written.
    pub fn write(&self, items: &Items, times: u64) -> usize {
        let mut writer = Writer::from_file(&self.path).expect("from_file");
        let mut wrote = 0;
        for seqno in 0..times {
            wrote += writer.write_batch(items.0.iter(), items.0.len(), seqno).expect("write");
        }
        writer.persist(PersistMode::Buffer).expect("flush");
        wrote
    }
}
