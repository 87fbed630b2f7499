// STAND-IN for fjall's lib.rs, error.rs and keyspace/mod.rs. The modules `journal` (mod.rs, entry.rs, reader.rs, batch_reader.rs,
// writer.rs, error.rs, recovery.rs) and `batch::item` are fjall's own files, unchanged; so is `file`, but for the magic of a dialect
// that is not the shipped one. journal/manager.rs is empty here, and batch_reader.rs has one accessor more.
#![allow(dead_code, unfulfilled_lint_expectations)]

// as in fjall's lib.rs
macro_rules! fail_iter {
    ($e:expr) => {
        match $e {
            Ok(v) => v,
            Err(e) => return Some(Err(e.into())),
        }
    };
}

mod batch {
    pub mod item;
}
mod drive;
mod file;
mod journal;
mod keyspace {
    pub type InternalKeyspaceId = u64;
}

#[derive(Clone, Debug, PartialEq, Eq)]
pub struct Keyspace {
    pub id: u64,
}

#[derive(Debug)]
pub enum Error {
    Io(std::io::Error),
    Storage(lsm_tree::Error),
    InvalidTag((&'static str, u8)),
    InvalidTrailer,
    JournalRecovery(JournalRecoveryError),
    Poisoned,
}

impl From<std::io::Error> for Error {
    fn from(e: std::io::Error) -> Self {
        Self::Io(e)
    }
}

impl From<lsm_tree::Error> for Error {
    fn from(e: lsm_tree::Error) -> Self {
        Self::Storage(e)
    }
}

pub type Result<T> = std::result::Result<T, Error>;

pub use drive::Fjall;
pub use journal::error::RecoveryError as JournalRecoveryError;
pub use lsm_tree::Slice;
