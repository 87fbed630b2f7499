//! Reads and writes the journal of fjall 3.1.13, uncompressed, over memory that the caller lends. What does the work is proved, in the
//! Rattle crates of this repository: this crate calls their static library and turns its numbers into Rust's types. Nothing allocates, but
//! for a `std::io::Error` where one is made.
//!
//! What is proved, over every good [`Dialect`] and every image, buffer and state:
//!
//! - no call of the library traps, runs on, or writes outside what it was lent; what is wrong is refused by a number ([`Refusal`]), and a
//!   refused call changes nothing;
//! - [`batches`] shows the batches, the last valid position and the [`Outcome`] that the specification's layout and reading rules give, and the
//!   checksum that it compares is XXH3-64 (that fjall's reader gives the same was shown by runs on millions of images);
//! - what a [`Writer`] wrote over its own buffer reads back as it was put; bytes behind a clean journal change nothing of its batches; a
//!   written journal cut anywhere yields exactly the batches before the cut.
//!
//! Not proved: this crate, which is thin for that reason (its `unsafe` is in one small module), the compiler's back end, and that the codes of
//! [`Dialect::SHIPPED`] are those of fjall's dependency lsm_tree. What the crate does by itself is tested: it judges a whole batch before it
//! is written, sets bytes to zero, and makes errors of outcomes. The repository's README says more.
//!
//! ```
//! use pierloft::{batches, Dialect, Entry, Item, Outcome, ValueType, Writer};
//!
//! let mut buffer = [0; 4096];
//! let mut writer = Writer::new(&mut buffer, Dialect::SHIPPED);
//! let open = Item { keyspace: 2, key: b"C-2081", value: b"open, storm, EUR 18500", value_type: ValueType::Value };
//! writer.batch(&[Entry::Item(open), Entry::Clear { keyspace: 3 }], 7)?;
//!
//! let mut journal = batches(writer.written(), Dialect::SHIPPED);
//! for batch in &mut journal {
//!     let batch = batch?; // damage that is no crash
//!     println!("seqno {}, {} entries", batch.seqno(), batch.count());
//!     for Item { keyspace, key, value, value_type } in batch.items() {
//!         println!("{keyspace} {value_type} {key:?} {value:?}");
//!     }
//!     for keyspace in batch.clears() {
//!         println!("{keyspace} cleared");
//!     }
//! }
//! assert_eq!(journal.outcome()?, Outcome::Clean);
//! # Ok::<(), pierloft::ReadError>(())
//! ```
//!
//! # Linking
//!
//! The build script links `libpierloft.a`, which is for x86-64 with SSE4.2 (x86-64-v2) and the System V calling convention, from the folder
//! that `PIERLOFT_LIB_DIR` names, or from the repository's target/staticlib, where tools/archive builds it if it is missing. A relative
//! `PIERLOFT_LIB_DIR` counts from the workspace, the folder with Cargo.lock; but where the build's output does not lie in it, as with
//! `CARGO_TARGET_DIR`, that is not known here, and it counts from this crate: give a full path then. An archive whose structs have another
//! layout does not link.
//!
//! # Features
//!
//! `std`, which is on by default: [`Refusal`] and [`ReadError`] turn into `std::io::Error`, and [`Xxh3`] is a `std::io::Write`. Without it the
//! crate needs only `core`.
#![no_std]

#[cfg(any(feature = "std", test))]
extern crate std;

mod dialect;
mod encoding;
mod entry;
mod ffi;
mod outcome;
mod reading;
mod refusal;
mod writing;
mod xxh3;

pub use dialect::{Dialect, ValueType};
pub use encoding::{encode_clear, encode_end, encode_item, encode_start, encoded_len};
pub use entry::{decode, Decoded, Entry, Item};
pub use outcome::{Outcome, ReadError};
pub use reading::{batches, batches_from, Batch, Batches, Entries};
pub use refusal::Refusal;
pub use writing::{Writer, WriterState};
pub use xxh3::{xxh3_64, Xxh3};
