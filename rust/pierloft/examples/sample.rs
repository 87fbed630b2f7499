//! Makes the sample journals anew: claims.jnl under SHIPPED and test.jnl under TEST, each of several batches and torn at its end.
//!
//!     cargo run --example sample -- ../../samples
use pierloft::{Dialect, Entry, Item, Refusal, ValueType, Writer};
use std::path::PathBuf;
use std::process::ExitCode;

const CLAIMS: u64 = 1;
const RESERVES: u64 = 2;
const PHOTOS: u64 = 3;
const DRAFTS: u64 = 9;

const fn item<'a>(
    keyspace: u64,
    key: &'a [u8],
    value: &'a [u8],
    value_type: ValueType,
) -> Entry<'a> {
    Entry::Item(Item {
        keyspace,
        key,
        value,
        value_type,
    })
}

/// A morning on the claims bus. The power fails while the last batch is written.
pub fn claims() -> Result<Vec<u8>, Refusal> {
    use ValueType::{Tombstone, Value, WeakTombstone};
    let mut buffer = [0; 1024];
    let mut bus = Writer::new(&mut buffer, Dialect::SHIPPED);

    // two claims come in, one with a reserve
    bus.open(3, 4101)?;
    bus.put_item(CLAIMS, b"C-2081", b"open storm", Value)?;
    bus.put_item(CLAIMS, b"C-2082", b"open fire", Value)?;
    bus.put_item(RESERVES, b"C-2081", b"EUR 18500", Value)?;
    bus.close()?;

    // a photo of the roof; a reserve that nobody has set yet
    bus.batch(
        &[
            item(PHOTOS, b"C-2082", b"roof", Value),
            item(RESERVES, b"C-2082", b"", Value),
        ],
        4102,
    )?;

    // an old claim is deleted, by a call of its own; so are all drafts
    bus.write_raw(CLAIMS, b"C-1990", b"", Tombstone, 4103)?;
    bus.write_clear(DRAFTS, 4104)?;

    // the storm is settled: its reserve is released, the assessor's photos go
    bus.batch(
        &[
            item(CLAIMS, b"C-2081", b"settled storm", Value),
            item(RESERVES, b"C-2081", b"", WeakTombstone),
            Entry::Clear { keyspace: PHOTOS },
        ],
        4105,
    )?;

    bus.open(2, 4106)?;
    bus.put_item(CLAIMS, b"C-2083", b"open theft", Value)?;
    bus.put_item(RESERVES, b"C-2083", b"EUR 920", Value)?;
    let written = bus.written();
    Ok(written[..written.len() - 5].to_vec())
}

/// Document 01's batch of 50 bytes, a batch of every kind of entry, one Clear, and zeros where a batch might begin.
pub fn test() -> Result<Vec<u8>, Refusal> {
    use ValueType::{Indirection, Tombstone, Value, WeakTombstone};
    let mut buffer = [0; 512];
    let mut writer = Writer::new(&mut buffer, Dialect::TEST);
    writer.write_raw(2, b"a", b"xy", Value, 7)?;
    writer.batch(
        &[
            item(2, b"b", b"", Value),
            item(2, b"a", b"", Tombstone),
            item(2, b"c", b"", WeakTombstone),
            item(u64::MAX, b"d", &[0, 255], Indirection),
            Entry::Clear { keyspace: 3 },
        ],
        8,
    )?;
    writer.write_clear(2, 9)?;
    let end = writer.position() + 16;
    Ok(buffer[..end].to_vec())
}

#[allow(
    dead_code,
    reason = "a test takes the two functions above from this file"
)]
fn main() -> ExitCode {
    let Some(folder) = std::env::args_os().nth(1).map(PathBuf::from) else {
        eprintln!("sample: wants a folder");
        return ExitCode::from(64);
    };
    for (name, image) in [("claims.jnl", claims()), ("test.jnl", test())] {
        let file = folder.join(name);
        let image = image.expect("the buffer has room");
        if let Err(e) = std::fs::write(&file, image) {
            eprintln!("sample: {}: {e}", file.display());
            return ExitCode::from(73);
        }
    }
    ExitCode::SUCCESS
}
