//! Copies the bytes of a journal that are to be kept to a new file. The old file is only read; a new one that exists already is left as it is.
//!
//!     cargo run --release --example recover -- [--test] OLD NEW
//!
//! A clean journal is copied whole, a torn one up to its last valid position. Outcomes 2 to 4 are no crash but damage, or a fault of a
//! program: document 01 keeps all bytes, so the copy is whole, and a person must look. The status is the outcome (0 clean, 1 torn, 2 to 4 the
//! errors) or the number of a refusal, which copies nothing; 64 for a wrong call, 66 for a file that cannot be read, 73 for one that cannot be
//! made or written.
use pierloft::{batches, Dialect};
use std::ffi::OsStr;
use std::fs::File;
use std::io::Write;
use std::process::ExitCode;

fn main() -> ExitCode {
    let mut words: Vec<_> = std::env::args_os().skip(1).collect();
    let mut dialect = Dialect::SHIPPED;
    if words.first().is_some_and(|word| word == "--test") {
        words.remove(0);
        dialect = Dialect::TEST;
    }
    let [old, new] = &words[..] else {
        say(format_args!("wants two files: recover [--test] OLD NEW"));
        return ExitCode::from(64);
    };
    recover(old, new, dialect).unwrap_or_else(|(why, status)| {
        say(format_args!("{why}"));
        ExitCode::from(status)
    })
}

/// A message that cannot be written changes no status, where `eprintln` would panic.
fn say(what: std::fmt::Arguments<'_>) {
    let _ = writeln!(std::io::stderr(), "recover: {what}");
}

fn recover(old: &OsStr, new: &OsStr, dialect: Dialect) -> Result<ExitCode, (String, u8)> {
    let (old_name, new_name) = (old.to_string_lossy(), new.to_string_lossy());
    let image = std::fs::read(old).map_err(|e| (format!("{old_name}: {e}"), 66))?;

    let mut journal = batches(&image, dialect);
    let end = journal
        .outcome()
        .and_then(|outcome| Ok((outcome, journal.kept()?)));
    let (outcome, kept) =
        end.map_err(|e| (format!("{old_name}: refused by {e}"), e.number() as u8))?;

    // create_new: never a file that is there already, be it the old one under another name
    let file = File::create_new(new).map_err(|e| (format!("{new_name}: {e}"), 73))?;
    copy(file, &image[..kept]).map_err(|e| {
        let _ = std::fs::remove_file(new);
        (format!("{new_name}: {e}"), 73)
    })?;
    say(format_args!(
        "{old_name}: {outcome}, {kept} of {} bytes kept in {new_name}",
        image.len()
    ));
    Ok(ExitCode::from(outcome.number() as u8))
}

fn copy(mut file: File, bytes: &[u8]) -> std::io::Result<()> {
    file.write_all(bytes)?;
    file.sync_all()
}
