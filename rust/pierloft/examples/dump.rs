//! Lists a journal of at most 4,294,967,295 bytes, in the format of the program dump, which takes 65,536.
//!
//!     cargo run --release --example dump -- [--test] FILE
//!
//! The status is the outcome (0 clean, 1 torn, 2 to 4 the errors) or the number of a refusal; 64 for a wrong call, 66 for a file that cannot
//! be read, 74 where the listing cannot be written. A standard output that is shut is none of that: Rust's runtime puts /dev/null there before
//! `main`, so that the status is the outcome's and no listing was written.
use pierloft::{batches, Dialect, Entry, Item};
use std::fmt;
use std::io::{self, BufWriter, Write};
use std::process::ExitCode;

fn main() -> ExitCode {
    let mut words: Vec<_> = std::env::args_os().skip(1).collect();
    let mut dialect = Dialect::SHIPPED;
    if words.first().is_some_and(|word| word == "--test") {
        words.remove(0);
        dialect = Dialect::TEST;
    }
    let [file] = &words[..] else {
        say(format_args!("wants one file: dump [--test] FILE"));
        return ExitCode::from(64);
    };
    let image = match std::fs::read(file) {
        Ok(image) => image,
        Err(e) => {
            say(format_args!("{}: {e}", file.to_string_lossy()));
            return ExitCode::from(66);
        }
    };
    match list(&image, dialect, BufWriter::new(io::stdout().lock())) {
        Ok(status) => ExitCode::from(status as u8),
        Err(e) => {
            say(format_args!("{e}"));
            ExitCode::from(74)
        }
    }
}

/// A message that cannot be written changes no status, where `eprintln` would panic.
fn say(what: fmt::Arguments<'_>) {
    let _ = writeln!(io::stderr(), "dump: {what}");
}

/// Writes the listing of an image; gives the outcome, or the refusal's number.
pub fn list(image: &[u8], dialect: Dialect, mut out: impl Write) -> io::Result<u32> {
    let mut journal = batches(image, dialect);
    if let Some(refusal) = journal.refusal() {
        writeln!(out, "refused {}", refusal.number())?;
        out.flush()?;
        return Ok(refusal.number());
    }
    writeln!(out, "journal {} bytes", image.len())?;
    // damage is told by the last line
    while let Some(Ok(batch)) = journal.next() {
        writeln!(
            out,
            "@{} seq {} entries {}",
            batch.at(),
            batch.seqno(),
            batch.count()
        )?;
        for entry in batch {
            match entry {
                Entry::Item(Item {
                    keyspace,
                    key,
                    value,
                    value_type,
                }) => {
                    writeln!(
                        out,
                        "item {keyspace} {value_type} {} {}",
                        Hex(key),
                        Hex(value)
                    )?;
                }
                Entry::Clear { keyspace } => writeln!(out, "clear {keyspace}")?,
            }
        }
    }
    let outcome = journal.outcome().map_err(io::Error::other)?.number();
    let kept = journal.kept().map_err(io::Error::other)?;
    writeln!(out, "end {outcome} valid {} kept {kept}", journal.valid())?;
    out.flush()?;
    Ok(outcome)
}

/// Lower-case digits, and no bytes as `-`.
struct Hex<'a>(&'a [u8]);

impl fmt::Display for Hex<'_> {
    fn fmt(&self, f: &mut fmt::Formatter<'_>) -> fmt::Result {
        if self.0.is_empty() {
            return f.write_str("-");
        }
        self.0.iter().try_for_each(|byte| write!(f, "{byte:02x}"))
    }
}
