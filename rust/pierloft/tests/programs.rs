//! The examples dump and recover, run as programs: what they print, their status, and what they leave of files.
use std::path::{Path, PathBuf};
use std::process::{Command, Output};

fn sample(name: &str) -> PathBuf {
    Path::new(env!("CARGO_MANIFEST_DIR"))
        .join("../../samples")
        .join(name)
}

/// Cargo lays examples beside the folder of the tests.
fn program(example: &str) -> Command {
    let here = std::env::current_exe().unwrap();
    let beside = here.ancestors().nth(2).unwrap();
    Command::new(beside.join("examples").join(example))
}

fn run(example: &str, words: &[&Path]) -> Output {
    program(example).args(words).output().unwrap()
}

/// A folder of its own to each test, removed at its end.
struct Folder(PathBuf);

impl Folder {
    fn new(name: &str) -> Folder {
        let folder = std::env::temp_dir().join(format!("pierloft-{name}-{}", std::process::id()));
        std::fs::create_dir(&folder).unwrap();
        Folder(folder)
    }

    fn holding(&self, name: &str, bytes: &[u8]) -> PathBuf {
        let file = self.0.join(name);
        std::fs::write(&file, bytes).unwrap();
        file
    }
}

impl Drop for Folder {
    fn drop(&mut self) {
        let _ = std::fs::remove_dir_all(&self.0);
    }
}

#[test]
fn dump_lists_document_01s_journal() {
    let folder = Folder::new("dump");
    let image = std::fs::read(sample("test.jnl")).unwrap();
    let file = folder.holding("53.jnl", &[&image[..50], &[0, 0, 0]].concat());
    let done = run("dump", &[Path::new("--test"), &file]);
    let listing =
        "journal 53 bytes\n@0 seq 7 entries 1\nitem 2 V 61 7879\nend 1 valid 50 kept 50\n";
    assert_eq!(String::from_utf8(done.stdout).unwrap(), listing);
    assert_eq!(done.status.code(), Some(1));
    assert_eq!(done.stderr, b"");

    let file = folder.holding("50.jnl", &image[..50]);
    assert_eq!(
        run("dump", &[Path::new("--test"), &file]).status.code(),
        Some(0)
    );
    let file = folder.holding("0.jnl", &[]);
    let done = run("dump", &[&file]);
    assert_eq!(done.stdout, b"journal 0 bytes\nend 0 valid 0 kept 0\n");
}

/// A listing that cannot be written is no outcome.
#[cfg(target_os = "linux")]
#[test]
fn dump_to_a_full_disk() {
    let full = std::fs::File::create("/dev/full").unwrap();
    let mut dump = program("dump");
    let done = dump.arg(sample("claims.jnl")).stdout(full).output();
    let done = done.unwrap();
    assert_eq!(done.status.code(), Some(74));
    assert!(!done.stderr.is_empty());
}

/// A message that cannot be written changes no status.
#[cfg(target_os = "linux")]
#[test]
fn messages_to_a_full_disk() {
    let folder = Folder::new("messages");
    let full = || std::fs::File::create("/dev/full").unwrap();
    let done = program("dump").stderr(full()).status().unwrap();
    assert_eq!(done.code(), Some(64));
    let (old, new) = (sample("claims.jnl"), folder.0.join("new.jnl"));
    let mut recover = program("recover");
    let done = recover.args([&old, &new]).stderr(full()).status().unwrap();
    assert_eq!(done.code(), Some(1));
    assert!(new.is_file());
}

/// tests/script.sh holds the proved programs to the same files.
#[test]
fn dump_lists_the_samples() {
    for (words, name) in [(&[][..], "claims"), (&[Path::new("--test")], "test")] {
        let listing = std::fs::read(sample(&format!("{name}.txt"))).unwrap();
        let file = sample(&format!("{name}.jnl"));
        let done = run("dump", &[words, &[&file]].concat());
        assert_eq!(done.stdout, listing);
        assert_eq!(done.status.code(), Some(1));
    }
}

#[test]
fn wrong_calls() {
    let none = Path::new("/no such file");
    for (example, words, status) in [
        ("dump", &[][..], 64),
        ("dump", &[none, none], 64),
        ("dump", &[none], 66),
        ("recover", &[none], 64),
        ("recover", &[none, none, none], 64),
        ("recover", &[none, none], 66),
    ] {
        let done = run(example, words);
        assert_eq!(done.status.code(), Some(status), "{example} {words:?}");
        assert_eq!(done.stdout, b"");
        assert!(!done.stderr.is_empty());
    }
}

/// Copies what is to be kept, and leaves the old file and any file that is there already.
#[test]
fn recover_copies() {
    let folder = Folder::new("recover");
    let image = std::fs::read(sample("claims.jnl")).unwrap();
    let old = folder.holding("old.jnl", &image);
    let new = folder.0.join("new.jnl");

    let done = run("recover", &[&old, &new]);
    assert_eq!(done.status.code(), Some(1), "{done:?}");
    let kept = std::fs::read(&new).unwrap();
    assert!(kept.len() < image.len() && kept == image[..kept.len()]);
    let mut journal = pierloft::batches(&kept, pierloft::Dialect::SHIPPED);
    assert_eq!(journal.outcome(), Ok(pierloft::Outcome::Clean));

    // what is kept is clean and is kept whole
    let again = folder.0.join("again.jnl");
    assert_eq!(run("recover", &[&new, &again]).status.code(), Some(0));
    assert_eq!(std::fs::read(&again).unwrap(), kept);

    // damage that is no crash is kept whole: a changed key
    let mut damaged = image.clone();
    damaged[34] ^= 1;
    let (from, to) = (
        folder.holding("damaged.jnl", &damaged),
        folder.0.join("whole.jnl"),
    );
    assert_eq!(run("recover", &[&from, &to]).status.code(), Some(4));
    assert_eq!(std::fs::read(&to).unwrap(), damaged);

    // never over a file that is there, and never over the old one
    for there in [&again, &old] {
        let before = std::fs::read(there).unwrap();
        assert_eq!(run("recover", &[&old, there]).status.code(), Some(73));
        assert_eq!(std::fs::read(there).unwrap(), before);
    }
    assert_eq!(std::fs::read(&old).unwrap(), image);
}

/// What the README shows of the two, in a folder that stands to the samples as this crate does.
#[test]
fn as_the_readme_shows() {
    let readme = include_str!("../../../README.md");
    let folder = Folder::new("readme");
    let here = folder.0.join("rust/pierloft");
    std::fs::create_dir_all(&here).unwrap();
    std::fs::create_dir(folder.0.join("samples")).unwrap();
    std::fs::copy(sample("claims.jnl"), folder.0.join("samples/claims.jnl")).unwrap();

    let call = "    $ cargo run -q --release --example ";
    let mut shown = readme.split(call).skip(1);
    let mut next = |example: &str| {
        let (words, rest) = shown.next().unwrap().split_once('\n').unwrap();
        let words = words.strip_prefix(example).unwrap();
        let words = words.strip_prefix(" -- ").unwrap();
        let files = words.split(" | ").next().unwrap().split(' ');
        let mut program = program(example);
        let done = program.args(files).current_dir(&here).output().unwrap();
        let said = String::from_utf8([done.stdout, done.stderr].concat()).unwrap();
        let last = said.lines().last().unwrap().to_string();
        assert_eq!(rest.lines().next(), Some(&*format!("    {last}")));
    };
    next("recover");
    next("dump");
    assert!(shown.next().is_none());
}
