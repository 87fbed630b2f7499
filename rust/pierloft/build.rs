//! Links the static library of the proved crates, libpierloft.a: from the folder that PIERLOFT_LIB_DIR names, or from target/staticlib of
//! the repository that this crate stands in. There tools/archive builds it where it is missing or older than its source.
use std::path::{Path, PathBuf};
use std::process::Command;
use std::time::SystemTime;

const ARCHIVE: &str = "libpierloft.a";

fn main() {
    println!("cargo:rerun-if-env-changed=PIERLOFT_LIB_DIR");
    look_at_the_target();
    let folder = match std::env::var_os("PIERLOFT_LIB_DIR") {
        Some(folder) => workspace().join(folder),
        None => built(),
    };
    let archive = folder.join(ARCHIVE);
    if !archive.is_file() {
        fail(&format!("there is no {}", archive.display()));
    }
    println!("cargo:rerun-if-changed={}", archive.display());
    println!("cargo:rustc-link-search=native={}", folder.display());
    println!("cargo:rustc-link-lib=static=pierloft");
}

fn folder(name: &str) -> PathBuf {
    PathBuf::from(std::env::var_os(name).expect("cargo sets it"))
}

/// Code for another machine, calling convention or file format would not link, or be called wrongly.
fn look_at_the_target() {
    let is = |name: &str, wanted: &str| std::env::var(name).is_ok_and(|value| value == wanted);
    let machine =
        is("CARGO_CFG_TARGET_ARCH", "x86_64") && is("CARGO_CFG_TARGET_POINTER_WIDTH", "64");
    let foreign = is("CARGO_CFG_TARGET_VENDOR", "apple")
        || ["windows", "uefi", "cygwin"]
            .iter()
            .any(|system| is("CARGO_CFG_TARGET_OS", system));
    if !machine || foreign {
        let target = std::env::var("TARGET").unwrap_or_default();
        fail(&format!(
            "the library is there for x86-64 alone (64-bit pointers, ELF, the System V calling convention), and this build is for {target}"
        ));
    }
}

/// Where a relative PIERLOFT_LIB_DIR counts from: the folder with Cargo.lock above the build's output, which is the workspace's unless its
/// output lies elsewhere; else above this crate.
fn workspace() -> PathBuf {
    let (output, here) = (folder("OUT_DIR"), folder("CARGO_MANIFEST_DIR"));
    let mut above = output.ancestors().chain(here.ancestors());
    let found = above.find(|folder| folder.join("Cargo.lock").is_file());
    found.unwrap_or(&here).to_path_buf()
}

/// The repository's own folder, with the library in it.
fn built() -> PathBuf {
    let here = folder("CARGO_MANIFEST_DIR");
    let Some(top) = here
        .ancestors()
        .nth(2)
        .filter(|top| top.join("crates.txt").is_file())
    else {
        fail("this crate stands outside its repository: set PIERLOFT_LIB_DIR to the folder that holds libpierloft.a");
    };
    let folder = top.join("target/staticlib");
    let sources = sources(&top.join("crates"));
    println!(
        "cargo:rerun-if-changed={}",
        top.join("crates.txt").display()
    );
    for source in &sources {
        println!("cargo:rerun-if-changed={}", source.display());
    }
    let made = changed(&folder.join(ARCHIVE));
    if made.is_none() || sources.iter().filter_map(|source| newest(source)).max() > made {
        build(top);
    }
    folder
}

fn build(top: &Path) {
    println!("cargo:warning=building {ARCHIVE} by tools/archive: what is not proved yet is proved first, which can take minutes");
    let run = Command::new("sh")
        .arg("tools/archive")
        .current_dir(top)
        .output();
    match run {
        Ok(run) if run.status.success() => {}
        Ok(run) => fail(&format!(
            "tools/archive failed (it needs rt, the Rattle toolchain, on the PATH; with PIERLOFT_LIB_DIR set it is not called):\n{}{}",
            String::from_utf8_lossy(&run.stdout),
            String::from_utf8_lossy(&run.stderr)
        )),
        Err(e) => fail(&format!("sh could not be run ({e})")),
    }
}

/// Each crate's own source. Beside it lies the crate's out/, which is large and holds copies.
fn sources(crates: &Path) -> Vec<PathBuf> {
    let entries = std::fs::read_dir(crates).into_iter().flatten().flatten();
    let folders = entries.map(|entry| entry.path().join("src"));
    folders.filter(|folder| folder.is_dir()).collect()
}

fn changed(file: &Path) -> Option<SystemTime> {
    file.metadata().and_then(|about| about.modified()).ok()
}

/// When a source of the library was last changed.
fn newest(folder: &Path) -> Option<SystemTime> {
    let entries = std::fs::read_dir(folder).into_iter().flatten().flatten();
    let times = entries.map(|entry| match entry.path() {
        path if path.is_dir() => newest(&path),
        path if path.extension().is_some_and(|end| end == "rt") => changed(&path),
        _ => None,
    });
    times.max().flatten()
}

fn fail(why: &str) -> ! {
    eprintln!("pierloft: {why}");
    std::process::exit(1)
}
