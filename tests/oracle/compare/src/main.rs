//! compare run SEED COUNT      all sets, COUNT random images over the four dialects, the large images
//! compare random SEED COUNT   the random images alone
//! compare sets                the sets alone
//! compare cases SEED COUNT    made-up dialects and states, hashes by pieces (compare/src/cases.rs)
//! compare large SEED          the large images alone
//! compare image DIALECT HEX   what both sides say of one image
//! compare differences         what docs/DIFFERENCES.md lists, both sides run
//! compare list DIALECT FOLDER the fixed list: stdin and stdout of the program that replays it
//! compare seeds FOLDER        inputs for the fuzzer to start from
//! compare spoilt              the library made to answer wrongly: the difference must be found and shrunk to one byte
//!
//! A difference prints the smallest image that shows it and what both sides say, and ends with status 1.
use answers::{hex, unhex, Judge};
use compare::cases::{case, KINDS};
use compare::check::{difference, Tally};
use compare::make::{self, FAMILIES};
use compare::random::Random;
use compare::shrink::shrink;
use compare::{pairs, Pair};
use std::process::ExitCode;
use std::time::Instant;

/// The smallest image with the difference that `image` shows.
fn smallest(pair: &mut Pair, image: &[u8]) -> Vec<u8> {
    shrink(image, |less| difference(pair, less, &mut Tally::default()).is_some())
}

fn report(pair: &mut Pair, from: &str, image: &[u8]) -> ! {
    let least = smallest(pair, image);
    let how = difference(pair, &least, &mut Tally::default()).unwrap_or_default();
    println!("DIFFERENCE under {} ({from}, first seen in {} bytes)", pair.ours.dialect().name, image.len());
    println!("{} bytes: {}\n{how}", least.len(), hex(&least));
    std::process::exit(1)
}

fn one(pair: &mut Pair, from: &str, image: &[u8], seen: &mut Tally) {
    if difference(pair, image, seen).is_some() {
        report(pair, from, image);
    }
}

fn say(what: &str, t: &Tally, since: Instant) {
    println!(
        "{what}: {} images, {} bytes, {} batches, {} entries; outcomes {:?}; entries decoded {}, faults 30 to 34 {:?}; {:.1} s",
        t.images,
        t.bytes,
        t.batches,
        t.entries,
        t.outcomes,
        t.decoded[5],
        &t.decoded[..5],
        since.elapsed().as_secs_f64()
    );
}

fn sets(pairs: &mut [Pair]) -> u64 {
    let mut all = 0;
    for pair in pairs {
        let (since, mut seen) = (Instant::now(), Tally::default());
        let d = pair.ours.dialect();
        make::short(|i| one(pair, "all images of up to two bytes", i, &mut seen));
        make::sequences(&d, 5, |i| one(pair, "all sequences of up to five tokens", i, &mut seen));
        make::codes(&d, |i| one(pair, "all pairs of codes", i, &mut seen));
        make::around(&d, |i| one(pair, "cuts and changed bytes", i, &mut seen));
        make::lengths(&d, |i| one(pair, "all lengths", i, &mut seen));
        say(&format!("sets, {}", d.name), &seen, since);
        all += seen.images;
    }
    all
}

fn random(pairs: &mut [Pair], seed: u64, count: u64) -> u64 {
    let (since, mut seen) = (Instant::now(), Tally::default());
    let mut r = Random::new(seed);
    let n = pairs.len();
    for i in 0..count {
        let pair = &mut pairs[i as usize % n];
        let family = FAMILIES[(i as usize / n) % FAMILIES.len()];
        let image = make::random(&mut r, &pair.ours.dialect(), family);
        if difference(pair, &image, &mut seen).is_some() {
            report(pair, &format!("{family:?}, seed {seed}, number {i}"), &image);
        }
    }
    say(&format!("random, seed {seed}"), &seen, since);
    seen.images
}

/// A case of a kind, with an image of a family where it has one.
fn made(pairs: &[Pair], r: &mut Random, kind: u8, number: u64) -> Vec<u8> {
    let which = r.below(pairs.len());
    let family = FAMILIES[number as usize % FAMILIES.len()];
    let mut bytes = vec![kind, which as u8];
    if kind == 4 {
        // around each boundary of the hash
        let edge = r.pick(&[0, 3, 8, 16, 128, 240, 256, 512, 1024, 2048, 4096]);
        let length = 7 + (edge + r.below(8)).saturating_sub(4);
        bytes.extend(r.bytes(length));
        return bytes;
    }
    if kind > 1 {
        let head = 13 + r.below(9);
        bytes.extend(r.bytes(head));
    }
    if kind == 0 || kind == 2 {
        bytes.extend(make::random(r, &pairs[which].ours.dialect(), family));
    } else {
        let list = r.below(if kind < 5 { 200 } else { 400 });
        bytes.extend(r.bytes(list));
    }
    bytes
}

fn seeds(pairs: &[Pair], folder: &str) -> std::io::Result<()> {
    let mut r = Random::new(1);
    for number in 0..1200 {
        let bytes = made(pairs, &mut r, (number % u64::from(KINDS)) as u8, number / u64::from(KINDS));
        std::fs::write(format!("{folder}/seed-{number:04}"), bytes)?;
    }
    Ok(())
}

/// Cases of every kind from 2 on: made-up dialects and states over images of every family, and hashes by pieces.
fn cases(pairs: &mut [Pair], seed: u64, count: u64) -> Result<(), String> {
    let since = Instant::now();
    let mut r = Random::new(seed);
    for i in 0..count {
        let kind = 2 + i % u64::from(KINDS - 2);
        let bytes = made(pairs, &mut r, kind as u8, i / u64::from(KINDS - 2));
        if let Err(how) = case(pairs, &bytes) {
            let least = shrink(&bytes, |less| case(pairs, less).is_err());
            return Err(format!("DIFFERENCE (seed {seed}, number {i}): {}\n{}\nat first: {how}", hex(&least), case(pairs, &least).unwrap_err()));
        }
    }
    println!("cases, seed {seed}: {count} cases, no difference; {:.1} s", since.elapsed().as_secs_f64());
    Ok(())
}

fn large(pairs: &mut [Pair], seed: u64) -> u64 {
    let (since, mut seen) = (Instant::now(), Tally::default());
    let mut r = Random::new(seed);
    for pair in pairs {
        let d = pair.ours.dialect();
        make::large(&d, &mut r, |i| one(pair, "64 MiB", i, &mut seen));
    }
    say("large", &seen, since);
    seen.images
}

fn named<'a>(pairs: &'a mut [Pair], name: &str) -> Result<&'a mut Pair, String> {
    pairs.iter_mut().find(|p| p.ours.dialect().name == name).ok_or(format!("no such dialect: {name}"))
}

fn image(pairs: &mut [Pair], name: &str, digits: &str) -> Result<(), String> {
    let pair = named(pairs, name)?;
    let bytes = unhex(digits).ok_or("not hexadecimal")?;
    print!("the Rust:\n{}", pair.rust.read(&bytes).listing(bytes.len()));
    print!("the library:\n{}", pair.ours.read(&bytes).listing(bytes.len()));
    Ok(())
}

/// A comparison that cannot fail shows nothing: here it has to, and the smallest image has to be the one zero.
fn spoilt(pairs: &mut [Pair]) -> Result<(), String> {
    let mut r = Random::new(1);
    let pair = &mut pairs[0];
    pair.ours.spoilt = true;
    for _ in 0..100_000 {
        let image = make::random(&mut r, &pair.ours.dialect(), make::Family::Damaged);
        if difference(pair, &image, &mut Tally::default()).is_some() {
            let least = smallest(pair, &image);
            println!("a wrong answer was found in {} bytes and shrunk to {}", image.len(), hex(&least));
            return if least == [0] { Ok(()) } else { Err("it was not shrunk to one zero".into()) };
        }
    }
    Err("no difference was found".into())
}

fn run(words: &[String]) -> Result<(), String> {
    let word = |i: usize| words.get(i).map(String::as_str).ok_or("a word is missing: see the top of compare/src/main.rs".to_string());
    let number = |i: usize| word(i)?.parse::<u64>().map_err(|e| e.to_string());
    let mut all = pairs();
    let compared = match word(0)? {
        "run" => {
            let (seed, count) = (number(1)?, number(2)?);
            cases(&mut all, seed, count / 4)?;
            sets(&mut all) + random(&mut all, seed, count) + large(&mut all, seed)
        }
        "random" => random(&mut all, number(1)?, number(2)?),
        "sets" => sets(&mut all),
        "large" => large(&mut all, number(1)?),
        "differences" => {
            compare::differences::run();
            return Ok(());
        }
        "list" => {
            let n = compare::list::write(named(&mut all, word(1)?)?, word(2)?.as_ref()).map_err(|e| e.to_string())?;
            println!("{n} images and the Rust's answers are in {}", word(2)?);
            return Ok(());
        }
        "seeds" => return seeds(&all, word(1)?).map_err(|e| e.to_string()),
        "cases" => return cases(&mut all, number(1)?, number(2)?),
        "image" => return image(&mut all, word(1)?, word(2)?),
        "spoilt" => return spoilt(&mut all),
        w => return Err(format!("no such word: {w}")),
    };
    println!("{compared} images compared, no difference");
    Ok(())
}

fn main() -> ExitCode {
    std::panic::set_hook(Box::new(|_| {}));
    let words: Vec<String> = std::env::args().skip(1).collect();
    match run(&words) {
        Ok(()) => ExitCode::SUCCESS,
        Err(e) => {
            println!("{e}");
            ExitCode::from(1)
        }
    }
}
