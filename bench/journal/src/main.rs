//! Speed beside what it is compared with, as ratios: one table in Markdown. What is compared first has to give the same answer. bench/run
//! builds and runs it.
mod clock;
mod hashing;
mod heap;
mod journal;
mod plain;

/// A line of the table: how long ours takes beside theirs.
pub fn line(what: &str, input: &str, beside: &str, ours: f64, theirs: f64, aim: &str) {
    println!("| {what} | {input} | {beside} | {:.2} | {:.2} | {aim} |", ours / theirs, theirs / ours);
}

fn main() {
    let quick = std::env::args().any(|word| word == "quick");
    println!("| what | input | beside | time, ours to theirs | times as fast | aim |");
    println!("|---|---|---|---|---|---|");
    hashing::run(quick);
    journal::run(quick);
}
