//! The static library beside the Rust, in one process: the same images to both, and every answer compared.
pub mod cases;
pub mod check;
pub mod differences;
pub mod list;
pub mod make;
pub mod ours;
pub mod plain;
pub mod random;
pub mod shrink;

use answers::Judge;

/// The Rust and the library, under one dialect.
pub struct Pair {
    pub rust: Box<dyn Judge>,
    pub ours: ours::Ours,
}

/// A pair for each of the four dialects.
pub fn pairs() -> Vec<Pair> {
    let pair = |rust: Box<dyn Judge>| {
        let ours = ours::Ours::new(rust.dialect());
        Pair { rust, ours }
    };
    vec![
        pair(Box::new(fjall_shipped::Fjall::new().expect("a file in memory"))),
        pair(Box::new(fjall_test::Fjall::new().expect("a file in memory"))),
        pair(Box::new(fjall_odd::Fjall::new().expect("a file in memory"))),
        pair(Box::new(fjall_long::Fjall::new().expect("a file in memory"))),
    ]
}
