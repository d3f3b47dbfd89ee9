//! A plain parser without contracts, to compare times with: `plain_parser ROUNDS FILE..`. It reads the same grammar, but looks less
//! closely at numbers, carriage returns and continuations, and so takes some files that have a fault.

mod parser;
mod tokens;
mod tree;

use std::time::{Duration, Instant};
use std::{env, fs};

fn main() {
    let mut words = env::args().skip(1);
    let rounds = words
        .next()
        .and_then(|word| word.parse::<u32>().ok())
        .expect("usage: plain_parser ROUNDS FILE..");
    let sources: Vec<Vec<u8>> = words
        .map(|name| fs::read(name).expect("the file can be read"))
        .collect();
    let mut least = Duration::MAX;
    let mut counted = 0;
    for _ in 0..rounds {
        let start = Instant::now();
        counted = sources
            .iter()
            .map(|source| parser::parse(source).expect("the file parses").len())
            .sum();
        least = least.min(start.elapsed());
    }
    println!(
        "tree, plain parser: {} us, counted {}",
        least.as_micros(),
        counted
    );
}
