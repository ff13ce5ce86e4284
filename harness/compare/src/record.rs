//! Writes the recorded lists: one of words for programs, one of text for scripts.

use crate::{
    choose::{Limits, choose},
    generate::Stream,
    recorded::{as_text, as_words},
};

const TRIES: u64 = 400_000;

pub fn small(seed: u64, cases: usize) -> bool {
    let limits = Limits {
        sizes: Some((2, 4)),
        words: 0..=120,
        times: 12,
        refused: 2,
        cases,
    };
    let chosen = choose(Stream::small(seed), TRIES, &limits);
    print!("{}", as_text(&chosen));
    true
}

pub fn words(seed: u64, cases: usize, to: &str) -> bool {
    let limits = Limits {
        sizes: None,
        words: 0..=400,
        times: 40,
        refused: 8,
        cases,
    };
    let mut chosen = choose(Stream::small(seed), TRIES, &limits);
    let larger = Limits {
        words: 250..=600,
        times: 1,
        cases: cases / 8,
        ..limits
    };
    chosen.extend(choose(Stream::new(seed), TRIES, &larger));
    let bytes = as_words(&chosen);
    println!("{} cases, {} bytes", chosen.len(), bytes.len());
    std::fs::write(to, bytes).is_ok()
}
