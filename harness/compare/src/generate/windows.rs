//! Windows of all sorts, to be lent to a call on a machine of so many contexts.

use super::rng::Rng;
use image::window::{ROOM, TIME_MAX, WORDS};

pub const SORTS: [&str; 10] = [
    "an empty window",
    "a window of some records",
    "a window of 255 records",
    "a window of 256 records",
    "a window of records at their limits",
    "a window of another length",
    "a window with a count over 256",
    "a window with a context not below N",
    "a window with a time over 2^52 - 1",
    "a window with a wrong count and a wrong record",
];

pub fn window(rng: &mut Rng, sort: usize, contexts: u64) -> Vec<u64> {
    let mut words: Vec<u64> = (0..WORDS).map(|_| rubbish(rng, contexts)).collect();
    let count = match sort {
        0 => 0,
        1 => rng.within(1, 254),
        2 => 255,
        3 => ROOM,
        _ => rng.pick(&[1, 2, 3, 100, 255, ROOM]),
    };
    words[0] = count as u64;
    for slot in 0..count {
        words[1 + slot] = rng.below(contexts as usize) as u64;
        words[1 + ROOM + slot] = match rng.below(4) {
            0 => rng.pick(&[0, 1, TIME_MAX]),
            1 => rng.next() >> 12,
            _ => rng.pick(&[1_000_000, 2_250_000, 6_750_000]),
        };
    }
    match sort {
        4 => {
            words[1..=count].fill(contexts - 1);
            words[1 + ROOM..][..count].fill(TIME_MAX);
        }
        5 => words.resize(rng.pick(&[0, 1, 2, 257, WORDS - 1, WORDS + 1, 600]), 0),
        6 => words[0] = over(rng),
        7 => not_below(rng, contexts, &mut words, count),
        8 => too_long(rng, &mut words, count),
        9 => {
            not_below(rng, contexts, &mut words, count);
            too_long(rng, &mut words, count);
            words[0] = over(rng);
        }
        _ => {}
    }
    words
}

/// Of unused slots: words that no record may have, others, and nothing.
fn rubbish(rng: &mut Rng, contexts: u64) -> u64 {
    match rng.below(4) {
        0 => 0,
        1 => rng.pick(&[contexts - 1, contexts, u64::MAX]),
        _ => rng.next(),
    }
}

fn over(rng: &mut Rng) -> u64 {
    rng.pick(&[257, 258, 512, (1 << 32) + 1, 1 << 63, u64::MAX])
}

/// The first of the records, the last or another one.
fn one_of(rng: &mut Rng, count: usize) -> usize {
    match rng.below(3) {
        0 => 0,
        1 => count - 1,
        _ => rng.below(count),
    }
}

fn not_below(rng: &mut Rng, contexts: u64, words: &mut [u64], count: usize) {
    let wrong = rng.pick(&[contexts, contexts, contexts + 1, 1 << 32, u64::MAX]);
    words[1 + one_of(rng, count)] = wrong;
}

fn too_long(rng: &mut Rng, words: &mut [u64], count: usize) {
    let wrong = rng.pick(&[TIME_MAX + 1, TIME_MAX + 1, 1 << 63, u64::MAX]);
    words[1 + ROOM + one_of(rng, count)] = wrong;
}
