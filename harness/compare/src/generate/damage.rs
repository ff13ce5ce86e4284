//! Images and calls with one to three words spoiled, or of the wrong length.

use super::{breakage, rng::Rng};
use image::{Call, NUMBER_MAX, ROOM, View, block as b, context as c, length, ranges};

pub fn spoil(rng: &mut Rng, image: &mut Vec<u64>, call: &mut Call) {
    match rng.below(12) {
        0 => resize(rng, image),
        1 => {
            let size = rng.below(2);
            image[size] = rng.pick(&[0, 1, 2, 4, 5, 64, 65, 1 << 32, u64::MAX, image[size] + 1]);
            if rng.once_in(2) && image[0] <= 8 && image[1] <= 80 {
                image.resize(length(image[0] as usize, image[1] as usize), 0);
            }
        }
        2 | 3 => call_word(rng, call),
        4..=6 => breakage::break_structure(rng, image),
        _ => {
            for _ in 0..rng.within(1, 3) {
                word(rng, image);
            }
        }
    }
}

fn resize(rng: &mut Rng, image: &mut Vec<u64>) {
    let len = image.len();
    let to = rng.pick(&[
        0,
        1,
        2,
        3,
        len / 2,
        len - 1,
        len + 1,
        len + b::WORDS,
        4400,
        5000,
    ]);
    image.resize(to, rng.pick(&[0, 1]));
}

fn call_word(rng: &mut Rng, call: &mut Call) {
    let odd = rng.pick(&[
        0,
        1,
        4,
        7,
        8,
        63,
        64,
        1 << 32,
        NUMBER_MAX,
        NUMBER_MAX + 1,
        u64::MAX,
    ]);
    match rng.below(4) {
        0 => call.operation = odd,
        1 => call.cpu = rng.pick(&[1, 2, 3, 4, 5, odd]),
        2 => call.time = rng.pick(&[odd, NUMBER_MAX, call.time.saturating_add(1 << 52)]),
        _ => call.context = odd,
    }
}

fn word(rng: &mut Rng, image: &mut [u64]) {
    let at = place(rng, image);
    let old = image[at];
    image[at] = match rng.below(10) {
        0 => old.wrapping_add(1),
        1 => old.wrapping_sub(1),
        2 => rng.pick(&[NUMBER_MAX, NUMBER_MAX + 1, u64::MAX]),
        3 => rng.pick(&[0, 1, 2, 14, 15]),
        4 => image[anywhere(rng, image)],
        5 => rng.next(),
        // A word's own limits, and one beyond.
        _ => {
            let range = ranges::range(View(image), at);
            if *range.start() > 0 && rng.once_in(2) {
                *range.start() - rng.mark()
            } else {
                range.end().saturating_add(rng.mark())
            }
        }
    };
}

/// A word that is likely to matter: a record's, a block's single one, or a slot near
/// the end of what is used.
fn place(rng: &mut Rng, image: &[u64]) -> usize {
    let view = View(image);
    if !sized(image) {
        return rng.below(2);
    }
    let block = view.block_at(rng.below(view.cpus()));
    match rng.below(8) {
        0..=2 => view.context_at(rng.below(view.contexts())) + rng.below(c::WORDS),
        3 | 4 => block + rng.below(b::SINGLE),
        5 | 6 => {
            let (count, columns) = b::COLUMNS[rng.below(4)];
            let used = (image[block + count] as usize).min(ROOM - 1);
            block + rng.pick(columns) + rng.below(used + 1)
        }
        _ => anywhere(rng, image),
    }
}

/// A word of an image, but no remainder: those are drawn from a stream of their own.
fn anywhere(rng: &mut Rng, image: &[u64]) -> usize {
    let view = View(image);
    if !sized(image) {
        return rng.below(image.len());
    }
    let drawn = rng.below(image.len() - view.cpus());
    let passed = drawn.saturating_sub(view.block_at(0)) / (b::WORDS - 1);
    drawn + passed
}

fn sized(image: &[u64]) -> bool {
    let view = View(image);
    image.len() > 2
        && (1..=4).contains(&image[0])
        && (1..=64).contains(&image[1])
        && image.len() == length(view.cpus(), view.contexts())
}
