//! Boards with sizes, lengths or starts spoiled, or that differ where a call does not look.

use super::rng::Rng;
use image::board::{
    self, Board, CAPACITY, CAPACITY_MAX, CUE, HANDED_OUT, ROW, SIZES, STORED, length_at, number,
    put, start_at,
};

pub fn spoiled(rng: &mut Rng, bytes: &[u8]) -> Vec<u8> {
    let mut bytes = bytes.to_vec();
    let Some(board) = Board::new(&bytes) else {
        return bytes;
    };
    let (capacity, stored) = (board.capacity(), board.stored());
    match rng.below(12) {
        0 => resize(rng, &mut bytes),
        1 => size(rng, &mut bytes, capacity as u64, stored as u64),
        2..=4 => row_length(rng, &mut bytes, capacity, stored),
        5..=7 => start(rng, &mut bytes, stored),
        8 | 9 => {
            start(rng, &mut bytes, stored);
            row_length(rng, &mut bytes, capacity, stored);
        }
        10 => past_stored(rng, &mut bytes, capacity, stored),
        _ => {
            let at = rng.below(bytes.len());
            bytes[at] ^= 1 << rng.below(8);
        }
    }
    bytes
}

fn resize(rng: &mut Rng, bytes: &mut Vec<u8>) {
    let len = bytes.len();
    let to = rng.pick(&[
        0,
        7,
        8,
        16,
        SIZES - 1,
        SIZES,
        len - 1,
        len + 1,
        len - CUE,
        len + CUE,
    ]);
    bytes.resize(to, 0);
    if to == SIZES && rng.once_in(2) {
        // The length of a board that takes no cue, and none stored.
        bytes.fill(0);
    }
}

/// A size that is wrong; where it is the capacity, sometimes with the length that it asks for.
fn size(rng: &mut Rng, bytes: &mut Vec<u8>, capacity: u64, stored: u64) {
    match rng.below(3) {
        0 => {
            let wrong = rng.pick(&[
                0,
                capacity - 1,
                capacity + 1,
                CAPACITY_MAX + 1,
                1 << 32,
                // 24 + 98 · K is the right length, but for what is carried out of 64 bits.
                capacity + (1 << 63),
                u64::MAX,
                u64::MAX / CUE as u64,
            ]);
            put(bytes, CAPACITY, wrong);
            if wrong <= CAPACITY_MAX + 1 && rng.once_in(2) {
                bytes.resize(board::length(wrong as usize), 0);
            }
        }
        1 => put(
            bytes,
            STORED,
            rng.pick(&[capacity + 1, stored + (1 << 32), u64::MAX]),
        ),
        _ => {
            let handed_out = number(bytes, HANDED_OUT);
            let wrong = [stored + 1, handed_out + (1 << 32), u64::MAX];
            put(bytes, HANDED_OUT, rng.pick(&wrong));
        }
    }
}

/// One of the cues that are stored: the first, the last, or any.
fn slot(rng: &mut Rng, stored: usize) -> usize {
    match rng.below(3) {
        0 => 0,
        1 => stored - 1,
        _ => rng.below(stored),
    }
}

fn row_length(rng: &mut Rng, bytes: &mut [u8], capacity: usize, stored: usize) {
    if stored > 0 {
        let at = length_at(capacity, slot(rng, stored), rng.below(2));
        bytes[at] = rng.pick(&[ROW as u8 + 1, ROW as u8 + 1, 128, 255]);
    }
}

/// A start becomes that of the cue before, an earlier one, or the greatest.
fn start(rng: &mut Rng, bytes: &mut [u8], stored: usize) {
    if stored > 1 {
        let slot = slot(rng, stored).max(1);
        let before = number(bytes, start_at(slot - 1));
        match rng.below(3) {
            0 => put(bytes, start_at(slot), before),
            1 => put(bytes, start_at(slot), before.saturating_sub(1)),
            _ => put(bytes, start_at(slot - 1), u64::MAX),
        }
    }
}

/// What is refused of a stored cue, in a slot that holds none.
fn past_stored(rng: &mut Rng, bytes: &mut [u8], capacity: usize, stored: usize) {
    if stored < capacity {
        let slot = rng.within(stored, capacity - 1);
        bytes[length_at(capacity, slot, rng.below(2))] = 255;
        put(bytes, start_at(slot), rng.pick(&[0, u64::MAX]));
    }
}
