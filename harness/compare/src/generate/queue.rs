//! The queue of a CPU in an image, read and written anew.

use image::{ROOM, View, block as b};
use std::cmp::Reverse;

/// The words of an entry, in the order of their columns.
pub type Entry = [u64; 6];

pub fn entries(image: View, cpu: usize) -> Vec<Entry> {
    let (count, columns) = b::COLUMNS[0];
    let slots = 0..image.block(cpu, count) as usize;
    slots
        .map(|slot| std::array::from_fn(|column| image.block(cpu, columns[column] + slot)))
        .collect()
}

/// Sorted, without equal keys.
pub fn put(image: &mut [u64], cpu: usize, mut entries: Vec<Entry>) {
    let key = |entry: &Entry| (entry[0], Reverse(entry[1]), entry[2]);
    entries.sort_by_key(key);
    entries.dedup_by_key(|entry| key(entry));
    let block = View(image).block_at(cpu);
    let (count, columns) = b::COLUMNS[0];
    image[block + count] = entries.len() as u64;
    for slot in 0..ROOM {
        let entry = entries.get(slot).copied().unwrap_or_default();
        for (column, word) in columns.iter().zip(entry) {
            image[block + column + slot] = word;
        }
    }
}
