//! The search for the humblest priority beside as many plain switches as there are priorities.

use super::{
    Bench, Built,
    images::{self, CALL, Size},
    whole_call,
};
use crate::port;
use image::{
    context as c,
    humblest::{Humblest, PRIORITIES, Tried},
};
use std::hint::black_box;

const CONTEXTS: usize = 64;

/// The last context, which is on no CPU.
const TRIED: Tried = Tried {
    cpu: CALL.cpu,
    time: CALL.time,
    context: CONTEXTS as u64 - 1,
};

fn search(image: &mut [u64], _: &mut Built) {
    black_box(port::humblest(image, &TRIED));
}

/// Prints a row for each number of entries, on 4 CPUs with 64 contexts.
pub fn table() -> bool {
    println!("\n| 4 CPUs, 64 contexts: entries | 40 switches | none works | 39 works |");
    println!("|---|---|---|---|");
    for entries in [0, 8, 32, 58] {
        let size = Size {
            cpus: 4,
            contexts: CONTEXTS,
            entries,
        };
        let machine = images::late(&size);
        let first = machine.image();
        let mut stopped = machine;
        stopped.record[CONTEXTS - 1][c::STATUS] = c::STOPPED;
        let none = stopped.image();
        let largest = Humblest {
            found: 1,
            priority: PRIORITIES as u64 - 1,
            ..Humblest::default()
        };
        let found = [&first, &none].map(|image| port::humblest(&mut image.clone(), &TRIED));
        if found != [Some(largest), Some(Humblest::default())] {
            println!("the images are not those that were meant: use humblest");
            return false;
        }
        let [switch] = Bench::new(first.clone()).least([whole_call]);
        let [one] = Bench::new(first).least([search]);
        let [all] = Bench::new(none).least([search]);
        let switches = switch * PRIORITIES as f64;
        println!("| {entries} | {switches:.0} | {all:.0} | {one:.0} |");
    }
    true
}
