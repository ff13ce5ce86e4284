//! A call in a window beside the call itself, and shares of a full window.

use super::{
    Bench, Built,
    images::{self, CALL, Size},
    whole_call,
};
use crate::port;
use image::window::{ROOM, WORDS};
use std::{cell::RefCell, hint::black_box};

thread_local! {
    /// A full window of records of context 1: the oldest leaves at each decision.
    static WINDOW: RefCell<Vec<u64>> = RefCell::new(full());
}

fn full() -> Vec<u64> {
    let mut words = vec![1; WORDS];
    words[0] = ROOM as u64;
    words
}

fn in_window(image: &mut [u64], _: &mut Built) {
    WINDOW.with_borrow_mut(|window| black_box(port::window::call(image, window, &CALL)));
}

fn share(_: &mut [u64], _: &mut Built) {
    WINDOW.with_borrow(|window| black_box(port::window::share(window, 64, 1)));
}

fn share_of_all(_: &mut [u64], _: &mut Built) {
    WINDOW.with_borrow(|window| black_box(port::window::share_of_all(window, 64)));
}

/// Prints a row for each number of entries, on 4 CPUs with 64 contexts.
pub fn table() -> bool {
    println!("\n| 4 CPUs, 64 contexts: entries | switch | in a full window | share | of all |");
    println!("|---|---|---|---|---|");
    for entries in [0, 8, 32, 59] {
        let size = Size {
            cpus: 4,
            contexts: 64,
            entries,
        };
        let start = images::last_wins(&size).image();
        let alone = port::call(&mut start.clone(), &CALL);
        if port::window::call(&mut start.clone(), &mut full(), &CALL) != alone {
            println!("a switch in a window does not answer as a switch does: use windows");
            return false;
        }
        let [switch, in_window, share, of_all] =
            Bench::new(start).least([whole_call, in_window, share, share_of_all]);
        println!("| {entries} | {switch:.0} | {in_window:.0} | {share:.0} | {of_all:.0} |");
    }
    true
}
