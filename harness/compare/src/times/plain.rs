//! The plain engine beside the fast one.

use super::{
    Bench, Built,
    images::{self, CALL, Size},
    whole_call,
};
use crate::port;
use std::hint::black_box;

fn plain(image: &mut [u64], _: &mut Built) {
    black_box(port::plain_call(image, &CALL));
}

/// Prints a row for each number of entries, on 4 CPUs with 64 contexts.
pub fn table() -> bool {
    println!("\n| 4 CPUs, 64 contexts: entries | switch | by the plain engine | plain/switch |");
    println!("|---|---|---|---|");
    for entries in [0, 8, 32, 59] {
        let size = Size {
            cpus: 4,
            contexts: 64,
            entries,
        };
        let start = images::last_wins(&size).image();
        let (mut fast, mut slow) = (start.clone(), start.clone());
        let answers = (
            port::call(&mut fast, &CALL),
            port::plain_call(&mut slow, &CALL),
        );
        if answers.0 != answers.1 || fast != slow {
            println!("the plain engine does not answer as the fast one does: use plain");
            return false;
        }
        let [switch, plain] = Bench::new(start).least([whole_call, plain]);
        let ratio = plain / switch;
        println!("| {entries} | {switch:.0} | {plain:.0} | {ratio:.0} |");
    }
    true
}
