//! Asking and committing beside a plain switch.

use super::{
    Bench, Built,
    images::{self, CALL, Size},
    whole_call,
};
use crate::port;
use image::asked::Asked;
use std::{cell::Cell, hint::black_box};

thread_local! {
    /// The reply that is committed.
    static REPLY: Cell<Asked> = Cell::default();
}

fn ask(image: &mut [u64], _: &mut Built) {
    black_box(port::ask(image, CALL.cpu, CALL.time));
}

fn commit(image: &mut [u64], _: &mut Built) {
    black_box(port::commit(image, CALL.cpu, CALL.time, REPLY.get()));
}

fn differs(image: &mut [u64], _: &mut Built) {
    let reply = REPLY.get();
    let other = Asked {
        v: reply.v ^ 1,
        ..reply
    };
    black_box(port::commit(image, CALL.cpu, CALL.time, other));
}

/// Prints a row for each number of entries, on 4 CPUs with 64 contexts.
pub fn table() -> bool {
    println!("\n| 4 CPUs, 64 contexts: entries | switch | ask | commit | commit refused with 13 |");
    println!("|---|---|---|---|---|");
    for entries in [0, 8, 32, 59] {
        let size = Size {
            cpus: 4,
            contexts: 64,
            entries,
        };
        let start = images::last_wins(&size).image();
        let Some(reply) = port::ask(&start, CALL.cpu, CALL.time) else {
            return false;
        };
        REPLY.set(reply);
        let committed = port::commit(&mut start.clone(), CALL.cpu, CALL.time, reply);
        if committed != port::call(&mut start.clone(), &CALL) {
            println!("a commit does not answer as a switch does: use asks");
            return false;
        }
        let [switch, ask, commit, differs] =
            Bench::new(start).least([whole_call, ask, commit, differs]);
        println!("| {entries} | {switch:.0} | {ask:.0} | {commit:.0} | {differs:.0} |");
    }
    true
}
