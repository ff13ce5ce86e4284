//! Counters of the blocks of the decisions, where the copy has them.

use std::cell::{Cell, RefCell};

include!(concat!(env!("OUT_DIR"), "/tree/blocks.rs"));

thread_local! {
    static REACHED: RefCell<Vec<u32>> = RefCell::new(vec![0; BLOCKS.len()]);
}

pub fn reach(number: usize) {
    REACHED.with(|reached| reached.borrow_mut()[number] += 1);
}

/// What had no room: queue, timers, local list, interrupt list.
pub const FULL: [&str; 4] = ["queue", "timers", "local list", "interrupt list"];

thread_local! {
    static NO_ROOM: Cell<Option<usize>> = const { Cell::new(None) };
}

pub fn no_room(which: usize) {
    NO_ROOM.set(Some(which));
}

/// What had no room since this was last asked.
pub fn take_no_room() -> Option<usize> {
    NO_ROOM.take()
}

/// How often each block was reached since this was last asked.
pub fn take() -> Vec<u32> {
    REACHED.with(|reached| reached.replace(vec![0; BLOCKS.len()]))
}
