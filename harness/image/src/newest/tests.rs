use super::{put_in, superseded, without_superseded};
use crate::{
    Call, ROOM, View, block as b, check, context as c, decision, length, put_timers, record,
};

const CONTEXTS: usize = 64;
const BLOCK: usize = record(CONTEXTS);
const OTHER: usize = BLOCK + b::WORDS;
const HOLDER: u64 = 2;
const SWITCH: Call = Call {
    operation: 2,
    cpu: 0,
    time: 1000,
    context: 0,
};

/// Two CPUs, idle in 0 and 1. Context 2 is in charge and current on the first and sleeps until
/// 5000; all others can run.
fn machine(timers: &[(u64, u64)]) -> Vec<u64> {
    let mut image = vec![0; length(2, CONTEXTS)];
    (image[0], image[1]) = (2, CONTEXTS as u64);
    for number in 0..CONTEXTS {
        image[record(number) + c::DEBUG_ID] = number as u64;
        image[record(number) + c::SCHED_AFFINITY] = u64::MAX;
    }
    let holder = record(HOLDER as usize);
    image[holder + c::STATUS] = c::BLOCKED;
    image[holder + c::HAS_WAKE] = 1;
    image[holder + c::WAKE] = 5000;
    for (block, idle, seat) in [(BLOCK, 0, HOLDER), (OTHER, 1, 1)] {
        image[block + b::PRESENT] = 1;
        image[block + b::CURRENT_CTXT] = seat;
        image[block + b::SCHED_CTXT] = seat;
        image[block + b::IDLE_CTXT] = idle;
    }
    put_timers(&mut image, BLOCK, timers);
    image
}

fn refusal(image: &[u64]) -> u64 {
    check::refusal(image, &SWITCH)
}

#[test]
fn removed() {
    // Due, not due, later than the wake put in; among others of that wake.
    for wake in [0, 1000, 1001, 1002, 4999, 5001, 9000] {
        let mut timers = [(1000, 7), (wake, HOLDER), (5000, 1), (5000, 3)];
        timers.sort_unstable();
        let image = machine(&timers);
        assert_eq!(refusal(&image), 0);
        assert_eq!(put_in(View(&image), &SWITCH), Some((5000, HOLDER)));
        assert_eq!(superseded(View(&image), &SWITCH), Some((wake, HOLDER)));
        assert!(decision::departs(View(&image), &SWITCH));
        let left = without_superseded(View(&image), &SWITCH);
        assert_eq!(left, machine(&[(1000, 7), (5000, 1), (5000, 3)]));
    }
}

#[test]
fn the_pair_itself_stays() {
    let image = machine(&[(4000, 3), (5000, HOLDER)]);
    assert_eq!(superseded(View(&image), &SWITCH), None);
    assert!(!decision::departs(View(&image), &SWITCH));
    assert_eq!(without_superseded(View(&image), &SWITCH), image);
}

#[test]
fn none_is_put_in() {
    let own = [(9000, HOLDER)];
    let holder = record(HOLDER as usize);
    let none = |image: &[u64], call: &Call| {
        assert_eq!(put_in(View(image), call), None);
        assert_eq!(superseded(View(image), call), None);
        assert!(!decision::departs(View(image), call));
    };
    // It runs on, though it has a wake.
    let mut image = machine(&own);
    image[holder + c::STATUS] = c::RUNNABLE;
    none(&image, &SWITCH);
    // It has no wake.
    let mut image = machine(&own);
    image[holder + c::HAS_WAKE] = 0;
    image[holder + c::WAKE] = 0;
    none(&image, &SWITCH);
    // It is idle.
    let mut image = machine(&own);
    image[BLOCK + b::IDLE_CTXT] = HOLDER;
    none(&image, &SWITCH);
    // The tick is not due.
    none(
        &machine(&own),
        &Call {
            operation: 1,
            ..SWITCH
        },
    );
}

/// The timers of another CPU are not looked at.
#[test]
fn another_cpu() {
    let mut image = machine(&[(4000, 3)]);
    put_timers(&mut image, OTHER, &[(900, 3), (4000, HOLDER)]);
    assert_eq!(refusal(&image), 0);
    assert_eq!(superseded(View(&image), &SWITCH), None);
}

#[test]
fn one_each() {
    let refused = |timers: &[(u64, u64)]| refusal(&machine(timers));
    assert_eq!(refused(&[(5, 3), (6, 4), (7, 5)]), 0);
    // Neighbours, others between them, the first and the last.
    assert_eq!(refused(&[(5, 3), (6, 3), (7, 5)]), 4);
    assert_eq!(refused(&[(5, 3), (6, 4), (7, 3)]), 4);
    assert_eq!(refused(&[(5, 63), (6, 4), (7, 5), (7, 63)]), 4);
    assert_eq!(refused(&[(5, 3), (5, 3)]), 4);
    // A gone context's too.
    let mut image = machine(&[(5, 9), (6, 3), (7, 9)]);
    let gone = record(9);
    image[gone + c::STATUS..gone + c::WORDS].fill(0);
    image[gone + c::GONE] = 1;
    assert_eq!(refusal(&image), 4);
    // One of each of the 64.
    let mut all: Vec<(u64, u64)> = (0..64).map(|x| (9000 - x / 2, x)).collect();
    all.sort_unstable();
    assert_eq!((refused(&all), all.len()), (0, ROOM));
    all[63].1 = all[0].1;
    assert_eq!(refused(&all), 4);
}
