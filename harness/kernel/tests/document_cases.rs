//! The single cases of document 01 that show in an image, run on the kernel.

use image::{Call, SLICE_MAX, block as b, check, context as c, length, record};
use kernel::oracle;

const BLOCK: usize = 2 + 3 * c::WORDS;

/// One CPU, context 0 idle, context 1 in charge and current with priority 20 and a
/// whole slice, context 2 blocked.
fn machine(cpus: usize) -> Vec<u64> {
    let mut image = vec![0; length(cpus, 3)];
    image[0] = cpus as u64;
    image[1] = 3;
    for number in 0..3 {
        let at = record(number);
        image[at + c::DEBUG_ID] = number as u64;
        image[at + c::SCHED_AFFINITY] = u64::MAX;
        image[at + c::PRIO] = 20;
        image[at + c::USERSPACE] = (number > 0).into();
    }
    image[record(1) + c::CURRENTLY_SCHEDULED] = 1;
    image[record(1) + c::RUNNING] = 1;
    image[record(1) + c::IS_ACTIVE] = 1;
    image[record(1) + c::REM_SLICE] = SLICE_MAX;
    image[record(2) + c::STATUS] = c::BLOCKED;
    image[BLOCK + b::PRESENT] = 1;
    image[BLOCK + b::CURRENT_CTXT] = 1;
    image[BLOCK + b::SCHED_CTXT] = 1;
    image[BLOCK + b::TOTAL_WEIGHT] = 1024;
    image[BLOCK + b::STEAL_COUNTER] = 1;
    image
}

fn switched(mut image: Vec<u64>, time: u64) -> Vec<u64> {
    let call = Call {
        operation: 2,
        time,
        ..Call::default()
    };
    assert_eq!(check::refusal(&image, &call), 0);
    assert_eq!(oracle::call(&mut image, &call).unwrap().refusal, 0);
    image
}

fn charging() {
    let turn = switched(machine(1), 3_375_000);
    assert_eq!(turn[record(1) + c::VTIME], 1_572_864);
    assert_eq!(turn[record(1) + c::REM_SLICE], 8_053_063_680);
    let short = switched(machine(1), 3_374_999);
    assert_eq!(short[record(1) + c::VTIME], 9_437_183);
    assert_eq!(short[record(1) + c::VD], 18_874_367);
    assert_eq!(short[record(1) + c::REM_SLICE], SLICE_MAX);
}

fn whole_slices() {
    for (prio, slice) in [(0, 108_873), (20, 9_437_184), (39, 644_245_094)] {
        let mut image = machine(1);
        image[record(1) + c::PRIO] = prio;
        image[record(1) + c::REM_SLICE] = 0;
        // No time has passed: the deadline is one whole slice away.
        assert_eq!(switched(image, 0)[record(1) + c::VD], slice);
    }
}

fn timers() {
    for (wake, due) in [(1000, true), (1001, true), (1002, false)] {
        let mut image = machine(1);
        image[record(2) + c::HAS_WAKE] = 1;
        image[record(2) + c::WAKE] = wake;
        image[BLOCK + b::TIMERS_COUNT] = 1;
        image[BLOCK + b::TIMER_WAKE] = wake;
        image[BLOCK + b::TIMER_CONTEXT_REF] = 2;
        let after = switched(image, 1000);
        assert_eq!(after[BLOCK + b::TIMERS_COUNT] == 0, due);
        assert_eq!(after[record(2) + c::STATUS] == c::RUNNABLE, due);
    }
}

fn counter() {
    let mut image = machine(1);
    image[BLOCK + b::STEAL_COUNTER] = u64::MAX;
    assert_eq!(switched(image, 0)[BLOCK + b::STEAL_COUNTER], 0);
}

fn limits() {
    let call = |time| Call {
        operation: 2,
        time,
        ..Call::default()
    };
    let mut image = machine(1);
    assert_eq!(check::refusal(&image, &call((1 << 52) - 1)), 0);
    assert_eq!(check::refusal(&image, &call(1 << 52)), 8);
    image[record(1) + c::PRIO] = 39;
    assert_eq!(check::refusal(&image, &call(0)), 0);
    image[record(1) + c::PRIO] = 40;
    assert_eq!(check::refusal(&image, &call(0)), 3);
}

/// How many of `length` entries of CPU 1 a decision on CPU 0 takes.
fn robbed(idle: bool, length: usize) -> u64 {
    let mut image = machine(2);
    let victim = BLOCK + b::WORDS;
    if idle {
        image[BLOCK + b::CURRENT_CTXT] = 0;
        image[BLOCK + b::SCHED_CTXT] = 0;
        image[record(1) + c::CURRENTLY_SCHEDULED] = 0;
    }
    image[BLOCK + b::STEAL_COUNTER] = 0;
    image[victim + b::PRESENT] = 1;
    image[victim + b::STEALABLE] = 1;
    image[victim + b::QUEUE_LEN] = length as u64;
    image[victim + b::QUEUE_COUNT] = length as u64;
    image[victim + b::CURRENT_CTXT] = 0;
    image[victim + b::SCHED_CTXT] = 0;
    // Context 2 is queued once; the other entries are of context 0, and cannot be taken
    // twice by one decision.
    image[record(2) + c::STATUS] = c::RUNNABLE;
    image[record(0) + c::CURRENTLY_SCHEDULED] = 0;
    for slot in 0..length {
        image[victim + b::KEY_VD + slot] = slot as u64 + 1;
        image[victim + b::ENTRY_WEIGHT + slot] = 1024;
        image[victim + b::ENTRY_CONTEXT_REF + slot] = if slot == 0 { 2 } else { 0 };
        image[victim + b::KEY_CTXT_ID + slot] = if slot == 0 { 2 } else { 0 };
    }
    let after = switched(image, 0);
    length as u64 - after[victim + b::QUEUE_COUNT]
}

fn stealing() {
    assert_eq!(robbed(true, 0), 0);
    assert_eq!(robbed(true, 1), 1);
    assert_eq!(robbed(false, 1), 0);
    assert_eq!(robbed(false, 2), 1);
    assert_eq!(robbed(false, 3), 1);
    assert_eq!(robbed(false, 4), 2);
}

/// The kernel's CPUs are global: one test at a time.
#[test]
fn document_cases() {
    charging();
    whole_slices();
    timers();
    counter();
    limits();
    stealing();
}
