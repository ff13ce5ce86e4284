//! Stored total weights on the kernel, and weights added up, both worked out by hand.

use image::{Call, SLICE_MAX, View, block as b, check, context as c, length, record, total_weight};
use kernel::{context::switch::SCHED_PRIO_TO_WEIGHT, oracle};

const CONTEXTS: usize = 6;
/// Of priority 0, and of priority 39.
const HOLDER: usize = 2;
const WRITER: usize = 3;
const GONE: usize = 5;
/// A turn of three ticks, after which the holder's virtual time is past V.
const TURN: u64 = 6_750_000;

fn weight(prio: u64) -> u64 {
    SCHED_PRIO_TO_WEIGHT[prio as usize] as u64
}

fn block(cpu: usize) -> usize {
    record(CONTEXTS) + cpu * b::WORDS
}

/// Two CPUs, idle in 0 and 1; the holder, of weight 88,761, is in charge on this one, and the idle
/// context on the other.
fn machine(cpu: usize) -> Vec<u64> {
    let mut image = vec![0; length(2, CONTEXTS)];
    (image[0], image[1]) = (2, CONTEXTS as u64);
    for number in 0..CONTEXTS {
        image[record(number) + c::DEBUG_ID] = number as u64;
        if number != GONE {
            image[record(number) + c::SCHED_AFFINITY] = 3;
            image[record(number) + c::USERSPACE] = (number >= HOLDER).into();
            image[record(number) + c::PRIO] = [20, 20, 0, 39, 20][number];
        }
    }
    image[record(GONE) + c::GONE] = 1;
    for at in 0..2 {
        let seat = if at == cpu { HOLDER } else { at };
        image[record(seat) + c::CURRENTLY_SCHEDULED] = 1;
        image[record(seat) + c::RUNNING] = 1;
        let words = &mut image[block(at)..];
        (words[b::PRESENT], words[b::IDLE_CTXT]) = (1, at as u64);
        (words[b::CURRENT_CTXT], words[b::SCHED_CTXT]) = (seat as u64, seat as u64);
        words[b::STEAL_COUNTER] = 1;
    }
    image[record(HOLDER) + c::IS_ACTIVE] = 1;
    image[record(HOLDER) + c::REM_SLICE] = SLICE_MAX;
    image[block(cpu) + b::TOTAL_WEIGHT] = 88_761;
    image
}

/// Queues a context behind the others, with its weight in the total.
fn queue(image: &mut [u64], cpu: usize, context: usize, weight: u64) {
    let words = &mut image[block(cpu)..];
    let slot = words[b::QUEUE_COUNT] as usize;
    let vd = 1 + slot as u64;
    words[b::QUEUE_COUNT] += 1;
    (words[b::QUEUE_LEN], words[b::STEALABLE]) = (words[b::QUEUE_COUNT], 1);
    words[b::KEY_VD + slot] = vd;
    words[b::KEY_CTXT_ID + slot] = context as u64;
    words[b::ENTRY_WEIGHT + slot] = weight;
    words[b::ENTRY_CONTEXT_REF + slot] = context as u64;
    words[b::TOTAL_WEIGHT] += weight;
    if context != GONE {
        let words = &mut image[record(context)..];
        (words[c::VD], words[c::QUEUE_KEY_VD]) = (vd, vd);
        (words[c::HAS_QUEUE_KEY], words[c::IS_ACTIVE]) = (1, 1);
    }
}

fn switch(image: &mut [u64], cpu: u64, time: u64) {
    let call = Call {
        operation: 2,
        cpu,
        time,
        context: 0,
    };
    assert_eq!(check::refusal(image, &call), 0);
    assert_eq!(oracle::call(image, &call).unwrap().refusal, 0);
}

fn stored(image: &[u64]) -> [u64; 2] {
    [0, 1].map(|cpu| View(image).block(cpu, b::TOTAL_WEIGHT))
}

fn added(image: &[u64]) -> [u64; 2] {
    [0, 1].map(|cpu| total_weight::total(View(image), cpu, weight))
}

fn in_charge(image: &[u64], cpu: usize) -> usize {
    View(image).block(cpu, b::SCHED_CTXT) as usize
}

/// A switch on this CPU, from these totals to those, with the equality before and after.
fn keeps(mut image: Vec<u64>, cpu: u64, before: [u64; 2], after: [u64; 2]) {
    assert!(total_weight::weighed_always(View(&image), weight));
    assert_eq!((stored(&image), added(&image)), (before, before));
    switch(&mut image, cpu, TURN);
    assert_eq!((stored(&image), added(&image)), (after, after));
    assert!(total_weight::weighed_always(View(&image), weight));
}

fn kept() {
    // The writer wins and the holder goes back to the queue.
    let mut image = machine(0);
    queue(&mut image, 0, WRITER, 15);
    keeps(image.clone(), 0, [88_776, 0], [88_776, 0]);
    // A holder that has stopped leaves with its weight.
    image[record(HOLDER) + c::STATUS] = c::BLOCKED;
    keeps(image, 0, [88_776, 0], [15, 0]);
    // A gone entry that is passed is cleaned up with its own weight.
    let mut image = machine(0);
    queue(&mut image, 0, GONE, 700);
    queue(&mut image, 0, WRITER, 15);
    keeps(image, 0, [89_476, 0], [88_776, 0]);
    // One woken here enters with its weight.
    let mut image = machine(0);
    image[block(0) + b::LOCAL_COUNT] = 1;
    image[block(0) + b::LOCAL_WAKEUP_LIST] = WRITER as u64;
    keeps(image, 0, [88_761, 0], [88_776, 0]);
    // Idle on the other CPU steals the writer, whose weight moves.
    let mut image = machine(0);
    queue(&mut image, 0, WRITER, 15);
    image[block(1) + b::STEAL_COUNTER] = 0;
    keeps(image, 1, [88_776, 0], [88_761, 15]);
}

/// The ticket's own conditions are not kept: the holder of CPU 1, blocked and not active, is woken
/// by a timer of CPU 0. That decision keeps the equality, and the next one does not.
fn woken_elsewhere() {
    let mut image = machine(1);
    image[record(HOLDER) + c::IS_ACTIVE] = 0;
    image[record(HOLDER) + c::STATUS] = c::BLOCKED;
    (
        image[record(HOLDER) + c::HAS_WAKE],
        image[record(HOLDER) + c::WAKE],
    ) = (1, 1000);
    image[block(1) + b::TOTAL_WEIGHT] = 0;
    queue(&mut image, 1, WRITER, 15);
    image[block(0) + b::TIMERS_COUNT] = 1;
    image[block(0) + b::TIMER_WAKE] = 1000;
    image[block(0) + b::TIMER_CONTEXT_REF] = HOLDER as u64;
    assert!(total_weight::weighed(View(&image), weight));
    assert!(!total_weight::weighed_always(View(&image), weight));
    switch(&mut image, 0, 1000);
    assert_eq!(image[record(HOLDER) + c::STATUS], c::RUNNABLE);
    assert_eq!((stored(&image), added(&image)), ([0, 15], [0, 15]));
    assert!(!total_weight::weighed(View(&image), weight));
    // The holder goes back to the queue with a weight that was never added to the total.
    switch(&mut image, 1, TURN);
    assert_eq!(in_charge(&image, 1), WRITER);
    assert_eq!((stored(&image), added(&image)), ([0, 15], [0, 88_776]));
}

/// The kernel's CPUs are global: one test at a time.
#[test]
fn totals() {
    kept();
    woken_elsewhere();
}
