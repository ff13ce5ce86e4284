use super::{agrees, refusal, total, weighed, weighed_always};
use crate::{TotalWeight, View, block as b, context as c, length, record};

const CONTEXTS: usize = 6;
const HOLDER: usize = 2;
const WRITER: usize = 3;
const GONE: usize = 5;

/// Document 01's greatest and least weight, and the 1024 of its worked example.
fn weight(prio: u64) -> u64 {
    match prio {
        0 => 88_761,
        20 => 1024,
        39 => 15,
        _ => panic!("no such priority here"),
    }
}

fn block(cpu: usize) -> usize {
    record(CONTEXTS) + cpu * b::WORDS
}

/// Three CPUs, the last absent. Context 0 is idle on the first, where context 2, of priority 0,
/// is in charge and 3 (priority 39) and the gone 5 (its entry weighs 700) are queued. Context 1 is
/// idle and in charge on the second, where 4 (priority 20) is queued.
fn machine() -> Vec<u64> {
    let mut image = vec![0; length(3, CONTEXTS)];
    (image[0], image[1]) = (3, CONTEXTS as u64);
    for number in 0..CONTEXTS {
        image[record(number) + c::DEBUG_ID] = number as u64;
        image[record(number) + c::PRIO] = [20, 20, 0, 39, 20, 0][number];
    }
    image[record(GONE) + c::GONE] = 1;
    for (cpu, seat) in [HOLDER, 1].into_iter().enumerate() {
        image[record(seat) + c::CURRENTLY_SCHEDULED] = 1;
        image[block(cpu) + b::PRESENT] = 1;
        image[block(cpu) + b::IDLE_CTXT] = cpu as u64;
        image[block(cpu) + b::CURRENT_CTXT] = seat as u64;
        image[block(cpu) + b::SCHED_CTXT] = seat as u64;
    }
    image[record(HOLDER) + c::IS_ACTIVE] = 1;
    queue(&mut image, 0, &[(WRITER, 15), (GONE, 700)]);
    queue(&mut image, 1, &[(4, 1024)]);
    image[block(0) + b::TOTAL_WEIGHT] = 88_761 + 15 + 700;
    image[block(1) + b::TOTAL_WEIGHT] = 1024;
    image
}

/// Entries of these contexts and weights; a live one's record agrees with it and is active.
fn queue(image: &mut [u64], cpu: usize, entries: &[(usize, u64)]) {
    image[block(cpu) + b::QUEUE_COUNT] = entries.len() as u64;
    for (slot, (context, weight)) in entries.iter().enumerate() {
        let vd = 1000 + slot as u64;
        let words = &mut image[block(cpu)..];
        words[b::KEY_VD + slot] = vd;
        words[b::KEY_CTXT_ID + slot] = *context as u64;
        words[b::ENTRY_WEIGHT + slot] = *weight;
        words[b::ENTRY_CONTEXT_REF + slot] = *context as u64;
        if *context != GONE {
            let words = &mut image[record(*context)..];
            (words[c::VD], words[c::QUEUE_KEY_VD]) = (vd, vd);
            (words[c::HAS_QUEUE_KEY], words[c::IS_ACTIVE]) = (1, 1);
        }
    }
}

fn sum(image: &[u64], cpu: usize) -> u64 {
    total(View(image), cpu, weight)
}

/// Which of these hold: the ticket's conditions, the stronger word, the equality.
fn held(image: &[u64]) -> [bool; 3] {
    let image = View(image);
    [
        weighed(image, weight),
        weighed_always(image, weight),
        agrees(image, weight),
    ]
}

#[test]
fn sums() {
    let mut image = machine();
    assert_eq!(refusal(&image, &TotalWeight { cpu: 0 }), 0);
    assert_eq!((sum(&image, 0), sum(&image, 1)), (89_476, 1024));
    assert_eq!(held(&image), [true; 3]);
    // The entry's own weight counts, not that of the priority.
    image[block(0) + b::ENTRY_WEIGHT] = 16;
    assert_eq!(sum(&image, 0), 89_477);
    assert_eq!(held(&image), [false, false, false]);
    // In charge and not active: it does not count.
    image[record(HOLDER) + c::IS_ACTIVE] = 0;
    assert_eq!(sum(&image, 0), 716);
    // An idle context in charge counts if it is active, and then the conditions do not hold.
    let mut image = machine();
    image[record(1) + c::IS_ACTIVE] = 1;
    assert_eq!(sum(&image, 1), 2048);
    image[block(1) + b::TOTAL_WEIGHT] = 2048;
    assert_eq!(held(&image), [false, false, true]);
}

#[test]
fn stopped_holders() {
    let mut image = machine();
    image[record(HOLDER) + c::STATUS] = c::BLOCKED;
    assert_eq!(held(&image), [true; 3]);
    // One that is not active meets the ticket's conditions, not the stronger word.
    image[record(HOLDER) + c::IS_ACTIVE] = 0;
    image[block(0) + b::TOTAL_WEIGHT] = 715;
    assert_eq!(held(&image), [true, false, true]);
    image[record(HOLDER) + c::STATUS] = c::RUNNABLE;
    assert_eq!(held(&image), [false, false, true]);
}

#[test]
fn who_is_active() {
    // Queued and not active.
    let mut image = machine();
    image[record(WRITER) + c::IS_ACTIVE] = 0;
    assert_eq!(held(&image), [false, false, true]);
    // Active, and neither queued nor in charge.
    let mut image = machine();
    image[record(0) + c::IS_ACTIVE] = 1;
    assert_eq!(held(&image), [false, false, true]);
}

#[test]
fn refused() {
    let of = |image: &[u64], cpu| refusal(image, &TotalWeight { cpu });
    let mut image = machine();
    assert_eq!([2, 3, u64::MAX].map(|cpu| of(&image, cpu)), [5; 3]);
    // The earlier row is given, whatever the CPU.
    image[record(1) + c::DEBUG_ID] = 0;
    assert_eq!(of(&image, 9), 4);
    image[record(1) + c::STATUS] = 6;
    assert_eq!(of(&image, 9), 3);
    image.pop();
    assert_eq!(of(&image, 9), 2);
    assert_eq!(of(&image[..1], 9), 1);
    // No lock is asked for.
    let mut image = machine();
    image[block(0) + b::QUEUE_LOCKED] = 1;
    image[record(HOLDER) + c::LOCK] = 2;
    assert_eq!(of(&image, 0), 0);
}
