use super::{judged, judges};
use crate::{Call, SLICE_MAX, View, block as b, context as c, length, record};

const CONTEXTS: usize = 4;
const HOLDER: usize = 2;
const WRITER: usize = 3;
/// A turn of three ticks: at a weight of 1024 its virtual time is 3·2^20.
const SWITCH: Call = Call {
    operation: 2,
    cpu: 0,
    time: 6_750_000,
    context: 0,
};
const TURN: u64 = 3 << 20;
const LEFT: u64 = 6 << 30;

fn block(cpu: usize) -> usize {
    record(CONTEXTS) + cpu * b::WORDS
}

/// Two CPUs, idle in 0 and 1; on CPU 0 the holder has a whole slice and the deadline 1000.
fn machine(v: u64) -> Vec<u64> {
    let mut image = vec![0; length(2, CONTEXTS)];
    (image[0], image[1]) = (2, CONTEXTS as u64);
    for number in 0..CONTEXTS {
        image[record(number) + c::DEBUG_ID] = number as u64;
        image[record(number) + c::SCHED_AFFINITY] = 3;
        image[record(number) + c::USERSPACE] = (number >= HOLDER).into();
        image[record(number) + c::PRIO] = 20;
    }
    for (cpu, sched) in [HOLDER, 1].into_iter().enumerate() {
        image[record(sched) + c::CURRENTLY_SCHEDULED] = 1;
        image[record(sched) + c::RUNNING] = 1;
        let words = &mut image[block(cpu)..];
        words[b::PRESENT] = 1;
        words[b::IDLE_CTXT] = cpu as u64;
        (words[b::CURRENT_CTXT], words[b::SCHED_CTXT]) = (sched as u64, sched as u64);
    }
    image[block(0) + b::V] = v;
    image[record(HOLDER) + c::VD] = 1000;
    image[record(HOLDER) + c::REM_SLICE] = SLICE_MAX;
    image
}

/// The writer queued, with this deadline, slice and virtual time.
fn queued(mut image: Vec<u64>, cpu: usize, vd: u64, rem_slice: u64, vtime: u64) -> Vec<u64> {
    let at = record(WRITER);
    image[at + c::HAS_QUEUE_KEY] = 1;
    (image[at + c::VD], image[at + c::QUEUE_KEY_VD]) = (vd, vd);
    (image[at + c::REM_SLICE], image[at + c::QUEUE_KEY_REM_SLICE]) = (rem_slice, rem_slice);
    image[at + c::VTIME] = vtime;
    let words = &mut image[block(cpu)..];
    words[b::QUEUE_COUNT] = 1;
    words[b::KEY_VD] = vd;
    words[b::KEY_REM_SLICE] = rem_slice;
    words[b::KEY_CTXT_ID] = WRITER as u64;
    words[b::ENTRY_VTIME] = vtime;
    words[b::ENTRY_WEIGHT] = 1024;
    words[b::ENTRY_CONTEXT_REF] = WRITER as u64;
    image
}

fn stopped(mut image: Vec<u64>) -> Vec<u64> {
    image[record(HOLDER) + c::STATUS] = c::STOPPED;
    image
}

/// Of a decision that leaves this context in charge.
fn rule(image: &[u64], in_charge: usize) -> u64 {
    assert!(judges(View(image), &SWITCH));
    let mut after = image.to_vec();
    after[block(0) + b::SCHED_CTXT] = in_charge as u64;
    judged(View(image), &SWITCH, View(&after), |_| 1024)
}

/// V is so late that the holder is eligible after its turn.
#[test]
fn eligible() {
    let with = |vd, rem_slice, vtime| queued(machine(2 * TURN), 0, vd, rem_slice, vtime);
    assert_eq!(rule(&with(999, SLICE_MAX, 0), WRITER), 1);
    assert_eq!(rule(&with(1000, LEFT, 0), WRITER), 1);
    assert_eq!(rule(&with(1001, SLICE_MAX, 0), HOLDER), 2);
    assert_eq!(rule(&with(1000, LEFT - 1, 0), HOLDER), 3);
    assert_eq!(rule(&with(10, SLICE_MAX, 2 * TURN + 1), HOLDER), 4);
    assert_eq!(rule(&machine(2 * TURN), HOLDER), 4);
}

#[test]
fn nobody_eligible() {
    let with = |vd, vtime| queued(machine(0), 0, vd, SLICE_MAX, vtime);
    assert_eq!(rule(&with(2000, 0), WRITER), 1);
    assert_eq!(rule(&machine(0), HOLDER), 5);
    assert_eq!(rule(&with(10, TURN), HOLDER), 5);
    assert_eq!(rule(&with(2000, TURN), HOLDER), 5);
    assert_eq!(rule(&with(1000, TURN - 1), HOLDER), 6);
    assert_eq!(rule(&with(999, TURN - 1), WRITER), 7);
    assert_eq!(rule(&stopped(with(2000, 5)), WRITER), 7);
}

#[test]
fn nobody_waits() {
    let elsewhere = |image| queued(image, 1, 10, SLICE_MAX, 0);
    assert_eq!(rule(&stopped(elsewhere(machine(0))), WRITER), 8);
    assert_eq!(rule(&stopped(elsewhere(machine(0))), 0), 9);
    assert_eq!(rule(&stopped(machine(0)), 0), 9);
    let mut written = stopped(queued(machine(0), 0, 10, SLICE_MAX, 0));
    written[record(WRITER) + c::LOCK] = 2;
    assert_eq!(rule(&written, 0), 9);
}

/// A name on the local list enters the queue with V and a new deadline, 9·2^20 later.
#[test]
fn woken() {
    let mut image = machine(0);
    image[block(0) + b::LOCAL_COUNT] = 1;
    image[block(0) + b::LOCAL_WAKEUP_LIST] = WRITER as u64;
    assert_eq!(rule(&image, WRITER), 1);
    image[record(WRITER) + c::VTIME] = TURN - 1;
    assert_eq!(rule(&image, HOLDER), 6);
    // Queued on CPU 1, it would be queued twice.
    assert!(!judges(View(&queued(image, 1, 10, SLICE_MAX, 0)), &SWITCH));
}
