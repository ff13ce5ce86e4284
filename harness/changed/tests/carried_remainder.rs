//! Document 02, No. 8 on the changed build, and beside it what the kernel does. 1 ns is
//! 477 ticks and 491,824 over.

use image::{
    Answer, Call, REMAINDER_MAX, SLICE_MAX, block as b, check, context as c, length, record,
};

const CONTEXTS: usize = 4;
const BLOCK: usize = record(CONTEXTS);
const OTHER: usize = BLOCK + b::WORDS;
const HOLDER: usize = 2;
const READY: usize = 3;
/// What 1 ns leaves over, and what makes a tick with it.
const NS: u64 = 491_824;
const TO_A_TICK: u64 = 1_758_176;
/// The least turn that is no yield, and its ticks, with nothing left over.
const TURN: u64 = 3_375_000;
const TICKS: u64 = 1_610_612_736;

/// Two CPUs, idle in 0 and 1. Context 2 is in charge and current on the first, with a whole
/// slice and the only weight; 3 is stopped.
fn machine(remainder: u64) -> Vec<u64> {
    let mut image = vec![0; length(2, CONTEXTS)];
    (image[0], image[1]) = (2, CONTEXTS as u64);
    for number in 0..CONTEXTS {
        let at = record(number);
        image[at + c::DEBUG_ID] = number as u64;
        image[at + c::SCHED_AFFINITY] = u64::MAX;
        image[at + c::PRIO] = 20;
        image[at + c::USERSPACE] = (number > 1).into();
    }
    image[record(READY) + c::STATUS] = c::STOPPED;
    image[record(HOLDER) + c::REM_SLICE] = SLICE_MAX;
    image[record(HOLDER) + c::IS_ACTIVE] = 1;
    for (block, idle, seat) in [(BLOCK, 0, HOLDER), (OTHER, 1, 1)] {
        image[block + b::PRESENT] = 1;
        image[block + b::STEAL_COUNTER] = 1;
        image[block + b::IDLE_CTXT] = idle;
        in_charge(&mut image, block, seat);
    }
    image[BLOCK + b::TOTAL_WEIGHT] = 1024;
    image[BLOCK + b::REMAINDER] = remainder;
    image[OTHER + b::REMAINDER] = 5;
    image
}

fn in_charge(image: &mut [u64], block: usize, context: usize) {
    image[block + b::CURRENT_CTXT] = context as u64;
    image[block + b::SCHED_CTXT] = context as u64;
    image[record(context) + c::CURRENTLY_SCHEDULED] = 1;
    image[record(context) + c::RUNNING] = 1;
}

fn call(operation: u64, time: u64) -> Call {
    Call {
        operation,
        cpu: 0,
        time,
        context: READY as u64,
    }
}

/// The image after an accepted call, by the changed build and by the kernel, which keeps every
/// remainder. That of the other CPU stays in any case.
fn both(image: &[u64], call: &Call) -> [Vec<u64>; 2] {
    assert_eq!(check::refusal(image, call), 0);
    let (mut ours, mut theirs) = (image.to_vec(), image.to_vec());
    let answer = changed::oracle::call(&mut ours, call).unwrap();
    assert_eq!(answer.refusal, 0);
    // The kernel names no rule.
    let unnamed = Answer { rule: 0, ..answer };
    assert_eq!(kernel::oracle::call(&mut theirs, call).unwrap(), unnamed);
    assert_eq!(theirs[BLOCK + b::REMAINDER], image[BLOCK + b::REMAINDER]);
    assert_eq!(
        (ours[OTHER + b::REMAINDER], theirs[OTHER + b::REMAINDER]),
        (5, 5)
    );
    [ours, theirs]
}

/// The remainder that the changed build leaves; nothing else is another one than the kernel's.
fn left(image: &[u64], call: &Call) -> u64 {
    let [ours, mut theirs] = both(image, call);
    theirs[BLOCK + b::REMAINDER] = ours[BLOCK + b::REMAINDER];
    assert_eq!(ours, theirs);
    ours[BLOCK + b::REMAINDER]
}

/// Five turns of 1 ns are 2,386 ticks and leave 209,120. With a total weight of 1 and nothing of
/// its slice a holder that stays shows them in V; the kernel gives 477 each time.
fn five_turns() {
    let mut image = machine(0);
    image[BLOCK + b::TOTAL_WEIGHT] = 1;
    let mut kept = image.clone();
    for time in 1..=5 {
        for image in [&mut image, &mut kept] {
            image[record(HOLDER) + c::REM_SLICE] = 0;
        }
        [image, _] = both(&image, &call(2, time));
        [_, kept] = both(&kept, &call(2, time));
    }
    assert_eq!(image[BLOCK + b::V], 2386);
    assert_eq!(image[BLOCK + b::REMAINDER], 209_120);
    assert_eq!(kept[BLOCK + b::V], 2385);
    assert_eq!(kept[BLOCK + b::REMAINDER], 0);
}

fn one_tick_more() {
    let slice = |image: &[u64]| image[record(HOLDER) + c::REM_SLICE];
    for (carried, remainder, more) in [
        (0, NS, 0),
        (777, NS + 777, 0),
        (1_234_567, 1_726_391, 0),
        (TO_A_TICK - 1, REMAINDER_MAX, 0),
        (TO_A_TICK, 0, 1),
        (REMAINDER_MAX, NS - 1, 1),
    ] {
        let [ours, theirs] = both(&machine(carried), &call(2, TURN + 1));
        assert_eq!(ours[BLOCK + b::REMAINDER], remainder);
        assert_eq!(slice(&theirs), SLICE_MAX - TICKS - 477);
        assert_eq!(slice(&ours), SLICE_MAX - TICKS - 477 - more);
    }
}

/// Idle in charge, a holder that has stopped, a total weight of 0, a due tick: each stores it.
fn every_decision() {
    let switch = call(2, 1);
    assert_eq!(left(&machine(777), &switch), NS + 777);
    let mut idle = machine(777);
    idle[record(HOLDER)..][..c::WORDS].fill(0);
    (
        idle[record(HOLDER) + c::DEBUG_ID],
        idle[record(HOLDER) + c::STATUS],
    ) = (2, c::STOPPED);
    in_charge(&mut idle, BLOCK, 0);
    assert_eq!(left(&idle, &switch), NS + 777);
    let mut stopped = machine(REMAINDER_MAX);
    stopped[record(HOLDER) + c::STATUS] = c::BLOCKED;
    assert_eq!(left(&stopped, &switch), NS - 1);
    let mut weightless = machine(777);
    weightless[BLOCK + b::TOTAL_WEIGHT] = 0;
    assert_eq!(left(&weightless, &switch), NS + 777);
    let mut due = machine(777);
    due[BLOCK + b::PIT_TICKS] = 2;
    assert_eq!(left(&due, &call(1, 1)), NS + 777);
    // Context 3 cannot be switched to.
    assert_eq!(left(&machine(777), &call(3, 1)), NS + 777);
    // No time has passed, or less than none.
    assert_eq!(left(&machine(777), &call(2, 0)), 777);
    let mut back = machine(REMAINDER_MAX);
    back[BLOCK + b::SCHEDULE_TIME] = 5;
    assert_eq!(left(&back, &call(2, 4)), REMAINDER_MAX);
}

/// An undue tick, a direct switch, a direct switch back, and one that finds no room.
fn no_decision() {
    assert_eq!(left(&machine(777), &call(1, TURN)), 777);
    let mut ready = machine(777);
    ready[record(READY) + c::STATUS] = c::RUNNABLE;
    assert_eq!(left(&ready, &call(3, TURN)), 777);
    let [lent, _] = both(&ready, &call(3, TURN));
    assert_eq!(lent[BLOCK + b::CURRENT_CTXT], READY as u64);
    assert_eq!(left(&lent, &call(2, TURN)), 777);
    // The local list is full when context 3 is left.
    let mut full = lent;
    full[record(HOLDER) + c::STATUS] = c::BLOCKED;
    full[record(READY) + c::LOCK] = 0;
    full[BLOCK + b::LOCAL_COUNT] = 64;
    full[BLOCK + b::LOCAL_WAKEUP_LIST..][..64].fill(1);
    full[record(1) + c::LOCK] = 1;
    let mut after = full.clone();
    let answer = changed::oracle::call(&mut after, &call(2, TURN)).unwrap();
    assert_eq!((answer, after), (Answer::refused(9), full));
}

/// The kernel's CPUs are global: one test at a time.
#[test]
fn carried_remainder() {
    five_turns();
    one_tick_more();
    every_decision();
    no_decision();
}
