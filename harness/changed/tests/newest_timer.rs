//! Document 02, No. 4 on the changed build, and beside it what the kernel does.

use image::{
    Answer, Call, ROOM, View, block as b, check, context as c, length, put_timers, record,
};

const CONTEXTS: usize = 64;
const BLOCK: usize = record(CONTEXTS);
const OTHER: usize = BLOCK + b::WORDS;
const HOLDER: u64 = 2;
const WAKE: u64 = 5000;
const SWITCH: Call = Call {
    operation: 2,
    cpu: 0,
    time: 1000,
    context: 0,
};

type Timers = Vec<(u64, u64)>;

/// Two CPUs, idle in 0 and 1. Context 2 is in charge and current on the first and sleeps until
/// 5000; the others are stopped.
fn machine(timers: &[(u64, u64)]) -> Vec<u64> {
    let mut image = vec![0; length(2, CONTEXTS)];
    (image[0], image[1]) = (2, CONTEXTS as u64);
    for number in 0..CONTEXTS {
        let at = record(number);
        image[at + c::DEBUG_ID] = number as u64;
        image[at + c::SCHED_AFFINITY] = u64::MAX;
        image[at + c::PRIO] = 20;
        image[at + c::USERSPACE] = (number > 1).into();
        image[at + c::STATUS] = if number > 1 { c::STOPPED } else { c::RUNNABLE };
    }
    sleeps(&mut image, HOLDER, WAKE);
    for (block, idle, seat) in [(BLOCK, 0, HOLDER), (OTHER, 1, 1)] {
        image[block + b::PRESENT] = 1;
        image[block + b::STEAL_COUNTER] = 1;
        image[block + b::CURRENT_CTXT] = seat;
        image[block + b::SCHED_CTXT] = seat;
        image[block + b::IDLE_CTXT] = idle;
        image[record(seat as usize) + c::CURRENTLY_SCHEDULED] = 1;
        image[record(seat as usize) + c::RUNNING] = 1;
    }
    put_timers(&mut image, BLOCK, timers);
    image
}

fn sleeps(image: &mut [u64], context: u64, wake: u64) {
    let at = record(context as usize);
    image[at + c::STATUS] = c::BLOCKED;
    image[at + c::HAS_WAKE] = 1;
    image[at + c::WAKE] = wake;
}

/// The timers here after an accepted switch, by the changed build and by the kernel; all other
/// words are the same, but for the remainder, which only the former stores.
fn left(image: &[u64]) -> [Timers; 2] {
    assert_eq!(check::refusal(image, &SWITCH), 0);
    let (mut ours, mut theirs) = (image.to_vec(), image.to_vec());
    let answer = changed::oracle::call(&mut ours, &SWITCH).unwrap();
    assert_eq!((answer.refusal, answer.result), (0, 1));
    // The kernel names no rule.
    let unnamed = Answer { rule: 0, ..answer };
    assert_eq!(kernel::oracle::call(&mut theirs, &SWITCH).unwrap(), unnamed);
    let left = [&ours, &theirs].map(|image| View(image).timers(0).collect());
    for image in [&mut ours, &mut theirs] {
        put_timers(image, BLOCK, &[]);
        image[BLOCK + b::REMAINDER] = 0;
    }
    assert_eq!(ours, theirs);
    left
}

fn older_and_later() {
    let new = (WAKE, HOLDER);
    // Due: the source has lost it.
    assert_eq!(left(&machine(&[(1000, HOLDER)])), [vec![new], vec![new]]);
    assert_eq!(left(&machine(&[(1001, HOLDER)])), [vec![new], vec![new]]);
    for wake in [1002, 4999, 5001, 9000] {
        let old = (wake, HOLDER);
        let both = vec![old.min(new), old.max(new)];
        assert_eq!(left(&machine(&[old])), [vec![new], both]);
    }
    // The pair itself, and others of its wake.
    let set = vec![(WAKE, 1), new, (WAKE, 3)];
    assert_eq!(left(&machine(&set)), [set.clone(), set]);
}

fn full() {
    let all = |own: u64| -> Timers {
        let wake = |x| if x == HOLDER { own } else { 6000 + x };
        let mut all: Timers = (0..CONTEXTS as u64).map(|x| (wake(x), x)).collect();
        all.sort_unstable();
        all
    };
    // 64 timers of 64 contexts, the holder's among them: the source has no room for another.
    let image = machine(&all(9000));
    let mut theirs = image.clone();
    let refused = kernel::oracle::call(&mut theirs, &SWITCH).unwrap();
    assert_eq!(refused, Answer::refused(9));
    let mut ours = image.clone();
    let answer = changed::oracle::call(&mut ours, &SWITCH).unwrap();
    assert_eq!((answer.refusal, answer.result), (0, 1));
    let timers: Timers = View(&ours).timers(0).collect();
    assert_eq!((timers.len(), timers), (ROOM, all(WAKE)));
    // The holder's own with just its wake.
    assert_eq!(left(&machine(&all(WAKE))), [all(WAKE), all(WAKE)]);
}

/// Neither another CPU's set nor timers of other contexts; one put back for a lock removes none.
fn others_stay() {
    let mut image = machine(&[(1000, 9), (4000, 7), (8000, HOLDER)]);
    put_timers(&mut image, OTHER, &[(800, HOLDER), (4000, 7)]);
    sleeps(&mut image, 9, 1000);
    for (lock, kept) in [(1, true), (2, false)] {
        image[record(9) + c::LOCK] = lock;
        let locked = (1000, 9);
        let mut theirs = vec![(4000, 7), (WAKE, HOLDER), (8000, HOLDER)];
        if kept {
            theirs.insert(0, locked);
        }
        let ours = vec![locked, (4000, 7), (WAKE, HOLDER)];
        assert_eq!(left(&image), [ours, theirs]);
    }
}

/// The kernel's CPUs are global: one test at a time.
#[test]
fn newest_timer() {
    older_and_later();
    full();
    others_stay();
}
