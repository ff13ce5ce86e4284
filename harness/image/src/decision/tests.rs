use super::{is_made, unreadable_due};
use crate::{Call, View, block as b, context as c, length, record};

const CONTEXTS: usize = 4;
const BLOCK: usize = 2 + CONTEXTS * c::WORDS;

/// One CPU, idle in 0; 1 is in charge and current; 2 can run, 3 sleeps and is written by
/// another CPU, its timer is set for 1001.
fn machine() -> Vec<u64> {
    let mut image = vec![0; length(1, CONTEXTS)];
    (image[0], image[1]) = (1, CONTEXTS as u64);
    for number in 0..CONTEXTS {
        image[record(number) + c::SCHED_AFFINITY] = 1;
    }
    image[record(1) + c::RUNNING] = 1;
    image[record(1) + c::CURRENTLY_SCHEDULED] = 1;
    image[record(3) + c::STATUS] = c::BLOCKED;
    image[record(3) + c::LOCK] = 2;
    image[BLOCK + b::PRESENT] = 1;
    image[BLOCK + b::CURRENT_CTXT] = 1;
    image[BLOCK + b::SCHED_CTXT] = 1;
    image[BLOCK + b::TIMERS_COUNT] = 1;
    image[BLOCK + b::TIMER_WAKE] = 1001;
    image[BLOCK + b::TIMER_CONTEXT_REF] = 3;
    image
}

fn at(operation: u64, context: u64) -> Call {
    Call {
        operation,
        cpu: 0,
        time: 1000,
        context,
    }
}

fn both(image: &[u64], call: Call) -> (bool, bool) {
    (
        is_made(View(image), &call),
        unreadable_due(View(image), &call),
    )
}

#[test]
fn ticks() {
    let mut image = machine();
    for (ticks, due) in [(0, false), (1, false), (2, true), (3, true)] {
        image[BLOCK + b::PIT_TICKS] = ticks;
        assert_eq!(both(&image, at(1, 0)), (due, due));
    }
}

#[test]
fn direct_switches() {
    let mut image = machine();
    // To the current one, to one that can run, to one that cannot.
    assert_eq!(both(&image, at(3, 1)), (false, false));
    assert_eq!(both(&image, at(3, 2)), (false, false));
    image[record(2) + c::SCHED_AFFINITY] = 2;
    assert_eq!(both(&image, at(3, 2)), (true, true));
    // A wake that has come makes it able to run.
    image[record(2) + c::SCHED_AFFINITY] = 1;
    image[record(2) + c::STATUS] = c::BLOCKED;
    image[record(2) + c::HAS_WAKE] = 1;
    for (wake, decides) in [(1000, false), (1001, true)] {
        image[record(2) + c::WAKE] = wake;
        assert_eq!(both(&image, at(3, 2)), (decides, decides));
    }
}

/// The one in charge gets the CPU back if it can run; nothing is decided then.
#[test]
fn switch_back() {
    let mut image = machine();
    image[BLOCK + b::CURRENT_CTXT] = 2;
    image[record(1) + c::RUNNING] = 0;
    assert_eq!(both(&image, at(2, 0)), (false, false));
    image[record(1) + c::STATUS] = c::STOPPED;
    assert_eq!(both(&image, at(2, 0)), (true, true));
}

#[test]
fn timers() {
    let mut image = machine();
    assert_eq!(both(&image, at(2, 0)), (true, true));
    assert_eq!(both(&image, at(4, 2)), (false, false));
    image[BLOCK + b::TIMER_WAKE] = 1002;
    assert_eq!(both(&image, at(2, 0)), (true, false));
    image[BLOCK + b::TIMER_WAKE] = 0;
    for (lock, unreadable) in [(0, false), (1, false), (2, true)] {
        image[record(3) + c::LOCK] = lock;
        assert_eq!(both(&image, at(2, 0)), (true, unreadable));
    }
    // The one in charge, then one that is current only, then a gone one.
    image[BLOCK + b::TIMER_CONTEXT_REF] = 1;
    assert_eq!(both(&image, at(2, 0)), (true, true));
    image[BLOCK + b::SCHED_CTXT] = 0;
    image[record(0) + c::STATUS] = c::STOPPED;
    assert_eq!(both(&image, at(2, 0)), (true, false));
    image[BLOCK + b::TIMER_CONTEXT_REF] = 3;
    image[record(3)..record(4)].fill(0);
    image[record(3) + c::GONE] = 1;
    assert_eq!(both(&image, at(2, 0)), (true, false));
}
