//! Document 02, No. 2 on the changed build, and beside it what the kernel does.

use image::{
    Answer, Call, View, block as b, check, context as c, decision, length, put_timers, record,
};

const CONTEXTS: usize = 6;
const BLOCK: usize = 2 + CONTEXTS * c::WORDS;
const TIME: u64 = 6_750_000;
const IDLE: usize = 0;
const HOLDER: usize = 1;
const WRITER: usize = 2;
const OTHER: usize = 3;
const THIRD: usize = 4;
const GONE: usize = 5;

/// One CPU. Context 1 is in charge and runs on; 2, 3 and 4 sleep until the time of the call; 5 is gone.
fn machine() -> Vec<u64> {
    let mut image = vec![0; length(1, CONTEXTS)];
    (image[0], image[1]) = (1, CONTEXTS as u64);
    for number in 0..CONTEXTS {
        image[record(number) + c::DEBUG_ID] = number as u64;
        if number == GONE {
            image[record(number) + c::GONE] = 1;
            continue;
        }
        image[record(number) + c::SCHED_AFFINITY] = u64::MAX;
        image[record(number) + c::PRIO] = 20;
        image[record(number) + c::USERSPACE] = (number != IDLE).into();
        if number > HOLDER {
            image[record(number) + c::STATUS] = c::BLOCKED;
            image[record(number) + c::HAS_WAKE] = 1;
            image[record(number) + c::WAKE] = TIME;
        }
    }
    image[BLOCK + b::PRESENT] = 1;
    image[BLOCK + b::STEAL_COUNTER] = 1;
    seat(&mut image, HOLDER);
    image
}

fn seat(image: &mut [u64], context: usize) {
    for number in [IDLE, HOLDER] {
        let seated = u64::from(number == context);
        image[record(number) + c::CURRENTLY_SCHEDULED] = seated;
        image[record(number) + c::RUNNING] = seated;
    }
    image[BLOCK + b::CURRENT_CTXT] = context as u64;
    image[BLOCK + b::SCHED_CTXT] = context as u64;
}

fn put(image: &mut [u64], timers: &[(u64, usize)]) {
    let timers: Vec<(u64, u64)> = timers.iter().map(|(w, x)| (*w, *x as u64)).collect();
    put_timers(image, BLOCK, &timers);
}

fn timers(image: &[u64]) -> Vec<(u64, usize)> {
    let timers = View(image).timers(0);
    timers.map(|(wake, x)| (wake, x as usize)).collect()
}

const SWITCH: Call = Call {
    operation: 2,
    cpu: 0,
    time: TIME,
    context: 0,
};

/// The timers after an accepted switch, by the changed build and by the kernel.
fn left(image: &[u64]) -> [Vec<(u64, usize)>; 2] {
    assert_eq!(check::refusal(image, &SWITCH), 0);
    let (mut ours, mut theirs) = (image.to_vec(), image.to_vec());
    let answer = changed::oracle::call(&mut ours, &SWITCH).unwrap();
    assert_eq!(answer.refusal, 0);
    // The kernel names no rule.
    let unnamed = Answer { rule: 0, ..answer };
    assert_eq!(kernel::oracle::call(&mut theirs, &SWITCH).unwrap(), unnamed);
    // Woken or not, a context is as the kernel leaves it.
    assert_eq!(ours[..BLOCK], theirs[..BLOCK]);
    [timers(&ours), timers(&theirs)]
}

fn locks() {
    for (lock, ours, theirs) in [(0, 0, 0), (1, 1, 1), (2, 1, 0)] {
        let mut image = machine();
        image[record(WRITER) + c::LOCK] = lock;
        put(&mut image, &[(TIME, WRITER)]);
        let due = decision::unreadable_due(View(&image), &SWITCH);
        assert_eq!(due, lock == 2);
        assert_eq!(left(&image).map(|timers| timers.len()), [ours, theirs]);
    }
}

/// With a wake that its context no longer has, only one that can be read is dropped.
fn no_longer_fits() {
    for (lock, ours) in [(0, 0), (1, 0), (2, 1)] {
        let mut image = machine();
        image[record(WRITER) + c::LOCK] = lock;
        put(&mut image, &[(TIME - 1, WRITER)]);
        assert_eq!(left(&image).map(|timers| timers.len()), [ours, 0]);
    }
}

fn in_charge() {
    let own = [(TIME + 1, HOLDER)];
    let mut image = machine();
    put(&mut image, &own);
    assert_eq!(left(&image), [own.to_vec(), vec![]]);
    let own = [(TIME, IDLE)];
    seat(&mut image, IDLE);
    put(&mut image, &own);
    assert_eq!(left(&image), [own.to_vec(), vec![]]);
    // Current, but not in charge: read as any other.
    let mut image = machine();
    image[record(HOLDER) + c::STATUS] = c::STOPPED;
    image[record(HOLDER) + c::RUNNING] = 0;
    image[record(WRITER) + c::RUNNING] = 1;
    image[BLOCK + b::CURRENT_CTXT] = WRITER as u64;
    put(&mut image, &[(TIME, WRITER)]);
    assert_eq!(left(&image), [vec![], vec![]]);
}

fn among_others() {
    let mut image = machine();
    image[record(WRITER) + c::LOCK] = 2;
    let set = [
        (TIME - 1, HOLDER),
        (TIME - 1, GONE),
        (TIME, WRITER),
        (TIME, OTHER),
        (TIME + 2, THIRD),
    ];
    put(&mut image, &set);
    let kept = [set[0], set[2], set[4]];
    assert_eq!(left(&image), [kept.to_vec(), set[4..].to_vec()]);
}

/// The kernel's CPUs are global: one test at a time.
#[test]
fn unreadable_timers() {
    locks();
    no_longer_fits();
    in_charge();
    among_others();
}
