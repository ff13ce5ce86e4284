use super::{ENOUGH, corners};
use crate::{
    expected::KERNEL,
    generate::{Case, Kind},
    run::one,
};
use image::{Call, SLICE_MAX, View, block as b, context as c, length, record};

/// No difference, and each sort is met in as many cases as must meet it.
#[test]
fn each_sort_is_met() {
    let _alone = KERNEL.lock();
    assert!(corners(1, ENOUGH));
}

const X: u64 = 1;
const Y: u64 = 2;
const CPU: usize = record(3);

/// One CPU with V 0 and its idle context in charge; X and Y may run, and the queue has these
/// entries: deadline, virtual time, weight and context.
fn machine(entries: &[(u64, u64, u64, u64)]) -> Vec<u64> {
    let mut image = vec![0; length(1, 3)];
    image[..2].copy_from_slice(&[1, 3]);
    for context in 0..3 {
        let at = record(context);
        image[at + c::DEBUG_ID] = context as u64;
        image[at + c::SCHED_AFFINITY] = u64::MAX;
        image[at + c::USERSPACE] = (context > 0).into();
        image[at + c::PRIO] = 20;
        image[at + c::IS_ACTIVE] = (context > 0).into();
    }
    image[record(0) + c::CURRENTLY_SCHEDULED] = 1;
    image[CPU + b::PRESENT] = 1;
    image[CPU + b::STEAL_COUNTER] = 1;
    image[CPU + b::QUEUE_COUNT] = entries.len() as u64;
    for (slot, (vd, vtime, weight, context)) in entries.iter().enumerate() {
        image[CPU + b::KEY_VD + slot] = *vd;
        image[CPU + b::KEY_REM_SLICE + slot] = SLICE_MAX;
        image[CPU + b::KEY_CTXT_ID + slot] = *context;
        image[CPU + b::ENTRY_VTIME + slot] = *vtime;
        image[CPU + b::ENTRY_WEIGHT + slot] = *weight;
        image[CPU + b::ENTRY_CONTEXT_REF + slot] = *context;
        image[CPU + b::TOTAL_WEIGHT] += weight;
    }
    image
}

/// A switch before any time has passed: rule, V, who is in charge, the total weight, and the
/// deadlines that are left in the queue.
fn switched(image: Vec<u64>) -> (u64, u64, u64, u64, Vec<u64>) {
    let call = Call {
        operation: 2,
        ..Call::default()
    };
    let case = Case {
        kind: Kind::Untidy,
        image,
        call,
        chained: false,
    };
    let (answer, after) = one(&case).expect("no difference");
    assert_eq!(answer.refusal, 0);
    let at = |word| View(&after).block(0, word);
    let queue = (0..at(b::QUEUE_COUNT) as usize).map(|slot| at(b::KEY_VD + slot));
    let left = queue.collect();
    (
        answer.rule,
        at(b::V),
        at(b::SCHED_CTXT),
        at(b::TOTAL_WEIGHT),
        left,
    )
}

/// The first entry keeps X's lock, so the second is passed over. Neither record has a key: the
/// winner's entries stay.
#[test]
fn a_lock_is_kept() {
    let _alone = KERNEL.lock();
    let image = machine(&[(1, 10, 1024, X), (2, 5, 1024, X)]);
    assert_eq!(switched(image), (7, 10, X, 2048, vec![1, 2]));
}

/// X was let go when Y came.
#[test]
fn a_lock_is_let_go() {
    let _alone = KERNEL.lock();
    let image = machine(&[(1, 10, 1024, X), (2, 7, 1024, Y), (3, 5, 1024, X)]);
    assert_eq!(switched(image), (7, 5, X, 3072, vec![1, 2, 3]));
}

/// Both entries of a blocked context go, and only the first gives up its weight.
#[test]
fn one_weight_is_given_up() {
    let _alone = KERNEL.lock();
    let mut image = machine(&[(1, 0, 100, X), (2, 0, 30, X)]);
    image[record(1) + c::STATUS] = c::BLOCKED;
    assert_eq!(switched(image), (9, 0, 0, 30, vec![]));
}

/// Entries behind the first eligible one, and those later than the least late one so far, are not
/// cleaned up.
#[test]
fn what_is_not_looked_at_stays() {
    let _alone = KERNEL.lock();
    let mut image = machine(&[(1, 0, 1024, Y), (2, 0, 100, X)]);
    image[record(1) + c::STATUS] = c::BLOCKED;
    assert_eq!(switched(image), (1, 0, Y, 1124, vec![1, 2]));
    let mut image = machine(&[(1, 5, 1024, Y), (2, 8, 100, X)]);
    image[record(1) + c::STATUS] = c::BLOCKED;
    assert_eq!(switched(image), (7, 5, Y, 1124, vec![1, 2]));
    // At an equal virtual time it is looked at.
    let mut image = machine(&[(1, 5, 1024, Y), (2, 5, 100, X)]);
    image[record(1) + c::STATUS] = c::BLOCKED;
    assert_eq!(switched(image), (7, 5, Y, 1024, vec![1]));
}

/// At an equal virtual time a ready entry is looked at but not taken.
#[test]
fn the_first_of_equals_wins() {
    let _alone = KERNEL.lock();
    let image = machine(&[(1, 5, 1024, X), (2, 5, 1024, Y)]);
    let (rule, v, in_charge, ..) = switched(image);
    assert_eq!((rule, v, in_charge), (7, 5, X));
}
