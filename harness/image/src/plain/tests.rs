use super::{called, lists::*};
use crate::{Answer, Call, ROOM, SLICE_MAX, View, block as b, context as c, length, record};

const X: u64 = 1;
const Y: u64 = 2;
const Z: u64 = 3;
const CPU: usize = record(4);
/// The slice of priority 20, whose weight is 1024.
const WHOLE: u64 = SLICE_MAX / 1024;

/// One CPU with V 0 and its idle context in charge; X, Y and Z may run, and the queue has these
/// entries: deadline, virtual time, weight and context.
fn machine(entries: &[(u64, u64, u64, u64)]) -> Vec<u64> {
    let mut image = vec![0; length(1, 4)];
    image[..2].copy_from_slice(&[1, 4]);
    for context in 0..4 {
        let at = record(context);
        image[at + c::DEBUG_ID] = context as u64;
        image[at + c::SCHED_AFFINITY] = u64::MAX;
        image[at + c::USERSPACE] = (context > 0).into();
        image[at + c::PRIO] = 20;
        image[at + c::IS_ACTIVE] = (context > 0).into();
    }
    image[record(0) + c::CURRENTLY_SCHEDULED] = 1;
    image[CPU + b::PRESENT] = 1;
    image[CPU + b::STEAL_COUNTER] = 1;
    image[CPU + b::QUEUE_COUNT] = entries.len() as u64;
    for (slot, (vd, vtime, weight, context)) in entries.iter().enumerate() {
        image[CPU + b::KEY_VD + slot] = *vd;
        image[CPU + b::KEY_REM_SLICE + slot] = SLICE_MAX;
        image[CPU + b::KEY_CTXT_ID + slot] = *context;
        image[CPU + b::ENTRY_VTIME + slot] = *vtime;
        image[CPU + b::ENTRY_WEIGHT + slot] = *weight;
        image[CPU + b::ENTRY_CONTEXT_REF + slot] = *context;
        image[CPU + b::TOTAL_WEIGHT] += weight;
    }
    image
}

fn blocked(mut image: Vec<u64>, context: u64) -> Vec<u64> {
    image[record(context as usize) + c::STATUS] = c::BLOCKED;
    image
}

/// A switch before any time has passed.
fn switch(image: &[u64]) -> (Answer, Vec<u64>) {
    let call = Call {
        operation: 2,
        ..Call::default()
    };
    called(image, &call, |_| 1024, |_, _| panic!("a switch decides"))
}

/// Rule, V, who is in charge, the total weight, and the deadlines that are left in the queue.
fn switched(image: Vec<u64>) -> (u64, u64, u64, u64, Vec<u64>) {
    let (answer, after) = switch(&image);
    assert_eq!(answer.refusal, 0);
    let at = |word| View(&after).block(0, word);
    let queue = (0..at(b::QUEUE_COUNT) as usize).map(|slot| at(b::KEY_VD + slot));
    let (v, in_charge) = (at(b::V), at(b::SCHED_CTXT));
    (
        answer.rule,
        v,
        in_charge,
        at(b::TOTAL_WEIGHT),
        queue.collect(),
    )
}

#[test]
fn locks_are_kept_and_let_go() {
    let kept = machine(&[(1, 10, 1024, X), (2, 5, 1024, X)]);
    assert_eq!(switched(kept), (7, 10, X, 2048, vec![1, 2]));
    let let_go = machine(&[(1, 10, 1024, X), (2, 7, 1024, Y), (3, 5, 1024, X)]);
    assert_eq!(switched(let_go), (7, 5, X, 3072, vec![1, 2, 3]));
}

#[test]
fn one_of_two_weights_is_given_up() {
    let twice = blocked(machine(&[(1, 0, 100, X), (2, 0, 30, X)]), X);
    assert_eq!(switched(twice), (9, 0, 0, 30, vec![]));
}

#[test]
fn what_is_not_looked_at_stays() {
    let behind = blocked(machine(&[(1, 0, 1024, Y), (2, 0, 100, X)]), X);
    assert_eq!(switched(behind), (1, 0, Y, 1124, vec![1, 2]));
    let later = blocked(machine(&[(1, 5, 1024, Y), (2, 8, 100, X)]), X);
    assert_eq!(switched(later), (7, 5, Y, 1124, vec![1, 2]));
    let level = blocked(machine(&[(1, 5, 1024, Y), (2, 5, 100, X)]), X);
    assert_eq!(switched(level), (7, 5, Y, 1024, vec![1]));
    let not_taken = machine(&[(1, 5, 1024, Y), (2, 5, 1024, X)]);
    assert_eq!(switched(not_taken), (7, 5, Y, 2048, vec![1, 2]));
}

/// Two entries of X, the first under the key of its record, the second under that with which it
/// enters, and 62 of Y, which is locked; the local list names these.
fn full(names: &[u64]) -> Vec<u64> {
    let others = (0..ROOM as u64 - 2).map(|slot| (WHOLE + 1 + slot, 0, 1024, Y));
    let entries: Vec<_> = [(5, 0, 1024, X), (WHOLE, 0, 1024, X)]
        .into_iter()
        .chain(others)
        .collect();
    let mut image = machine(&entries);
    image[record(2) + c::LOCK] = 1;
    let x = record(1);
    image[x + c::HAS_QUEUE_KEY] = 1;
    image[x + c::QUEUE_KEY_VD] = 5;
    image[x + c::QUEUE_KEY_REM_SLICE] = SLICE_MAX;
    image[CPU + b::LOCAL_COUNT] = names.len() as u64;
    image[CPU + b::LOCAL_WAKEUP_LIST..][..names.len()].copy_from_slice(names);
    image
}

/// X takes the place of two entries, and only then there is room for Z.
#[test]
fn the_order_of_names_matters() {
    let (answer, _) = switch(&full(&[X, Z]));
    assert_eq!((answer.refusal, answer.rule), (0, 1));
    let image = full(&[Z, X]);
    assert_eq!(switch(&image), (Answer::refused(9), image));
}

#[test]
fn turns_are_found_by_counting() {
    let key = |vd, rem_slice, id| Key { vd, rem_slice, id };
    let entry = |key| Entry {
        key,
        vtime: 0,
        weight: 1024,
        context: 0,
    };
    let keys = [key(2, 1, 1), key(1, 5, 9), key(1, 7, 9), key(1, 5, 8)];
    let mut queue: Vec<Entry> = keys.into_iter().map(entry).collect();
    let sorted: Vec<Key> = by_rank(&queue).iter().map(|entry| entry.key).collect();
    assert_eq!(sorted, [keys[2], keys[3], keys[1], keys[0]]);
    let later = Entry {
        vtime: 3,
        ..entry(keys[1])
    };
    put_in(&mut queue, later);
    assert_eq!((queue.len(), queue[3]), (4, later));
    leave_out(&mut queue, keys[2]);
    assert_eq!(queue.len(), 3);
}

/// Wakes first, then contexts.
#[test]
fn timers_have_turns() {
    let timer = |wake, context| Timer { wake, context };
    let timers = [timer(3, 0), timer(2, 5), timer(2, 4)];
    assert_eq!(by_rank(&timers), [timers[2], timers[1], timers[0]]);
}

#[test]
fn what_decides_nothing_is_handed_over() {
    let image = machine(&[]);
    let call = |operation| Call {
        operation,
        ..Call::default()
    };
    let other = |image: &mut Vec<u64>, call: &Call| {
        image[0] = call.operation;
        Answer::default()
    };
    for operation in 4..=7 {
        let (_, after) = called(&image, &call(operation), |_| 1024, other);
        assert_eq!(after[0], operation);
    }
    // What is refused is not.
    assert_eq!(
        called(&image, &call(8), |_| 1024, other),
        (Answer::refused(5), image)
    );
}
