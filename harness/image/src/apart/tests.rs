use super::{ROLES, apart, falls_on_stealing_turn, named, named_as, shared};
use crate::{Answer, View, asked::switch, block as b, context as c, length, record};

const CONTEXTS: usize = 12;

fn block(cpu: usize) -> usize {
    record(CONTEXTS) + b::WORDS * cpu
}

/// Three CPUs, the last one absent. CPU 0 names 0 to 4, CPU 1 names 5 to 9, each in the order
/// idle, in charge, queued, timed, local list; nobody names 10 and 11.
fn image() -> Vec<u64> {
    let mut image = vec![0; length(3, CONTEXTS)];
    image[..2].copy_from_slice(&[3, CONTEXTS as u64]);
    for context in 0..CONTEXTS {
        image[record(context) + c::DEBUG_ID] = context as u64;
    }
    for cpu in 0..2 {
        let first = 5 * cpu as u64;
        let words = &mut image[block(cpu)..];
        words[b::PRESENT] = 1;
        words[b::IDLE_CTXT] = first;
        words[b::SCHED_CTXT] = first + 1;
        words[b::CURRENT_CTXT] = first + 1;
        words[b::QUEUE_COUNT] = 1;
        words[b::KEY_CTXT_ID] = first + 2;
        words[b::ENTRY_WEIGHT] = 1024;
        words[b::ENTRY_CONTEXT_REF] = first + 2;
        words[b::TIMERS_COUNT] = 1;
        words[b::TIMER_CONTEXT_REF] = first + 3;
        words[b::LOCAL_COUNT] = 1;
        words[b::LOCAL_WAKEUP_LIST] = first + 4;
    }
    image
}

/// CPU 1 names the context in this role too.
fn with(role: usize, context: u64) -> Vec<u64> {
    let mut image = image();
    let words = &mut image[block(1)..];
    match role {
        0 => words[b::CURRENT_CTXT] = context,
        1 => words[b::SCHED_CTXT] = context,
        2 => words[b::IDLE_CTXT] = context,
        3 => {
            words[b::QUEUE_COUNT] = 2;
            words[b::KEY_VD + 1] = 1;
            words[b::KEY_CTXT_ID + 1] = context;
            words[b::ENTRY_WEIGHT + 1] = 1024;
            words[b::ENTRY_CONTEXT_REF + 1] = context;
        }
        4 => {
            words[b::TIMERS_COUNT] = 2;
            words[b::TIMER_WAKE + 1] = 1;
            words[b::TIMER_CONTEXT_REF + 1] = context;
        }
        5 => {
            words[b::LOCAL_COUNT] = 2;
            words[b::LOCAL_WAKEUP_LIST + 1] = context;
        }
        _ => {
            words[b::IPI_COUNT] = 1;
            words[b::IPI_CONTEXT_WAKEUP_LIST] = context;
        }
    }
    image
}

fn result(result: u64) -> Answer {
    Answer {
        result,
        ..Answer::default()
    }
}

#[test]
fn names_in_every_role() {
    let image = image();
    assert_eq!(named_as(View(&image), 1, 0), [6]);
    assert_eq!(named_as(View(&image), 1, 2), [5]);
    assert_eq!(named_as(View(&image), 1, 3), [7]);
    assert_eq!(named_as(View(&image), 1, 6), []);
    assert!(named(View(&image), 0).into_iter().eq(0..5));
    assert_eq!(apart(&image, 0, 1), result(1));
    assert_eq!(apart(&image, 1, 0), result(1));
}

/// In any roles together, not in equal ones.
#[test]
fn one_name_is_enough() {
    for role in 0..ROLES.len() {
        for context in 0..5 {
            let image = with(role, context);
            assert_eq!(apart(&image, 0, 1), result(0));
            assert_eq!(apart(&image, 1, 0), result(0));
            assert!(shared(View(&image), 0, 1).into_iter().eq([context]));
        }
        assert_eq!(apart(&with(role, 10), 0, 1), result(1));
    }
}

/// A slot that is not counted names nobody; it must be 0, and 0 is a context's number.
#[test]
fn unused_slots_name_nobody() {
    let image = with(3, 11);
    assert!(!named(View(&image), 1).contains(&0));
    assert_eq!(apart(&image, 0, 1), result(1));
}

#[test]
fn a_cpu_is_not_apart_from_itself() {
    assert_eq!(apart(&image(), 0, 0), result(0));
    assert_eq!(apart(&image(), 1, 1), result(0));
}

#[test]
fn refusals() {
    let image = image();
    let refused = Answer::refused;
    for cpu in [2, 3, 4, 1 << 32, u64::MAX] {
        assert_eq!(apart(&image, 0, cpu), refused(5));
        assert_eq!(apart(&image, cpu, 0), refused(5));
        assert_eq!(apart(&image, cpu, cpu), refused(5));
    }
    assert_eq!(apart(&[], 9, 9), refused(1));
    assert_eq!(apart(&image[1..], 9, 9), refused(1));
    assert_eq!(apart(&image[..9], 9, 9), refused(2));
    let mut wrong = image.clone();
    wrong[block(0) + b::PRESENT] = 2;
    assert_eq!(apart(&wrong, 9, 9), refused(3));
    let mut broken = image;
    broken[record(1) + c::DEBUG_ID] = 0;
    assert_eq!(apart(&broken, 9, 9), refused(4));
}

#[test]
fn stealing_turns() {
    let mut image = image();
    let turns = |image: &[u64], counter: u64, rule: u64| {
        let mut image = image.to_vec();
        image[block(1) + b::STEAL_COUNTER] = counter;
        falls_on_stealing_turn(View(&image), &switch(1, 0), rule)
    };
    for counter in [0, 16, 32, 1 << 63] {
        assert!(turns(&image, counter, 1));
    }
    for counter in [1, 2, 8, 15, u64::MAX] {
        assert!(!turns(&image, counter, 9), "context 6 is in charge");
    }
    image[block(1) + b::SCHED_CTXT] = 5;
    image[block(1) + b::CURRENT_CTXT] = 5;
    for rule in [8, 9] {
        assert!(turns(&image, 2, rule) && turns(&image, 30, rule));
        assert!(!turns(&image, 3, rule) && !turns(&image, u64::MAX, rule));
    }
    assert!(!turns(&image, 2, 1), "an entry has won");
    // A switch back decides nothing.
    image[record(5) + c::SCHED_AFFINITY] = 2;
    image[block(1) + b::CURRENT_CTXT] = 6;
    assert!(!turns(&image, 0, 0));
}
