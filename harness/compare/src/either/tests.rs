use super::{ENOUGH, either, orders::Both};
use crate::{
    expected::KERNEL,
    generate::{Case, Kind},
};
use image::{
    Call, NUMBER_MAX, SLICE_MAX, apart, asked::switch, block as b, context as c, length, record,
};

/// In a fifth of the pairs in which the command wants each sort met.
#[test]
fn no_difference() {
    let _alone = KERNEL.lock();
    assert!(either(1, ENOUGH / 5));
}

const CONTEXTS: usize = 4;
const TIME: u64 = 10_000_000;
const CALLS: [Call; 2] = [
    Call {
        operation: 2,
        cpu: 0,
        time: TIME,
        context: 0,
    },
    Call {
        operation: 2,
        cpu: 1,
        time: TIME + 6_750_000,
        context: 0,
    },
];

fn block(cpu: usize) -> usize {
    record(CONTEXTS) + b::WORDS * cpu
}

/// Two CPUs whose idle contexts, 0 and 1, are in charge and current; 2 and 3 are free, of priority
/// 20, and could run anywhere. Context 2 is queued on CPU 1, as that shows.
fn machine() -> Vec<u64> {
    let mut image = vec![0; length(2, CONTEXTS)];
    image[..2].copy_from_slice(&[2, CONTEXTS as u64]);
    for context in 0..CONTEXTS {
        let record = &mut image[record(context)..];
        record[c::DEBUG_ID] = context as u64;
        record[c::SCHED_AFFINITY] = u64::MAX;
        record[c::USERSPACE] = (context > 1).into();
        record[c::CURRENTLY_SCHEDULED] = (context < 2).into();
        record[c::RUNNING] = (context < 2).into();
        record[c::PRIO] = 20;
        record[c::VD] = 9_437_184;
        record[c::REM_SLICE] = SLICE_MAX;
    }
    let queued = &mut image[record(2)..];
    queued[c::IS_ACTIVE] = 1;
    queued[c::HAS_QUEUE_KEY] = 1;
    queued[c::QUEUE_KEY_VD] = 9_437_184;
    queued[c::QUEUE_KEY_REM_SLICE] = SLICE_MAX;
    for cpu in 0..2 {
        let words = &mut image[block(cpu)..];
        words[b::PRESENT] = 1;
        for seat in [b::CURRENT_CTXT, b::SCHED_CTXT, b::IDLE_CTXT] {
            words[seat] = cpu as u64;
        }
        words[b::SCHEDULE_TIME] = TIME;
        words[b::STEAL_COUNTER] = 1;
    }
    let words = &mut image[block(1)..];
    words[b::STEALABLE] = 1;
    words[b::QUEUE_LEN] = 1;
    words[b::TOTAL_WEIGHT] = 1024;
    words[b::QUEUE_COUNT] = 1;
    words[b::KEY_VD] = 9_437_184;
    words[b::KEY_REM_SLICE] = SLICE_MAX;
    words[b::KEY_CTXT_ID] = 2;
    words[b::ENTRY_WEIGHT] = 1024;
    words[b::ENTRY_CONTEXT_REF] = 2;
    image
}

/// Both orders, and whether the CPUs are apart.
fn both(image: &[u64], calls: [Call; 2]) -> (Both, bool) {
    let case = Case {
        kind: Kind::Tidy,
        image: image.to_vec(),
        call: calls[0],
        chained: false,
    };
    let answer = apart::apart(image, calls[0].cpu, calls[1].cpu);
    assert_eq!(answer.refusal, 0);
    let both = Both::of(&case, calls).expect("no difference");
    (both, answer.result == 1)
}

/// Who is in charge of each CPU, if that CPU's switch comes last.
fn in_charge(both: &Both) -> [u64; 2] {
    [0, 1].map(|cpu| both.second[cpu].1[block(cpu) + b::SCHED_CTXT])
}

/// CPU 0 has nobody, CPU 1 takes context 2.
#[test]
fn apart_in_either_order() {
    let _alone = KERNEL.lock();
    let mut image = machine();
    image[block(0) + b::REMAINDER] = 2_249_999;
    let (both, apart) = both(&image, CALLS);
    assert!(apart && both.same());
    assert_eq!(both.accepted(), 4);
    assert_eq!(in_charge(&both), [0, 2]);
    let turns = [0, 1].map(|which| both.steals(&image, which));
    assert_eq!(turns, [false; 2]);
    assert_eq!(both.first.map(|(answer, _)| answer.rule), [9, 1]);
}

/// Context 2, queued on CPU 1, is on the local list of CPU 0: role by role nothing is shared, and
/// whoever comes first has it.
#[test]
fn a_context_in_two_roles() {
    let _alone = KERNEL.lock();
    let mut image = machine();
    image[block(0) + b::LOCAL_COUNT] = 1;
    image[block(0) + b::LOCAL_WAKEUP_LIST] = 2;
    let (both, apart) = both(&image, CALLS);
    assert!(!apart && !both.same());
    assert_eq!(both.accepted(), 4);
    let first = [0, 1].map(|cpu| both.first[cpu].1[block(cpu) + b::SCHED_CTXT]);
    assert_eq!(first, [2, 2]);
    assert_eq!(in_charge(&both), [0, 1]);
}

/// Idle in charge without a winner steals on every 2nd value: CPU 0 takes context 2 if it is first.
#[test]
fn a_stealing_turn() {
    let _alone = KERNEL.lock();
    let mut image = machine();
    image[block(0) + b::STEAL_COUNTER] = 2;
    let (both, apart) = both(&image, CALLS);
    assert!(apart && !both.same());
    assert_eq!(both.accepted(), 4);
    assert_eq!(
        [0, 1].map(|which| both.steals(&image, which)),
        [true, false]
    );
    assert_eq!(both.first[0].0.rule, 8);
    assert_eq!(in_charge(&both), [0, 1]);
}

/// CPU 0 counts one switch more than an image may: CPU 1 is refused after it, and not before.
#[test]
fn a_call_that_is_refused() {
    let _alone = KERNEL.lock();
    let mut image = machine();
    image[block(0) + b::CONTEXT_SWITCHES] = NUMBER_MAX;
    let (both, apart) = both(&image, [switch(0, TIME), switch(1, TIME)]);
    assert!(apart && !both.same());
    assert_eq!(both.accepted(), 3);
    assert_eq!(both.second[1].0.refusal, 3);
}
