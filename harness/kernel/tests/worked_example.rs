//! The worked example of document 01 and single calls by hand.

use image::{Answer, Call, Fault, block as b, check, context as c, length};
use kernel::oracle;

const SLICE: u64 = 9 << 30;

const OTHER: usize = 2 + c::WORDS;
const BLOCK: usize = 2 + 2 * c::WORDS;

fn put(image: &mut [u64], at: usize, words: &[(usize, u64)]) {
    for (word, value) in words {
        image[at + word] = *value;
    }
}

/// One CPU; context 0 is idle, current and in charge, context 1 waits in the queue.
fn example() -> Vec<u64> {
    let (vd, weight) = (9_437_184, 1024);
    let mut image = vec![0; length(1, 2)];
    put(&mut image, 0, &[(0, 1), (1, 2)]);
    put(&mut image, 2, &[(c::CURRENTLY_SCHEDULED, 1)]);
    let key = [
        (c::HAS_QUEUE_KEY, 1),
        (c::QUEUE_KEY_VD, vd),
        (c::QUEUE_KEY_REM_SLICE, SLICE),
    ];
    let may_run = [(c::SCHED_AFFINITY, u64::MAX), (c::USERSPACE, 1)];
    let share = [(c::VD, vd), (c::REM_SLICE, SLICE), (c::IS_ACTIVE, 1)];
    put(&mut image, OTHER, &[(c::DEBUG_ID, 1), (c::PRIO, 20)]);
    put(&mut image, OTHER, &may_run);
    put(&mut image, OTHER, &share);
    put(&mut image, OTHER, &key);
    let single = [(b::PRESENT, 1), (b::STEAL_COUNTER, 1)];
    let queue = [(b::TOTAL_WEIGHT, weight), (b::QUEUE_COUNT, 1)];
    let entry = [
        (b::KEY_VD, vd),
        (b::KEY_REM_SLICE, SLICE),
        (b::KEY_CTXT_ID, 1),
        (b::ENTRY_WEIGHT, weight),
        (b::ENTRY_CONTEXT_REF, 1),
    ];
    put(&mut image, BLOCK, &single);
    put(&mut image, BLOCK, &queue);
    put(&mut image, BLOCK, &entry);
    image
}

fn call(operation: u64, time: u64, context: u64) -> Call {
    Call {
        operation,
        cpu: 0,
        time,
        context,
    }
}

fn answer(result: u64) -> Result<Answer, Fault> {
    Ok(Answer {
        result,
        ..Answer::default()
    })
}

fn worked_example() {
    let mut image = example();
    let switch = call(2, 2_250_000, 0);
    assert_eq!(check::refusal(&image, &switch), 0);
    assert_eq!(oracle::call(&mut image, &switch), answer(1));
    assert_eq!(image[BLOCK + b::SCHED_CTXT], 1);
    assert_eq!(image[BLOCK + b::CURRENT_CTXT], 1);
    assert_eq!(image[BLOCK + b::V], 1_048_576);
}

fn ticks() {
    let mut image = example();
    assert_eq!(oracle::call(&mut image, &call(1, 2_250_000, 0)), answer(0));
    assert_eq!(oracle::call(&mut image, &call(1, 2_250_000, 0)), answer(0));
    assert_eq!(oracle::call(&mut image, &call(1, 2_250_000, 0)), answer(1));
    assert_eq!(image[BLOCK + b::V], 1_048_576);
}

fn records() {
    let mut image = example();
    assert_eq!(oracle::call(&mut image, &call(6, 0, 1)), answer(1));
    assert_eq!(image[OTHER + c::STATUS], c::BLOCKED);
    assert_eq!(oracle::call(&mut image, &call(7, 0, 1)), answer(0));
    assert_eq!(oracle::call(&mut image, &call(4, 0, 1)), answer(1));
    assert_eq!(oracle::call(&mut image, &call(7, 0, 1)), answer(1));
    assert_eq!(image[OTHER + c::STATUS], c::STOPPED);
    assert_eq!(image[BLOCK + b::LOCAL_COUNT], 1);
}

fn without_answer() {
    let mut image = example();
    let direct = call(3, 0, 1);
    assert_eq!(check::refusal(&image, &direct), 7);
    assert!(matches!(
        oracle::call(&mut image, &direct),
        Err(Fault::Panics(_))
    ));
    image[OTHER + c::LOCK] = 1;
    let block = call(6, 0, 1);
    assert_eq!(check::refusal(&image, &block), 6);
    assert_eq!(oracle::call(&mut image, &block), Err(Fault::Waits));
}

/// The kernel's CPUs are global: one test at a time.
#[test]
fn by_hand() {
    worked_example();
    ticks();
    records();
    without_answer();
}
