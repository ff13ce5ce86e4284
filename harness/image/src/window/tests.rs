use super::{ROOM, TIME_MAX, WORDS, add, called, name, records, refusal, share, share_of_all};
use crate::{Answer, Call, block as b, length, record};

const RUBBISH: u64 = u64::MAX - 3;

fn window(of: &[(u64, u64)]) -> Vec<u64> {
    let mut words = vec![RUBBISH; WORDS];
    words[0] = of.len() as u64;
    for (slot, (context, time)) in of.iter().enumerate() {
        words[1 + slot] = *context;
        words[1 + ROOM + slot] = *time;
    }
    words
}

#[test]
fn refusals() {
    assert_eq!(refusal(&window(&[]), 0), 0);
    assert_eq!(refusal(&[], 1), 1);
    assert_eq!(refusal(&window(&[])[..WORDS - 1], 1), 1);
    assert_eq!(refusal(&[window(&[]), vec![0]].concat(), 1), 1);
    let mut over = window(&[(9, 9); ROOM]);
    assert_eq!(refusal(&over, 10), 0);
    assert_eq!(refusal(&over, 9), 3);
    over[0] = ROOM as u64 + 1;
    // 1 comes before 3.
    assert_eq!(refusal(&over, 9), 1);
    assert_eq!(refusal(&window(&[(0, TIME_MAX)]), 1), 0);
    assert_eq!(refusal(&window(&[(0, TIME_MAX + 1)]), 1), 3);
}

/// Only the slot of the new record is written, until all move down.
#[test]
fn the_oldest_leaves() {
    let mut words = window(&[(1, 10), (2, 20)]);
    add(&mut words, (3, 30));
    assert_eq!(words, window(&[(1, 10), (2, 20), (3, 30)]));
    let mut full: Vec<(u64, u64)> = (0..ROOM as u64).map(|n| (n % 5, n)).collect();
    let mut words = window(&full);
    add(&mut words, (7, 700));
    full.remove(0);
    full.push((7, 700));
    assert_eq!(words, window(&full));
    assert_eq!(records(&words)[0], (1, 1));
}

#[test]
fn sums() {
    let words = window(&[(1, 10), (2, 20), (1, 5)]);
    let result = |answer: Answer| (answer.refusal, answer.result);
    assert_eq!(result(share(&words, 3, 1)), (0, 15));
    assert_eq!(result(share(&words, 3, 0)), (0, 0));
    assert_eq!(result(share(&words, 3, 3)), (0, 0));
    assert_eq!(result(share(&words, 3, RUBBISH)), (0, 0));
    assert_eq!(result(share(&words, 2, 1)), (3, 0));
    assert_eq!(result(share_of_all(&words, 3)), (0, 35));
    assert_eq!(result(share_of_all(&words, 0)), (3, 0));
}

/// A switch at 250 on a CPU whose turn began at 100, with context 1 in charge; an undue tick.
#[test]
fn decisions_are_recorded() {
    let mut image = vec![0; length(1, 2)];
    image[..2].copy_from_slice(&[1, 2]);
    let block = record(2);
    image[block + b::PRESENT] = 1;
    image[block + b::CURRENT_CTXT] = 1;
    image[block + b::SCHED_CTXT] = 1;
    image[block + b::SCHEDULE_TIME] = 100;
    let after = vec![5; image.len()];
    let answer = Answer {
        result: 1,
        rule: 1,
        ..Answer::default()
    };
    let mut call = Call {
        operation: 2,
        cpu: 0,
        time: 250,
        context: 0,
    };
    let empty = window(&[]);
    let of = |call: &Call, answer: &Answer, window: &[u64]| {
        called(&image, window, call, (answer, &after))
    };
    let taken = (answer, after.clone(), window(&[(1, 150)]));
    assert_eq!(of(&call, &answer, &empty), taken);
    call.time = 99;
    assert_eq!(of(&call, &answer, &empty).2, window(&[(1, 0)]));
    // Its own number comes before the window's.
    let own = Answer::refused(9);
    assert_eq!(of(&call, &own, &[]), (own, image.clone(), vec![]));
    let bad = Answer::refused(3);
    let with_bad = window(&[(2, 0)]);
    let kept = (bad, image.clone(), with_bad.clone());
    assert_eq!(of(&call, &answer, &with_bad), kept);
    call.operation = 1;
    let undue = Answer::default();
    let unrecorded = (undue, after.clone(), empty.clone());
    assert_eq!(of(&call, &undue, &empty), unrecorded);
    // Whatever the call does.
    assert_eq!(of(&call, &undue, &with_bad), kept);
}

#[test]
fn names() {
    assert_eq!(name(0), "count");
    assert_eq!(name(ROOM), "context[255]");
    assert_eq!(name(ROOM + 1), "time[0]");
    assert_eq!(name(WORDS - 1), "time[255]");
}
