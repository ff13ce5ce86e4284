use super::{MISFIT, answers, run, words};
use crate::{Answer, Call, NUMBER_MAX, block as b, context as c, length, record};

/// One CPU with its idle context in charge.
fn machine() -> Vec<u64> {
    let mut image = vec![0; length(1, 1)];
    image[..2].copy_from_slice(&[1, 1]);
    image[record(0) + c::CURRENTLY_SCHEDULED] = 1;
    image[record(1) + b::PRESENT] = 1;
    image
}

const V: usize = record(1) + b::V;

fn at(time: u64) -> Call {
    Call {
        operation: 2,
        time,
        ..Call::default()
    }
}

/// Stands for a call: V becomes the call's time and as much again; one at 7 is refused with 6.
fn doubles(image: &mut [u64], call: &Call) -> Answer {
    if call.time == 7 {
        return Answer::refused(6);
    }
    image[V] = 2 * call.time;
    Answer {
        result: call.time,
        ..Answer::default()
    }
}

fn result(result: u64) -> Answer {
    Answer {
        result,
        ..Answer::default()
    }
}

fn ran(image: &mut [u64], calls: &[Call]) -> (u64, Vec<Answer>) {
    let calls = words(calls);
    let mut place = vec![99; calls.len()];
    let made = run(image, &calls, &mut place, doubles);
    (made, answers(&place))
}

#[test]
fn each_call_has_its_answer() {
    let mut image = machine();
    let got = ran(&mut image, &[at(1), at(7), at(5)]);
    assert_eq!(got, (3, vec![result(1), Answer::refused(6), result(5)]));
    assert_eq!(image[V], 10);
    assert_eq!(ran(&mut image, &[]), (0, vec![]));
}

/// The call that raises V over its range is made; those behind it are refused.
#[test]
fn the_check_comes_back() {
    let mut image = machine();
    let over = NUMBER_MAX / 2 + 1;
    let got = ran(&mut image, &[at(over - 1), at(over), at(1), at(7)]);
    let third = Answer::refused(3);
    assert_eq!(got, (4, vec![result(over - 1), result(over), third, third]));
    assert_eq!(image[V], 2 * over);
}

#[test]
fn a_time_over_its_range_ends_nothing() {
    let mut image = machine();
    let got = ran(&mut image, &[at(1), at(NUMBER_MAX + 1), at(2)]);
    assert_eq!(got, (3, vec![result(1), Answer::refused(3), result(2)]));
    let got = ran(&mut image, &[at(u64::MAX), at(2)]);
    assert_eq!(got, (2, vec![Answer::refused(3), result(2)]));
}

#[test]
fn damaged_images_are_refused() {
    let mut image = machine();
    image.push(0);
    let before = image.clone();
    assert_eq!(
        ran(&mut image, &[at(1); 2]),
        (2, vec![Answer::refused(2); 2])
    );
    assert_eq!(image, before);
}

#[test]
fn lengths_must_fit() {
    for (calls, places) in [(1, 1), (4, 3), (4, 8), (0, 4), (7, 7), (8, 4)] {
        let (mut image, mut answers) = (machine(), vec![99; places]);
        let made = run(&mut image, &vec![1; calls], &mut answers, doubles);
        assert_eq!(
            (made, image, answers),
            (MISFIT, machine(), vec![99; places])
        );
    }
}
