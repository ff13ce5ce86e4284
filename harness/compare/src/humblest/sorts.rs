//! What trials must meet.

use super::Trials;
use crate::{
    generate::humblest::{MACHINES, SORTS},
    met::Met,
};
use image::{
    ROOM, View, block as b, check,
    humblest::{PRIORITIES, Tried, in_charge, queued},
    tidy,
};

const FOUND: [&str; 6] = [
    "none found",
    "0 found",
    "found in between",
    "39 found",
    "a number works where a smaller one does not",
    "found in between on a tidy machine",
];
const REFUSED: [&str; 4] = [
    "refused with 1",
    "refused with 2",
    "refused with 3",
    "refused with 4",
];
const FIVE: [&str; 6] = [
    "5: no such CPU",
    "5: not below N",
    "5: gone",
    "5: in charge here",
    "5: in charge of another CPU",
    "5: queued",
];
const IDLE: &str = "the CPU's own idle context, found";
const FULL: &str = "no trial: the local list is full";
const TRIALS: [&str; 4] = [
    "all trials refused with 6",
    "all trials refused with 8",
    "trials refused with 9",
    "trials refused with 9 beside one that works",
];

pub fn names() -> Vec<&'static str> {
    [
        &SORTS[..],
        &MACHINES,
        &FOUND,
        &[IDLE, FULL],
        &TRIALS,
        &REFUSED,
        &FIVE,
    ]
    .concat()
}

pub fn note(met: &mut Met, image: &[u64], tried: &Tried, trials: &Trials) {
    match trials.answer.refusal {
        0 => accepted(met, View(image), tried, trials),
        5 => met.note(five(View(image), tried)),
        row => met.note(REFUSED[row as usize - 1]),
    }
}

fn accepted(met: &mut Met, image: View, tried: &Tried, trials: &Trials) {
    let here = |word| image.block(tried.cpu as usize, word);
    let found = trials.answer.found == 1;
    met.note(match trials.answer.priority {
        _ if !found => FOUND[0],
        0 => FOUND[1],
        39 => FOUND[3],
        _ => FOUND[2],
    });
    met.note_if(has_gap(&trials.working), FOUND[4]);
    let between = found && (1..39).contains(&trials.answer.priority);
    met.note_if(between && tidy::holds(image), FOUND[5]);
    met.note_if(found && here(b::IDLE_CTXT) == tried.context, IDLE);
    met.note_if(here(b::LOCAL_COUNT) == ROOM as u64, FULL);
    let all = |row| trials.refused.len() == PRIORITIES && trials.refused[0] == row;
    met.note_if(all(6), TRIALS[0]);
    met.note_if(all(8), TRIALS[1]);
    met.note_if(trials.refused.contains(&9), TRIALS[2]);
    met.note_if(trials.refused.contains(&9) && found, TRIALS[3]);
}

/// The first reason for 5.
fn five(image: View, tried: &Tried) -> &'static str {
    let absent = tried.cpu >= image.cpus() as u64 || !image.present(tried.cpu as usize);
    let context = tried.context;
    if absent {
        FIVE[0]
    } else if context >= image.contexts() as u64 {
        FIVE[1]
    } else if image.gone(context as usize) {
        FIVE[2]
    } else if image.block(tried.cpu as usize, b::SCHED_CTXT) == context {
        FIVE[3]
    } else if in_charge(image, context) {
        FIVE[4]
    } else {
        assert!(queued(image, context) && check::image_refusal(image.0, tried.time) == 0);
        FIVE[5]
    }
}

/// Some number does not work below one that does.
pub fn has_gap(working: &[bool; PRIORITIES]) -> bool {
    !working.is_sorted_by(|smaller, larger| smaller >= larger)
}

pub fn numbers(working: &[bool; PRIORITIES]) -> Vec<usize> {
    (0..PRIORITIES).filter(|number| working[*number]).collect()
}
