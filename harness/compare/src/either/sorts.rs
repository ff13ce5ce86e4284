//! What pairs must meet.

use super::orders::Both;
use crate::{generate::either::SORTS, met::Met};
use image::{Answer, RULES, View, apart, block as b, newest};

const SAME: [&str; 5] = [
    "apart and the same",
    "apart and the same, remainders on both",
    "apart and the same, a timer superseded",
    "apart and the same, two others in charge",
    "apart and the same, other times than equal",
];
const OTHER: [&str; 5] = [
    "not apart and different",
    "not apart and different in an answer",
    "not apart and the same",
    "a stealing turn and different",
    "a fourth call refused",
];
const ALONE: [&str; 7] = [
    "named by both, by one as current",
    "named by both, by one in charge",
    "named by both, by one as idle",
    "named by both, by one queued",
    "named by both, by one timed",
    "named by both, by one on the local list",
    "named by both, by one on the interrupt list",
];
const ANSWERS: [&str; 5] = [
    "asked: apart",
    "asked: not apart",
    "asked: the same CPU",
    "5: an absent CPU",
    "5: a CPU not below C",
];
const REFUSED: [&str; 4] = [
    "refused with 1",
    "refused with 2",
    "refused with 3",
    "refused with 4",
];
/// The rules of the switches that are the same: a holder is seldom kept by its slice, and without
/// a stealing turn nothing is stolen.
const DECIDED: [usize; 8] = [0, 1, 2, 4, 5, 6, 7, 9];

pub fn names() -> Vec<&'static str> {
    let rules = DECIDED.map(|rule| RULES[rule]);
    [
        &SORTS[..],
        &SAME,
        &rules,
        &OTHER,
        &ALONE,
        &ANSWERS,
        &REFUSED,
    ]
    .concat()
}

/// Of switches both ways round.
pub fn note(met: &mut Met, image: &[u64], both: &Both, apart: bool, steals: bool) {
    let accepted = both.accepted();
    met.note_if(apart && accepted == 3, OTHER[4]);
    if accepted < 4 {
        return;
    }
    let same = both.same();
    let differs = |which: usize| both.first[which].0 != both.second[which].0;
    met.note_if(!apart && !same, OTHER[0]);
    met.note_if(!apart && (0..2).any(differs), OTHER[1]);
    met.note_if(!apart && same, OTHER[2]);
    met.note_if(apart && steals && !same, OTHER[3]);
    if !apart || steals {
        return;
    }
    let (view, [one, other]) = (View(image), both.calls);
    let each = |holds: &dyn Fn(usize) -> bool| [0, 1].map(holds);
    let block = |which: usize, image, word| {
        let cpu = both.calls[which].cpu as usize;
        View::block(View(image), cpu, word)
    };
    let carries = each(&|which| block(which, image, b::REMAINDER) != 0);
    let supersedes = each(&|which| newest::supersedes(view, &both.calls[which]));
    let hands_over = each(&|which| {
        let after = &both.first[which].1;
        block(which, image, b::SCHED_CTXT) != block(which, after, b::SCHED_CTXT)
    });
    met.note(SAME[0]);
    met.note_if(!carries.contains(&false), SAME[1]);
    met.note_if(supersedes.contains(&true), SAME[2]);
    met.note_if(!hands_over.contains(&false), SAME[3]);
    met.note_if(one.time != other.time, SAME[4]);
    for (answer, _) in &both.first {
        let rule = answer.rule as usize;
        if DECIDED.contains(&rule) {
            met.note(RULES[rule]);
        }
    }
}

/// Of the question whether CPUs are apart.
pub fn answered(met: &mut Met, image: &[u64], cpus: [u64; 2], answer: &Answer) {
    match (answer.refusal, answer.result) {
        (0, 1) => met.note(ANSWERS[0]),
        (0, _) if cpus[0] == cpus[1] => met.note(ANSWERS[2]),
        (0, _) => {
            met.note(ANSWERS[1]);
            alone(met, View(image), cpus.map(|cpu| cpu as usize));
        }
        (5, _) => {
            let absent = cpus.iter().all(|cpu| *cpu < image[0]);
            met.note(ANSWERS[if absent { 3 } else { 4 }]);
        }
        (refusal, _) => met.note(REFUSED[refusal as usize - 1]),
    }
}

/// One context only is named by both, by the first in one role only.
fn alone(met: &mut Met, image: View, [one, other]: [usize; 2]) {
    let shared: Vec<u64> = apart::shared(image, one, other).into_iter().collect();
    let [context] = shared[..] else { return };
    let names = |role: &usize| apart::named_as(image, one, *role).contains(&context);
    let roles: Vec<usize> = (0..ALONE.len()).filter(names).collect();
    if let [role] = roles[..] {
        met.note(ALONE[role]);
    }
}
