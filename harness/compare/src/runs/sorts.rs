//! What runs of calls must meet.

use super::Chain;
use image::{NUMBER_MAX, RULES};

use crate::met::Met;

const NONE: &str = "no call";
const LONG: &str = "more than 40 calls";
const DAMAGED: &str = "a damaged image";
const GOES_ON: &str = "a refused call, and an accepted one behind it";
const LATE: &str = "a time over its range, and an accepted call behind it";
const OVER: &str = "a number over its range after some calls: 3";
const NEAR: &str = "numbers at their limits, all calls accepted";
const STOLEN: &str = "a stolen winner between other calls";
pub const MISFITS: [&str; 3] = [
    "calls that are no multiple of four words",
    "too few words for answers",
    "too many words for answers",
];
const REFUSED: [&str; 9] = [
    "refused with 1",
    "refused with 2",
    "refused with 3",
    "refused with 4",
    "refused with 5",
    "refused with 6",
    "refused with 7",
    "refused with 8",
    "refused with 9",
];

pub fn names() -> Vec<&'static str> {
    let sorts = [NONE, LONG, DAMAGED, GOES_ON, LATE, OVER, NEAR, STOLEN];
    [&sorts[..], &MISFITS, &REFUSED, &RULES[1..]].concat()
}

pub fn note(met: &mut Met, chain: &Chain, passes: bool, limit: bool) {
    let refusals: Vec<u64> = chain.answers.iter().map(|answer| answer.refusal).collect();
    let calls = refusals.len();
    met.note_if(calls == 0, NONE);
    met.note_if(calls > 40, LONG);
    met.note_if(!passes, DAMAGED);
    let last = refusals.iter().rposition(|refusal| *refusal == 0);
    let before = &refusals[..last.unwrap_or(0)];
    met.note_if(before.iter().any(|refusal| *refusal != 0), GOES_ON);
    let late = |call: &image::Call| call.time > NUMBER_MAX;
    met.note_if(chain.calls[..before.len()].iter().any(late), LATE);
    // No time is refused here, so a number of the image is.
    let over = |at: usize| refusals[at] == 3 && !late(&chain.calls[at]);
    met.note_if(passes && last.is_some() && (0..calls).any(over), OVER);
    met.note_if(
        limit && calls > 8 && before.len() + 1 == calls && before.iter().all(|r| *r == 0),
        NEAR,
    );
    for answer in &chain.answers {
        match answer.refusal {
            0 => met.note_if(answer.rule != 0, RULES[answer.rule.max(1) as usize]),
            refusal => met.note(REFUSED[refusal as usize - 1]),
        }
    }
    let stolen = chain.answers.iter().position(|answer| answer.rule == 8);
    met.note_if(stolen.is_some_and(|at| at > 0 && at + 1 < calls), STOLEN);
}
