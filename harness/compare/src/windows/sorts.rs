//! What calls in a window must meet.

use super::queries;
use crate::{
    generate::{Case, windows::SORTS},
    met::Met,
};
use image::{
    Call, View, block as b, decision,
    window::{self, ROOM},
};

/// Of a window that was empty at first and is written by nobody else.
pub const LONG: &str = "a window over 256 decisions after it was empty";

const DECISION: &str = "a decision, recorded";
const BACK_IN_TIME: &str = "a decision with the clock gone back";
const LAST_ROOM: &str = "the 256th record";
const NO_ROOM: &str = "the 257th decision: the oldest leaves";
const UNDUE: &str = "an undue tick";
const DIRECT: &str = "a direct switch, or one to itself";
const BACK: &str = "a switch back";
const OTHER: [&str; 4] = ["operation 4", "operation 5", "operation 6", "operation 7"];
const OWN: &str = "its own number";
const OWN_9: &str = "its own number, 9, in a whole window";
const OWN_FIRST: &str = "its own number, and a wrong window";
const WRONG: [&str; 2] = ["a window's 1", "a window's 3"];
const UNDUE_WRONG: &str = "an undue tick in a wrong window";

pub fn names() -> Vec<&'static str> {
    let decisions = [DECISION, BACK_IN_TIME, LAST_ROOM, NO_ROOM, LONG];
    let refused = [OWN, OWN_9, OWN_FIRST, UNDUE_WRONG];
    [
        &SORTS[..],
        &decisions,
        &[UNDUE, DIRECT, BACK],
        &OTHER,
        &refused,
        &WRONG,
        &queries::NAMES,
    ]
    .concat()
}

/// Of a call that alone is refused with `own`, or accepted, in the window of this sort.
pub fn note(met: &mut Met, case: &Case, sort: usize, words: &[u64], own: u64) {
    met.note(SORTS[sort]);
    let contexts = case.image.get(1).copied().unwrap_or(0);
    let wrong = window::refusal(words, contexts);
    if own != 0 {
        met.note(OWN);
        met.note_if(own == 9 && wrong == 0, OWN_9);
        met.note_if(wrong != 0, OWN_FIRST);
        return;
    }
    let (image, call) = (View(&case.image), &case.call);
    let kind = kind(image, call);
    if wrong != 0 {
        met.note(WRONG[usize::from(wrong == 3)]);
        met.note_if(kind == UNDUE, UNDUE_WRONG);
        return;
    }
    met.note(kind);
    if kind == DECISION {
        let begun = image.block(call.cpu as usize, b::SCHEDULE_TIME);
        met.note_if(call.time < begun, BACK_IN_TIME);
        met.note_if(words[0] == ROOM as u64 - 1, LAST_ROOM);
        met.note_if(words[0] == ROOM as u64, NO_ROOM);
    }
}

/// What an accepted call is.
fn kind(image: View, call: &Call) -> &'static str {
    let at = |word| image.block(call.cpu as usize, word);
    let undue = at(b::PIT_TICKS) + 1 < 3;
    let same = at(b::CURRENT_CTXT) == at(b::SCHED_CTXT);
    match call.operation {
        1..=3 if decision::is_made(image, call) => DECISION,
        1 if undue => UNDUE,
        3 if same => DIRECT,
        1..=3 => BACK,
        other => OTHER[other as usize - 4],
    }
}
