//! The plain engine (document 02, No. 10): an own reading of docs/PLAIN.md. It looks through all
//! items every time, finds an item's turn by counting, marks with flags, appends what it inserts,
//! and builds the next image afresh.

mod choice;
mod handover;
mod lists;
mod machine;
mod scan;
mod state;
mod steal;
#[cfg(test)]
mod tests;
mod turn;
mod wakeups;

use crate::{Answer, Call, check};
use machine::Machine;
use state::{State, Weight};

/// What a call answers and leaves; `weight` is that of a priority. Operations 4 to 7 decide nothing
/// and are handed over to `other`.
pub fn called(
    image: &[u64],
    call: &Call,
    weight: Weight,
    other: impl FnOnce(&mut Vec<u64>, &Call) -> Answer,
) -> (Answer, Vec<u64>) {
    let refusal = check::refusal(image, call);
    if refusal != 0 {
        return (Answer::refused(refusal), image.to_vec());
    }
    if !check::decides(call) {
        let mut after = image.to_vec();
        let answer = other(&mut after, call);
        return (answer, after);
    }
    let mut state = State::new(image, call, weight);
    let (result, rule) = decided(&mut state, call);
    if state.no_room {
        return (Answer::refused(9), image.to_vec());
    }
    let answer = Answer {
        result,
        rule,
        ..Answer::default()
    };
    (answer, state.machine.placed())
}

/// Result and rule.
fn decided(state: &mut State, call: &Call) -> (u64, u64) {
    match call.operation {
        1 if state.undue_tick() => (0, 0),
        3 if state.direct_switch(call.context as usize) => (SWITCHED, 0),
        _ if state.switch_back() => (SWITCHED, 0),
        _ => schedule(state),
    }
}

const SWITCHED: u64 = 1;
const ALL_CONTEXTS_IDLE: u64 = 2;
/// The numbers of two rules.
const STOLEN: u64 = 8;
const IDLE: u64 = 9;

/// A decision, in the order of the page.
fn schedule(state: &mut State) -> (u64, u64) {
    state.count_switch();
    state.serve_wakeups();
    let spent = state.spend();
    state.charge_holder(&spent);
    let runs = state.holder_runs();
    let scan = state.scan();
    let mut choice = state.choose(&scan);
    state.clean_up(&scan);
    state.take_out(&choice);
    if state.steal(&mut choice, runs) && choice.rule == IDLE {
        choice.rule = STOLEN;
    }
    state.settle(&choice, runs, spent.ticks);
    let next = state.next(&choice, runs);
    let result = state.hand_over(next, spent.was_idle);
    (result, choice.rule)
}
