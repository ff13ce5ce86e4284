//! Two CPUs in either order (document 02, No. 14): an own reading of which CPUs are apart, and of
//! the turns that steal.

use crate::{Answer, Call, View, block as b, check, decision};
use std::collections::BTreeSet;

/// The roles in which a CPU names a context.
pub const ROLES: [&str; 7] = [
    "current",
    "in charge",
    "idle",
    "queued",
    "timed",
    "on the local list",
    "on the interrupt list",
];

/// The first roles have a word each, the others a count and a column.
const SEATS: [usize; 3] = [b::CURRENT_CTXT, b::SCHED_CTXT, b::IDLE_CTXT];
const LISTS: [(usize, usize); 4] = [
    (b::QUEUE_COUNT, b::ENTRY_CONTEXT_REF),
    (b::TIMERS_COUNT, b::TIMER_CONTEXT_REF),
    (b::LOCAL_COUNT, b::LOCAL_WAKEUP_LIST),
    (b::IPI_COUNT, b::IPI_CONTEXT_WAKEUP_LIST),
];

/// The contexts that a CPU names in one role.
pub fn named_as(image: View, cpu: usize, role: usize) -> Vec<u64> {
    let at = |word| image.block(cpu, word);
    match role.checked_sub(SEATS.len()) {
        None => vec![at(SEATS[role])],
        Some(list) => {
            let (count, column) = LISTS[list];
            let slots = 0..at(count) as usize;
            slots.map(|slot| at(column + slot)).collect()
        }
    }
}

/// The contexts that a CPU names in any role.
pub fn named(image: View, cpu: usize) -> BTreeSet<u64> {
    (0..ROLES.len())
        .flat_map(|role| named_as(image, cpu, role))
        .collect()
}

/// The contexts that both name, in any roles together.
pub fn shared(image: View, one: usize, other: usize) -> BTreeSet<u64> {
    &named(image, one) & &named(image, other)
}

/// 1 to 4 as at the time 0, then 5 for either CPU; the result is 1 if no context is named by both.
pub fn apart(image: &[u64], one: u64, other: u64) -> Answer {
    let refusal = check::image_refusal(image, 0);
    if refusal != 0 {
        return Answer::refused(refusal);
    }
    let image = View(image);
    let here = |cpu: u64| cpu < image.cpus() as u64 && image.present(cpu as usize);
    if !here(one) || !here(other) {
        return Answer::refused(5);
    }
    let shared = shared(image, one as usize, other as usize);
    Answer {
        result: shared.is_empty().into(),
        ..Answer::default()
    }
}

/// Whether an accepted call of this rule fell on a stealing turn: every 16th value of the steal
/// counter, or every 2nd when idle is in charge without a winner. By the last two rules nobody has
/// won before the stealing.
pub fn falls_on_stealing_turn(before: View, call: &Call, rule: u64) -> bool {
    let at = |word| before.block(call.cpu as usize, word);
    let interval = match at(b::SCHED_CTXT) == at(b::IDLE_CTXT) && rule >= 8 {
        true => 2,
        false => 16,
    };
    decision::is_made(before, call) && at(b::STEAL_COUNTER) % interval == 0
}

#[cfg(test)]
mod tests;
