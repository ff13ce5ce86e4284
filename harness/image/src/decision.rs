//! Which calls make a decision, and the timers that come due in it: an own reading of
//! document 01 and of the source, of images and calls that rows 1 to 8 let pass.

use crate::{Call, View, block as b, context as c, newest, put_timers, remainder};
use std::collections::BTreeSet;

/// Whether the call runs `schedule`.
pub fn is_made(image: View, call: &Call) -> bool {
    let at = |word| image.block(call.cpu as usize, word);
    let asks = match call.operation {
        1 => at(b::PIT_TICKS) + 1 >= 3,
        2 => true,
        3 => call.context != at(b::CURRENT_CTXT) && !can_run(image, call, call.context),
        _ => false,
    };
    let sched = at(b::SCHED_CTXT);
    let back = at(b::CURRENT_CTXT) != sched && can_run(image, call, sched);
    asks && !back
}

/// `update_runnable` of a context that is not current.
fn can_run(image: View, call: &Call, context: u64) -> bool {
    let word = |place| image.context(context as usize, place);
    let charged = context == image.block(call.cpu as usize, b::SCHED_CTXT);
    let awake = match word(c::STATUS) {
        c::RUNNABLE => true,
        c::BLOCKED => word(c::HAS_WAKE) == 1 && word(c::WAKE) <= call.time,
        _ => false,
    };
    word(c::RUNNING) == 0
        && (word(c::CURRENTLY_SCHEDULED) == 0 || charged)
        && word(c::SCHED_AFFINITY) >> call.cpu & 1 == 1
        && awake
}

/// Whether a decision can read a timer's context.
#[derive(Clone, Copy, Debug, PartialEq, Eq)]
pub enum Record {
    Gone,
    /// Written by another CPU.
    Written,
    /// In charge here: locked by the decision itself.
    InCharge,
    /// Free, or read by another CPU.
    Readable,
}

#[derive(Clone, Copy, Debug, PartialEq, Eq)]
pub struct Due {
    pub wake: u64,
    pub context: u64,
    pub record: Record,
    /// Whether the context is soft-blocked with just this wake.
    pub fits: bool,
}

impl Due {
    pub fn unreadable(&self) -> bool {
        matches!(self.record, Record::Written | Record::InCharge)
    }
}

/// The timers here that are due at the call's time, in their order.
pub fn due(image: View, call: &Call) -> impl Iterator<Item = Due> {
    let (cpu, time) = (call.cpu as usize, call.time);
    let at = move |word| image.block(cpu, word);
    let due = image.timers(cpu).filter(move |(wake, _)| *wake <= time + 1);
    due.map(move |(wake, context)| {
        let word = |place| image.context(context as usize, place);
        let record = if image.gone(context as usize) {
            Record::Gone
        } else if context == at(b::SCHED_CTXT) {
            Record::InCharge
        } else if word(c::LOCK) == 2 {
            Record::Written
        } else {
            Record::Readable
        };
        let waits = word(c::STATUS) == c::BLOCKED && word(c::HAS_WAKE) == 1;
        Due {
            wake,
            context,
            record,
            fits: waits && word(c::WAKE) == wake,
        }
    })
}

/// Whether the call makes a decision in which a due timer is unreadable.
pub fn unreadable_due(image: View, call: &Call) -> bool {
    is_made(image, call) && due(image, call).any(|timer| timer.unreadable())
}

/// Whether the call's answer is that of the changed build: a due timer is unreadable, the timer
/// put in removes another, or a remainder is carried here. Elsewhere the source itself decides,
/// the word of the remainder aside: it then leaves at most one timer of each context.
pub fn departs(image: View, call: &Call) -> bool {
    unreadable_due(image, call)
        || newest::supersedes(image, call)
        || remainder::carried(image, call) != 0
}

/// The image that the source leaves, with the unreadable timers in the set that it has lost
/// (document 02, No. 2). With one timer to a context there is room for them.
pub fn with_unreadable(before: View, call: &Call, after: &[u64]) -> Vec<u64> {
    let mut image = after.to_vec();
    if !unreadable_due(before, call) {
        return image;
    }
    let unreadable = due(before, call).filter(Due::unreadable);
    let set: BTreeSet<(u64, u64)> = unreadable
        .map(|timer| (timer.wake, timer.context))
        .chain(View(after).timers(call.cpu as usize))
        .collect();
    let set: Vec<(u64, u64)> = set.into_iter().collect();
    put_timers(&mut image, before.block_at(call.cpu as usize), &set);
    image
}

#[cfg(test)]
mod tests;
