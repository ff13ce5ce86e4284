//! The newest timer stands (document 02, No. 4): which timer the one put in removes, an own
//! reading of images and calls that rows 1 to 8 let pass.

use crate::{Call, View, block as b, context as c, decision, put_timers};

/// The timer that charging puts in: of a holder, other than idle, that has stopped with a wake.
pub fn put_in(image: View, call: &Call) -> Option<(u64, u64)> {
    let at = |word| image.block(call.cpu as usize, word);
    let holder = at(b::SCHED_CTXT);
    let word = |place| image.context(holder as usize, place);
    let stopped = holder != at(b::IDLE_CTXT) && word(c::STATUS) != c::RUNNABLE;
    let puts = stopped && word(c::HAS_WAKE) == 1 && decision::is_made(image, call);
    puts.then(|| (word(c::WAKE), holder))
}

/// The timer that it removes: a set has at most one of a context. That pair itself stays, and
/// no timer of the holder leaves the set before: if it is due, it cannot be read.
pub fn superseded(image: View, call: &Call) -> Option<(u64, u64)> {
    let (wake, holder) = put_in(image, call)?;
    let mut here = image.timers(call.cpu as usize);
    here.find(|(other, context)| *context == holder && *other != wake)
}

/// Whether the call makes a decision that removes a timer.
pub fn supersedes(image: View, call: &Call) -> bool {
    superseded(image, call).is_some()
}

/// The image before the call, with the timer out of the set that it removes.
pub fn without_superseded(image: View, call: &Call) -> Vec<u64> {
    let mut words = image.0.to_vec();
    if let Some(removed) = superseded(image, call) {
        let here = image.timers(call.cpu as usize);
        let kept: Vec<(u64, u64)> = here.filter(|timer| *timer != removed).collect();
        put_timers(&mut words, image.block_at(call.cpu as usize), &kept);
    }
    words
}

#[cfg(test)]
mod tests;
