//! Carrying the fraction of a tick (document 02, No. 8): an own reading of images and calls that
//! rows 1 to 8 let pass. And what the source is to be asked so that its own ticks, which know no
//! remainder, do the same.

use crate::{Call, View, block as b, context as c, decision};

/// Ticks have this scale, and so many nanoseconds each.
const SCALE: u128 = 1 << 30;
const NANOS_PER_TICK: u128 = 2_250_000;
/// A decision whose rule is this puts nobody in charge but idle, and V does not advance.
const IDLE: u64 = 9;

/// Nanoseconds since the last decision here; none where the clock has gone back.
pub fn elapsed(image: View, call: &Call) -> u64 {
    let last = image.block(call.cpu as usize, b::SCHEDULE_TIME);
    call.time.saturating_sub(last)
}

/// The remainder that the CPU of the call has.
pub fn carried(image: View, call: &Call) -> u64 {
    image.block(call.cpu as usize, b::REMAINDER)
}

/// Ticks, and what is left over of the division.
pub fn converted(elapsed: u64, carried: u64) -> (u64, u64) {
    let scaled = u128::from(elapsed) * SCALE + u128::from(carried);
    let (ticks, left) = (scaled / NANOS_PER_TICK, scaled % NANOS_PER_TICK);
    (ticks as u64, left as u64)
}

/// What a decision charges, and what V's advance goes by.
pub fn ticks(image: View, call: &Call) -> u64 {
    converted(elapsed(image, call), carried(image, call)).0
}

/// The remainder here after an accepted call: only a decision leaves another one.
pub fn left(image: View, call: &Call) -> u64 {
    match decision::is_made(image, call) {
        true => converted(elapsed(image, call), carried(image, call)).1,
        false => carried(image, call),
    }
}

/// The source's ticks of a decision to which the remainder adds one. It adds no more: it is less
/// than a tick.
pub fn one_more(image: View, call: &Call) -> Option<u64> {
    let source = converted(elapsed(image, call), 0).0;
    let more = decision::is_made(image, call) && ticks(image, call) > source;
    more.then_some(source)
}

/// The image on which the source charges what the call is to charge. It carries nothing here. If
/// there is one tick more, a runnable holder has one less of its slice, and a virtual time as much
/// later as that tick makes it; `weight` is that of a priority.
pub fn source_before(image: View, call: &Call, weight: impl Fn(u64) -> u64) -> Vec<u64> {
    let mut words = image.0.to_vec();
    let at = |word| image.block(call.cpu as usize, word);
    words[image.block_at(call.cpu as usize) + b::REMAINDER] = 0;
    let holder = at(b::SCHED_CTXT);
    let record = &mut words[image.context_at(holder as usize)..];
    let charged = holder != at(b::IDLE_CTXT) && record[c::STATUS] == c::RUNNABLE;
    if let Some(ticks) = one_more(image, call).filter(|_| charged) {
        let weight = weight(record[c::PRIO]);
        record[c::REM_SLICE] = record[c::REM_SLICE].saturating_sub(1);
        record[c::VTIME] += (ticks + 1) / weight - ticks / weight;
    }
    words
}

/// What the source left of that image becomes what the call is to leave: V has gained by the same
/// ticks, and the new remainder is stored. `rule` is that of the decision.
pub fn source_after(before: View, call: &Call, rule: u64, after: &mut [u64]) {
    let block = before.block_at(call.cpu as usize);
    let total = after[block + b::TOTAL_WEIGHT];
    let advances = rule != IDLE && total > 0;
    if let Some(ticks) = one_more(before, call).filter(|_| advances) {
        after[block + b::V] += (ticks + 1) / total - ticks / total;
    }
    after[block + b::REMAINDER] = left(before, call);
}

/// The ticks of an accepted decision, where the holder's slice shows them: it was runnable, its
/// turn was no yield, and some of its slice is left.
pub fn shown(before: View, call: &Call, after: View) -> Option<u64> {
    let at = |word| before.block(call.cpu as usize, word);
    let holder = at(b::SCHED_CTXT);
    let slice = |image: View| image.context(holder as usize, c::REM_SLICE);
    let runnable = before.context(holder as usize, c::STATUS) == c::RUNNABLE;
    let whole = 2 * u128::from(elapsed(before, call)) >= 3 * NANOS_PER_TICK;
    let charged = holder != at(b::IDLE_CTXT) && runnable && whole;
    // A new slice is no less than what there was.
    let less = slice(before).checked_sub(slice(after));
    less.filter(|less| charged && *less > 0 && decision::is_made(before, call))
}

#[cfg(test)]
mod tests;
