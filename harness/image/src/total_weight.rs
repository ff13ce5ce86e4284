//! A CPU's weight added up from the contexts (document 02, No. 7), and the conditions under which
//! a decision keeps the stored total equal to it: an own reading of the ticket.

use crate::{TotalWeight, View, block as b, check, context as c, tidy};

/// Rows 1 to 4, of no time, then 5 for the CPU; or 0.
pub fn refusal(image: &[u64], call: &TotalWeight) -> u64 {
    let image_only = check::image_refusal(image, 0);
    if image_only != 0 {
        return image_only;
    }
    let image = View(image);
    match call.cpu < image.cpus() as u64 && image.present(call.cpu as usize) {
        true => 0,
        false => 5,
    }
}

/// The weights of the queue's entries, gone ones' too, and that of the priority of the context in
/// charge if it is active; `weight` is that of a priority.
pub fn total(image: View, cpu: usize, weight: fn(u64) -> u64) -> u64 {
    let queued: u64 = queue(image, cpu).map(|entry| entry.weight).sum();
    let holder = image.block(cpu, b::SCHED_CTXT) as usize;
    let counts = image.context(holder, c::IS_ACTIVE) == 1;
    queued + u64::from(counts) * weight(image.context(holder, c::PRIO))
}

/// Whether the stored total of every present CPU is the one added up.
pub fn agrees(image: View, weight: fn(u64) -> u64) -> bool {
    let stored = |cpu| image.block(cpu, b::TOTAL_WEIGHT);
    present(image).all(|cpu| stored(cpu) == total(image, cpu, weight))
}

/// The ticket's conditions for one decision, without the equality itself.
pub fn weighed(image: View, weight: fn(u64) -> u64) -> bool {
    tidy::holds(image)
        && entries_agree(image, weight)
        && (0..image.contexts()).all(|context| mark_agrees(image, context))
}

/// Who must be active is, and nobody else but one in charge that has stopped being runnable.
fn mark_agrees(image: View, context: usize) -> bool {
    let active = image.context(context, c::IS_ACTIVE) == 1;
    let must = queued(image, context) || runs(image, context);
    let may = must || stopped(image, context) && !idle(image, context);
    (!must || active) && (!active || may)
}

/// With the stronger word, for runs: every context in charge that is not idle is active.
pub fn weighed_always(image: View, weight: fn(u64) -> u64) -> bool {
    let active = |context: usize| image.context(context, c::IS_ACTIVE) == 1;
    weighed(image, weight)
        && present(image)
            .map(|cpu| image.block(cpu, b::SCHED_CTXT) as usize)
            .all(|context| active(context) || idle(image, context))
}

pub struct Entry {
    pub context: usize,
    pub weight: u64,
}

/// The entries of a CPU's queue, in their order.
pub fn queue(image: View, cpu: usize) -> impl Iterator<Item = Entry> {
    let at = move |word| image.block(cpu, word);
    (0..at(b::QUEUE_COUNT) as usize).map(move |slot| Entry {
        context: at(b::ENTRY_CONTEXT_REF + slot) as usize,
        weight: at(b::ENTRY_WEIGHT + slot),
    })
}

pub fn present(image: View) -> impl Iterator<Item = usize> {
    (0..image.cpus()).filter(move |cpu| image.present(*cpu))
}

/// Each live entry has its priority's weight.
fn entries_agree(image: View, weight: fn(u64) -> u64) -> bool {
    let own = |context| weight(image.context(context, c::PRIO));
    let mut entries = present(image).flat_map(|cpu| queue(image, cpu));
    entries.all(|entry| image.gone(entry.context) || entry.weight == own(entry.context))
}

/// A live context with an entry.
fn queued(image: View, context: usize) -> bool {
    let here = |cpu| queue(image, cpu).any(|entry| entry.context == context);
    !image.gone(context) && present(image).any(here)
}

fn in_charge(image: View, context: usize) -> bool {
    present(image).any(|cpu| image.block(cpu, b::SCHED_CTXT) == context as u64)
}

pub fn idle(image: View, context: usize) -> bool {
    present(image).any(|cpu| image.block(cpu, b::IDLE_CTXT) == context as u64)
}

/// Runnable, in charge and not idle.
fn runs(image: View, context: usize) -> bool {
    let runnable = image.context(context, c::STATUS) == c::RUNNABLE;
    runnable && in_charge(image, context) && !idle(image, context)
}

/// In charge, and has stopped being runnable.
fn stopped(image: View, context: usize) -> bool {
    image.context(context, c::STATUS) != c::RUNNABLE && in_charge(image, context)
}

#[cfg(test)]
mod tests;
