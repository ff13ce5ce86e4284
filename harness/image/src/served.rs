//! The wake-ups that a decision serves, and what it steals, in demand 3's words.

use crate::{Call, View, block as b, context as c, decision};

/// The due timers here whose contexts wait for them and can be read, with their wakes, then the
/// names on the local list.
pub fn wakeups(image: View, call: &Call) -> Vec<(Option<u64>, u64)> {
    let at = |word| image.block(call.cpu as usize, word);
    let timers = decision::due(image, call)
        .filter(|due| due.record == decision::Record::Readable && due.fits)
        .map(|due| (Some(due.wake), due.context));
    let names =
        (0..at(b::LOCAL_COUNT) as usize).map(|slot| (None, at(b::LOCAL_WAKEUP_LIST + slot)));
    timers.chain(names).collect()
}

/// Whether no wake-up served here names a context that is queued on another CPU. One whose
/// context is locked is put back.
pub fn serves_own(before: View, call: &Call) -> bool {
    let elsewhere = queued_elsewhere(before, call.cpu as usize);
    let free = |context: u64| before.context(context as usize, c::LOCK) == 0;
    let strays = |context: &u64| elsewhere.contains(context) && free(*context);
    !wakeups(before, call)
        .iter()
        .any(|(_, context)| strays(context))
}

/// Contexts with an entry in this queue.
pub fn queued(image: View, cpu: usize) -> impl Iterator<Item = u64> {
    let count = image.block(cpu, b::QUEUE_COUNT) as usize;
    (0..count).map(move |slot| image.block(cpu, b::ENTRY_CONTEXT_REF + slot))
}

fn queued_elsewhere(image: View, here: usize) -> Vec<u64> {
    let others = (0..image.cpus()).filter(|cpu| *cpu != here);
    others.flat_map(|cpu| queued(image, cpu)).collect()
}

/// Whether somebody was queued on another CPU before, and is queued or in charge here after.
pub fn stole(before: View, here: usize, after: View) -> bool {
    let elsewhere = queued_elsewhere(before, here);
    queued(after, here)
        .chain([after.block(here, b::SCHED_CTXT)])
        .any(|context| elsewhere.contains(&context))
}
