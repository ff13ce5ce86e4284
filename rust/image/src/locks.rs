//! The locks that a call looks at: those that it needs free, and those that it tries and goes on without.
//!
//! The theorem `locks-of-others` (crates/call_locks, proofs/Locks) says that the locks of contexts that a CPU does not
//! name change nothing.
//!
//! ```
//! use ronthuyal_image::{Call, Place, View, locks, text};
//!
//! let moment = "context idle\ncontext rival\ncontext writer wake=1s\n\
//!               cpu 0 idle_ctxt=idle sched_ctxt=rival steal_counter=1\ntimer 0 writer";
//! let packed = text::pack(moment).unwrap();
//! let view = View::new(&packed.words).unwrap();
//! let call = Call::Operation { operation: 2, cpu: 0, time: 1_000_000_000, context: 0 };
//! let named = |places: Vec<Place>| places.iter().map(|place| place.name(&packed.names)).collect::<Vec<_>>();
//! assert_eq!(named(locks::tried(view, &call)), ["context.writer.lock", "context.writer.addr_space"]);
//! let needed = ["cpu.0.queue_locked", "context.rival.lock", "context.idle.lock"];
//! assert_eq!(named(locks::needed(view, &call)), needed);
//! ```

use crate::call::Call;
use crate::place::Place;
use crate::places::{block, context};
use crate::view::View;
use alloc::vec;
use alloc::vec::Vec;

/// Values of `lock`: nobody has it.
pub const FREE: u64 = 0;
/// Another CPU reads the record.
pub const READ: u64 = 1;
/// Another CPU writes it.
pub const WRITTEN: u64 = 2;
/// Values of `addr_space`: there is none.
pub const NO_SPACE: u64 = 0;
/// It is there, and nobody writes it.
pub const SPACE_FREE: u64 = 1;
/// Another CPU writes it.
pub const SPACE_WRITTEN: u64 = 2;

/// Stealing is tried on every 16th counter value, and on every 2nd where idle is in charge and nobody has won.
const STEAL_INTERVAL: u64 = 16;
const IDLE_STEAL_INTERVAL: u64 = 2;

/// A context's lock.
pub fn lock(context: u64) -> Place {
    Place::Record {
        context: context as usize,
        word: context::LOCK,
    }
}

/// The lock of a context's address space.
pub fn addr_space(context: u64) -> Place {
    Place::Record {
        context: context as usize,
        word: context::ADDR_SPACE,
    }
}

/// The lock of a CPU's queue.
pub fn queue_locked(cpu: usize) -> Place {
    Place::Block {
        cpu,
        word: block::QUEUE_LOCKED,
    }
}

/// Whether a word is one of these.
pub fn is_lock(place: Place) -> bool {
    matches!(
        place,
        Place::Record {
            word: context::LOCK | context::ADDR_SPACE,
            ..
        } | Place::Block {
            word: block::QUEUE_LOCKED,
            ..
        }
    )
}

/// The values that a lock may have: of an address space that which it has where nobody writes it, and written.
pub fn values(view: View, place: Place) -> Vec<u64> {
    let own = view.words()[place.index(view.contexts())];
    match place {
        Place::Record {
            word: context::ADDR_SPACE,
            ..
        } => vec![if own == NO_SPACE { NO_SPACE } else { SPACE_FREE }, SPACE_WRITTEN],
        Place::Record { .. } => vec![FREE, READ, WRITTEN],
        _ => vec![0, 1],
    }
}

/// Every lock of an image: of contexts that are not gone, and of the CPUs that are there.
pub fn all(view: View) -> Vec<Place> {
    let live = (0..view.contexts() as u64).filter(|number| !view.gone(*number as usize));
    let of_contexts = live.flat_map(|number| [lock(number), addr_space(number)]);
    of_contexts.chain(view.present_cpus().map(queue_locked)).collect()
}

/// The CPU of a call, where it is there.
fn here(view: View, call: &Call) -> Option<usize> {
    let cpu = call.cpu();
    (cpu < view.cpus() as u64 && view.present(cpu as usize)).then_some(cpu as usize)
}

/// The locks that must be free, or the call is refused with 6.
pub fn needed(view: View, call: &Call) -> Vec<Place> {
    let mut needed = Vec::new();
    if let Some(here) = here(view, call).filter(|_| call.decides()) {
        let seat = |word| view.block(here, word);
        let (current, charged) = (seat(block::CURRENT_CTXT), seat(block::SCHED_CTXT));
        needed.push(queue_locked(here));
        needed.extend([current, charged, seat(block::IDLE_CTXT)].map(lock));
        if current != charged {
            needed.push(addr_space(charged));
        }
    }
    if let Some(named) = call.context() {
        needed.push(lock(named));
        if call.operation() == Some(3) {
            needed.push(addr_space(named));
        }
    }
    if let Call::UnblockGroup { mask, .. } = call {
        needed.extend((0..64).filter(|bit| mask >> bit & 1 == 1).map(lock));
    }
    let there = |place: &Place| match place {
        Place::Record { context, .. } => *context < view.contexts(),
        _ => true,
    };
    once(needed.into_iter().filter(there))
}

/// The locks that a decision tries, without those that it needs: of the contexts that its CPU names in queue, timers and
/// local list, and where it may steal also of the other CPUs' queues. Other calls try none.
pub fn tried(view: View, call: &Call) -> Vec<Place> {
    let Some(here) = here(view, call).filter(|_| call.decides()) else {
        return Vec::new();
    };
    let local = (0..view.used(here, block::LOCAL_COUNT)).map(|slot| view.block(here, block::LOCAL_WAKEUP_LIST + slot));
    let mut contexts: Vec<u64> = view.queue(here).collect();
    contexts.extend(view.timers(here).map(|(_, owner)| owner));
    contexts.extend(local);
    let mut queues = Vec::new();
    if may_steal(view, here) {
        for cpu in view.present_cpus().filter(|cpu| *cpu != here) {
            queues.push(queue_locked(cpu));
            contexts.extend(view.queue(cpu));
        }
    }
    contexts.retain(|number| *number < view.contexts() as u64 && !view.gone(*number as usize));
    let of_contexts = once(contexts)
        .into_iter()
        .flat_map(|number| [lock(number), addr_space(number)]);
    let needed = needed(view, call);
    of_contexts
        .chain(queues)
        .filter(|place| !needed.contains(place))
        .collect()
}

/// Whether some outcome of the decision may steal: the counter is known beforehand, and so is whether idle is in charge;
/// whether somebody wins is not.
fn may_steal(view: View, here: usize) -> bool {
    let counter = view.block(here, block::STEAL_COUNTER);
    let idle = view.block(here, block::SCHED_CTXT) == view.block(here, block::IDLE_CTXT);
    counter.is_multiple_of(STEAL_INTERVAL) || (idle && counter.is_multiple_of(IDLE_STEAL_INTERVAL))
}

/// Each of these once, in their order.
fn once<T: PartialEq>(all: impl IntoIterator<Item = T>) -> Vec<T> {
    let mut seen = Vec::new();
    for one in all {
        if !seen.contains(&one) {
            seen.push(one);
        }
    }
    seen
}
