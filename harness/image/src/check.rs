//! The table of refused calls, rows 1 to 8, read from document 01. Row 9 needs the
//! run of the call and is not here.

use crate::{Call, Group, MAX_CONTEXTS, MAX_CPUS, NUMBER_MAX, View, block, context, length};
use crate::{ranges, structure};

/// The most that a turn may last.
const TURN_MAX: u64 = (1 << 52) - 1;

/// The first row that the call meets, or 0.
pub fn refusal(image: &[u64], call: &Call) -> u64 {
    match image_refusal(image, call.time) {
        0 => call_refusal(View(image), call),
        refusal => refusal,
    }
}

/// The first row that any single call of the group meets, or 0. Of an empty group the image,
/// the time and the CPU are judged, as of operation 5.
pub fn group_refusal(image: &[u64], group: &Group) -> u64 {
    let image_only = image_refusal(image, group.time);
    if image_only != 0 {
        return image_only;
    }
    let nobody = Call {
        operation: 5,
        cpu: group.cpu,
        time: group.time,
        context: 0,
    };
    let calls = std::iter::once(nobody).chain(group.singles());
    let met = calls.map(|call| call_refusal(View(image), &call));
    met.filter(|refusal| *refusal != 0).min().unwrap_or(0)
}

/// Rows 1 to 4.
pub fn image_refusal(image: &[u64], time: u64) -> u64 {
    if !sized(image) {
        return 1;
    }
    if image.len() != length(image[0] as usize, image[1] as usize) {
        return 2;
    }
    let image = View(image);
    if !ranges::hold(image) || time > NUMBER_MAX {
        return 3;
    }
    if !structure::holds(image) {
        return 4;
    }
    0
}

/// Rows 5 to 8, of an image that the others let pass.
pub fn call_refusal(image: View, call: &Call) -> u64 {
    if !named(image, call) {
        return 5;
    }
    if !unlocked(image, call) {
        return 6;
    }
    if from_idle(image, call) {
        return 7;
    }
    let last = image.block(call.cpu as usize, block::SCHEDULE_TIME);
    if decides(call) && call.time > last + TURN_MAX {
        return 8;
    }
    0
}

fn sized(image: &[u64]) -> bool {
    image.len() >= 2 && (1..=MAX_CPUS).contains(&image[0]) && (1..=MAX_CONTEXTS).contains(&image[1])
}

/// Operations 1 to 3, which may run a decision.
pub fn decides(call: &Call) -> bool {
    (1..=3).contains(&call.operation)
}

pub fn names_context(call: &Call) -> bool {
    matches!(call.operation, 3 | 4 | 6 | 7)
}

fn named(image: View, call: &Call) -> bool {
    (1..=7).contains(&call.operation)
        && call.cpu < image.cpus() as u64
        && image.present(call.cpu as usize)
        && (!names_context(call)
            || (call.context < image.contexts() as u64 && !image.gone(call.context as usize)))
}

fn unlocked(image: View, call: &Call) -> bool {
    let cpu = call.cpu as usize;
    let at = |word| image.block(cpu, word) as usize;
    let free = |number| image.context(number, context::LOCK) == 0;
    let space_free = |number| image.context(number, context::ADDR_SPACE) != 2;

    if decides(call) {
        let (current, sched) = (at(block::CURRENT_CTXT), at(block::SCHED_CTXT));
        if at(block::QUEUE_LOCKED) != 0 {
            return false;
        }
        if !free(current) || !free(sched) || !free(at(block::IDLE_CTXT)) {
            return false;
        }
        if current != sched && !space_free(sched) {
            return false;
        }
    }
    let named = call.context as usize;
    (!names_context(call) || free(named)) && (call.operation != 3 || space_free(named))
}

fn from_idle(image: View, call: &Call) -> bool {
    let current = image.block(call.cpu as usize, block::CURRENT_CTXT);
    call.operation == 3
        && current == image.block(call.cpu as usize, block::IDLE_CTXT)
        && current != call.context
}
