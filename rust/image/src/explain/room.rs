//! Row 9: which list would get its 65th item.

use super::{Explanation, Labels};
use crate::call::Call;
use crate::places::{block, context};
use crate::tables::ROOM;
use crate::view::View;
use alloc::format;
use alloc::vec::Vec;

fn full(view: View, cpu: usize, count: usize, labels: &Labels, by: &str) -> Explanation {
    let word = view.block_at(cpu) + count;
    let list = match count {
        block::QUEUE_COUNT => "queue",
        block::TIMERS_COUNT => "timer set",
        block::LOCAL_COUNT => "local list",
        _ => "interrupt list",
    };
    let wrong = format!(
        "the {list} of CPU {cpu} would get more than {ROOM} items{by}: {}",
        labels.is(view.words(), word)
    );
    Explanation::new(9, Some(word), wrong, format!("a queue, timer set or list takes {ROOM}"))
}

/// Of calls that only put names on lists, which can be seen without making them: operations 4 and 5, and groups.
pub fn listed(view: View, call: &Call, labels: &Labels) -> Option<Explanation> {
    let cpu = call.cpu() as usize;
    match *call {
        Call::Operation {
            operation: 4, context, ..
        } => woken(view, cpu, &[context], labels),
        Call::Operation { operation: 5, .. } => {
            let of = |count| view.block(cpu, count);
            let moved = of(block::IPI_COUNT);
            // Nothing is put where nothing is moved.
            let over = moved > 0 && of(block::LOCAL_COUNT) + moved > ROOM;
            let by = format!(" by {moved} of the interrupt list");
            over.then(|| full(view, cpu, block::LOCAL_COUNT, labels, &by))
        }
        Call::UnblockGroup { mask, .. } => {
            let named: Vec<u64> = (0..64).filter(|x| mask >> x & 1 == 1).collect();
            woken(view, cpu, &named, labels)
        }
        _ => None,
    }
}

/// Each context that is blocked or runnable goes on a list: that of the CPU it was last on, if that is another and
/// present, else the local one here.
fn woken(view: View, here: usize, named: &[u64], labels: &Labels) -> Option<Explanation> {
    let mut more = [[0_u64; 2]; 4];
    for number in named {
        let word = |word| view.record(*number as usize, word);
        if ![context::RUNNABLE, context::BLOCKED].contains(&word(context::STATUS)) {
            continue;
        }
        let last = (word(context::CPU_ID) as usize).checked_sub(1);
        let other = last.filter(|cpu| *cpu != here && view.present(*cpu));
        let (cpu, list, count) = match other {
            Some(cpu) => (cpu, 1, block::IPI_COUNT),
            None => (here, 0, block::LOCAL_COUNT),
        };
        more[cpu][list] += 1;
        if view.block(cpu, count) + more[cpu][list] > ROOM {
            let by = format!(", with {}", labels.names.of(*number));
            return Some(full(view, cpu, count, labels, &by));
        }
    }
    None
}

/// Of operations 1 to 3 that were refused with 9: the queue or the local list of their CPU.
///
/// A direct switch, or one back, only puts who is left on the local list. In a decision the local list is emptied and
/// only names that are locked are put back, so it overflows only where all 64 are; `refusal` makes the call on a copy
/// without them and tells the two apart.
pub fn no_room(
    words: &[u64],
    call: &Call,
    labels: &Labels,
    refusal: impl FnOnce(&[u64]) -> u64,
) -> Option<Explanation> {
    let view = View::new(words)?;
    if !call.decides() {
        return listed(view, call, labels);
    }
    let cpu = call.cpu() as usize;
    let full_list = view.block(cpu, block::LOCAL_COUNT) == ROOM;
    let local = full_list && (!is_decision(view, call) || refusal(&without_names(view, cpu)) != 9);
    let count = if local { block::LOCAL_COUNT } else { block::QUEUE_COUNT };
    Some(full(view, cpu, count, labels, ""))
}

/// Whether the call decides who is in charge: a due tick, a switch, or a direct switch that cannot be made, unless the
/// CPU switches back.
fn is_decision(view: View, call: &Call) -> bool {
    let at = |word| view.block(call.cpu() as usize, word);
    let asks = match (call.operation(), call.context()) {
        (Some(1), _) => at(block::PIT_TICKS) + 1 >= 3,
        (Some(3), Some(to)) => to != at(block::CURRENT_CTXT) && !can_run(view, call, to),
        _ => true,
    };
    let sched = at(block::SCHED_CTXT);
    let back = at(block::CURRENT_CTXT) != sched && can_run(view, call, sched);
    asks && !back
}

/// `update_runnable` of a context that is not current.
fn can_run(view: View, call: &Call, number: u64) -> bool {
    let word = |word| view.record(number as usize, word);
    let charged = number == view.block(call.cpu() as usize, block::SCHED_CTXT);
    let awake = match word(context::STATUS) {
        context::RUNNABLE => true,
        context::BLOCKED => word(context::HAS_WAKE) == 1 && call.time().is_some_and(|time| word(context::WAKE) <= time),
        _ => false,
    };
    let elsewhere = word(context::CURRENTLY_SCHEDULED) == 1 && !charged;
    let allowed = word(context::SCHED_AFFINITY) >> call.cpu() & 1 == 1;
    word(context::RUNNING) == 0 && !elsewhere && allowed && awake
}

fn without_names(view: View, cpu: usize) -> Vec<u64> {
    let mut words = view.words().to_vec();
    let at = view.block_at(cpu);
    let list = at + block::LOCAL_WAKEUP_LIST;
    // Names that are not locked may be woken: they stay.
    let locked = |number: &u64| view.record(*number as usize, context::LOCK) != 0;
    let stay: Vec<u64> = words[list..list + ROOM as usize]
        .iter()
        .copied()
        .filter(|n| !locked(n))
        .collect();
    words[list..list + ROOM as usize].fill(0);
    words[list..list + stay.len()].copy_from_slice(&stay);
    words[at + block::LOCAL_COUNT] = stay.len() as u64;
    words
}
