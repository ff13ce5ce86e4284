//! Row 3: the range of each word.

use crate::{
    MAX_CONTEXTS, MAX_CPUS, NUMBER_MAX, REMAINDER_MAX, ROOM, SLICE_MAX, View, block, context,
};
use std::ops::RangeInclusive;

const ID_MAX: u64 = u32::MAX as u64;
const WEIGHTS: RangeInclusive<u64> = 15..=88_761;

pub fn hold(image: View) -> bool {
    (0..image.contexts()).all(|number| record(image, number))
        && (0..image.cpus()).all(|cpu| one_block(image, cpu))
}

/// The values that the word at `index` may have, its neighbours aside.
pub fn range(image: View, index: usize) -> RangeInclusive<u64> {
    let Some(place) = index.checked_sub(2) else {
        return 1..=[MAX_CPUS, MAX_CONTEXTS][index];
    };
    let records = context::WORDS * image.contexts();
    if place < records {
        return match place % context::WORDS {
            context::GONE => 0..=1,
            context::DEBUG_ID => 0..=ID_MAX,
            word => 0..=record_max(image, word),
        };
    }
    let word = (place - records) % block::WORDS;
    if word < block::SINGLE {
        return 0..=single_max(image, word);
    }
    if word == block::REMAINDER {
        return 0..=REMAINDER_MAX;
    }
    match block::SINGLE + (word - block::SINGLE) / ROOM * ROOM {
        block::ENTRY_WEIGHT => WEIGHTS,
        column => 0..=slot_max(image, column),
    }
}

fn record(image: View, number: usize) -> bool {
    let word = |place| image.context(number, place);
    if word(context::GONE) > 1 || word(context::DEBUG_ID) > ID_MAX {
        return false;
    }
    if word(context::GONE) == 1 {
        return (context::STATUS..context::WORDS).all(|place| word(place) == 0);
    }
    (context::STATUS..context::WORDS).all(|place| word(place) <= record_max(image, place))
        && (word(context::HAS_WAKE) == 1 || word(context::WAKE) == 0)
        && (word(context::HAS_QUEUE_KEY) == 1
            || (word(context::QUEUE_KEY_VD) == 0 && word(context::QUEUE_KEY_REM_SLICE) == 0))
}

fn record_max(image: View, place: usize) -> u64 {
    match place {
        context::STATUS => 5,
        context::CPU_ID => image.cpus() as u64,
        context::SCHED_AFFINITY => u64::MAX,
        context::PRIO => 39,
        context::REM_SLICE | context::QUEUE_KEY_REM_SLICE => SLICE_MAX,
        context::LOCK | context::ADDR_SPACE => 2,
        context::RUNNING
        | context::CURRENTLY_SCHEDULED
        | context::INSIDE_SYSCALL
        | context::HAS_WAKE
        | context::USERSPACE
        | context::BEING_SIGKILLED
        | context::IS_ACTIVE
        | context::HAS_QUEUE_KEY => 1,
        _ => NUMBER_MAX,
    }
}

fn one_block(image: View, cpu: usize) -> bool {
    let word = |place| image.block(cpu, place);
    if word(block::PRESENT) == 0 {
        return (0..block::WORDS).all(|place| word(place) == 0);
    }
    (0..block::SINGLE).all(|place| word(place) <= single_max(image, place))
        && word(block::REMAINDER) <= REMAINDER_MAX
        && block::COLUMNS.iter().all(|(count, columns)| {
            columns
                .iter()
                .all(|column| used(image, cpu, *column, word(*count) as usize))
        })
}

fn single_max(image: View, place: usize) -> u64 {
    match place {
        block::PRESENT
        | block::BEING_SIGKILLED
        | block::INSIDE_SYSCALL
        | block::STEALABLE
        | block::QUEUE_LOCKED => 1,
        block::CURRENT_CTXT | block::SCHED_CTXT | block::IDLE_CTXT => image.contexts() as u64 - 1,
        block::STEAL_COUNTER => u64::MAX,
        block::STATE => 2,
        block::QUEUE_COUNT | block::TIMERS_COUNT | block::LOCAL_COUNT | block::IPI_COUNT => {
            ROOM as u64
        }
        _ => NUMBER_MAX,
    }
}

/// The slots in use are in range, the others zero.
fn used(image: View, cpu: usize, column: usize, count: usize) -> bool {
    (0..ROOM).all(|slot| {
        let value = image.block(cpu, column + slot);
        if slot >= count {
            return value == 0;
        }
        value <= slot_max(image, column)
            && (column != block::ENTRY_WEIGHT || value >= *WEIGHTS.start())
    })
}

fn slot_max(image: View, column: usize) -> u64 {
    match column {
        block::KEY_REM_SLICE => SLICE_MAX,
        block::KEY_CTXT_ID => ID_MAX,
        block::ENTRY_WEIGHT => *WEIGHTS.end(),
        block::ENTRY_CONTEXT_REF
        | block::TIMER_CONTEXT_REF
        | block::LOCAL_WAKEUP_LIST
        | block::IPI_CONTEXT_WAKEUP_LIST => image.contexts() as u64 - 1,
        _ => NUMBER_MAX,
    }
}
