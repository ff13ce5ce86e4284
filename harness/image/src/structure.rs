//! Row 4: the image's structure.

use crate::{View, block, context};
use std::cmp::Reverse;

pub fn holds(image: View) -> bool {
    ids_differ(image)
        && (0..image.cpus())
            .filter(|cpu| image.present(*cpu))
            .all(|cpu| {
                seats_live(image, cpu)
                    && ids_agree(image, cpu)
                    && keys_rise(image, cpu)
                    && timers_rise(image, cpu)
                    && timers_differ(image, cpu)
            })
}

fn ids_differ(image: View) -> bool {
    let mut ids: Vec<u64> = (0..image.contexts())
        .map(|number| image.context(number, context::DEBUG_ID))
        .collect();
    ids.sort_unstable();
    ids.windows(2).all(|pair| pair[0] != pair[1])
}

fn seats_live(image: View, cpu: usize) -> bool {
    [block::CURRENT_CTXT, block::SCHED_CTXT, block::IDLE_CTXT]
        .iter()
        .all(|seat| !image.gone(image.block(cpu, *seat) as usize))
}

fn ids_agree(image: View, cpu: usize) -> bool {
    (0..image.block(cpu, block::QUEUE_COUNT) as usize).all(|slot| {
        let entry = image.block(cpu, block::ENTRY_CONTEXT_REF + slot) as usize;
        image.block(cpu, block::KEY_CTXT_ID + slot) == image.context(entry, context::DEBUG_ID)
    })
}

fn keys_rise(image: View, cpu: usize) -> bool {
    let key = |slot| {
        (
            image.block(cpu, block::KEY_VD + slot),
            Reverse(image.block(cpu, block::KEY_REM_SLICE + slot)),
            image.block(cpu, block::KEY_CTXT_ID + slot),
        )
    };
    (1..image.block(cpu, block::QUEUE_COUNT) as usize).all(|slot| key(slot - 1) < key(slot))
}

fn timers_rise(image: View, cpu: usize) -> bool {
    let timers: Vec<(u64, u64)> = image.timers(cpu).collect();
    timers.windows(2).all(|pair| pair[0] < pair[1])
}

/// No context twice in the timer set of a CPU (document 02, No. 4).
pub fn timers_differ(image: View, cpu: usize) -> bool {
    let mut marks = 0_u64;
    image.timers(cpu).all(|(_, context)| {
        let mark = 1 << context;
        let new = marks & mark == 0;
        marks |= mark;
        new
    })
}
