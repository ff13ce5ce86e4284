//! Tidy machines, as document 01 defines them.

use crate::{View, block, context};

/// For an image whose ranges and structure hold.
pub fn holds(image: View) -> bool {
    let present: Vec<usize> = (0..image.cpus())
        .filter(|cpu| image.present(*cpu))
        .collect();
    let seat = |cpu: usize, seat| image.block(cpu, seat) as usize;
    let charged: Vec<usize> = present
        .iter()
        .map(|cpu| seat(*cpu, block::SCHED_CTXT))
        .collect();
    let idle: Vec<usize> = present
        .iter()
        .map(|cpu| seat(*cpu, block::IDLE_CTXT))
        .collect();
    let once = |list: &[usize], number| list.iter().filter(|other| **other == number).count() == 1;

    (0..image.contexts()).all(|number| {
        let entries = entries(image, &present, number);
        let seated = charged.contains(&number) || idle.contains(&number);
        entries.len() <= 1
            && (entries.is_empty() || !seated)
            && (image.gone(number) || agrees(image, number, entries.first()))
            && scheduled(image, number) == charged.contains(&number)
    }) && charged.iter().all(|number| once(&charged, *number))
        && idle.iter().zip(&present).all(|(number, cpu)| {
            once(&idle, *number)
                && image.context(*number, context::USERSPACE) == 0
                && present
                    .iter()
                    .zip(&charged)
                    .all(|(other, charged)| other == cpu || charged != number)
        })
}

/// Where a context is queued: CPU and slot.
fn entries(image: View, present: &[usize], number: usize) -> Vec<(usize, usize)> {
    let slots = present.iter().flat_map(|cpu| {
        let count = image.block(*cpu, block::QUEUE_COUNT) as usize;
        (0..count).map(|slot| (*cpu, slot))
    });
    slots
        .filter(|(cpu, slot)| image.block(*cpu, block::ENTRY_CONTEXT_REF + slot) == number as u64)
        .collect()
}

fn agrees(image: View, number: usize, entry: Option<&(usize, usize)>) -> bool {
    let word = |place| image.context(number, place);
    let Some((cpu, slot)) = entry else {
        return word(context::HAS_QUEUE_KEY) == 0;
    };
    let entry = |column| image.block(*cpu, column + slot);
    let (vd, rem_slice) = (entry(block::KEY_VD), entry(block::KEY_REM_SLICE));
    word(context::HAS_QUEUE_KEY) == 1
        && (
            word(context::QUEUE_KEY_VD),
            word(context::QUEUE_KEY_REM_SLICE),
        ) == (vd, rem_slice)
        && (word(context::VD), word(context::REM_SLICE)) == (vd, rem_slice)
        && word(context::VTIME) == entry(block::ENTRY_VTIME)
}

fn scheduled(image: View, number: usize) -> bool {
    image.context(number, context::CURRENTLY_SCHEDULED) == 1
}
