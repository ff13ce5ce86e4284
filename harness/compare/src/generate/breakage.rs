//! Images whose words are in range but whose structure is broken, or just not.

use super::rng::Rng;
use image::{View, block as b, context as c, put_timers};

pub fn break_structure(rng: &mut Rng, image: &mut [u64]) {
    let view = View(image);
    let (cpus, contexts) = (view.cpus(), view.contexts());
    let (one, other) = (rng.below(contexts), rng.below(contexts));
    let cpu = rng.below(cpus);
    let block = view.block_at(cpu);
    let queue = image[block + b::QUEUE_COUNT] as usize;
    let timers = image[block + b::TIMERS_COUNT] as usize;
    match rng.below(10) {
        0 => {
            let id = image[view.context_at(other) + c::DEBUG_ID];
            let at = view.context_at(one);
            image[at + c::DEBUG_ID] = id;
        }
        1 => {
            let at = view.context_at(one);
            gone(&mut image[at..at + c::WORDS]);
        }
        2 if queue > 0 => {
            let slot = rng.below(queue);
            image[block + b::ENTRY_CONTEXT_REF + slot] = one as u64;
        }
        3 if queue > 0 => {
            let at = block + b::KEY_CTXT_ID + rng.below(queue);
            image[at] = rng.pick(&[image[at] ^ 1, image[at] + 1, 0]);
        }
        4 if queue > 1 => swap(rng, image, block, b::COLUMNS[0]),
        5 if queue > 1 => {
            // Equal deadlines: the larger slice must come first, then the smaller id.
            let slot = rng.within(1, queue - 1);
            repeat(image, block + b::KEY_VD + slot);
            if rng.once_in(2) {
                repeat(image, block + b::KEY_REM_SLICE + slot);
            }
        }
        6 if timers > 1 => swap(rng, image, block, b::COLUMNS[1]),
        7 if timers > 1 => repeat(image, block + b::TIMER_WAKE + rng.within(1, timers - 1)),
        8 if timers > 1 => twice(rng, image, cpu, 1),
        9 if timers > 2 => twice(rng, image, cpu, 2),
        _ => {
            let seat = rng.pick(&[b::CURRENT_CTXT, b::SCHED_CTXT, b::IDLE_CTXT]);
            if image[block + b::PRESENT] == 1 {
                let at = View(image).context_at(image[block + seat] as usize);
                gone(&mut image[at..at + c::WORDS]);
            }
        }
    }
}

fn gone(record: &mut [u64]) {
    record[c::STATUS..].fill(0);
    record[c::GONE] = 1;
}

/// Two timers of one context in a set, neighbours or with others between them. The pairs still
/// rise.
fn twice(rng: &mut Rng, image: &mut [u64], cpu: usize, least: usize) {
    let mut timers: Vec<(u64, u64)> = View(image).timers(cpu).collect();
    let first = rng.below(timers.len() - least);
    let distance = match least {
        1 => 1,
        _ => rng.within(least, timers.len() - 1 - first),
    };
    timers[first + distance].1 = timers[first].1;
    timers.sort_unstable();
    let block = View(image).block_at(cpu);
    put_timers(image, block, &timers);
}

/// An item changes places with the one before, or becomes equal to it.
fn swap(rng: &mut Rng, image: &mut [u64], block: usize, (count, columns): (usize, &[usize])) {
    let slot = rng.within(1, image[block + count] as usize - 1);
    let equal = rng.once_in(2);
    for column in columns {
        let at = block + column + slot;
        if equal {
            repeat(image, at);
        } else {
            image.swap(at, at - 1);
        }
    }
}

/// A word becomes equal to the one before.
fn repeat(image: &mut [u64], at: usize) {
    image[at] = image[at - 1];
}
