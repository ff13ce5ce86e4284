//! Machines on which priorities matter, or on which no trial works.

use crate::generate::{
    queue::{self, Entry},
    rng::Rng,
    values::weight,
};
use image::{ROOM, SLICE_MAX, View, block as b, context as c, humblest, put_timers};

/// An entry of a context that is ready to run.
fn entry(image: &mut [u64], context: u64, vd: u64, vtime: u64) -> Entry {
    let at = View(image).context_at(context as usize);
    for word in [c::STATUS, c::RUNNING, c::CURRENTLY_SCHEDULED, c::LOCK] {
        image[at + word] = 0;
    }
    image[at + c::SCHED_AFFINITY] = u64::MAX;
    image[at + c::ADDR_SPACE] = image[at + c::ADDR_SPACE].min(1);
    let id = image[at + c::DEBUG_ID];
    [vd, SLICE_MAX, id, vtime, 1024, context]
}

/// Somebody else who is neither in charge nor idle here.
fn somebody(rng: &mut Rng, image: &[u64], here: usize, but: u64) -> Option<u64> {
    let view = View(image);
    let others: Vec<u64> = (0..view.contexts() as u64)
        .filter(|x| *x != but && !view.gone(*x as usize) && !humblest::in_charge(view, *x))
        .filter(|x| *x != view.block(here, b::IDLE_CTXT))
        .collect();
    (!others.is_empty()).then(|| rng.pick(&others))
}

/// The deadline that a wake-up gives at this virtual time, or one beside it.
fn deadline(rng: &mut Rng, vtime: u64) -> u64 {
    let whole = vtime + SLICE_MAX / weight(rng.below(humblest::PRIORITIES) as u64);
    whole + rng.below(3) as u64 - 1
}

/// Everybody queued gets a deadline near that of a priority, and somebody more may be queued.
pub fn near(rng: &mut Rng, image: &mut [u64], here: usize, context: u64) {
    let v = View(image).block(here, b::V);
    let mut entries = queue::entries(View(image), here);
    for entry in &mut entries {
        entry[0] = deadline(rng, v);
        if rng.once_in(2) {
            entry[3] = entry[3].min(v);
        }
    }
    let more = somebody(rng, image, here, context).filter(|_| entries.len() < ROOM);
    if let Some(other) = more.filter(|_| rng.once_in(2)) {
        let vd = deadline(rng, v);
        entries.push(entry(image, other, vd, v));
    }
    for entry in &entries {
        follow(image, entry);
    }
    queue::put(image, here, entries);
}

/// The record of a live context as its entry has it: a tidy machine stays so.
fn follow(image: &mut [u64], [vd, rem_slice, _, vtime, _, context]: &Entry) {
    let at = View(image).context_at(*context as usize);
    let record = &mut image[at..at + c::WORDS];
    if record[c::GONE] == 0 {
        record[c::VD] = *vd;
        record[c::REM_SLICE] = *rem_slice;
        record[c::VTIME] = *vtime;
        record[c::HAS_QUEUE_KEY] = 1;
        record[c::QUEUE_KEY_VD] = *vd;
        record[c::QUEUE_KEY_REM_SLICE] = *rem_slice;
    }
}

/// The machine of the ticket, on which the working numbers have a gap: nobody is eligible, and
/// one context is queued by an early and by a late deadline.
pub fn twice(rng: &mut Rng, image: &mut [u64], here: usize, context: u64) {
    let Some(other) = somebody(rng, image, here, context) else {
        return;
    };
    let block = View(image).block_at(here);
    let v = image[block + b::V];
    let late = deadline(rng, v + 7);
    let entries = [
        entry(image, other, v + 1000, v + 10),
        entry(image, other, late, v + 5),
    ];
    queue::put(image, here, entries.to_vec());
    alone(image, here);
    if context < View(image).contexts() as u64 && !View(image).gone(context as usize) {
        let at = View(image).context_at(context as usize);
        image[at + c::VTIME] = v + 7;
    }
}

/// Nobody else is woken here.
fn alone(image: &mut [u64], here: usize) {
    let block = View(image).block_at(here);
    put_timers(image, block, &[]);
    image[block + b::LOCAL_COUNT] = 0;
}

/// The queue, or a context that a switch needs free.
pub fn lock(rng: &mut Rng, image: &mut [u64], here: usize) {
    let block = View(image).block_at(here);
    if rng.once_in(2) {
        image[block + b::QUEUE_LOCKED] = 1;
        return;
    }
    let seat = rng.pick(&[b::CURRENT_CTXT, b::SCHED_CTXT, b::IDLE_CTXT]);
    let at = View(image).context_at(image[block + seat] as usize);
    image[at + c::LOCK] = rng.pick(&[1, 2]);
}

/// With 64 entries there is no room for the one that is woken. With 63 there is, but none for a
/// holder that leaves to a winner without a key, whose entry stays: that depends on who wins.
pub fn fill(rng: &mut Rng, image: &mut [u64], here: usize, context: u64) {
    let Some(other) = somebody(rng, image, here, context) else {
        return;
    };
    let v = View(image).block(here, b::V);
    let first = deadline(rng, v);
    let count = ROOM as u64 - rng.mark();
    let entries = (0..count).map(|n| entry(image, other, first + n, v));
    let entries = entries.collect();
    queue::put(image, here, entries);
    let at = View(image).context_at(other as usize);
    for word in [c::HAS_QUEUE_KEY, c::QUEUE_KEY_VD, c::QUEUE_KEY_REM_SLICE] {
        image[at + word] = 0;
    }
    alone(image, here);
    let holder = View(image).block(here, b::SCHED_CTXT);
    image[View(image).context_at(holder as usize) + c::STATUS] = 0;
}
