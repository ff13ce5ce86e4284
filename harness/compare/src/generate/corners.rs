//! Short queues with a few contexts in them several times, whose virtual times are close: where a
//! scan in key order takes locks, lets them go and cleans up.

use super::{
    queue::{self, Entry},
    rng::Rng,
    values::weight,
};
use image::{Call, ROOM, SLICE_MAX, View, block as b, context as c, put_timers, record};

/// A tick, scaled.
const TICK: u64 = 1 << 30;

/// Makes the image, which passes rows 1 to 4, such a machine on the call's CPU, and the call a
/// decision.
pub fn put(rng: &mut Rng, image: &mut [u64], call: &mut Call) {
    let here = (call.cpu as usize).min(View(image).cpus() - 1);
    if !View(image).present(here) {
        return;
    }
    call.operation = rng.pick(&[2, 2, 2, 1]);
    // Far enough for a holder that had a turn of three ticks and is still eligible.
    let v = View(image).block_at(here) + b::V;
    image[v] = image[v].max(1 << 24);
    let few: Vec<usize> = (0..3).map(|_| rng.below(View(image).contexts())).collect();
    for context in &few {
        state(rng, image, here, *context);
    }
    holder(rng, image, here, call.time);
    let entries = entries(rng, image, here, &few);
    queue::put(image, here, entries);
    let other = (here + 1) % View(image).cpus();
    if other != here && View(image).present(other) && rng.once_in(2) {
        victim(rng, image, other, &few);
    }
    names(rng, image, here, &few);
    if rng.once_in(10) {
        crowded(rng, image, here, call.time);
    }
}

/// A full queue in which the order of wake-ups matters: one context has two entries, under the key of
/// its record and under the one with which it enters, so that there is room for another one behind it.
fn crowded(rng: &mut Rng, image: &mut [u64], here: usize, time: u64) {
    let view = View(image);
    let seats = [b::SCHED_CTXT, b::CURRENT_CTXT, b::IDLE_CTXT].map(|seat| view.block(here, seat));
    let free = |x: &usize| !view.gone(*x) && !seats.contains(&(*x as u64));
    let free: Vec<usize> = (0..view.contexts()).filter(free).collect();
    let [twice, other, locked, ..] = free[..] else {
        return;
    };
    let (block, v) = (view.block_at(here), view.block(here, b::V));
    let by_timer = rng.pick(&[None, Some(twice), Some(other)]);
    for context in [twice, other] {
        let at = record(context);
        let sleeps = by_timer == Some(context);
        image[at + c::STATUS] = if sleeps { c::BLOCKED } else { c::RUNNABLE };
        image[at + c::HAS_WAKE] = sleeps.into();
        image[at + c::WAKE] = if sleeps { time } else { 0 };
        image[at + c::USERSPACE] = 1;
        image[at + c::PRIO] = 20;
        image[at + c::VTIME] = v;
        image[at + c::HAS_QUEUE_KEY] = (context == twice).into();
        image[at + c::QUEUE_KEY_VD] = if context == twice { v } else { 0 };
        image[at + c::QUEUE_KEY_REM_SLICE] = if context == twice { SLICE_MAX } else { 0 };
        for word in [c::RUNNING, c::CURRENTLY_SCHEDULED, c::LOCK] {
            image[at + word] = 0;
        }
    }
    image[record(locked) + c::LOCK] = 1;
    let entered = v + SLICE_MAX / weight(20);
    let entry = |vd, x| {
        [
            vd,
            SLICE_MAX,
            View(image).context(x, c::DEBUG_ID),
            v,
            1024,
            x as u64,
        ]
    };
    let others = (1..ROOM as u64 - 1).map(|slot| entry(entered + slot, locked));
    let two = [entry(v, twice), entry(entered, twice)];
    let entries = two.into_iter().chain(others).collect();
    queue::put(image, here, entries);
    let timers: Vec<(u64, u64)> = by_timer.iter().map(|x| (time, *x as u64)).collect();
    put_timers(image, block, &timers);
    let mut names = vec![twice as u64, other as u64];
    names.retain(|name| by_timer != Some(*name as usize));
    if rng.once_in(2) {
        names.reverse();
    }
    image[block + b::LOCAL_COUNT] = names.len() as u64;
    image[block + b::LOCAL_WAKEUP_LIST..][..ROOM].fill(0);
    image[block + b::LOCAL_WAKEUP_LIST..][..names.len()].copy_from_slice(&names);
}

/// Mostly ready to run, else asleep, stopped or locked.
fn state(rng: &mut Rng, image: &mut [u64], here: usize, context: usize) {
    let view = View(image);
    let seated = view.block(here, b::SCHED_CTXT) == context as u64;
    let (v, at) = (view.block(here, b::V), view.context_at(context));
    if view.gone(context) || seated || rng.once_in(6) {
        return;
    }
    let record = &mut image[at..at + c::WORDS];
    record[c::STATUS] = rng.pick(&[0, 0, 0, 0, c::BLOCKED, c::STOPPED]);
    record[c::RUNNING] = 0;
    record[c::CURRENTLY_SCHEDULED] = 0;
    record[c::SCHED_AFFINITY] = u64::MAX;
    record[c::LOCK] = rng.pick(&[0, 0, 0, 0, 0, 0, 0, 1, 2]);
    record[c::ADDR_SPACE] = rng.pick(&[0, 1, 1, 1, 1, 2]);
    record[c::IS_ACTIVE] = (!rng.once_in(4)).into();
    // Deadline and slice are compared by the record, not by the entry.
    record[c::VD] = v + rng.below(4) as u64;
    record[c::REM_SLICE] = slice(rng);
}

/// Mostly somebody in charge who is near V after the turn; now and then it has stopped.
fn holder(rng: &mut Rng, image: &mut [u64], here: usize, time: u64) {
    let block = View(image).block_at(here);
    let v = image[block + b::V];
    image[block + b::QUEUE_LOCKED] = 0;
    image[block + b::PIT_TICKS] = 2;
    image[block + b::STEAL_COUNTER] = rng.pick(&[0, 1, 16]);
    let somebody = rng.below(View(image).contexts());
    if !View(image).gone(somebody) && !rng.once_in(4) {
        image[block + b::SCHED_CTXT] = somebody as u64;
        image[block + b::CURRENT_CTXT] = somebody as u64;
    }
    let at = View(image).context_at(image[block + b::SCHED_CTXT] as usize);
    let record = &mut image[at..at + c::WORDS];
    record[c::LOCK] = 0;
    if rng.once_in(4) {
        return;
    }
    // After a turn of three ticks of the middle weight it is where the entries are.
    record[c::STATUS] = rng.pick(&[0, 0, 0, c::BLOCKED]);
    record[c::PRIO] = 20;
    record[c::REM_SLICE] = SLICE_MAX;
    record[c::VTIME] = around(rng, v).saturating_sub(3 * TICK / 1024);
    record[c::VD] = v + rng.below(4) as u64;
    image[block + b::SCHEDULE_TIME] = time.saturating_sub(6_750_000);
}

/// Whole, the holder's after its turn, or the last of it.
fn slice(rng: &mut Rng) -> u64 {
    rng.pick(&[SLICE_MAX, SLICE_MAX, SLICE_MAX - 3 * TICK, 1])
}

fn around(rng: &mut Rng, v: u64) -> u64 {
    (v + rng.below(9) as u64).saturating_sub(2)
}

fn entry(rng: &mut Rng, image: &[u64], v: u64, vd: u64, context: usize) -> Entry {
    let id = View(image).context(context, c::DEBUG_ID);
    let weight = rng.pick(&[15, 30, 100, 1024]);
    [vd, slice(rng), id, around(rng, v), weight, context as u64]
}

/// By rising deadlines, some equal.
fn entries(rng: &mut Rng, image: &[u64], here: usize, few: &[usize]) -> Vec<Entry> {
    let v = View(image).block(here, b::V);
    let full = rng.once_in(12);
    let many = if full { ROOM } else { rng.within(1, 8) };
    let mut vd = v;
    (0..many)
        .map(|_| {
            vd += rng.below(3) as u64 + u64::from(full);
            let context = rng.pick(few);
            entry(rng, image, v, vd, context)
        })
        .collect()
}

/// The same contexts queued on another CPU, which shows them.
fn victim(rng: &mut Rng, image: &mut [u64], other: usize, few: &[usize]) {
    let entries = entries(rng, image, other, few);
    queue::put(image, other, entries);
    let block = View(image).block_at(other);
    image[block + b::STEALABLE] = 1;
    image[block + b::QUEUE_LEN] = image[block + b::QUEUE_COUNT];
    image[block + b::QUEUE_LOCKED] = 0;
}

/// Nobody is woken, or only a few names, some twice.
fn names(rng: &mut Rng, image: &mut [u64], here: usize, few: &[usize]) {
    let block = View(image).block_at(here);
    put_timers(image, block, &[]);
    let list = block + b::LOCAL_WAKEUP_LIST;
    let count = rng.pick(&[0, 0, 1, 2, 4]);
    image[block + b::LOCAL_COUNT] = count as u64;
    image[list..list + ROOM].fill(0);
    for slot in 0..count {
        image[list + slot] = rng.pick(few) as u64;
    }
}
