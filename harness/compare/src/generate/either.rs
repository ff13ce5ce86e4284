//! Switches of two CPUs, each at its own time, on the machines of the other cases: of CPUs that
//! name no context together, and of others.

mod parts;

use super::rng::Rng;
use image::{
    Call, NUMBER_MAX, REMAINDER_MAX, View, apart, asked::switch, block as b, context as c,
    put_timers,
};
use parts::{name, part};

pub const SORTS: [&str; 6] = [
    "a machine as it is",
    "CPUs made apart",
    "made apart, a holder that sleeps again",
    "made apart, a turn that steals",
    "made apart, a number at its limit",
    "made apart but for one context",
];

const SEATS: [usize; 3] = [b::CURRENT_CTXT, b::SCHED_CTXT, b::IDLE_CTXT];

/// The two switches, on an image that passes rows 1 to 4 and is made one of the sort; nothing if it
/// has not two present CPUs, or too few contexts.
pub fn calls(rng: &mut Rng, image: &mut [u64], sort: usize, call: &Call) -> Option<[Call; 2]> {
    let time = call.time;
    let view = View(image);
    let present = |cpu: &usize| view.present(*cpu);
    let mut cpus: Vec<usize> = (0..view.cpus()).filter(present).collect();
    if cpus.len() < 2 {
        return None;
    }
    // The machine was made for a decision of the call's CPU.
    let aimed = cpus.iter().position(|cpu| *cpu as u64 == call.cpu);
    let aimed = aimed.filter(|_| !rng.once_in(4));
    let one = cpus.swap_remove(aimed.unwrap_or(rng.below(cpus.len())));
    let other = rng.pick(&cpus);
    if sort > 0 {
        part(rng, image, one, other)?;
        for cpu in [one, other] {
            decides(rng, image, cpu);
        }
    }
    match sort {
        2 => sleeps_again(rng, image, one, time),
        3 => steals(rng, image, one, other),
        4 => {
            let word = rng.pick(&[b::CONTEXT_SWITCHES, b::V]);
            image[View(image).block_at(one) + word] = NUMBER_MAX;
        }
        5 => share(rng, image, [one, other])?,
        _ => {}
    }
    let times = [one, other].map(|cpu| self::time(rng, View(image), cpu, time));
    let calls = [switch(one as u64, times[0]), switch(other as u64, times[1])];
    Some(match rng.once_in(2) {
        true => calls,
        false => [calls[1], calls[0]],
    })
}

fn time(rng: &mut Rng, image: View, cpu: usize, time: u64) -> u64 {
    let turn = rng.pick(&[0, 1, 400_000, 2_250_000, 3_375_000, 6_750_000, 20_250_000]);
    let drawn = match rng.below(4) {
        0 | 1 => time,
        2 => time + turn,
        _ => image.block(cpu, b::SCHEDULE_TIME) + turn,
    };
    drawn.min(NUMBER_MAX)
}

/// A switch here is mostly accepted, and mostly falls on no stealing turn.
fn decides(rng: &mut Rng, image: &mut [u64], cpu: usize) {
    let block = View(image).block_at(cpu);
    image[block + b::QUEUE_LOCKED] = rng.once_in(40).into();
    for seat in SEATS {
        let at = View(image).context_at(image[block + seat] as usize);
        image[at + c::LOCK] = rng.once_in(60).into();
        image[at + c::ADDR_SPACE] = image[at + c::ADDR_SPACE].min(1);
    }
    image[block + b::STEAL_COUNTER] =
        rng.pick(&[1, 1, 3, 9, 15, 17, u64::MAX, 2, 14, u64::MAX - 1]);
    match rng.below(6) {
        0 => image[block + b::REMAINDER] = 0,
        1 => image[block + b::REMAINDER] = REMAINDER_MAX,
        2 | 3 => image[block + b::REMAINDER] = rng.next() % (REMAINDER_MAX + 1),
        _ => {}
    }
}

/// The one in charge, if it is not idle, stops with a wake and has a timer of another one.
fn sleeps_again(rng: &mut Rng, image: &mut [u64], cpu: usize, time: u64) {
    let block = View(image).block_at(cpu);
    let holder = image[block + b::SCHED_CTXT];
    image[block + b::CURRENT_CTXT] = holder;
    if holder == image[block + b::IDLE_CTXT] {
        return;
    }
    let at = View(image).context_at(holder as usize);
    image[at + c::STATUS] = c::BLOCKED;
    image[at + c::HAS_WAKE] = 1;
    image[at + c::WAKE] = (time + 60_000_000).min(NUMBER_MAX);
    let stale = time.saturating_sub(1_000_000) + rng.pick(&[0, 1_000_001, 50_000_000]);
    let mut timers: Vec<(u64, u64)> = View(image).timers(cpu).collect();
    timers.retain(|(_, context)| *context != holder);
    timers.push((stale.min(NUMBER_MAX), holder));
    timers.sort_unstable();
    put_timers(image, block, &timers);
}

/// The turn of a CPU that steals, and another one that shows what it has.
fn steals(rng: &mut Rng, image: &mut [u64], robber: usize, victim: usize) {
    let block = View(image).block_at(robber);
    image[block + b::STEAL_COUNTER] = rng.pick(&[0, 16, 32, 2]);
    let block = View(image).block_at(victim);
    image[block + b::STEALABLE] = 1;
    image[block + b::QUEUE_LEN] = image[block + b::QUEUE_COUNT];
    for context in apart::named_as(View(image), victim, parts::QUEUED) {
        ready(image, context);
    }
}

/// A live context that nothing keeps from running.
fn ready(image: &mut [u64], context: u64) {
    let at = View(image).context_at(context as usize);
    if image[at + c::GONE] == 0 {
        for word in [c::STATUS, c::RUNNING, c::CURRENTLY_SCHEDULED, c::LOCK] {
            image[at + word] = 0;
        }
        image[at + c::SCHED_AFFINITY] = u64::MAX;
        image[at + c::ADDR_SPACE] = image[at + c::ADDR_SPACE].min(1);
    }
}

/// One context, idle on neither CPU, is named by each in one role.
fn share(rng: &mut Rng, image: &mut [u64], cpus: [usize; 2]) -> Option<()> {
    let view = View(image);
    let idle = cpus.map(|cpu| view.block(cpu, b::IDLE_CTXT));
    let free: Vec<u64> = (0..view.contexts() as u64)
        .filter(|x| !view.gone(*x as usize) && !idle.contains(x))
        .collect();
    if free.is_empty() {
        return None;
    }
    let context = rng.pick(&free);
    for cpu in cpus {
        parts::leave(image, cpu, context);
    }
    if !rng.once_in(4) {
        ready(image, context);
        image[View(image).context_at(context as usize) + c::USERSPACE] = 1;
    }
    for cpu in cpus {
        let role = rng.below(apart::ROLES.len());
        name(rng, image, cpu, role, context);
    }
    Some(())
}
