//! Games of a writer against a rival, on the machines of the other cases.

use super::{queue, rng::Rng, values::weight};
use image::{NUMBER_MAX, ROOM, SLICE_MAX, View, block as b, context as c, put_timers, rival::Play};

pub const STARTS: [&str; 5] = [
    "the writer in charge",
    "the rival in charge",
    "neither in charge",
    "a machine as it is",
    "a party in charge of another CPU",
];

/// A game on an image that passes rows 1 to 4, which is made one of this start.
pub fn play(rng: &mut Rng, image: &mut [u64], start: usize, cpu: u64, time: u64) -> Play {
    let view = View(image);
    let here = (cpu as usize).min(view.cpus() - 1);
    let idle = view.block(here, b::IDLE_CTXT);
    let live: Vec<u64> = (0..view.contexts() as u64)
        .filter(|x| !view.gone(*x as usize) && (*x != idle || rng.once_in(12)))
        .collect();
    let pick = |rng: &mut Rng| match live.is_empty() {
        true => idle,
        false => rng.pick(&live),
    };
    let (writer, mut rival) = (pick(rng), pick(rng));
    if let Some(other) = live
        .iter()
        .find(|x| **x != writer)
        .filter(|_| rival == writer)
    {
        rival = *other;
    }
    let mut play = Play {
        cpu,
        time: late(rng, time),
        writer,
        rival,
        rounds: rng.pick(&[1, 1, 1, 2, 2, 2, 2, 3, 3, 3, 3, 4, 4, 4, 5, 5, 6]),
    };
    if view.present(here) && start != 3 && writer != rival {
        let seated = match start {
            0 => writer,
            1 => rival,
            2 => idle,
            _ => elsewhere(rng, image, here, &play),
        };
        seat(rng, image, here, seated, &play);
        for party in [writer, rival] {
            ready(rng, image, here, party);
            if party != seated && start != 4 {
                queue(rng, image, here, party);
            }
        }
    }
    odd(rng, &mut play);
    play
}

/// Now and then a time near the last one, at which some choices are refused.
fn late(rng: &mut Rng, time: u64) -> u64 {
    let left = rng.pick(&[0, 500_000, 1_000_000, 3_000_000, 5_000_000, 8_000_000]);
    match rng.once_in(10) {
        true => NUMBER_MAX - left,
        false => time,
    }
}

/// Now and then what is refused.
fn odd(rng: &mut Rng, play: &mut Play) {
    match rng.below(80) {
        0 => play.rounds = 0,
        1 => play.rounds = rng.pick(&[7, 1 << 32, u64::MAX]),
        2 => play.rival = play.writer,
        3 => play.writer = rng.pick(&[64, 65, u64::MAX]),
        4 => play.rival = rng.pick(&[64, 65, u64::MAX]),
        5 => play.cpu = rng.pick(&[3, 4, u64::MAX]),
        6 => (play.rounds, play.rival) = (0, 64),
        7 => (play.rounds, play.writer) = (7, play.rival),
        _ => {}
    }
}

/// Another CPU's holder is one of the two.
fn elsewhere(rng: &mut Rng, image: &mut [u64], here: usize, play: &Play) -> u64 {
    let view = View(image);
    let other = (here + 1) % view.cpus();
    let block = view.block_at(other);
    let idle = view.block(here, b::IDLE_CTXT);
    if other != here && view.present(other) {
        let party = rng.pick(&[play.writer, play.rival]);
        image[block + b::SCHED_CTXT] = party;
        image[block + b::CURRENT_CTXT] = party;
        return rng.pick(&[play.writer, play.rival, idle]);
    }
    idle
}

/// Puts a context in charge of a CPU that a switch accepts.
fn seat(rng: &mut Rng, image: &mut [u64], here: usize, context: u64, play: &Play) {
    let block = View(image).block_at(here);
    image[block + b::SCHED_CTXT] = context;
    image[block + b::CURRENT_CTXT] = context;
    if !rng.once_in(16) {
        image[block + b::QUEUE_LOCKED] = 0;
    }
    if rng.once_in(2) {
        // Nobody else is woken.
        put_timers(image, block, &[]);
        let list = block + b::LOCAL_WAKEUP_LIST;
        image[list..list + ROOM].fill(0);
        image[block + b::LOCAL_COUNT] = 0;
    }
    let begun = play
        .time
        .saturating_sub(rng.pick(&[0, 1_000_000, 6_750_000]));
    image[block + b::SCHEDULE_TIME] = begun;
    let idle = image[block + b::IDLE_CTXT];
    for seated in [context, idle] {
        let at = View(image).context_at(seated as usize);
        image[at + c::LOCK] = 0;
        image[at + c::CURRENTLY_SCHEDULED] = (seated == context).into();
    }
}

fn ready(rng: &mut Rng, image: &mut [u64], here: usize, context: u64) {
    let v = View(image).block(here, b::V);
    let charged = View(image).block(here, b::SCHED_CTXT) == context;
    let at = View(image).context_at(context as usize);
    let record = &mut image[at..at + c::WORDS];
    record[c::CURRENTLY_SCHEDULED] = charged.into();
    record[c::USERSPACE] = 1;
    if rng.once_in(12) {
        return;
    }
    record[c::STATUS] = c::RUNNABLE;
    record[c::LOCK] = 0;
    record[c::RUNNING] = charged.into();
    record[c::SCHED_AFFINITY] = u64::MAX;
    record[c::ADDR_SPACE] = record[c::ADDR_SPACE].min(1);
    record[c::IS_ACTIVE] = 1;
    record[c::PRIO] = rng.pick(&[0, 10, 18, 19, 20, 20, 20, 21, 22, 30, 39]);
    record[c::REM_SLICE] = rng.pick(&[SLICE_MAX, SLICE_MAX, 4 << 30, 1]);
    record[c::VTIME] = near(rng, v);
    record[c::VD] = record[c::VTIME] + rng.pick(&[0, 1, 3, 9, 40, 600]) * 1_048_576;
}

/// A virtual time a few ticks of the middle weight off.
fn near(rng: &mut Rng, v: u64) -> u64 {
    let ticks = rng.pick(&[0, 0, 1, 2, 3, 6, 9]) * 1_048_576;
    match rng.once_in(2) {
        true => v + ticks,
        false => v.saturating_sub(ticks),
    }
}

/// An entry that agrees with the record, instead of those that the context had here.
fn queue(rng: &mut Rng, image: &mut [u64], here: usize, context: u64) {
    let crowded = rng.once_in(3);
    let mut entries = queue::entries(View(image), here);
    entries.retain(|entry| entry[5] != context && (crowded || entry[5] % 4 == 0));
    entries.truncate(ROOM - 1);
    let at = View(image).context_at(context as usize);
    let record = &mut image[at..at + c::WORDS];
    let (vd, rem_slice) = (record[c::VD], record[c::REM_SLICE]);
    record[c::HAS_QUEUE_KEY] = 1;
    record[c::QUEUE_KEY_VD] = vd;
    record[c::QUEUE_KEY_REM_SLICE] = rem_slice;
    let weight = weight(record[c::PRIO]);
    let (id, vtime) = (record[c::DEBUG_ID], record[c::VTIME]);
    entries.push([vd, rem_slice, id, vtime, weight, context]);
    queue::put(image, here, entries);
}
