//! Brings entries close to the holder as it will be after charging, so that ties
//! and near misses of virtual time, deadline and slice are common; and makes other
//! CPUs worth robbing.

use super::{
    machine::{Entry, Machine},
    rng::Rng,
    values,
};
use image::{SLICE_MAX, block as b, context as c, remainder};

/// What charging leaves of a runnable holder.
pub struct Charged {
    vtime: u64,
    pub vd: u64,
    pub rem_slice: u64,
}

fn charged(record: &[u64; c::WORDS], v: u64, elapsed: u64, carried: u64) -> Charged {
    let weight = values::weight(record[c::PRIO]);
    let (ticks, _) = remainder::converted(elapsed, carried);
    let mut rem_slice = record[c::REM_SLICE].saturating_sub(ticks);
    let mut vtime = (record[c::VTIME] + ticks / weight).max(v);
    if elapsed < 3_375_000 {
        vtime += rem_slice / weight;
        rem_slice = 0;
    }
    let mut vd = record[c::VD];
    if rem_slice == 0 {
        rem_slice = SLICE_MAX;
        vd = vtime + SLICE_MAX / weight;
    }
    Charged {
        vtime,
        vd,
        rem_slice,
    }
}

/// Moves entries of one queue; with `tidy` their records go with them.
pub fn at_holder(rng: &mut Rng, machine: &mut Machine, at: usize, time: u64, tidy: bool) {
    let behind = rng.once_in(2);
    if behind {
        stay_behind(rng, machine, at, time);
    }
    let earlier = !behind && rng.once_in(2);
    let word = machine.cpu[at].word;
    let charged = at_the_choice(machine, at, time);
    let mut changed = Vec::new();
    for entry in &mut machine.cpu[at].queue {
        if !rng.once_in(2) {
            continue;
        }
        if behind || rng.once_in(2) {
            entry.vtime = near(rng, charged.vtime);
        }
        if earlier && charged.vtime > word[b::V] + 1 {
            entry.vtime = charged.vtime - 1 - rng.below(2) as u64;
        }
        if behind || rng.once_in(2) {
            entry.vd = near(rng, charged.vd) + u64::from(behind) * rng.mark();
            if rng.once_in(2) {
                entry.rem_slice = near(rng, charged.rem_slice).min(SLICE_MAX);
            }
        }
        changed.push(*entry);
    }
    follow(rng, machine, &changed, tidy);
    machine.settle();
}

/// The holder here, if it is runnable, as a decision at this time finds it.
pub fn at_the_choice(machine: &Machine, at: usize, time: u64) -> Charged {
    let word = machine.cpu[at].word;
    let holder = machine.record[machine.cpu[at].sched()];
    let elapsed = time.saturating_sub(word[b::SCHEDULE_TIME]).min(1 << 52);
    charged(&holder, word[b::V], elapsed, machine.cpu[at].remainder)
}

/// Brings records to their changed entries; of an untidy machine not all.
pub fn follow(rng: &mut Rng, machine: &mut Machine, changed: &[Entry], tidy: bool) {
    for entry in changed {
        let record = &mut machine.record[entry.context];
        let follows = record[c::GONE] == 0 && (tidy || !rng.once_in(3));
        if follows {
            record[c::VTIME] = entry.vtime;
            record[c::VD] = entry.vd;
            record[c::REM_SLICE] = entry.rem_slice;
        }
        if follows && record[c::HAS_QUEUE_KEY] == 1 {
            record[c::QUEUE_KEY_VD] = entry.vd;
            record[c::QUEUE_KEY_REM_SLICE] = entry.rem_slice;
        }
    }
}

/// A runnable holder that is eligible after a turn of its whole length.
pub fn stay_behind(rng: &mut Rng, machine: &mut Machine, at: usize, time: u64) {
    let sched = machine.cpu[at].sched();
    let word = &mut machine.cpu[at].word;
    let record = &mut machine.record[sched];
    record[c::STATUS] = c::RUNNABLE;
    record[c::VTIME] = word[b::V] / 2;
    record[c::REM_SLICE] = rng.pick(&[SLICE_MAX, SLICE_MAX, 4 << 30]);
    record[c::VD] = word[b::V] + rng.below(3) as u64;
    word[b::SCHEDULE_TIME] = time.saturating_sub(rng.pick(&[3_375_000, 6_750_000]));
}

fn near(rng: &mut Rng, value: u64) -> u64 {
    match rng.below(6) {
        0 => value + 1,
        1 => value.saturating_sub(1),
        _ => value,
    }
}

/// A turn that steals, and other CPUs that show what they have.
pub fn at_victims(rng: &mut Rng, machine: &mut Machine, at: usize) {
    machine.cpu[at].word[b::STEAL_COUNTER] = rng.pick(&[0, 16, 32]);
    for other in (0..machine.cpu.len()).filter(|other| *other != at) {
        let cpu = &mut machine.cpu[other];
        let length = cpu.queue.len() as u64;
        cpu.word[b::STEALABLE] = (!rng.once_in(8)).into();
        cpu.word[b::QUEUE_LEN] = length + rng.pick(&[0, 0, 0, 0, 1, 2]);
        for entry in &cpu.queue {
            let record = &mut machine.record[entry.context];
            if record[c::GONE] == 0 && !rng.once_in(4) {
                record[c::STATUS] = c::RUNNABLE;
                record[c::SCHED_AFFINITY] = u64::MAX;
                record[c::LOCK] = 0;
                record[c::ADDR_SPACE] = record[c::ADDR_SPACE].min(1);
            }
        }
    }
}

/// Queues everybody of one CPU on another one too, where it may be stolen: what a
/// decision has locked then shows.
pub fn mirror(rng: &mut Rng, machine: &mut Machine, aimed: usize) {
    let other = (aimed + 1) % machine.cpu.len();
    let queue = machine.cpu[aimed].queue.clone();
    let sched = machine.cpu[aimed].sched();
    machine.record[sched][c::STATUS] = c::RUNNABLE;
    machine.cpu[aimed].word[b::STEAL_COUNTER] = 16;
    if other == aimed || queue.is_empty() {
        return;
    }
    let victim = &mut machine.cpu[other];
    for entry in &queue {
        for later in 0..rng.within(1, 3) as u64 {
            victim.queue.push(Entry {
                vd: entry.vd + later,
                ..*entry
            });
        }
    }
    victim.word[b::STEALABLE] = 1;
    victim.word[b::QUEUE_LEN] = victim.queue.len() as u64;
    for entry in &queue {
        let record = &mut machine.record[entry.context];
        if record[c::GONE] == 0 && !rng.once_in(4) {
            record[c::STATUS] = c::RUNNABLE;
            record[c::SCHED_AFFINITY] = u64::MAX;
        }
    }
}
