//! Queues, timers and lists near their room of 64.

use super::{
    machine::{Entry, Machine},
    rng::Rng,
    tidy,
    values::{self, Scale},
};
use image::{ROOM, block as b, context as c};

/// Fills something of the CPU `aimed`, or of another one; if it was the interrupt
/// list, the CPU is answered.
pub fn fill(rng: &mut Rng, scale: &Scale, machine: &mut Machine, aimed: usize) -> Option<usize> {
    let mut filled = None;
    let at = if rng.once_in(4) {
        rng.below(machine.cpu.len())
    } else {
        aimed
    };
    let to = ROOM - rng.pick(&[0, 0, 0, 0, 1, 1, 2]);
    let contexts = machine.record.len();
    // A timer set is full only with one timer of each of 64 contexts.
    let kinds = if contexts == ROOM { 12 } else { 8 };
    match rng.below(kinds) {
        0 | 1 => {
            queue(rng, scale, machine, at, to);
            newcomer(rng, machine, at);
        }
        2 => {
            queue(rng, scale, machine, at, to);
            keyless(rng, machine, at);
        }
        3 | 4 | 8.. => {
            if rng.once_in(2) {
                machine.cpu[at].timers.clear();
            }
            timers(rng, scale, machine, at, to);
            departing(rng, scale, machine, at);
        }
        5 => names(rng, contexts, &mut machine.cpu[at].local, to),
        6 => {
            // Names of a locked context are all put back.
            names(rng, 1, &mut machine.cpu[at].local, to);
            let locked = rng.below(contexts);
            machine.cpu[at].local.fill(locked);
            if machine.live(locked) {
                machine.record[locked][c::LOCK] = 1;
            }
        }
        _ => {
            names(rng, contexts, &mut machine.cpu[at].ipi, to);
            for record in machine.record.iter_mut().filter(|r| r[c::GONE] == 0) {
                record[c::CPU_ID] = at as u64 + 1;
            }
            filled = rng.once_in(2).then_some(at);
        }
    }
    machine.settle();
    filled
}

/// Somebody who is not queued yet comes in by the local list.
fn newcomer(rng: &mut Rng, machine: &mut Machine, at: usize) {
    let context = rng.below(machine.record.len());
    let queued = machine.cpu[at]
        .queue
        .iter()
        .any(|entry| entry.context == context);
    let record = &mut machine.record[context];
    if record[c::GONE] == 0 && record[c::CURRENTLY_SCHEDULED] == 0 {
        record[c::STATUS] = c::RUNNABLE;
        record[c::USERSPACE] = 1;
        record[c::LOCK] = 0;
        record[c::RUNNING] = 0;
        if !queued {
            record[c::HAS_QUEUE_KEY] = 0;
            record[c::QUEUE_KEY_VD] = 0;
            record[c::QUEUE_KEY_REM_SLICE] = 0;
        }
        machine.cpu[at].local.push(context);
    }
}

/// Queued contexts without a key: the winner's entry stays when the holder goes in.
fn keyless(rng: &mut Rng, machine: &mut Machine, at: usize) {
    for entry in &machine.cpu[at].queue {
        let record = &mut machine.record[entry.context];
        if record[c::GONE] == 0 && !rng.once_in(8) {
            record[c::HAS_QUEUE_KEY] = 0;
            record[c::QUEUE_KEY_VD] = 0;
            record[c::QUEUE_KEY_REM_SLICE] = 0;
        }
    }
    let sched = machine.cpu[at].sched();
    machine.record[sched][c::STATUS] = c::RUNNABLE;
    machine.cpu[at].local.clear();
}

/// All sorts of names, or one name over and over.
fn names(rng: &mut Rng, contexts: usize, list: &mut Vec<usize>, to: usize) {
    let one = rng.once_in(2);
    let name = rng.below(contexts);
    while list.len() < to {
        list.push(if one { name } else { rng.below(contexts) });
    }
}

/// Unqueued contexts first, as a tidy machine has them; then some queued again.
fn queue(rng: &mut Rng, scale: &Scale, machine: &mut Machine, at: usize, to: usize) {
    let mut next = machine.cpu.len();
    let late = rng.once_in(2);
    while machine.cpu[at].queue.len() < to {
        let contexts = machine.record.len();
        if next < contexts {
            let record = &mut machine.record[next];
            let free = record[c::GONE] == 0
                && record[c::HAS_QUEUE_KEY] == 0
                && record[c::CURRENTLY_SCHEDULED] == 0;
            if free && !rng.once_in(8) {
                machine.cpu[at].queue.push(tidy::entry(record, next));
            }
            next += 1;
            continue;
        }
        let vtime = scale.vtime(rng, late);
        machine.cpu[at].queue.push(Entry {
            vd: scale.v + rng.below(1 << 20) as u64,
            rem_slice: values::slice(rng),
            vtime,
            weight: 1024,
            context: rng.below(contexts),
        });
        if machine.cpu[at].queue.len() == to {
            machine.settle();
        }
    }
    machine.cpu[at].word[b::QUEUE_LEN] = to as u64;
    machine.cpu[at].word[b::STEALABLE] = 1;
}

/// Timers of contexts that have none here, in any order, up to so many in all.
pub fn timers(rng: &mut Rng, scale: &Scale, machine: &mut Machine, at: usize, to: usize) {
    let far = !rng.once_in(4);
    let mut wake = if far {
        scale.time + 2
    } else {
        scale.time.saturating_sub(40)
    };
    let contexts = machine.record.len();
    let (turn, step) = (rng.below(contexts), rng.pick(&[1, contexts - 1]));
    for number in 0..contexts {
        let context = (turn + number * step) % contexts;
        let timers = &mut machine.cpu[at].timers;
        let timed = timers.iter().any(|(_, other)| *other == context);
        if !timed && timers.len() < to {
            timers.push((wake.min(image::NUMBER_MAX), context));
            wake += rng.below(3) as u64;
        }
    }
    machine.settle();
}

/// A holder that has just stopped with a wake, whose timer must go in: now and then it has a
/// timer of just this wake.
pub fn departing(rng: &mut Rng, scale: &Scale, machine: &mut Machine, at: usize) {
    let sched = machine.cpu[at].sched();
    let mut timers = machine.cpu[at].timers.iter();
    let own = timers.find(|(_, context)| *context == sched);
    let record = &mut machine.record[sched];
    record[c::STATUS] = rng.pick(&[c::BLOCKED, c::BLOCKED, c::STOPPED, c::DEAD]);
    record[c::HAS_WAKE] = 1;
    record[c::WAKE] = match own {
        Some((wake, _)) if rng.once_in(4) => *wake,
        _ => scale.wake(rng),
    };
}
