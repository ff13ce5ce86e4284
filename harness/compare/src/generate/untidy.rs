//! Valid machines that are not tidy: contexts queued twice on one or several CPUs,
//! keys that disagree with entries, marks that lie.

use super::{
    aim,
    machine::{Entry, Machine},
    rng::Rng,
    values::{self, Scale},
};
use image::{NUMBER_MAX, block as b, context as c};

pub fn spoil(rng: &mut Rng, scale: &Scale, machine: &mut Machine, aimed: usize) {
    if rng.once_in(4) {
        aim::mirror(rng, machine, aimed);
    }
    for _ in 0..rng.within(1, 6) {
        let at = rng.below(machine.cpu.len());
        let context = rng.below(machine.record.len());
        match rng.below(11) {
            0 | 1 => again(rng, scale, machine, at),
            2 => stray(rng, scale, machine, at, context),
            3 | 4 => key(rng, scale, machine, at, context),
            5 => mark(rng, machine, context),
            6 => number(rng, scale, machine, context),
            7 => seat(rng, machine, at, context),
            8 => queue_words(rng, scale, machine, at),
            9 => holder_key(rng, scale, machine, at),
            _ => names(rng, scale, machine, at, context),
        }
    }
    machine.settle();
}

/// Queues a queued context once more, here or on another CPU.
fn again(rng: &mut Rng, scale: &Scale, machine: &mut Machine, at: usize) {
    if machine.cpu[at].queue.is_empty() {
        return;
    }
    let old = rng.pick(&machine.cpu[at].queue);
    let to = if rng.once_in(2) {
        at
    } else {
        rng.below(machine.cpu.len())
    };
    let vtime = if rng.once_in(2) {
        old.vtime
    } else {
        scale.vtime(rng, true)
    };
    machine.cpu[to].queue.push(Entry {
        vd: if to != at && rng.once_in(2) {
            old.vd
        } else {
            scale.deadline(rng, vtime)
        },
        vtime,
        ..old
    });
}

/// Queues any context, the idle one and the one in charge too.
fn stray(rng: &mut Rng, scale: &Scale, machine: &mut Machine, at: usize, context: usize) {
    let context = match rng.below(4) {
        0 => machine.cpu[at].sched(),
        1 => machine.cpu[at].word[b::IDLE_CTXT] as usize,
        _ => context,
    };
    let vtime = scale.vtime(rng, false);
    machine.cpu[at].queue.push(Entry {
        vd: scale.deadline(rng, vtime),
        rem_slice: values::slice(rng),
        vtime,
        weight: rng.pick(&[15, 1024, 88_761, 77]),
        context,
    });
}

fn key(rng: &mut Rng, scale: &Scale, machine: &mut Machine, at: usize, context: usize) {
    if !machine.live(context) {
        return;
    }
    let entry = machine.cpu[at]
        .queue
        .iter()
        .find(|entry| entry.context == context);
    let (vd, rem_slice) = match entry {
        Some(entry) if rng.once_in(2) => (entry.vd, entry.rem_slice),
        _ => (scale.deadline(rng, scale.v), values::slice(rng)),
    };
    let has = !rng.once_in(3);
    let record = &mut machine.record[context];
    record[c::HAS_QUEUE_KEY] = has.into();
    record[c::QUEUE_KEY_VD] = if has { vd } else { 0 };
    record[c::QUEUE_KEY_REM_SLICE] = if has { rem_slice } else { 0 };
}

/// A key on the one in charge, with or without an entry.
fn holder_key(rng: &mut Rng, scale: &Scale, machine: &mut Machine, at: usize) {
    let sched = machine.cpu[at].sched();
    if !machine.live(sched) {
        return;
    }
    let vtime = scale.vtime(rng, false);
    let record = &mut machine.record[sched];
    record[c::HAS_QUEUE_KEY] = 1;
    record[c::QUEUE_KEY_VD] = scale.deadline(rng, vtime);
    record[c::QUEUE_KEY_REM_SLICE] = values::slice(rng);
    if rng.once_in(2) {
        machine.cpu[at].queue.push(Entry {
            vd: record[c::QUEUE_KEY_VD],
            rem_slice: record[c::QUEUE_KEY_REM_SLICE],
            vtime,
            weight: 1024,
            context: sched,
        });
    }
}

fn mark(rng: &mut Rng, machine: &mut Machine, context: usize) {
    if machine.live(context) {
        let mark = rng.pick(&[
            c::RUNNING,
            c::CURRENTLY_SCHEDULED,
            c::USERSPACE,
            c::IS_ACTIVE,
        ]);
        machine.record[context][mark] ^= 1;
    }
}

fn number(rng: &mut Rng, scale: &Scale, machine: &mut Machine, context: usize) {
    if !machine.live(context) {
        return;
    }
    let extreme = rng.once_in(6);
    let record = &mut machine.record[context];
    match rng.below(4) {
        0 => {
            record[c::VTIME] = if extreme {
                NUMBER_MAX
            } else {
                scale.vtime(rng, true)
            }
        }
        1 => {
            record[c::VD] = if extreme {
                NUMBER_MAX
            } else {
                scale.deadline(rng, scale.v)
            }
        }
        2 => record[c::REM_SLICE] = values::slice(rng),
        _ => record[c::STATUS] = rng.below(6) as u64,
    }
}

/// The same context in charge, current or idle on several CPUs.
fn seat(rng: &mut Rng, machine: &mut Machine, at: usize, context: usize) {
    if machine.live(context) {
        let seat = rng.pick(&[b::CURRENT_CTXT, b::SCHED_CTXT, b::IDLE_CTXT]);
        machine.cpu[at].word[seat] = context as u64;
        if !rng.once_in(4) {
            machine.record[context][c::LOCK] = 0;
        }
    }
}

fn queue_words(rng: &mut Rng, scale: &Scale, machine: &mut Machine, at: usize) {
    let cpu = &mut machine.cpu[at];
    match rng.below(3) {
        0 => cpu.word[b::TOTAL_WEIGHT] = rng.pick(&[0, 0, 14, 1024, NUMBER_MAX]),
        1 => cpu.word[b::V] = rng.pick(&[0, scale.v, scale.v + scale.step, NUMBER_MAX]),
        _ => {
            for entry in &mut cpu.queue {
                entry.weight = rng.pick(&[15, 1024, 88_761, entry.weight]);
            }
        }
    }
}

fn names(rng: &mut Rng, scale: &Scale, machine: &mut Machine, at: usize, context: usize) {
    let wake = match machine.record[context][c::HAS_WAKE] {
        1 if rng.once_in(2) => machine.record[context][c::WAKE],
        _ => scale.wake(rng),
    };
    let cpu = &mut machine.cpu[at];
    match rng.below(3) {
        // A timer of it may be in another CPU's set too.
        0 => cpu.timers.push((wake, context)),
        1 => cpu.local.push(context),
        _ => cpu.ipi.push(context),
    }
}
