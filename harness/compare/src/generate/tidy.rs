//! Tidy machines: queue and records agree, each context in one place.

use super::{
    machine::{Cpu, Entry, Machine},
    rng::Rng,
    seats,
    values::{self, Scale},
};
use image::{block as b, context as c};

pub struct Size {
    pub cpus: usize,
    pub contexts: usize,
}

impl Size {
    pub fn small(rng: &mut Rng) -> Self {
        let cpus = rng.pick(&[1, 1, 2, 2, 2]);
        Self {
            cpus,
            contexts: rng.within(cpus + 1, 6),
        }
    }
    /// With so many contexts a timer set can be full.
    pub fn most(rng: &mut Rng) -> Self {
        Self {
            cpus: rng.pick(&[1, 2, 4]),
            contexts: rng.pick(&[62, 63, 64, 64, 64, 64]),
        }
    }
    pub fn any(rng: &mut Rng) -> Self {
        let cpus = rng.pick(&[1, 1, 1, 2, 2, 2, 2, 3, 4]);
        let most = rng.pick(&[4, 6, 8, 8, 12, 12, 20, 64]);
        Self {
            cpus,
            contexts: rng.within(cpus.min(most), most),
        }
    }
}

pub fn machine(rng: &mut Rng, size: &Size, scale: &Scale) -> Machine {
    let mut machine = Machine {
        record: records(rng, size, scale),
        cpu: Vec::new(),
    };
    for number in 0..size.cpus {
        let cpu = cpu(rng, scale, number, &mut machine);
        machine.cpu.push(cpu);
    }
    if !machine.cpu.iter().any(Cpu::present) {
        machine.cpu[0].word[b::PRESENT] = 1;
    }
    place(rng, scale, &mut machine);
    seats::seats(rng, scale, &mut machine);
    machine.settle();
    seats::show(rng, &mut machine);
    machine
}

fn records(rng: &mut Rng, size: &Size, scale: &Scale) -> Vec<[u64; c::WORDS]> {
    let first = rng.pick(&[0, 1, 100, u64::from(u32::MAX) - 63]);
    let turn = rng.below(size.contexts);
    (0..size.contexts)
        .map(|number| {
            let mut record = [0; c::WORDS];
            record[c::DEBUG_ID] = first + ((number + turn) % size.contexts) as u64;
            if number >= size.cpus && rng.once_in(12) {
                record[c::GONE] = 1;
                return record;
            }
            one_record(rng, size, scale, &mut record);
            record
        })
        .collect()
}

fn one_record(rng: &mut Rng, size: &Size, scale: &Scale, record: &mut [u64; c::WORDS]) {
    record[c::STATUS] = rng.pick(&[0, 0, 0, 0, 0, 0, 0, 1, 1, 1, 2, 3, 4, 5]);
    record[c::RUNNING] = rng.once_in(24).into();
    record[c::CPU_ID] = rng.below(size.cpus + 1) as u64;
    for time in [c::SCHEDULE_TIME, c::SWITCH_TIME] {
        record[time] = scale.begun(rng);
    }
    for total in [c::ACTIVE_CPU_TIME, c::SCHED_CPU_TIME] {
        record[total] = rng.pick(&[0, 7, 1 << 40]);
    }
    record[c::SCHED_AFFINITY] = values::mask(rng);
    record[c::INSIDE_SYSCALL] = rng.mark();
    if rng.once_in(2) && record[c::STATUS] != c::RUNNABLE || rng.once_in(16) {
        record[c::HAS_WAKE] = 1;
        record[c::WAKE] = scale.wake(rng);
    }
    record[c::USERSPACE] = (!rng.once_in(10)).into();
    record[c::BEING_SIGKILLED] = rng.mark();
    record[c::PRIO] = values::priority(rng);
    let late = rng.once_in(2);
    record[c::VTIME] = scale.vtime(rng, late);
    record[c::VD] = scale.deadline(rng, record[c::VTIME]);
    record[c::REM_SLICE] = values::slice(rng);
    record[c::IS_ACTIVE] = rng.once_in(6).into();
    record[c::LOCK] = rng.pick(&[0, 0, 0, 0, 0, 0, 0, 0, 0, 0, 0, 0, 0, 0, 1, 2]);
    record[c::ADDR_SPACE] = rng.pick(&[0, 0, 0, 1, 1, 1, 1, 1, 1, 1, 1, 2]);
}

fn cpu(rng: &mut Rng, scale: &Scale, number: usize, machine: &mut Machine) -> Cpu {
    let mut word = [0; b::SINGLE];
    word[b::PRESENT] = (number == 0 || !rng.once_in(12)).into();
    // Each CPU's idle context has its number: a kernel context without a key.
    let idle = &mut machine.record[number];
    if !rng.once_in(32) {
        idle[c::STATUS] = c::RUNNABLE;
    }
    idle[c::USERSPACE] = 0;
    idle[c::LOCK] = 0;
    idle[c::ADDR_SPACE] = rng.pick(&[0, 0, 0, 1]);
    idle[c::SCHED_AFFINITY] = rng.pick(&[u64::MAX, 1 << number]);
    word[b::IDLE_CTXT] = number as u64;
    word[b::SCHED_CTXT] = number as u64;
    word[b::SCHEDULE_TIME] = scale.begun(rng);
    word[b::PIT_TICKS] = rng.pick(&[0, 1, 2, 2, 2, 3, 1 << 40]);
    word[b::BEING_SIGKILLED] = rng.mark();
    word[b::INSIDE_SYSCALL] = rng.mark();
    word[b::STEAL_COUNTER] = rng.pick(&[0, 0, 16, 32, 1, 2, 8, 14, 15, 17, u64::MAX, u64::MAX - 1]);
    word[b::STATE] = rng.below(3) as u64;
    for total in [
        b::USER,
        b::KERNEL,
        b::IDLE,
        b::CONTEXT_SWITCHES,
        b::SYSCALL_SWITCHES,
    ] {
        word[total] = rng.pick(&[0, 3, 1 << 40]);
    }
    word[b::QUEUE_LOCKED] = rng.once_in(60).into();
    word[b::V] = if number == 0 {
        scale.v
    } else {
        scale.early(rng)
    };
    Cpu::with(word)
}

/// Puts the other contexts into queues, timers and lists.
fn place(rng: &mut Rng, scale: &Scale, machine: &mut Machine) {
    let present: Vec<usize> = (0..machine.cpu.len())
        .filter(|cpu| machine.cpu[*cpu].present())
        .collect();
    let (queued, late) = (rng.pick(&[0, 1, 2, 3, 4, 4]), rng.once_in(2));
    let favoured = rng.pick(&present);
    for context in machine.cpu.len()..machine.record.len() {
        let at = if rng.once_in(2) {
            favoured
        } else {
            rng.pick(&present)
        };
        let mut record = machine.record[context];
        let cpu = &mut machine.cpu[at];
        if rng.below(5) < queued {
            if machine.record[context][c::GONE] == 1 {
                let vtime = scale.vtime(rng, late);
                cpu.queue.push(Entry {
                    vd: scale.deadline(rng, vtime),
                    rem_slice: values::slice(rng),
                    vtime,
                    weight: values::weight(values::priority(rng)),
                    context,
                });
                continue;
            }
            record[c::VTIME] = scale.vtime(rng, late);
            record[c::VD] = scale.deadline(rng, record[c::VTIME]);
            record[c::IS_ACTIVE] = (!rng.once_in(10)).into();
            cpu.queue.push(entry(&mut record, context));
            machine.record[context] = record;
        } else if rng.once_in(3) {
            cpu.local.push(context);
        } else if rng.once_in(3) {
            cpu.ipi.push(context);
        }
        let cpu = &mut machine.cpu[at];
        if record[c::HAS_WAKE] == 1 && !rng.once_in(4) {
            cpu.timers.push((record[c::WAKE], context));
        } else if rng.once_in(12) {
            cpu.timers.push((scale.wake(rng), context));
        }
    }
}

/// An entry that agrees with the record, which gets its key.
pub fn entry(record: &mut [u64; c::WORDS], context: usize) -> Entry {
    record[c::HAS_QUEUE_KEY] = 1;
    record[c::QUEUE_KEY_VD] = record[c::VD];
    record[c::QUEUE_KEY_REM_SLICE] = record[c::REM_SLICE];
    Entry {
        vd: record[c::VD],
        rem_slice: record[c::REM_SLICE],
        vtime: record[c::VTIME],
        weight: values::weight(record[c::PRIO]),
        context,
    }
}
