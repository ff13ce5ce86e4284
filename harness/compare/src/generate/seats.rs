//! Who is in charge, current and idle on each CPU, and what a CPU shows of its queue.

use super::{
    machine::Machine,
    rng::Rng,
    values::{self, Scale},
};
use image::{block as b, context as c};

/// Who is in charge and current, names on the local list, and the marks.
pub fn seats(rng: &mut Rng, scale: &Scale, machine: &mut Machine) {
    let (cpus, contexts) = (machine.cpu.len(), machine.record.len());
    let idle_only = rng.once_in(5);
    for at in 0..cpus {
        let free: Vec<usize> = (cpus..contexts)
            .filter(|context| {
                let record = &machine.record[*context];
                record[c::GONE] == 0
                    && record[c::HAS_QUEUE_KEY] == 0
                    && record[c::CURRENTLY_SCHEDULED] == 0
            })
            .collect();
        if !free.is_empty() && !idle_only && !rng.once_in(4) {
            machine.cpu[at].word[b::SCHED_CTXT] = rng.pick(&free) as u64;
        }
        if !machine.cpu[at].present() {
            continue;
        }
        let sched = machine.cpu[at].sched();
        holder(rng, scale, &mut machine.record[sched]);
        machine.record[sched][c::CURRENTLY_SCHEDULED] = 1;
        let mut current = sched;
        if rng.once_in(4) {
            let other = rng.below(contexts);
            if machine.live(other) {
                current = other;
            }
        }
        machine.record[current][c::RUNNING] = (!rng.once_in(24)).into();
        if !rng.once_in(40) {
            machine.record[current][c::LOCK] = 0;
        }
        machine.cpu[at].word[b::CURRENT_CTXT] = current as u64;
        if rng.once_in(8) {
            machine.cpu[at].local.push(sched);
        }
        if rng.once_in(12) {
            machine.cpu[at].local.push(at);
        }
        for _ in 0..rng.pick(&[0, 0, 0, 1, 1, 2, 3]) {
            let name = rng.below(contexts);
            machine.cpu[at].local.push(name);
        }
    }
}

fn holder(rng: &mut Rng, scale: &Scale, record: &mut [u64; c::WORDS]) {
    if !rng.once_in(40) {
        record[c::LOCK] = 0;
    }
    if !rng.once_in(40) && record[c::ADDR_SPACE] == 2 {
        record[c::ADDR_SPACE] = 1;
    }
    record[c::RUNNING] = rng.once_in(24).into();
    if rng.once_in(2) {
        record[c::STATUS] = c::RUNNABLE;
    }
    record[c::IS_ACTIVE] = (record[c::USERSPACE] == 1 && !rng.once_in(10)).into();
    let late = rng.once_in(3);
    record[c::VTIME] = if late {
        scale.late(rng)
    } else if rng.once_in(2) {
        // So far behind that it is eligible after its charge.
        scale.v / 2
    } else {
        scale.early(rng)
    };
    let from = if rng.once_in(2) {
        scale.v
    } else {
        record[c::VTIME]
    };
    record[c::VD] = scale.deadline(rng, from);
}

/// Total weights, and what a CPU shows of its queue: true, but for a few.
pub fn show(rng: &mut Rng, machine: &mut Machine) {
    for at in 0..machine.cpu.len() {
        let sched = machine.record[machine.cpu[at].sched()];
        let cpu = &mut machine.cpu[at];
        let queue: u64 = cpu.queue.iter().map(|entry| entry.weight).sum();
        let total = queue + sched[c::IS_ACTIVE] * values::weight(sched[c::PRIO]);
        let length = cpu.queue.len() as u64;
        cpu.word[b::TOTAL_WEIGHT] = if rng.once_in(16) {
            rng.pick(&[0, 1, 15])
        } else {
            total
        };
        cpu.word[b::PUBLISHED_WEIGHT] = if rng.once_in(16) {
            7
        } else {
            cpu.word[b::TOTAL_WEIGHT]
        };
        cpu.word[b::QUEUE_LEN] = match rng.below(7) {
            0 => rng.below(6) as u64,
            1 => length + rng.within(1, 4) as u64,
            _ => length,
        };
        cpu.word[b::STEALABLE] = if rng.once_in(6) {
            1
        } else {
            (length > 0).into()
        };
        if rng.once_in(40) {
            cpu.word[b::STEALABLE] = 0;
        }
    }
}
