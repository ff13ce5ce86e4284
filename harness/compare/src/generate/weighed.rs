//! Machines whose stored totals are the weights added up, and that meet the conditions under
//! which decisions keep them so (document 02, No. 7).

use super::{machine::Machine, rng::Rng, values};
use image::{block as b, context as c};

/// Brings a tidy machine to it. With `always` every context in charge that is not idle is active,
/// runnable or not.
pub fn put(rng: &mut Rng, machine: &mut Machine, always: bool) {
    if rng.once_in(2) {
        depart(rng, machine);
    }
    for record in &mut machine.record {
        record[c::IS_ACTIVE] = 0;
    }
    for at in present(machine) {
        for entry in &mut machine.cpu[at].queue {
            let record = &mut machine.record[entry.context];
            if record[c::GONE] == 0 {
                record[c::IS_ACTIVE] = 1;
                entry.weight = values::weight(record[c::PRIO]);
            }
        }
        let sched = machine.cpu[at].sched();
        if sched as u64 != machine.cpu[at].word[b::IDLE_CTXT] {
            let record = &mut machine.record[sched];
            let must = always || record[c::STATUS] == c::RUNNABLE;
            record[c::IS_ACTIVE] = if must { 1 } else { rng.mark() };
        }
    }
    store(machine);
}

fn present(machine: &Machine) -> Vec<usize> {
    let cpus = 0..machine.cpu.len();
    cpus.filter(|at| machine.cpu[*at].present()).collect()
}

/// Some queued contexts are gone, and their entries stay.
fn depart(rng: &mut Rng, machine: &mut Machine) {
    let current: Vec<u64> = machine
        .cpu
        .iter()
        .map(|cpu| cpu.word[b::CURRENT_CTXT])
        .collect();
    for at in present(machine) {
        for entry in &machine.cpu[at].queue {
            if rng.once_in(3) && !current.contains(&(entry.context as u64)) {
                let id = machine.record[entry.context][c::DEBUG_ID];
                let record = &mut machine.record[entry.context];
                *record = [0; c::WORDS];
                (record[c::GONE], record[c::DEBUG_ID]) = (1, id);
            }
        }
    }
}

/// The totals, added up.
fn store(machine: &mut Machine) {
    for at in present(machine) {
        let holder = machine.record[machine.cpu[at].sched()];
        let queue: u64 = machine.cpu[at].queue.iter().map(|entry| entry.weight).sum();
        let word = &mut machine.cpu[at].word;
        word[b::TOTAL_WEIGHT] = queue + holder[c::IS_ACTIVE] * values::weight(holder[c::PRIO]);
    }
}
