//! Decisions by the rules that other cases seldom come to: an eligible holder beside entries
//! of its deadline, nobody who is eligible, nobody who waits; and the own idle context to steal.

use super::{
    aim::{self, Charged},
    machine::{Entry, Machine},
    rng::Rng,
    timers::free_seats,
};
use image::{Call, SLICE_MAX, block as b, context as c};

pub fn put(rng: &mut Rng, machine: &mut Machine, at: usize, time: u64, tidy: bool) {
    machine.cpu[at].word[b::PIT_TICKS] = 2;
    machine.cpu[at].word[b::QUEUE_LOCKED] = 0;
    match rng.below(5) {
        0..=2 => tie(rng, machine, at, time, tidy),
        3 => aim::at_holder(rng, machine, at, time, tidy),
        _ => alone(rng, machine, at),
    }
    if !tidy && rng.once_in(6) {
        own_idle(machine, at);
    }
    free_seats(machine, at);
}

/// Eligible entries with the deadline of an eligible holder, all with more slice than it, the
/// same or less.
fn tie(rng: &mut Rng, machine: &mut Machine, at: usize, time: u64, tidy: bool) {
    aim::stay_behind(rng, machine, at, time);
    let Charged { vd, rem_slice, .. } = aim::at_the_choice(machine, at, time);
    let v = machine.cpu[at].word[b::V];
    let slice = match rng.below(4) {
        0 => rem_slice,
        1 => (rem_slice + 1).min(SLICE_MAX),
        2 => rem_slice.saturating_sub(1),
        _ => rem_slice / 2,
    };
    let later = rng.pick(&[0, 0, 0, 1]);
    let mut changed = Vec::new();
    for entry in &mut machine.cpu[at].queue {
        (entry.vd, entry.rem_slice) = (vd + later, slice);
        entry.vtime = v.saturating_sub(rng.mark());
        changed.push(*entry);
    }
    aim::follow(rng, machine, &changed, tidy);
    machine.settle();
}

/// Nobody in the queue, a holder that has stopped, and mostly somebody to steal.
fn alone(rng: &mut Rng, machine: &mut Machine, at: usize) {
    if !rng.once_in(4) {
        aim::at_victims(rng, machine, at);
    }
    let sched = machine.cpu[at].sched();
    machine.record[sched][c::STATUS] = rng.pick(&[c::RUNNABLE, c::BLOCKED, c::STOPPED]);
    for entry in std::mem::take(&mut machine.cpu[at].queue) {
        let record = &mut machine.record[entry.context];
        record[c::HAS_QUEUE_KEY] = 0;
        record[c::QUEUE_KEY_VD] = 0;
        record[c::QUEUE_KEY_REM_SLICE] = 0;
    }
}

/// The idle context of this CPU, whose holder has stopped, first in the queue of the next: it
/// can be stolen.
fn own_idle(machine: &mut Machine, at: usize) {
    let (sched, idle) = (machine.cpu[at].sched(), machine.cpu[at].word[b::IDLE_CTXT]);
    let next = (at + 1) % machine.cpu.len();
    if next == at || sched == idle as usize {
        return;
    }
    machine.record[sched][c::STATUS] = c::STOPPED;
    let record = &mut machine.record[idle as usize];
    record[c::STATUS] = c::RUNNABLE;
    record[c::SCHED_AFFINITY] = u64::MAX;
    machine.cpu[at].queue.clear();
    machine.cpu[at].local.clear();
    machine.cpu[at].word[b::STEAL_COUNTER] = 16;
    let victim = &mut machine.cpu[next];
    for vd in 0..2 {
        victim.queue.push(Entry {
            vd,
            rem_slice: SLICE_MAX,
            vtime: victim.word[b::V],
            weight: 1024,
            context: idle as usize,
        });
    }
    victim.word[b::STEALABLE] = 1;
    victim.word[b::QUEUE_LEN] = victim.queue.len() as u64;
    machine.settle();
}

/// A decision on the CPU that was aimed at.
pub fn call(rng: &mut Rng, call: &mut Call, at: usize) {
    call.cpu = at as u64;
    call.operation = rng.pick(&[1, 2, 2]);
}
