//! Timers that come due and cannot be read: of a context that another CPU writes, of the
//! one in charge, of idle in charge. Beside them readable and gone ones, in any order. And
//! timers of a holder that stops with a wake, of another wake or of this one.

use super::{full, machine::Machine, rng::Rng, values::Scale};
use image::{Call, NUMBER_MAX, ROOM, View, block as b, context as c};

/// A present CPU that a decision is made on.
pub fn aimed(rng: &mut Rng, machine: &Machine) -> usize {
    let present = |at: &usize| machine.cpu[*at].present();
    let present: Vec<usize> = (0..machine.cpu.len()).filter(present).collect();
    rng.pick(&present)
}

pub fn put(rng: &mut Rng, scale: &Scale, machine: &mut Machine, at: usize) {
    machine.cpu[at].word[b::PIT_TICKS] = rng.pick(&[1, 2, 2, 2]);
    machine.cpu[at].word[b::QUEUE_LOCKED] = 0;
    if rng.once_in(12) {
        seat_idle(machine, at);
    }
    free_seats(machine, at);
    let crowded = rng.once_in(4);
    for _ in 0..rng.within(1, 4) {
        let written = crowded || rng.once_in(2);
        one(rng, scale, machine, at, written);
    }
    match rng.below(4) {
        0 => sleeps_again(rng, scale, machine, at),
        1 | 2 => of_holder(rng, scale, machine, at),
        _ => {}
    }
    if crowded {
        let to = ROOM - rng.pick(&[0, 0, 0, 1, 2]);
        full::timers(rng, scale, machine, at, to);
        if !rng.once_in(4) {
            full::departing(rng, scale, machine, at);
        }
    }
    machine.settle();
}

/// A holder that stops with a wake while a timer of it is in the set: of an earlier wake or of
/// a later one, due or not, or of just this wake.
pub fn sleeps_again(rng: &mut Rng, scale: &Scale, machine: &mut Machine, at: usize) {
    let (wake, sched) = (scale.wake(rng), machine.cpu[at].sched());
    machine.cpu[at].timers.push((wake, sched));
    machine.settle();
    full::departing(rng, scale, machine, at);
}

const SEATS: [usize; 3] = [b::CURRENT_CTXT, b::SCHED_CTXT, b::IDLE_CTXT];

/// A decision here then finds its own locks free.
pub fn free_seats(machine: &mut Machine, at: usize) {
    for seat in SEATS {
        let context = machine.cpu[at].word[seat] as usize;
        machine.record[context][c::LOCK] = 0;
    }
}

/// Idle comes in charge, and current; who was is out.
fn seat_idle(machine: &mut Machine, at: usize) {
    let (old, idle) = (machine.cpu[at].sched(), machine.cpu[at].word[b::IDLE_CTXT]);
    machine.cpu[at].word[b::SCHED_CTXT] = idle;
    machine.cpu[at].word[b::CURRENT_CTXT] = idle;
    for mark in [c::CURRENTLY_SCHEDULED, c::RUNNING, c::IS_ACTIVE] {
        machine.record[old][mark] = 0;
        machine.record[idle as usize][mark] = (mark != c::IS_ACTIVE).into();
    }
}

/// Mostly due: the least wake that is not is the time + 2.
fn wake(rng: &mut Rng, scale: &Scale) -> u64 {
    let back = rng.pick(&[0, 0, 1, 2, 1_000_000]);
    let wake = rng.pick(&[0, 0, 1, 1, 2]) + scale.time.saturating_sub(back);
    wake.min(NUMBER_MAX)
}

/// A timer of anybody; a live one that has no seat here is locked, or perhaps not.
fn one(rng: &mut Rng, scale: &Scale, machine: &mut Machine, at: usize, written: bool) {
    let (wake, context) = (wake(rng, scale), rng.below(machine.record.len()));
    machine.cpu[at].timers.push((wake, context));
    let word = &machine.cpu[at].word;
    let seated = SEATS.iter().any(|seat| word[*seat] as usize == context);
    let record = &mut machine.record[context];
    if record[c::GONE] == 1 {
        return;
    }
    if !seated {
        record[c::LOCK] = if written { 2 } else { rng.pick(&[1, 1, 0]) };
    }
    if !rng.once_in(3) {
        record[c::STATUS] = c::BLOCKED;
        record[c::HAS_WAKE] = 1;
        record[c::WAKE] = wake;
    }
}

/// A timer of the one in charge, which runs on, or stops with this wake, another or none.
fn of_holder(rng: &mut Rng, scale: &Scale, machine: &mut Machine, at: usize) {
    let (wake, sched) = (wake(rng, scale), machine.cpu[at].sched());
    machine.cpu[at].timers.push((wake, sched));
    let record = &mut machine.record[sched];
    record[c::STATUS] = rng.pick(&[c::RUNNABLE, c::RUNNABLE, c::BLOCKED, c::STOPPED]);
    record[c::HAS_WAKE] = rng.mark();
    let other = scale.wake(rng);
    record[c::WAKE] = record[c::HAS_WAKE] * rng.pick(&[wake, other]);
}

/// Mostly a decision, on the CPU whose timers were put.
pub fn call(rng: &mut Rng, call: &mut Call, at: usize) {
    call.cpu = at as u64;
    if call.operation > 3 && !rng.once_in(4) {
        call.operation = rng.pick(&[1, 2, 2]);
    }
}

/// Between two calls of a chain somebody in charge sleeps again: it stores its wake and blocks,
/// or blocks by a later call. Its timer from before may still be in the set.
pub fn resleep(rng: &mut Rng, scale: &Scale, image: &mut [u64]) {
    let view = View(image);
    let charged = |cpu: usize| view.block(cpu, b::SCHED_CTXT);
    let busy = |cpu: &usize| view.present(*cpu) && charged(*cpu) != view.block(*cpu, b::IDLE_CTXT);
    let busy: Vec<usize> = (0..view.cpus()).filter(busy).collect();
    if busy.is_empty() || !rng.once_in(3) {
        return;
    }
    let at = view.context_at(charged(rng.pick(&busy)) as usize);
    let later = scale.time + rng.pick(&[20_000_000, 60_000_000, 500_000_000]);
    image[at + c::HAS_WAKE] = 1;
    image[at + c::WAKE] = match rng.once_in(3) {
        true => scale.wake(rng),
        false => later.min(NUMBER_MAX),
    };
    if image[at + c::STATUS] == c::RUNNABLE && rng.once_in(2) {
        image[at + c::STATUS] = c::BLOCKED;
    }
}

/// Between two calls of a chain another CPU lets go of a record, or locks one. What a CPU
/// has a seat for stays free, mostly: a decision there would be refused.
pub fn relock(rng: &mut Rng, image: &mut [u64]) {
    let view = View(image);
    let context = rng.below(view.contexts());
    let mut cpus = 0..view.cpus();
    let seated = cpus.any(|cpu| {
        SEATS
            .iter()
            .any(|seat| view.block(cpu, *seat) == context as u64)
    });
    let at = view.context_at(context);
    if !view.gone(context) {
        image[at + c::LOCK] = match seated && !rng.once_in(16) {
            true => 0,
            false => rng.pick(&[0, 0, 1, 2]),
        };
    }
}
