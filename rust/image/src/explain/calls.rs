//! Rows 5 to 8, of an image that the others let pass.

use super::{Explanation, Labels};
use crate::call::{Call, row};
use crate::places::{block, context};
use crate::tables::{OPERATIONS, TURN_MAX};
use crate::value::show_time;
use crate::view::{View, record_at};
use alloc::format;
use alloc::string::String;

pub fn explain(view: View, call: &Call, labels: &Labels) -> Option<Explanation> {
    let checks = [named, locked, from_idle, too_late];
    checks.into_iter().find_map(|check| check(view, call, labels))
}

/// Row 5.
fn named(view: View, call: &Call, labels: &Labels) -> Option<Explanation> {
    if let Some(operation) = call.operation().filter(|number| row(*number).is_none()) {
        let wrong = format!("there is no operation {operation}");
        return Some(Explanation::new(
            5,
            None,
            wrong,
            format!("1 to {} are operations", OPERATIONS.len()),
        ));
    }
    let cpu = call.cpu();
    if cpu >= view.cpus() as u64 {
        let (wrong, allowed) = (format!("there is no CPU {cpu}"), crate::place::no_cpu("", view.cpus()));
        let allowed = allowed.split_once("; ").map_or("", |(_, allowed)| allowed);
        return Some(Explanation::new(5, None, wrong, allowed));
    }
    let at = view.block_at(cpu as usize);
    if !view.present(cpu as usize) {
        let wrong = format!("CPU {cpu} is absent: {}", labels.is(view.words(), at));
        return Some(Explanation::new(
            5,
            Some(at),
            wrong,
            "a call runs on a CPU that is there",
        ));
    }
    members(call).find_map(|number| live(view, number, labels))
}

/// The contexts that a call names.
fn members(call: &Call) -> impl Iterator<Item = u64> {
    let mask = match *call {
        Call::UnblockGroup { mask, .. } => mask,
        _ => 0,
    };
    let group = (0..64).filter(move |x| mask >> x & 1 == 1);
    call.context().into_iter().chain(group)
}

fn live(view: View, number: u64, labels: &Labels) -> Option<Explanation> {
    if number >= view.contexts() as u64 {
        let allowed = format!("0 to {} are there", view.contexts() - 1);
        return Some(Explanation::new(
            5,
            None,
            format!("there is no context {number}"),
            allowed,
        ));
    }
    let at = record_at(number as usize);
    let wrong = || format!("{} is gone: {}", labels.names.of(number), labels.is(view.words(), at));
    view.gone(number as usize)
        .then(|| Explanation::new(5, Some(at), wrong(), "a call names a context that is live"))
}

/// Row 6.
fn locked(view: View, call: &Call, labels: &Labels) -> Option<Explanation> {
    let cpu = call.cpu() as usize;
    let mut found = None;
    if call.decides() {
        found = own_locks(view, cpu, labels);
    }
    found.or_else(|| {
        members(call).find_map(|number| {
            let number = number as usize;
            let why = format!("{} is named by the call", labels.names.of(number as u64));
            let space = call.operation() == Some(3);
            lock(view, number, &why, labels).or_else(|| space.then(|| address_space(view, number, &why, labels))?)
        })
    })
}

/// Those that a decision needs.
fn own_locks(view: View, cpu: usize, labels: &Labels) -> Option<Explanation> {
    let queue = view.block_at(cpu) + block::QUEUE_LOCKED;
    if view.words()[queue] != 0 {
        let wrong = format!(
            "another CPU holds the queue of CPU {cpu}: {}",
            labels.is(view.words(), queue)
        );
        return Some(Explanation::new(
            6,
            Some(queue),
            wrong,
            "0 is needed: the kernel would wait",
        ));
    }
    let seat = |word| view.block(cpu, word) as usize;
    let name = |number: usize| labels.names.of(number as u64);
    let (current, sched) = (seat(block::CURRENT_CTXT), seat(block::SCHED_CTXT));
    let seats = [
        (current, "is current on"),
        (sched, "is in charge of"),
        (seat(block::IDLE_CTXT), "is the idle context of"),
    ];
    let held = seats.into_iter().find_map(|(number, what)| {
        let why = format!("{} {what} CPU {cpu}", name(number));
        lock(view, number, &why, labels)
    });
    held.or_else(|| {
        let why = format!("{} is in charge of CPU {cpu} and not current", name(sched));
        (current != sched).then(|| address_space(view, sched, &why, labels))?
    })
}

fn held(view: View, word: usize, why: &str, labels: &Labels, allowed: &str) -> Explanation {
    let wrong: String = format!("{}, and {why}", labels.is(view.words(), word));
    Explanation::new(6, Some(word), wrong, allowed)
}

fn lock(view: View, number: usize, why: &str, labels: &Labels) -> Option<Explanation> {
    let word = record_at(number) + context::LOCK;
    (view.words()[word] != 0).then(|| held(view, word, why, labels, "free is needed: the kernel would wait"))
}

fn address_space(view: View, number: usize, why: &str, labels: &Labels) -> Option<Explanation> {
    let word = record_at(number) + context::ADDR_SPACE;
    let allowed = "none or free is needed: the kernel would wait";
    (view.words()[word] == 2).then(|| held(view, word, why, labels, allowed))
}

/// Row 7.
fn from_idle(view: View, call: &Call, labels: &Labels) -> Option<Explanation> {
    let cpu = call.cpu() as usize;
    let word = view.block_at(cpu) + block::CURRENT_CTXT;
    let current = view.block(cpu, block::CURRENT_CTXT);
    let to = call.context().filter(|_| call.operation() == Some(3))?;
    let idle = current == view.block(cpu, block::IDLE_CTXT) && current != to;
    let name = |number| labels.names.of(number);
    let wrong = || {
        format!(
            "direct_switch_to {} while {} is current, the idle context of CPU {cpu} (word {word})",
            name(to),
            name(current)
        )
    };
    idle.then(|| Explanation::new(7, Some(word), wrong(), "an idle context is left by switch or tick"))
}

/// Row 8.
fn too_late(view: View, call: &Call, labels: &Labels) -> Option<Explanation> {
    let word = view.block_at(call.cpu() as usize) + block::SCHEDULE_TIME;
    let last = view.words()[word];
    let time = call.time().filter(|_| call.decides())?;
    let wrong = || {
        let past = show_time(time - last);
        format!(
            "the time {} is {past} past the last decision: {}",
            show_time(time),
            labels.is(view.words(), word)
        )
    };
    let late = time > last + TURN_MAX;
    late.then(|| Explanation::new(8, Some(word), wrong(), "at most 2^52 - 1 ns lie between"))
}
