//! Shares over the last 256 decisions (document 02, No. 11): an own reading of the ticket, off the
//! answer of the call itself.

use crate::{Answer, Call, View, block as b, decision};
use std::collections::VecDeque;

/// The most records of a window.
pub const ROOM: usize = 256;
/// The count, then the contexts, then the times.
pub const WORDS: usize = 1 + 2 * ROOM;
/// The most nanoseconds of a record.
pub const TIME_MAX: u64 = (1 << 52) - 1;

/// The holder before a decision, and its elapsed nanoseconds.
pub type Record = (u64, u64);

/// Of a machine of so many contexts: 1, 3 or 0.
pub fn refusal(window: &[u64], contexts: u64) -> u64 {
    if window.len() != WORDS || window[0] > ROOM as u64 {
        return 1;
    }
    let passes = |(context, time): &Record| *context < contexts && *time <= TIME_MAX;
    match records(window).iter().all(passes) {
        true => 0,
        false => 3,
    }
}

/// Oldest first, of a window whose length and count are right.
pub fn records(window: &[u64]) -> VecDeque<Record> {
    let slots = 0..window[0] as usize;
    slots
        .map(|slot| (window[1 + slot], window[1 + ROOM + slot]))
        .collect()
}

/// What a decision adds.
pub fn record(image: View, call: &Call) -> Record {
    let at = |word| image.block(call.cpu as usize, word);
    let elapsed = call.time.saturating_sub(at(b::SCHEDULE_TIME));
    (at(b::SCHED_CTXT), elapsed)
}

/// Adds a record; the oldest leaves where there is no room. Unused slots stay as they are.
fn add(window: &mut [u64], record: Record) {
    let mut records = records(window);
    if records.len() == ROOM {
        records.pop_front();
    }
    records.push_back(record);
    window[0] = records.len() as u64;
    for (slot, (context, time)) in records.into_iter().enumerate() {
        window[1 + slot] = context;
        window[1 + ROOM + slot] = time;
    }
}

/// Answer, image and window.
pub type Called = (Answer, Vec<u64>, Vec<u64>);

/// What a call in a window answers and leaves, where the call itself answers `answer` and leaves
/// `after`: its own number first, then the window's, then both change.
pub fn called(
    image: &[u64],
    window: &[u64],
    call: &Call,
    (answer, after): (&Answer, &[u64]),
) -> Called {
    let kept = |refusal| (Answer::refused(refusal), image.to_vec(), window.to_vec());
    if answer.refusal != 0 {
        return kept(answer.refusal);
    }
    let refusal = refusal(window, View(image).contexts() as u64);
    if refusal != 0 {
        return kept(refusal);
    }
    let mut window = window.to_vec();
    if decision::is_made(View(image), call) {
        add(&mut window, record(View(image), call));
    }
    (*answer, after.to_vec(), window)
}

/// The nanoseconds of a context.
pub fn share(window: &[u64], contexts: u64, context: u64) -> Answer {
    summed(window, contexts, |of| of == context)
}

/// The nanoseconds of all.
pub fn share_of_all(window: &[u64], contexts: u64) -> Answer {
    summed(window, contexts, |_| true)
}

fn summed(window: &[u64], contexts: u64, counts: impl Fn(u64) -> bool) -> Answer {
    let refusal = refusal(window, contexts);
    if refusal != 0 {
        return Answer::refused(refusal);
    }
    let records = records(window).into_iter();
    let counted = records.filter(|(context, _)| counts(*context));
    Answer {
        result: counted.map(|(_, time)| time).sum(),
        ..Answer::default()
    }
}

/// The name of a word, for reports.
pub fn name(index: usize) -> String {
    match index {
        0 => "count".into(),
        1..=ROOM => format!("context[{}]", index - 1),
        _ => format!("time[{}]", index - 1 - ROOM),
    }
}

#[cfg(test)]
mod tests;
