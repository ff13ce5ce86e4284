//! Row 4: the structure, with the two places that clash.

use super::{Explanation, Labels};
use crate::places::{block, context};
use crate::view::{View, record_at};
use alloc::format;
use alloc::string::String;
use core::cmp::Reverse;

pub fn explain(view: View, labels: &Labels) -> Option<Explanation> {
    ids(view, labels).or_else(|| {
        view.present_cpus().find_map(|cpu| {
            seats(view, cpu, labels)
                .or_else(|| entry_ids(view, cpu, labels))
                .or_else(|| keys(view, cpu, labels))
                .or_else(|| timers(view, cpu, labels))
                .or_else(|| timed_twice(view, cpu, labels))
        })
    })
}

fn broken(word: usize, other: usize, wrong: String, allowed: &str) -> Explanation {
    Explanation::new(4, Some(word), wrong, allowed).with(other)
}

fn ids(view: View, labels: &Labels) -> Option<Explanation> {
    let id = |number: usize| view.record(number, context::DEBUG_ID);
    (1..view.contexts()).find_map(|number| {
        let earlier = (0..number).find(|earlier| id(*earlier) == id(number))?;
        let at = |number| record_at(number) + context::DEBUG_ID;
        let words = view.words();
        let (word, other) = (at(number), at(earlier));
        let wrong = format!(
            "{}, and so is {}",
            labels.is(words, word),
            labels.label_with_line(words, other)
        );
        Some(broken(
            word,
            other,
            wrong,
            "the ids of all contexts differ, also of gone ones",
        ))
    })
}

fn seats(view: View, cpu: usize, labels: &Labels) -> Option<Explanation> {
    let seats = [block::CURRENT_CTXT, block::SCHED_CTXT, block::IDLE_CTXT];
    seats.into_iter().find_map(|seat| {
        let number = view.block(cpu, seat) as usize;
        let (word, other) = (view.block_at(cpu) + seat, record_at(number));
        let wrong = || {
            let gone = labels.label_with_line(view.words(), other);
            format!("{}, which is gone: {gone}", labels.is(view.words(), word))
        };
        view.gone(number).then(|| {
            broken(
                word,
                other,
                wrong(),
                "the current context, the one in charge and the idle one are live",
            )
        })
    })
}

fn entry_ids(view: View, cpu: usize, labels: &Labels) -> Option<Explanation> {
    let at = view.block_at(cpu);
    (0..view.used(cpu, block::QUEUE_COUNT)).find_map(|slot| {
        let word = at + block::KEY_CTXT_ID + slot;
        let owner = view.block(cpu, block::ENTRY_CONTEXT_REF + slot) as usize;
        let other = record_at(owner) + context::DEBUG_ID;
        let words = view.words();
        let wrong = || {
            let own = labels.label_with_line(words, other);
            format!(
                "{}, and {own} is {}",
                labels.is(words, word),
                labels.value(words, other)
            )
        };
        (words[word] != words[other]).then(|| broken(word, other, wrong(), "the id in an entry's key is its context's"))
    })
}

fn keys(view: View, cpu: usize, labels: &Labels) -> Option<Explanation> {
    let at = |word: usize| view.block(cpu, word);
    let key = |slot: usize| {
        let (vd, rem_slice) = (at(block::KEY_VD + slot), at(block::KEY_REM_SLICE + slot));
        (vd, Reverse(rem_slice), at(block::KEY_CTXT_ID + slot))
    };
    (1..view.used(cpu, block::QUEUE_COUNT)).find_map(|slot| {
        let first = view.block_at(cpu) + block::KEY_VD;
        let (word, other) = (first + slot, first + slot - 1);
        let told = |slot: usize| {
            let (vd, Reverse(rem_slice), id) = key(slot);
            format!("vd {vd}, rem_slice {rem_slice}, id {id}")
        };
        let wrong = || {
            format!(
                "the key at {} has {}, and the one before, at {}, has {}",
                labels.label(view.words(), word),
                told(slot),
                labels.label_with_line(view.words(), other),
                told(slot - 1)
            )
        };
        let allowed = "keys rise: by vd, then the larger rem_slice, then the id";
        (key(slot - 1) >= key(slot)).then(|| broken(word, other, wrong(), allowed))
    })
}

fn timers(view: View, cpu: usize, labels: &Labels) -> Option<Explanation> {
    let timer = |slot: usize| {
        let wake = view.block(cpu, block::TIMER_WAKE + slot);
        (wake, view.block(cpu, block::TIMER_CONTEXT_REF + slot))
    };
    (1..view.used(cpu, block::TIMERS_COUNT)).find_map(|slot| {
        let first = view.block_at(cpu) + block::TIMER_WAKE;
        let (word, other) = (first + slot, first + slot - 1);
        let told = |slot: usize| {
            let (wake, context) = timer(slot);
            format!("{} for {}", crate::value::show_time(wake), labels.names.of(context))
        };
        let wrong = || {
            format!(
                "the timer at {} is {}, and the one before, at {}, is {}",
                labels.label(view.words(), word),
                told(slot),
                labels.label_with_line(view.words(), other),
                told(slot - 1)
            )
        };
        let allowed = "timers rise: by wake, then by the context's number";
        (timer(slot - 1) >= timer(slot)).then(|| broken(word, other, wrong(), allowed))
    })
}

fn timed_twice(view: View, cpu: usize, labels: &Labels) -> Option<Explanation> {
    let owner = |slot: usize| view.block(cpu, block::TIMER_CONTEXT_REF + slot);
    (1..view.used(cpu, block::TIMERS_COUNT)).find_map(|slot| {
        let earlier = (0..slot).find(|earlier| owner(*earlier) == owner(slot))?;
        let first = view.block_at(cpu) + block::TIMER_CONTEXT_REF;
        let (word, other) = (first + slot, first + earlier);
        let words = view.words();
        let wrong = format!(
            "{}, and so is {}",
            labels.is(words, word),
            labels.label_with_line(words, other)
        );
        Some(broken(
            word,
            other,
            wrong,
            "a context has one timer in the set of a CPU",
        ))
    })
}
