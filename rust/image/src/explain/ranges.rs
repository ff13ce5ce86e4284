//! Row 3: the range of each word.

use super::{Explanation, Labels};
use crate::places::{block, context};
use crate::tables::{ARRAYS, LAST, RECORD, ROOM, SINGLE};
use crate::view::{View, record_at};
use crate::word::Word;
use alloc::format;
use alloc::string::String;

pub fn explain(view: View, labels: &Labels) -> Option<Explanation> {
    let record = |number| record(view, number, labels);
    let block = |cpu| block_of(view, cpu, labels);
    (0..view.contexts())
        .find_map(record)
        .or_else(|| (0..view.cpus()).find_map(block))
}

fn outside(view: View, index: usize, labels: &Labels, allowed: String) -> Explanation {
    Explanation::new(3, Some(index), labels.is(view.words(), index), allowed)
}

fn judged(view: View, index: usize, word: &Word, labels: &Labels) -> Option<Explanation> {
    let value = view.words()[index];
    let (low, high) = word.range.bounds(view.cpus() as u64, view.contexts() as u64);
    let allowed = || match word.range {
        crate::word::Range::Contexts => format!("{} is allowed, here 0 to {high}", word.allowed),
        crate::word::Range::Cpus => format!("{} is allowed, here 0 to {high}", word.allowed),
        _ => format!("{} is allowed", word.allowed),
    };
    (!(low..=high).contains(&value)).then(|| outside(view, index, labels, allowed()))
}

fn record(view: View, number: usize, labels: &Labels) -> Option<Explanation> {
    let at = record_at(number);
    let gone = view.gone(number);
    RECORD.iter().enumerate().find_map(|(place, word)| {
        let index = at + place;
        let value = view.words()[index];
        if gone && place >= context::STATUS {
            let allowed = || {
                format!(
                    "0 is allowed, as the context is gone ({})",
                    labels.label(view.words(), at)
                )
            };
            return (value != 0).then(|| outside(view, index, labels, allowed()).with(at));
        }
        judged(view, index, word, labels).or_else(|| {
            let mark = at + word.mark?;
            let allowed = || format!("0 is allowed without {}", labels.label(view.words(), mark));
            let idle = view.words()[mark] == 0 && value != 0;
            idle.then(|| outside(view, index, labels, allowed()).with(mark))
        })
    })
}

fn block_of(view: View, cpu: usize, labels: &Labels) -> Option<Explanation> {
    let at = view.block_at(cpu);
    let words = &view.words()[at..at + block::WORDS];
    if words[block::PRESENT] == 0 {
        let allowed = || {
            format!(
                "0 is allowed, as the CPU is absent ({})",
                labels.label(view.words(), at)
            )
        };
        let used = words.iter().position(|word| *word != 0)?;
        return Some(outside(view, at + used, labels, allowed()).with(at));
    }
    let single = |(place, word): (usize, &Word)| judged(view, at + place, word, labels);
    SINGLE
        .iter()
        .enumerate()
        .find_map(single)
        .or_else(|| arrays(view, cpu, labels))
        .or_else(|| (block::LAST..).zip(&LAST).find_map(single))
}

fn arrays(view: View, cpu: usize, labels: &Labels) -> Option<Explanation> {
    let at = view.block_at(cpu);
    ARRAYS.iter().find_map(|array| {
        let count = view.block(cpu, array.count);
        (0..ROOM as usize).find_map(|slot| {
            let index = at + array.place + slot;
            if (slot as u64) < count {
                return judged(view, index, &array.word, labels);
            }
            let allowed = || {
                let counted = at + array.count;
                format!(
                    "0 is allowed behind the slots in use, and {}",
                    labels.is(view.words(), counted)
                )
            };
            let used = view.words()[index] != 0;
            used.then(|| outside(view, index, labels, allowed()).with(at + array.count))
        })
    })
}
