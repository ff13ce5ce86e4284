//! What is written, as lines.

use super::{ENTRY_WORDS, Source};
use crate::names::Names;
use crate::places::block;
use crate::tables::{LAST, RECORD, SINGLE};
use crate::value;
use crate::word::{Unit, Word};
use alloc::format;
use alloc::string::{String, ToString};
use alloc::vec::Vec;

pub fn write(source: &Source, out: &mut String) {
    let names = &source.names;
    if source.cpus.last().is_some_and(Option::is_none) {
        *out += &format!("cpus {}\n", source.cpus.len());
    }
    let widest = names.all().iter().map(|name| name.chars().count()).max().unwrap_or(0);
    for (number, context) in source.contexts.iter().enumerate() {
        let told = context.told.iter().zip(&RECORD);
        let words = told.filter_map(|(told, word)| told.map(|(value, _)| assigned(word, value, names)));
        line(out, &format!("context {:widest$}", names.of(number as u64)), words);
    }
    out.push('\n');
    for (cpu, written) in source.cpus.iter().enumerate() {
        let Some(written) = written else { continue };
        // Who is there comes first, then the rest in the order of the words.
        let order = [block::IDLE_CTXT, block::SCHED_CTXT, block::CURRENT_CTXT];
        let rest = (0..block::SINGLE).chain(block::LAST..block::WORDS);
        let rest = rest.filter(|word| !order.contains(word));
        let words = order.into_iter().chain(rest).filter_map(|word| {
            let (value, _) = written.get(word)?;
            let row = match word {
                block::LAST.. => &LAST[word - block::LAST],
                _ => &SINGLE[word],
            };
            Some(assigned(row, value, names))
        });
        line(out, &format!("cpu {cpu}"), words);
        lists(source, cpu, out);
    }
}

fn lists(source: &Source, cpu: usize, out: &mut String) {
    let names = &source.names;
    for entry in source.queue.iter().filter(|entry| entry.cpu == cpu) {
        let told = entry.told.iter().zip(&ENTRY_WORDS);
        let words = told.filter_map(|(told, (name, _, unit))| {
            let (value, _) = (*told)?;
            Some(format!("{name}={}", value::show(*unit, value, names)))
        });
        line(out, &format!("queue {cpu} {}", names.of(entry.context)), words);
    }
    for timer in source.timers.iter().filter(|timer| timer.cpu == cpu) {
        let wake = timer.wake.map(|wake| format!("wake={}", value::show_time(wake)));
        line(
            out,
            &format!("timer {cpu} {}", names.of(timer.context)),
            wake.into_iter(),
        );
    }
    for (interrupt, word) in [(false, "local"), (true, "ipi")] {
        let here = source.lists.iter();
        let here = here.filter(|listed| (listed.cpu, listed.interrupt) == (cpu, interrupt));
        let named: Vec<String> = here.map(|listed| names.of(listed.context)).collect();
        if !named.is_empty() {
            line(out, &format!("{word} {cpu}"), named.into_iter());
        }
    }
}

/// `word=value`, or the mark alone.
fn assigned(word: &Word, value: u64, names: &Names) -> String {
    match (word.unit, value) {
        (Unit::Mark, 1) => word.name.to_string(),
        _ => format!("{}={}", word.name, value::show(word.unit, value, names)),
    }
}

fn line(out: &mut String, head: &str, words: impl Iterator<Item = String>) {
    let words: Vec<String> = words.collect();
    *out += head.trim_end();
    if !words.is_empty() {
        // What is long is cut where the head ends, so that columns of heads stay columns.
        *out += &head[head.trim_end().len()..];
        out.push(' ');
        *out += &words.join(" ");
    }
    out.push('\n');
}
