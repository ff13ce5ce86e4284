//! What happened in a call, as a row of a table or a line of JSON.

use crate::calls;
use crate::happened::{Happened, outcome};
use ronthuyal::words::value::{push_number, push_time};
use ronthuyal::words::{Call, Names, RULES, View, block};
use ronthuyal::{Done, Outcome, Refusal};
use std::fmt::Write as _;
use std::io::{self, Write};

/// So many of a queue are named in a row.
const NAMED: usize = 6;

/// A table whose columns are as wide as the names need.
pub struct Table {
    name: usize,
    row: String,
    rules: [bool; 10],
}

/// What a row tells.
pub struct Row<'a> {
    pub number: u64,
    pub line: u32,
    pub call: &'a Call,
    pub answer: &'a Result<Done, Refusal>,
    pub happened: &'a Happened,
    pub words: &'a [u64],
    pub names: &'a Names,
}

impl Table {
    pub fn new(names: &Names) -> Self {
        let widest = names.all().iter().map(|name| name.chars().count()).max();
        Self {
            name: widest.unwrap_or(0).max("in charge".len()),
            row: String::new(),
            rules: [false; 10],
        }
    }

    pub fn head(&self, out: &mut impl Write) -> io::Result<()> {
        let name = self.name;
        writeln!(
            out,
            "{:>5}  {:<12}  {:>3}  {:<25}  {:<15}  {:>4}  {:<name$}  {:>12}  {:<20}  timers and thefts",
            "call", "time", "CPU", "operation", "result", "rule", "in charge", "V", "queue"
        )
    }

    pub fn row(&mut self, out: &mut impl Write, row: &Row) -> io::Result<()> {
        let text = &mut self.row;
        text.clear();
        right(text, row.number, 5);
        let mut at = text.len() + 2;
        at = column(text, at, 14);
        if let Some(time) = row.call.time() {
            push_time(text, time);
        }
        at = column(text, at, 0);
        right(text, row.call.cpu(), 3);
        at = column(text, at + 5, 27);
        match (row.call.known_name(), row.call) {
            // By far the most calls; the others are written with what they name.
            (Some(name), Call::Operation { .. }) if row.call.context().is_none() => text.push_str(name),
            _ => text.push_str(&calls::what(row.call, row.names)),
        }
        at = column(text, at, 17);
        push_outcome(text, row.call, row.answer);
        at = column(text, at, 0);
        if let Some(rule) = row.answer.as_ref().ok().and_then(|done| done.rule) {
            self.rules[rule as usize] = true;
            right(text, rule as u64, 4);
        }
        at = column(text, at + 6, self.name + 2);
        let here = View::new(row.words).filter(|view| row.call.cpu() < view.cpus() as u64);
        if let Some(view) = here {
            let cpu = row.call.cpu() as usize;
            push_name(text, row.names, view.block(cpu, block::SCHED_CTXT));
            at = column(text, at, 0);
            right(text, view.block(cpu, block::V), 12);
            at = column(text, at + 14, 22);
            push_queue(text, view, cpu, row.names, NAMED);
        }
        column(text, at, 0);
        push_timers(text, row.happened, row.names);
        for (owner, from) in &row.happened.stolen {
            let _ = write!(text, " {} from CPU {from}", row.names.of(*owner));
        }
        if row.answer.as_ref().is_ok_and(|done| done.interrupt) {
            text.push_str(" interrupt");
        }
        text.truncate(text.trim_end().len());
        text.push('\n');
        out.write_all(text.as_bytes())
    }

    /// What the numbers of the rules that were met stand for.
    pub fn legend(&self, out: &mut impl Write) -> io::Result<()> {
        let met = (1..10).filter(|rule| self.rules[*rule]);
        let told: Vec<String> = met.map(|rule| format!("{rule} {}", RULES[rule])).collect();
        match told.is_empty() {
            true => Ok(()),
            false => writeln!(out, "rules: {}", told.join("; ")),
        }
    }
}

/// Fills up to this column, and gives the one that is so much further. What is too long pushes the rest on.
fn column(text: &mut String, at: usize, further: usize) -> usize {
    const BLANKS: &str = "                                ";
    let length = text.chars().count();
    match at.checked_sub(length) {
        Some(missing) if missing > 0 => text.push_str(&BLANKS[..missing.min(BLANKS.len())]),
        _ if length > 0 && !text.ends_with(' ') => text.push_str("  "),
        _ => {}
    }
    at.max(text.chars().count()) + further
}

/// A number at the right of a column.
fn right(text: &mut String, number: u64, width: usize) {
    let digits = number.checked_ilog10().map_or(1, |log| log as usize + 1);
    (digits..width).for_each(|_| text.push(' '));
    push_number(text, number);
}

pub fn push_name(text: &mut String, names: &Names, number: u64) {
    match names.get(number) {
        Some(name) => text.push_str(name),
        None => push_number(text, number),
    }
}

fn push_outcome(text: &mut String, call: &Call, answer: &Result<Done, Refusal>) {
    match answer {
        Ok(done) => match done.outcome {
            Outcome::Switched => text.push_str("Switched"),
            Outcome::AllContextsIdle => text.push_str("AllContextsIdle"),
            _ => text.push_str(&outcome(call, answer)),
        },
        Err(_) => text.push_str(&outcome(call, answer)),
    }
}

/// Who is queued, in the order of the keys: the first so many by name.
pub fn queue(view: View, cpu: usize, names: &Names, most: usize) -> String {
    let mut text = String::new();
    push_queue(&mut text, view, cpu, names, most);
    text
}

fn push_queue(text: &mut String, view: View, cpu: usize, names: &Names, most: usize) {
    let count = view.used(cpu, block::QUEUE_COUNT);
    if count == 0 {
        text.push('-');
    }
    for (slot, owner) in view.queue(cpu).enumerate().take(most) {
        if slot > 0 {
            text.push(' ');
        }
        push_name(text, names, owner);
    }
    if count > most {
        text.push_str(" +");
        push_number(text, (count - most) as u64);
    }
}

/// `writer served, rival kept`.
pub fn timers(happened: &Happened, names: &Names) -> String {
    let mut text = String::new();
    push_timers(&mut text, happened, names);
    text
}

fn push_timers(text: &mut String, happened: &Happened, names: &Names) {
    for (at, (fate, owner)) in happened.timers.iter().enumerate() {
        if at > 0 {
            text.push_str(", ");
        }
        push_name(text, names, *owner);
        text.push(' ');
        text.push_str(fate.name());
    }
}
