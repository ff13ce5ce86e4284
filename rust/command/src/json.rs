//! A call as a line of JSON, written by hand: a trace may have a million.

use crate::happened::{Fate, outcome};
use crate::output::word;
use crate::table::{Row, push_name};
use ronthuyal::words::value::push_number;
use ronthuyal::words::{Names, View, block};
use serde_json::Value;

/// A list of names as JSON.
fn push_names(text: &mut String, key: &str, names: &Names, owners: impl Iterator<Item = u64>) {
    push_key(text, key);
    text.push('[');
    for (at, owner) in owners.enumerate() {
        if at > 0 {
            text.push(',');
        }
        quoted(text, |text| push_name(text, names, owner));
    }
    text.push(']');
}

fn push_key(text: &mut String, key: &str) {
    if !text.ends_with('{') {
        text.push(',');
    }
    quoted(text, |text| text.push_str(key));
    text.push(':');
}

fn quoted(text: &mut String, inside: impl FnOnce(&mut String)) {
    text.push('"');
    inside(text);
    text.push('"');
}

/// A word: as a string, since JSON's numbers lose bits in many readers; or null.
fn push_word(text: &mut String, key: &str, value: Option<u64>) {
    push_key(text, key);
    match value {
        Some(value) => quoted(text, |text| push_number(text, value)),
        None => text.push_str("null"),
    }
}

/// Text that may hold anything.
fn push_text(text: &mut String, key: &str, value: Option<&str>) {
    push_key(text, key);
    text.push_str(&Value::from(value).to_string());
}

/// A line for a call. Names are of letters, digits, `_` and `-`, so they need no escape.
pub fn line(text: &mut String, row: &Row) {
    text.push('{');
    push_key(text, "call");
    push_number(text, row.number);
    push_key(text, "line");
    push_number(text, row.line.into());
    asked(text, row);
    answered(text, row);
    left(text, row);
    happened(text, row);
    text.push_str("}\n");
}

/// The call.
fn asked(text: &mut String, row: &Row) {
    let context = row.call.context().map(|context| row.names.of(context));
    push_text(text, "operation", Some(&row.call.name()));
    push_word(text, "cpu", Some(row.call.cpu()));
    push_word(text, "time", row.call.time());
    push_text(text, "context", context.as_deref());
}

/// Its answer.
fn answered(text: &mut String, row: &Row) {
    let done = row.answer.as_ref().ok();
    let refusal = row.answer.as_ref().map_or_else(|refusal| refusal.number(), |_| 0);
    let why = row.happened.why.as_ref().map(|why| why.to_string());
    push_word(text, "refusal", Some(refusal));
    push_word(text, "result", Some(done.map_or(0, |done| done.result)));
    push_text(text, "outcome", Some(&outcome(row.call, row.answer)));
    push_key(text, "interrupt");
    text.push_str(if done.is_some_and(|done| done.interrupt) {
        "true"
    } else {
        "false"
    });
    push_word(
        text,
        "rule",
        Some(done.and_then(|done| done.rule).map_or(0, |rule| rule as u64)),
    );
    push_text(text, "why", why.as_deref());
}

/// What it left on its CPU.
fn left(text: &mut String, row: &Row) {
    let cpu = row.call.cpu() as usize;
    let here = View::new(row.words).filter(|view| row.call.cpu() < view.cpus() as u64);
    for (key, word) in [("in_charge", block::SCHED_CTXT), ("current", block::CURRENT_CTXT)] {
        push_key(text, key);
        match here {
            Some(view) => quoted(text, |text| push_name(text, row.names, view.block(cpu, word))),
            None => text.push_str("null"),
        }
    }
    push_word(text, "v", here.map(|view| view.block(cpu, block::V)));
    let queue = here.into_iter().flat_map(|view| view.queue(cpu));
    push_names(text, "queue", row.names, queue);
}

/// What became of timers, who was stolen, and what asking gave.
fn happened(text: &mut String, row: &Row) {
    push_key(text, "timers");
    text.push('{');
    for fate in [Fate::Served, Fate::Kept, Fate::Lost, Fate::Dropped, Fate::Set] {
        let met = row.happened.timers.iter().filter(|(other, _)| *other == fate);
        push_names(text, fate.name(), row.names, met.map(|(_, owner)| *owner));
    }
    text.push('}');
    push_key(text, "stolen");
    text.push('[');
    for (at, (owner, from)) in row.happened.stolen.iter().enumerate() {
        text.push_str(if at > 0 { ",{" } else { "{" });
        push_text(text, "context", Some(&row.names.of(*owner)));
        push_word(text, "from", Some(*from as u64));
        text.push('}');
    }
    text.push(']');
    push_key(text, "reply");
    let reply = row.happened.reply.map(|reply| Value::from(reply.map(word).to_vec()));
    text.push_str(&reply.unwrap_or(Value::Null).to_string());
}
