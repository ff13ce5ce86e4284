//! From one state back to an image, with the call: a trace that can be replayed and handed on.

use super::dimension::Space;
use super::moment::Moment;
use super::outcome::Maker;
use super::says::says;
use crate::output;
use crate::stop::{DONE, Ended, Stop};
use ronthuyal::words::text::{Packed, describe};
use std::io::{self, Write};
use std::path::Path;

pub fn pick(moment: &Moment, space: &Space, state: u64, to: Option<&Path>) -> Ended {
    if state >= space.total {
        let says = format!(
            "--pick {state}: there are {} states; 0 to {} is allowed",
            space.total,
            space.total - 1
        );
        return Err(Stop::not_understood(says));
    }
    let mut words = moment.words.clone();
    space.store(state, &mut words);
    match to {
        Some(path) if path.extension().is_none_or(|extension| extension != "txt") => {
            output::file(path, &output::to_bytes(&words))?;
        }
        Some(path) => output::file(path, trace(moment, space, state, words).as_bytes())?,
        None => io::stdout().write_all(trace(moment, space, state, words).as_bytes())?,
    }
    Ok(DONE)
}

/// The image, the call, what the state comes to, and the lines that follow.
fn trace(moment: &Moment, space: &Space, state: u64, mut words: Vec<u64>) -> String {
    let mut text = format!(
        "# {}: state {state} of {}: {}\n",
        moment.file,
        space.total,
        space.told(state)
    );
    text += &describe(&words, &moment.names);
    let mut maker = Maker::new(moment, space);
    maker.make(moment, &mut words);
    let outcome = &maker.outcome;
    text += &format!("\ncall {}   # {}\n", moment.written, says(moment, outcome));
    text += &format!("expect refusal = {}\n", outcome.refusal);
    if let Some(here) = moment
        .here()
        .filter(|_| !matches!(moment.call, ronthuyal::words::Call::Ask { .. }))
    {
        text += &format!(
            "expect cpu.{here}.sched_ctxt = {}\n",
            moment.names.of(outcome.in_charge)
        );
    }
    if !moment.lines.is_empty() {
        text += &let_go(moment, space, state);
    }
    for line in &moment.lines {
        text += &format!("{line}\n");
    }
    text
}

/// A line for each lock that is let go behind the call.
fn let_go(moment: &Moment, space: &Space, state: u64) -> String {
    let mut picked = moment.words.clone();
    space.store(state, &mut picked);
    let changed = moment
        .let_go(space)
        .into_iter()
        .filter(|(word, own)| picked[*word] != *own);
    let lines = changed.map(|(word, _)| {
        let packed = Packed::of(moment.words.clone(), moment.names.clone());
        let (name, value) = output::named(&packed, word);
        format!("set {name} = {value}\n")
    });
    lines.collect()
}
