//! `call`: one call, and what came of it.

use crate::calls::{self, Last};
use crate::happened::{Happened, outcome};
use crate::json;
use crate::load::{self, Loaded};
use crate::output;
use crate::refused::not_the_reply;
use crate::stop::{DONE, Ended, REFUSED, Stop};
use crate::table::{self, Row};
use ronthuyal::words::{Call, Names, RULES, View, block};
use ronthuyal::{Done, Refusal};
use std::io::{self, Write};
use std::path::Path;

pub fn call(path: &Path, words: &[String], to: Option<&Path>, as_json: bool) -> Ended {
    let mut loaded = load::load(path)?.whole()?;
    let last = Last::default();
    let call = calls::parse(words.iter().map(String::as_str), loaded.names(), last).map_err(Stop::not_understood)?;
    let before = loaded.words().to_vec();
    let labels = ronthuyal::words::Labels {
        names: &loaded.packed.names,
        lines: &loaded.packed.lines,
    };
    let mut happened = Happened::default();
    let answer = happened
        .make(&mut loaded.packed.words, &call, &labels)
        .map_err(|disagreement| Stop::not_understood(disagreement.0))?;
    let mut out = io::BufWriter::new(io::stdout().lock());
    if as_json {
        let mut line = String::new();
        let row = Row {
            number: 1,
            line: 0,
            call: &call,
            answer: &answer,
            happened: &happened,
            words: loaded.words(),
            names: loaded.names(),
        };
        json::line(&mut line, &row);
        out.write_all(line.as_bytes())?;
    } else {
        text(&mut out, &loaded, &before, &call, &answer, &happened)?;
    }
    out.flush()?;
    if answer.is_err() {
        return Ok(REFUSED);
    }
    if let Some(to) = to {
        output::image(to, loaded.words(), loaded.names())?;
    }
    Ok(DONE)
}

fn text(
    out: &mut impl Write,
    loaded: &Loaded,
    before: &[u64],
    call: &Call,
    answer: &Result<Done, Refusal>,
    happened: &Happened,
) -> io::Result<()> {
    let names = loaded.names();
    let done = match answer {
        Ok(done) => done,
        Err(refusal) => return refused(out, loaded, call, *refusal, happened),
    };
    write!(out, "{}: {}", calls::told(call, names), outcome(call, answer))?;
    match done.rule {
        Some(rule) => writeln!(out, ", by rule {}: {}", rule as u64, RULES[rule as usize])?,
        None => writeln!(out)?,
    }
    if done.interrupt {
        writeln!(out, "interrupt   a wake-up went to another CPU")?;
    }
    if let Some([_, _, in_charge, current, v]) = happened.reply {
        writeln!(out, "in charge   {} would be", names.of(in_charge))?;
        writeln!(out, "current     {} would be", names.of(current))?;
        return writeln!(out, "V           {v}");
    }
    match (View::new(before), View::new(loaded.words())) {
        (Some(was), Some(is)) => left(out, was, is, call, happened, names),
        _ => Ok(()),
    }
}

fn refused(
    out: &mut impl Write,
    loaded: &Loaded,
    call: &Call,
    refusal: Refusal,
    happened: &Happened,
) -> io::Result<()> {
    let why = match &happened.why {
        Some(why) => why.to_string(),
        None => not_the_reply(loaded.words(), call, loaded.names()),
    };
    let at = loaded.at(happened.why.as_ref().and_then(|why| why.word));
    let told = calls::told(call, loaded.names());
    writeln!(out, "{at}{told} is refused with {}: {why}", refusal.number())
}

/// What a call left on its CPU.
fn left(out: &mut impl Write, was: View, is: View, call: &Call, happened: &Happened, names: &Names) -> io::Result<()> {
    let cpu = call.cpu() as usize;
    for (what, word) in [("in charge", block::SCHED_CTXT), ("current", block::CURRENT_CTXT)] {
        let (was, is) = (names.of(was.block(cpu, word)), names.of(is.block(cpu, word)));
        changed(out, what, &was, &is)?;
    }
    let v = |view: View| view.block(cpu, block::V).to_string();
    changed(out, "V", &v(was), &v(is))?;
    let queue = |view: View| table::queue(view, cpu, names, usize::MAX);
    changed(out, "queue", &queue(was), &queue(is))?;
    if !happened.timers.is_empty() {
        writeln!(out, "timers      {}", table::timers(happened, names))?;
    }
    for (owner, from) in &happened.stolen {
        writeln!(out, "stolen      {} from CPU {from}", names.of(*owner))?;
    }
    let words = was.words().iter().zip(is.words()).filter(|(was, is)| was != is);
    writeln!(out, "words       {} changed", words.count())
}

fn changed(out: &mut impl Write, what: &str, was: &str, is: &str) -> io::Result<()> {
    match was == is {
        true => writeln!(out, "{what:<11} {is}"),
        false => writeln!(out, "{what:<11} {was} -> {is}"),
    }
}
