//! Parts read back.

use super::super::Explored;
use super::super::dimension::{Dimension, Space};
use super::super::moment::Moment;
use super::super::outcome::{Outcome, Seat};
use super::super::run::Ran;
use super::FORM;
use crate::happened::Fate;
use ronthuyal::words::Names;
use ronthuyal::words::text::pack;
use serde_json::{Value, json};
use std::ops::Range;

const FATES: [Fate; 5] = [Fate::Served, Fate::Kept, Fate::Lost, Fate::Dropped, Fate::Set];

/// A part as it was written; or what is wrong with it.
pub fn read(text: &str) -> Result<Explored, String> {
    let all: Value = serde_json::from_str(text).map_err(|error| format!("no JSON: {error}"))?;
    if all["explore"] != json!(FORM) {
        return Err("no answer of explore --json of this version; --shard I/N --json writes one".to_string());
    }
    explored(&all).ok_or_else(|| "not as explore --json writes it; --shard I/N --json writes it anew".to_string())?
}

fn explored(all: &Value) -> Option<Result<Explored, String>> {
    let packed = pack(all["image"].as_str()?).ok()?;
    let names = packed.names.clone();
    let lines: Vec<String> = texts(&all["lines"])?;
    let moment = Moment::kept(all["file"].as_str()?, packed, all["call"].as_str()?, &lines);
    let mut moment = match moment {
        Ok(moment) => moment,
        Err(stop) => return Some(Err(stop.lines.join("; "))),
    };
    let named = |key: &str| all[key].as_str().and_then(|name| names.number(name));
    (moment.asked, moment.late) = (named("for"), named("late_of"));
    moment.hold = all["hold"].as_bool()?;
    let dimensions: Option<Vec<Dimension>> = all["dimensions"].as_array()?.iter().map(read_dimension).collect();
    let space = Space::new(dimensions?);
    let fits = space
        .dimensions
        .iter()
        .all(|one| one.word < moment.words.len() && (1..=64).contains(&one.values.len()));
    let states = number(&all["from"])?..number(&all["to"])?;
    let outcomes: Option<Vec<Outcome>> = all["outcomes"]
        .as_array()?
        .iter()
        .map(|one| read_outcome(one, &names))
        .collect();
    let outcomes = outcomes?;
    let cells = read_runs(&all["runs"], &states, outcomes.len())?;
    let good = fits && number(&all["states"])? == space.total && states.end <= space.total;
    good.then_some(Ok(Explored {
        stay: texts(&all["as_they_are"])?,
        sampled: None,
        ran: Ran { outcomes, cells },
        moment,
        space,
        states,
    }))
}

fn number(value: &Value) -> Option<u64> {
    value.as_str()?.parse().ok()
}

fn texts(value: &Value) -> Option<Vec<String>> {
    value
        .as_array()?
        .iter()
        .map(|one| one.as_str().map(str::to_string))
        .collect()
}

fn read_dimension(one: &Value) -> Option<Dimension> {
    let values: Option<Vec<u64>> = one["values"].as_array()?.iter().map(number).collect();
    let (values, labels) = (values?, texts(&one["labels"])?);
    (values.len() == labels.len()).then_some(Dimension {
        word: one["word"].as_u64()? as usize,
        name: one["name"].as_str()?.to_string(),
        values,
        labels,
    })
}

fn read_runs(value: &Value, states: &Range<u64>, outcomes: usize) -> Option<Vec<u32>> {
    let mut cells = Vec::new();
    let wanted = states.end.checked_sub(states.start)?;
    for run in value.as_array()? {
        let (cell, length) = (run[0].as_u64()?, run[1].as_u64()?);
        if cell >= outcomes as u64 || cells.len() as u64 + length > wanted {
            return None;
        }
        cells.extend(std::iter::repeat_n(cell as u32, length as usize));
    }
    (cells.len() as u64 == wanted).then_some(cells)
}

fn read_outcome(one: &Value, names: &Names) -> Option<Outcome> {
    let context = |value: &Value| names.number(value.as_str()?);
    let timers = one["timers"].as_array()?.iter().map(|pair| {
        let fate = FATES.into_iter().find(|fate| pair[0] == json!(fate.name()))?;
        Some((fate, context(&pair[1])?))
    });
    let stolen = one["stolen"]
        .as_array()?
        .iter()
        .map(|pair| Some((context(&pair[0])?, pair[1].as_u64()? as usize)));
    Some(Outcome {
        refusal: number(&one["refusal"])?,
        result: number(&one["result"])?,
        rule: number(&one["rule"]).filter(|rule| *rule < 10)?,
        interrupt: one["interrupt"].as_bool()?,
        in_charge: context(&one["in_charge"])?,
        timers: timers.collect::<Option<_>>()?,
        stolen: stolen.collect::<Option<_>>()?,
        seat: match &one["seat"] {
            Value::Null => None,
            value => Some(read_seat(value)?),
        },
        after: one["after"].as_u64().map(|after| after as u32),
        refused: one["refused"].as_u64()? as u32,
    })
}

fn read_seat(value: &Value) -> Option<Seat> {
    let cpu = || value[1].as_u64().map(|cpu| cpu as usize);
    match value[0].as_str()? {
        "in_charge" => cpu().map(Seat::InCharge),
        "queued" => cpu().map(Seat::Queued),
        "listed" => cpu().map(Seat::Listed),
        "asleep" => Some(Seat::Asleep),
        "nowhere" => Some(Seat::Nowhere),
        _ => None,
    }
}
