//! The answer, or a part of it, as JSON; and parts read back.

mod read;

pub use read::read;

use super::axis::Axis;
use super::dimension::{Dimension, Space};
use super::group::{Condition, Group, Grouping};
use super::moment::Moment;
use super::outcome::{Outcome, Seat};
use super::says::{conjunction, lateness, letter, rules, says, says_late, winner};
use super::{Answer, Explored, Whole};
use crate::output::word;
use ronthuyal::words::Names;
use ronthuyal::words::text::describe;
use serde_json::{Value, json};

/// The form of what is written; parts of another form are not joined.
const FORM: u64 = 1;

/// All that was found. Of a part there are no groups.
pub fn written(explored: &Explored, answer: &Answer) -> Value {
    let Explored { moment, space, ran, .. } = explored;
    let mut all = json!({
        "explore": FORM,
        "file": moment.file,
        "image": describe(&moment.words, &moment.names),
        "call": moment.written,
        "lines": moment.lines,
        "for": moment.asked.map(|asked| moment.names.of(asked)),
        "hold": moment.hold,
        "late_of": moment.late.map(|late| moment.names.of(late)),
        "as_they_are": explored.stay,
        "dimensions": space.dimensions.iter().map(dimension).collect::<Vec<_>>(),
        "states": word(space.total),
        "from": word(explored.states.start),
        "to": word(explored.states.end),
        "outcomes": ran.outcomes.iter().map(|one| outcome(one, &moment.names)).collect::<Vec<_>>(),
        "runs": runs(&ran.cells),
    });
    let mut add = |key: &str, value: Value| all[key] = value;
    match answer {
        Answer::Part => {}
        Answer::Sampled(groups) => {
            let (count, seed) = explored.sampled.unwrap_or_default();
            add("incomplete", json!({ "sampled": word(count), "seed": word(seed) }));
            add("groups", told(explored, &[], groups, &says));
        }
        Answer::Whole(whole) => {
            let Whole { main, winners, late } = &**whole;
            add("groups", told(explored, &main.axes, &main.groups, &says));
            add("no_difference", idle(space, main));
            if let Some(winners) = winners {
                add("winners", told(explored, &winners.axes, &winners.groups, &winner));
            }
            if let Some(late) = late {
                add("late", told(explored, &late.axes, &late.groups, &says_late));
            }
        }
    }
    all
}

fn idle(space: &Space, grouping: &Grouping) -> Value {
    grouping
        .idle
        .iter()
        .map(|at| space.dimensions[*at].name.clone())
        .collect::<Vec<_>>()
        .into()
}

fn dimension(one: &Dimension) -> Value {
    json!({
        "name": one.name,
        "word": one.word,
        "values": one.values.iter().map(|value| word(*value)).collect::<Vec<_>>(),
        "labels": one.labels,
    })
}

fn outcome(one: &Outcome, names: &Names) -> Value {
    json!({
        "refusal": word(one.refusal),
        "result": word(one.result),
        "rule": word(one.rule),
        "interrupt": one.interrupt,
        "in_charge": names.of(one.in_charge),
        "timers": one.timers.iter().map(|(fate, owner)| json!([fate.name(), names.of(*owner)])).collect::<Vec<_>>(),
        "stolen": one.stolen.iter().map(|(owner, from)| json!([names.of(*owner), from])).collect::<Vec<_>>(),
        "seat": one.seat.map(seat),
        "after": one.after,
        "refused": one.refused,
    })
}

fn seat(seat: Seat) -> Value {
    match seat {
        Seat::InCharge(cpu) => json!(["in_charge", cpu]),
        Seat::Queued(cpu) => json!(["queued", cpu]),
        Seat::Listed(cpu) => json!(["listed", cpu]),
        Seat::Asleep => json!(["asleep"]),
        Seat::Nowhere => json!(["nowhere"]),
    }
}

/// Outcome and number of states, for states that follow each other.
fn runs(cells: &[u32]) -> Value {
    let chunks = cells.chunk_by(|one, other| one == other);
    chunks.map(|run| json!([run[0], run.len()])).collect::<Vec<_>>().into()
}

fn told(explored: &Explored, axes: &[Axis], groups: &[Group], says: &dyn Fn(&Moment, &Outcome) -> String) -> Value {
    let (moment, outcomes) = (&explored.moment, &explored.ran.outcomes);
    let each = groups.iter().enumerate().map(|(number, group)| {
        let first = &outcomes[group.outcomes[0] as usize];
        json!({
            "group": letter(number),
            "says": says(moment, first),
            "states": word(group.states),
            "first": explored.sampled.is_none().then(|| word(group.first)),
            "in_charge": moment.names.of(first.in_charge),
            "rules": rules(outcomes, group),
            "late": lateness(moment, first).map(word),
            "outcomes": group.outcomes,
            "when": group.conditions.iter().map(|one| conjunction(&explored.space, axes, one)).collect::<Vec<_>>(),
            "conditions": group.conditions.iter().map(|one| condition(&explored.space, axes, one)).collect::<Vec<_>>(),
        })
    });
    each.collect::<Vec<_>>().into()
}

/// For each word that is asked the labels of its values; for two that are asked together their pairs.
fn condition(space: &Space, axes: &[Axis], condition: &Condition) -> Value {
    let mut all = serde_json::Map::new();
    for (axis, set) in axes.iter().zip(condition).filter(|(axis, set)| **set != axis.all()) {
        match axis.as_words(space, *set) {
            Some(words) => {
                for (word, set) in words {
                    let one = &space.dimensions[word];
                    let chosen = (0..one.values.len()).filter(|at| set >> at & 1 == 1);
                    let chosen: Vec<&str> = chosen.map(|at| one.labels[at].as_str()).collect();
                    if set != one.all() {
                        all.insert(one.name.clone(), json!(chosen));
                    }
                }
            }
            None => {
                let names: Vec<&str> = axis
                    .words
                    .iter()
                    .map(|word| space.dimensions[*word].name.as_str())
                    .collect();
                all.insert(names.join(" "), json!(axis.pairs(space, *set)));
            }
        }
    }
    all.into()
}
