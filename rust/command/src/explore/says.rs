//! Outcomes and conditions in words.

use super::axis::Axis;
use super::dimension::Space;
use super::group::{Condition, Group, Grouping};
use super::moment::Moment;
use super::outcome::{Outcome, Seat};
use ronthuyal::words::value::show_time;

/// What is said of a context whose lock and address space are not both free.
pub const HELD: &str = "held: the lock is read or written, or the address space is written";

/// A, B, .., Z, AA, AB and so on.
pub fn letter(number: usize) -> String {
    let last = char::from(b'A' + (number % 26) as u8);
    match number / 26 {
        0 => last.to_string(),
        more => letter(more - 1) + &last.to_string(),
    }
}

pub fn many(count: u64, what: &str) -> String {
    format!("{count} {what}{}", if count == 1 { "" } else { "s" })
}

/// What a state comes to, in words: states of which the same is said are a group.
pub fn says(moment: &Moment, outcome: &Outcome) -> String {
    if outcome.refusal != 0 {
        return format!("refused with {}", outcome.refusal);
    }
    let names = &moment.names;
    let asked = |owner: &u64| moment.asked.is_none_or(|asked| asked == *owner);
    let mut told = match (moment.asked, outcome.seat) {
        (Some(asked), Some(seat)) => vec![seated(&names.of(asked), seat)],
        _ => vec![match (moment.call.operation(), outcome.result) {
            (Some(1), 0) => format!("no switch is due, {} in charge", names.of(outcome.in_charge)),
            (Some(1..=3), _) => format!("{} in charge", names.of(outcome.in_charge)),
            (_, result) => format!("result {result}, {} in charge", names.of(outcome.in_charge)),
        }],
    };
    let timers = outcome.timers.iter().filter(|(_, owner)| asked(owner));
    told.extend(timers.map(|(fate, owner)| format!("timer of {} {}", names.of(*owner), fate.name())));
    let stolen = outcome.stolen.iter().filter(|(owner, _)| asked(owner));
    told.extend(stolen.map(|(owner, from)| format!("{} stolen from CPU {from}", names.of(*owner))));
    told.join(", ")
}

/// Who is in charge, and nothing else.
pub fn winner(moment: &Moment, outcome: &Outcome) -> String {
    match outcome.refusal {
        0 => format!("{} in charge", moment.names.of(outcome.in_charge)),
        number => format!("refused with {number}"),
    }
}

fn seated(name: &str, seat: Seat) -> String {
    match seat {
        Seat::InCharge(cpu) => format!("{name} in charge of CPU {cpu}"),
        Seat::Queued(cpu) => format!("{name} waits in the queue of CPU {cpu}"),
        Seat::Listed(cpu) => format!("{name} on a wake-up list of CPU {cpu}"),
        Seat::Asleep => format!("{name} asleep"),
        Seat::Nowhere => format!("{name} neither queued nor in charge"),
    }
}

/// From when on a context is late: its timer's wake, or the moment's own time.
pub fn due(moment: &Moment) -> u64 {
    let own = moment.call.time().unwrap_or(0);
    let view = moment.view();
    let timers = view.present_cpus().flat_map(|cpu| view.timers(cpu));
    let wakes = timers
        .filter(|(_, owner)| Some(*owner) == moment.late)
        .map(|(wake, _)| wake);
    wakes.min().unwrap_or(own)
}

/// How late a context is in charge; nothing if it is not by the last call.
pub fn lateness(moment: &Moment, outcome: &Outcome) -> Option<u64> {
    let call = moment.calls().nth(outcome.after? as usize)?;
    Some(call.time().unwrap_or(0).saturating_sub(due(moment)))
}

/// The same in words.
pub fn says_late(moment: &Moment, outcome: &Outcome) -> String {
    let name = moment.names.of(moment.late.unwrap_or(0));
    let at = |number: usize| moment.calls().take(number + 1).filter_map(|call| call.time()).last();
    match (outcome.after, lateness(moment, outcome)) {
        (Some(after), Some(late)) => {
            let late = if late == 0 {
                "not late".to_string()
            } else {
                format!("{} late", show_time(late))
            };
            let time = show_time(at(after as usize).unwrap_or(0));
            format!("{late}: {name} in charge from call {} on, at {time}", after + 1)
        }
        _ => format!("{name} not in charge by {}", show_time(at(usize::MAX - 1).unwrap_or(0))),
    }
}

/// `writer.lock is free and writer.addr_space is free`; nothing of a word that may have any value. Four and more of
/// which the same is said are told together.
pub fn conjunction(space: &Space, axes: &[Axis], condition: &Condition) -> String {
    let some = axes.iter().zip(condition).filter(|(axis, set)| **set != axis.all());
    let mut told: Vec<(Vec<String>, String)> = Vec::new();
    let all: Vec<(String, String)> = some.flat_map(|(axis, set)| axis.told(space, *set)).collect();
    for (who, what) in &all {
        let together = all.iter().filter(|(_, other)| other == what).count() > 3;
        match told.iter_mut().find(|(_, other)| together && other == what) {
            Some((names, _)) => names.push(who.clone()),
            None => told.push((vec![who.clone()], what.clone())),
        }
    }
    let told: Vec<String> = told.into_iter().map(|(names, what)| listed(names, &what)).collect();
    match told.is_empty() {
        true => "always".to_string(),
        false => told.join(" and "),
    }
}

/// `a is held`, `a, b and c are held`.
fn listed(mut names: Vec<String>, what: &str) -> String {
    match names.pop() {
        Some(last) if names.is_empty() => format!("{last} is {what}"),
        Some(last) => format!("{} and {last} are {what}", names.join(", ")),
        None => String::new(),
    }
}

/// Whether some condition speaks of a context that is held.
pub fn speaks_of_held(space: &Space, grouping: &Grouping) -> bool {
    let mut conditions = grouping.groups.iter().flat_map(|group| &group.conditions);
    conditions.any(|condition| {
        grouping
            .axes
            .iter()
            .zip(condition)
            .any(|(axis, set)| axis.is_held(space, *set))
    })
}

/// The rules by which the states of a group are decided.
pub fn rules(ran: &[Outcome], group: &Group) -> Vec<u64> {
    let mut rules: Vec<u64> = group
        .outcomes
        .iter()
        .map(|outcome| ran[*outcome as usize].rule)
        .collect();
    rules.sort_unstable();
    rules.dedup();
    rules
}

pub fn by_rules(rules: &[u64]) -> String {
    let told: Vec<String> = rules.iter().filter(|rule| **rule > 0).map(u64::to_string).collect();
    match told.len() {
        0 => String::new(),
        1 => format!(" (rule {})", told[0]),
        _ => format!(" (rules {})", told.join(", ")),
    }
}

pub fn states(total: u64) -> String {
    match total {
        u64::MAX => "over 2^63 states".to_string(),
        _ => many(total, "state"),
    }
}
