//! The answer as it is printed.

use super::axis::Axis;
use super::dimension::Space;
use super::group::{Group, Grouping};
use super::says::{HELD, by_rules, conjunction, due, lateness, letter, many, rules, says, says_late, states, winner};
use super::{Answer, Explored, Whole};
use crate::calls;
use ronthuyal::words::RULES;
use ronthuyal::words::value::show_time;
use std::io::{self, Write};

/// So many groups are told, and so many conditions of each; JSON has all.
const GROUPS: usize = 40;
const CONDITIONS: usize = 12;

/// The answer, as it is printed.
pub fn print(out: &mut impl Write, explored: &Explored, answer: &Answer) -> io::Result<()> {
    let Explored { moment, space, ran, .. } = explored;
    let locks = many(space.dimensions.len() as u64, "lock");
    let told = calls::told(&moment.call, &moment.names);
    writeln!(out, "{}: {told}: {} of {locks}", moment.file, states(space.total))?;
    varied(out, explored)?;
    if let Some((count, seed)) = explored.sampled {
        writeln!(
            out,
            "INCOMPLETE: {count} states at random, seed {seed}; others may come to something else, and no condition is known"
        )?;
    }
    if let Answer::Whole(whole) = answer
        && let Some(winners) = &whole.winners
    {
        told_winners(out, explored, winners)?;
    }
    let mut met = vec![false; RULES.len()];
    for (number, group) in answer.groups().iter().enumerate().take(GROUPS) {
        let outcome = &ran.outcomes[group.outcomes[0] as usize];
        let rules = rules(&ran.outcomes, group);
        rules.iter().for_each(|rule| met[*rule as usize] = true);
        let says = says(moment, outcome) + &by_rules(&rules);
        let heading = format!("{:<2} {}: {says}", letter(number), many(group.states, "state"));
        told_group(out, space, answer.axes(), group, &heading)?;
    }
    left_out(out, answer.groups().len())?;
    let told: Vec<String> = (1..RULES.len())
        .filter(|rule| met[*rule])
        .map(|rule| format!("{rule} {}", RULES[rule]))
        .collect();
    if !told.is_empty() {
        writeln!(out, "rules: {}", told.join("; "))?;
    }
    if let Answer::Whole(whole) = answer {
        let Whole { main, late, .. } = &**whole;
        if whole.speaks_of_held(space) {
            writeln!(out, "{HELD}")?;
        }
        no_difference(out, space, main)?;
        writeln!(
            out,
            "each state meets exactly one of these conditions: checked on all {}",
            space.total
        )?;
        if let Some(late) = late {
            told_late(out, explored, late)?;
        }
    }
    Ok(())
}

fn varied(out: &mut impl Write, explored: &Explored) -> io::Result<()> {
    let dimensions = &explored.space.dimensions;
    let widest = dimensions
        .iter()
        .map(|dimension| dimension.name.chars().count())
        .max()
        .unwrap_or(0);
    for dimension in dimensions {
        writeln!(out, "   {:<widest$}  {}", dimension.name, dimension.labels.join(", "))?;
    }
    match (dimensions.is_empty(), explored.moment.call.decides()) {
        (true, true) => writeln!(
            out,
            "this CPU names no context whose lock it would try; --vary names others"
        )?,
        (true, false) => writeln!(out, "this call decides nothing, and tries no lock; --vary names some")?,
        _ => {}
    }
    if !explored.stay.is_empty() {
        writeln!(
            out,
            "as they are, since held they only give refusal 6: {}",
            explored.stay.join(", ")
        )?;
    }
    Ok(())
}

/// Who is in charge, with all groups of one winner taken together.
fn told_winners(out: &mut impl Write, explored: &Explored, winners: &Grouping) -> io::Result<()> {
    writeln!(out, "by who is in charge:")?;
    for group in winners.groups.iter().take(GROUPS) {
        let says = winner(&explored.moment, &explored.ran.outcomes[group.outcomes[0] as usize]);
        let heading = format!("-  {}: {says}", many(group.states, "state"));
        told_group(out, &explored.space, &winners.axes, group, &heading)?;
    }
    left_out(out, winners.groups.len())?;
    writeln!(out, "in groups:")
}

fn told_group(out: &mut impl Write, space: &Space, axes: &[Axis], group: &Group, heading: &str) -> io::Result<()> {
    writeln!(out, "{heading}")?;
    match &group.conditions[..] {
        [] => {}
        [one] => match &conjunction(space, axes, one)[..] {
            "always" => writeln!(out, "   always")?,
            told => writeln!(out, "   exactly when {told}")?,
        },
        more => {
            writeln!(out, "   exactly when one of these holds:")?;
            for condition in more.iter().take(CONDITIONS) {
                writeln!(out, "   - {}", conjunction(space, axes, condition))?;
            }
            if more.len() > CONDITIONS {
                writeln!(out, "   - and {} more; --json has all", more.len() - CONDITIONS)?;
            }
        }
    }
    Ok(())
}

fn left_out(out: &mut impl Write, count: usize) -> io::Result<()> {
    match count.checked_sub(GROUPS) {
        Some(more) if more > 0 => writeln!(
            out,
            "and {more} groups more; --json has all, and --for NAME asks about one context"
        ),
        _ => Ok(()),
    }
}

fn no_difference(out: &mut impl Write, space: &Space, grouping: &Grouping) -> io::Result<()> {
    let names: Vec<&str> = grouping
        .idle
        .iter()
        .map(|at| space.dimensions[*at].name.as_str())
        .collect();
    match names.is_empty() {
        true => Ok(()),
        false => writeln!(out, "make no difference here: {}", names.join(", ")),
    }
}

fn told_late(out: &mut impl Write, explored: &Explored, late: &Grouping) -> io::Result<()> {
    let Explored { moment, space, ran, .. } = explored;
    let name = moment.names.of(moment.late.unwrap_or(0));
    let calls = moment.calls().count();
    writeln!(out)?;
    writeln!(
        out,
        "how late {name} is in charge, of {}, over {}:",
        show_time(due(moment)),
        many(calls as u64, "call")
    )?;
    let outcome = |group: &Group| &ran.outcomes[group.outcomes[0] as usize];
    for (number, group) in late.groups.iter().enumerate() {
        let says = says_late(moment, outcome(group));
        let heading = format!("{:<2} {}: {says}", letter(number), many(group.states, "state"));
        told_group(out, space, &late.axes, group, &heading)?;
    }
    no_difference(out, space, late)?;
    let refused = ran
        .cells
        .iter()
        .filter(|cell| ran.outcomes[**cell as usize].refused > 0)
        .count();
    if refused > 0 {
        writeln!(out, "in {} a later call is refused", many(refused as u64, "state"))?;
    }
    worst(out, explored, late)
}

/// The latest, and for which locks. Who never comes is later than anybody.
fn worst(out: &mut impl Write, explored: &Explored, late: &Grouping) -> io::Result<()> {
    let Explored { moment, space, ran, .. } = explored;
    let lateness = |group: &Group| lateness(moment, &ran.outcomes[group.outcomes[0] as usize]);
    let groups = late.groups.iter().enumerate();
    let Some((number, group)) = groups.max_by_key(|(_, group)| lateness(group).unwrap_or(u64::MAX)) else {
        return Ok(());
    };
    let says = match lateness(group) {
        None => "not in charge at all".to_string(),
        Some(0) => "not late".to_string(),
        Some(late) => format!("{} late", show_time(late)),
    };
    match &group.conditions[..] {
        [one] if late.groups.len() > 1 => {
            writeln!(out, "worst: {says}, when {}", conjunction(space, &late.axes, one))
        }
        _ => writeln!(
            out,
            "worst: {says}, in {} ({})",
            letter(number),
            many(group.states, "state")
        ),
    }
}
