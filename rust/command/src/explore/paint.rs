//! How groups look: a pattern and a colour for each winner, a letter for each group. Nothing is told by colour alone.

use super::group::Grouping;
use super::moment::Moment;
use super::outcome::Outcome;
use super::says::{letter, many, says, winner};
use super::{Explored, Whole};
use crate::svg::escaped;
use std::fmt::Write;

/// So many looks there are; further winners begin again, and their letters differ.
pub const LOOKS: usize = 8;

/// Patterns that are told apart in black and white, as SVG.
pub const PATTERNS: &str = "<defs>\n\
    <pattern id=\"look0\" width=\"8\" height=\"8\" patternUnits=\"userSpaceOnUse\"><rect width=\"8\" height=\"8\" fill=\"#fff\"/></pattern>\n\
    <pattern id=\"look1\" width=\"8\" height=\"8\" patternUnits=\"userSpaceOnUse\" patternTransform=\"rotate(45)\"><rect width=\"8\" height=\"8\" fill=\"#e3ebf7\"/><rect width=\"2\" height=\"8\" fill=\"#7d93b8\"/></pattern>\n\
    <pattern id=\"look2\" width=\"8\" height=\"8\" patternUnits=\"userSpaceOnUse\"><rect width=\"8\" height=\"8\" fill=\"#fbf1da\"/><circle cx=\"4\" cy=\"4\" r=\"1.4\" fill=\"#b08a3c\"/></pattern>\n\
    <pattern id=\"look3\" width=\"8\" height=\"8\" patternUnits=\"userSpaceOnUse\"><rect width=\"8\" height=\"8\" fill=\"#d9d9d9\"/></pattern>\n\
    <pattern id=\"look4\" width=\"8\" height=\"8\" patternUnits=\"userSpaceOnUse\"><rect width=\"8\" height=\"8\" fill=\"#e2f1e4\"/><rect width=\"8\" height=\"2\" fill=\"#6f9c77\"/></pattern>\n\
    <pattern id=\"look5\" width=\"8\" height=\"8\" patternUnits=\"userSpaceOnUse\" patternTransform=\"rotate(-45)\"><rect width=\"8\" height=\"8\" fill=\"#f6e3ea\"/><rect width=\"3\" height=\"8\" fill=\"#c08aa0\"/></pattern>\n\
    <pattern id=\"look6\" width=\"8\" height=\"8\" patternUnits=\"userSpaceOnUse\"><rect width=\"8\" height=\"8\" fill=\"#fff\"/><path d=\"M0 0L8 8M8 0L0 8\" stroke=\"#999\" stroke-width=\"1\"/></pattern>\n\
    <pattern id=\"look7\" width=\"8\" height=\"8\" patternUnits=\"userSpaceOnUse\"><rect width=\"8\" height=\"8\" fill=\"#ece5f5\"/><rect width=\"2\" height=\"8\" fill=\"#9a84bd\"/></pattern>\n\
    </defs>\n";

/// What a picture needs to know of a group.
pub struct Look {
    /// A letter; a number where groups are winners and nothing else.
    pub letter: String,
    pub says: String,
    pub states: u64,
    /// Which pattern.
    pub look: usize,
}

/// The looks of all groups, and of those that pictures show: by winners where there are more groups than these.
pub struct Looks {
    pub main: Vec<Look>,
    pub drawn: Vec<Look>,
}

impl Looks {
    pub fn of(explored: &Explored, whole: &Whole) -> Self {
        let main = looks(explored, &whole.main, &|number| letter(number), &says);
        let drawn = match &whole.winners {
            Some(winners) => looks(explored, winners, &|number| (number + 1).to_string(), &winner),
            None => looks(explored, &whole.main, &|number| letter(number), &says),
        };
        Self { main, drawn }
    }
}

/// A look for each winner; where one context is asked about, for each group.
fn looks(
    explored: &Explored,
    grouping: &Grouping,
    letter: &dyn Fn(usize) -> String,
    says: &dyn Fn(&Moment, &Outcome) -> String,
) -> Vec<Look> {
    let mut winners: Vec<(u64, u64)> = Vec::new();
    let each = grouping.groups.iter().enumerate().map(|(number, group)| {
        let first = &explored.ran.outcomes[group.outcomes[0] as usize];
        let winner = match explored.moment.asked {
            Some(_) => (0, number as u64),
            None => (first.refusal, first.in_charge),
        };
        let known = winners.iter().position(|other| *other == winner);
        let look = known.unwrap_or_else(|| {
            winners.push(winner);
            winners.len() - 1
        });
        Look {
            letter: letter(number),
            says: says(&explored.moment, first),
            states: group.states,
            look: look % LOOKS,
        }
    });
    each.collect()
}

/// A box in a group's pattern with its letter.
pub fn chip(out: &mut String, look: &Look, x: f64, y: f64) {
    let Look { letter, look, .. } = look;
    let _ = writeln!(
        out,
        "<rect class=\"chip\" x=\"{x}\" y=\"{y}\" width=\"34\" height=\"20\" fill=\"url(#look{look})\"/>\
         <text class=\"letter\" x=\"{}\" y=\"{}\">{}</text>",
        x + 17.0,
        y + 14.5,
        escaped(letter)
    );
}

/// What a chip stands for, of so many states.
pub fn words(look: &Look, states: u64) -> String {
    format!("{} ({})", look.says, many(states, "state"))
}

/// The group of a state.
pub fn group_of(explored: &Explored, grouping: &Grouping, state: u64) -> usize {
    grouping.of[explored.ran.cells[state as usize] as usize] as usize
}
