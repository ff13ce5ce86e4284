//! The tables of groups with their conditions.

use super::super::Explored;
use super::super::dimension::Space;
use super::super::group::{Group, Grouping};
use super::super::paint::Look;
use super::super::says::{conjunction, rules, says_late};
use super::chip;
use crate::svg::escaped;
use ronthuyal::words::RULES;
use std::fmt::Write;

fn conditions(space: &Space, grouping: &Grouping, group: usize) -> String {
    let all = &grouping.groups[group].conditions;
    let each = all
        .iter()
        .take(50)
        .map(|one| format!("<li>{}</li>", escaped(&conjunction(space, &grouping.axes, one))));
    let more = if all.len() > 50 {
        format!("<li>and {} more</li>", all.len() - 50)
    } else {
        String::new()
    };
    let each: String = each.collect();
    let head = if all.len() > 1 { "one of these holds:" } else { "" };
    format!("{head}<ul>{each}{more}</ul>")
}

pub fn groups(explored: &Explored, main: &Grouping, looks: &[Look]) -> String {
    let mut out = String::from("<div class=\"wide\"><table><thead><tr>");
    for column in ["Group", "What it comes to", "States", "Rule", "Exactly when"] {
        let _ = write!(out, "<th scope=\"col\">{column}");
    }
    out.push_str("</tr></thead>\n<tbody>\n");
    for (number, (group, look)) in main.groups.iter().zip(looks).enumerate() {
        let rules = rules(&explored.ran.outcomes, group);
        let told: Vec<String> = rules
            .iter()
            .filter(|rule| **rule > 0)
            .map(|rule| format!("{rule} {}", RULES[*rule as usize]))
            .collect();
        let _ = writeln!(
            out,
            "<tr data-group=\"{0}\"><th scope=\"row\">{1}<span class=\"hidden\">{0}</span><td>{2}<td class=\"number\">{3}<td>{4}<td>{5}</tr>",
            escaped(&look.letter),
            chip(&look.letter, look.look),
            escaped(&look.says),
            group.states,
            escaped(&told.join("; ")),
            conditions(&explored.space, main, number)
        );
    }
    out.push_str("</tbody></table></div>\n");
    out
}

pub fn by_winner(explored: &Explored, winners: &Grouping, looks: &[Look]) -> String {
    let rows = looks
        .iter()
        .map(|look| format!("{} {}", chip(&look.letter, look.look), escaped(&look.says)));
    table(explored, winners, "By who is in charge", &rows.collect::<Vec<_>>())
}

pub fn lateness(explored: &Explored, late: &Grouping) -> String {
    let outcome = |group: &Group| &explored.ran.outcomes[group.outcomes[0] as usize];
    let rows = late
        .groups
        .iter()
        .map(|group| escaped(&says_late(&explored.moment, outcome(group))));
    table(explored, late, "How late", &rows.collect::<Vec<_>>())
}

/// Groups of another kind, with what is said of each.
fn table(explored: &Explored, grouping: &Grouping, title: &str, says: &[String]) -> String {
    let mut out = format!("<section><h2>{title}</h2>\n<div class=\"wide\"><table><thead><tr>");
    for column in ["What it comes to", "States", "Exactly when"] {
        let _ = write!(out, "<th scope=\"col\">{column}");
    }
    out.push_str("</tr></thead>\n<tbody>\n");
    for (number, (group, says)) in grouping.groups.iter().zip(says).enumerate() {
        let when = conditions(&explored.space, grouping, number);
        let _ = writeln!(
            out,
            "<tr><td>{says}<td class=\"number\">{}<td>{when}</tr>",
            group.states
        );
    }
    out.push_str("</tbody></table></div></section>\n");
    out
}
