//! The grid: two locks, and for each pair of their values who wins in how many states.

use super::super::Explored;
use super::super::dimension::Space;
use super::super::group::Grouping;
use super::super::paint::{Look, chip, group_of, words};
use super::super::tree::Tree;
use super::{Drawn, ROW};
use crate::svg::{LETTER, escaped};
use std::fmt::Write;

const CELL: (f64, f64) = (170.0, 58.0);
/// So many groups are in the legend.
const LEGEND: usize = 12;

/// The two words of a grid that are named; nothing if none are.
pub fn named(space: &Space, names: &[String]) -> Result<Option<(usize, usize)>, String> {
    let find = |name: &String| {
        let found = space.dimensions.iter().position(|dimension| dimension.name == *name);
        let all: Vec<&str> = space
            .dimensions
            .iter()
            .map(|dimension| dimension.name.as_str())
            .collect();
        found.ok_or_else(|| format!("--grid: \"{name}\" is not varied; {} are", all.join(", ")))
    };
    match names {
        [] => Ok(None),
        [one, other] if one != other => Ok(Some((find(one)?, find(other)?))),
        _ => Err("--grid: two different locks are allowed, as writer.lock,rival.lock".to_string()),
    }
}

/// The two words that are asked first.
pub fn first_two(grouping: &Grouping) -> Option<(usize, usize)> {
    match first_asked(grouping)[..] {
        [one, other, ..] => Some((one, other)),
        _ => None,
    }
}

/// The words that decide, those that are asked first before the others: of each context one, then the rest.
fn first_asked(grouping: &Grouping) -> Vec<usize> {
    let mut axes: Vec<usize> = Vec::new();
    let mut level = vec![&*grouping.tree];
    while !level.is_empty() {
        let mut below = Vec::new();
        for tree in level {
            if let Tree::Split { dimension, branches } = tree {
                if !axes.contains(dimension) {
                    axes.push(*dimension);
                }
                below.extend(branches.iter().map(|(_, tree)| &**tree));
            }
        }
        level = below;
    }
    let words = |at: usize| {
        axes.iter()
            .filter_map(move |axis| grouping.axes[*axis].words.get(at).copied())
    };
    words(0).chain(words(1)).collect()
}

pub fn draw_grid(drawn: &mut Drawn, explored: &Explored, grouping: &Grouping, looks: &[Look], pair: (usize, usize)) {
    let space = &explored.space;
    let (rows, columns) = (&space.dimensions[pair.0], &space.dimensions[pair.1]);
    drawn.text(
        "section",
        16.0,
        &format!("{} downwards, {} to the right", rows.name, columns.name),
    );
    drawn.y += ROW;
    let counts = counted(explored, grouping, pair);
    let longest = rows.labels.iter().map(|label| label.chars().count()).max().unwrap_or(0);
    let left = 28.0 + longest as f64 * LETTER;
    for (column, label) in columns.labels.iter().enumerate() {
        drawn.text("middle", left + CELL.0 * (column as f64 + 0.5), label);
    }
    drawn.width = drawn.width.max(left + CELL.0 * columns.labels.len() as f64 + 8.0);
    drawn.y += 24.0;
    for (row, label) in rows.labels.iter().enumerate() {
        let (x, y) = (left - 8.0, drawn.y);
        let _ = writeln!(
            drawn.out,
            "<text class=\"end\" x=\"{x}\" y=\"{}\">{}</text>",
            y + CELL.1 / 2.0 + 4.0,
            escaped(label)
        );
        for column in 0..columns.labels.len() {
            let counts = &counts[row * columns.labels.len() + column];
            cell(&mut drawn.out, looks, counts, left + CELL.0 * column as f64, y);
        }
        drawn.y += CELL.1;
    }
    drawn.y += 14.0;
    for look in looks.iter().take(LEGEND) {
        let y = drawn.y;
        chip(&mut drawn.out, look, 16.0, y);
        drawn.text("", 58.0, &words(look, look.states));
        drawn.y += 26.0;
    }
}

/// For each pair of values how many states each group has.
fn counted(explored: &Explored, grouping: &Grouping, (one, other): (usize, usize)) -> Vec<Vec<u64>> {
    let space = &explored.space;
    let columns = space.dimensions[other].values.len();
    let cells = space.dimensions[one].values.len() * columns;
    let mut counts = vec![vec![0; grouping.groups.len()]; cells];
    for state in 0..space.total {
        let cell = space.digit(state, one) * columns + space.digit(state, other);
        counts[cell][group_of(explored, grouping, state)] += 1;
    }
    counts
}

/// A cell: a part for each group, as wide as its share.
fn cell(out: &mut String, looks: &[Look], counts: &[u64], x: f64, y: f64) {
    let all: u64 = counts.iter().sum();
    let (wide, tall) = CELL;
    let mut at = x;
    let met: Vec<(usize, u64)> = counts
        .iter()
        .copied()
        .enumerate()
        .filter(|(_, count)| *count > 0)
        .collect();
    let names: Vec<String> = met
        .iter()
        .map(|(group, count)| format!("{} {count}", looks[*group].letter))
        .collect();
    let _ = writeln!(out, "<g><title>{}</title>", escaped(&names.join(", ")));
    for (group, count) in &met {
        let part = ((wide * *count as f64 / all as f64) * 100.0).round() / 100.0;
        let look = &looks[*group];
        let _ = writeln!(
            out,
            "<rect x=\"{at}\" y=\"{y}\" width=\"{part}\" height=\"{tall}\" fill=\"url(#look{})\"/>",
            look.look
        );
        if at > x {
            let _ = writeln!(out, "<path class=\"line\" d=\"M{at} {y}v{tall}\"/>");
        }
        if part >= 14.0 {
            let (middle, base) = (at + part / 2.0, y + tall / 2.0 + 4.0);
            let _ = writeln!(
                out,
                "<text class=\"letter\" x=\"{middle}\" y=\"{base}\">{}</text>",
                escaped(&look.letter)
            );
        }
        at += part;
    }
    let _ = writeln!(
        out,
        "<rect class=\"cell\" x=\"{x}\" y=\"{y}\" width=\"{wide}\" height=\"{tall}\"/></g>"
    );
}
