//! The picture: a tree of the locks that decide, and a grid of two of them.

mod grid;
mod tree;

pub use grid::{first_two, named};

use super::group::Grouping;
use super::paint::{Look, PATTERNS, words};
use super::{Explored, says};
use crate::svg::{LETTER, escaped};
use grid::draw_grid;
use std::fmt::Write;
use tree::draw_tree;

const ROW: f64 = 30.0;

const STYLE: &str = "<style>\n\
    text { font-family: 'DejaVu Sans', Verdana, sans-serif; font-size: 12px; fill: #111 }\n\
    .heading { font-size: 15px; font-weight: bold } .section { font-size: 13px; font-weight: bold }\n\
    .chip { stroke: #111; stroke-width: 1 } .letter { text-anchor: middle; font-weight: bold; paint-order: stroke; stroke: #fff; stroke-width: 4px }\n\
    .middle { text-anchor: middle; paint-order: stroke; stroke: #fff; stroke-width: 4px }\n\
    .asked { font-weight: bold } .line { stroke: #555; stroke-width: 1; fill: none } .cell { stroke: #111; stroke-width: 1.5; fill: none }\n\
    .end { text-anchor: end }\n\
    </style>\n";

/// A picture's parts, and how much room they take.
#[derive(Default)]
struct Drawn {
    out: String,
    width: f64,
    y: f64,
}

impl Drawn {
    fn text(&mut self, class: &str, x: f64, says: &str) {
        let _ = writeln!(
            self.out,
            "<text class=\"{class}\" x=\"{x}\" y=\"{}\">{}</text>",
            self.y + 14.5,
            escaped(says)
        );
        self.width = self.width.max(x + says.chars().count() as f64 * LETTER);
    }
}

/// Tree, grid and what letters and patterns mean, as one picture.
pub fn picture(explored: &Explored, grouping: &Grouping, looks: &[Look], grid: Option<(usize, usize)>) -> String {
    let title = format!(
        "{}: {}: {}",
        explored.moment.file,
        crate::calls::told(&explored.moment.call, &explored.moment.names),
        says::states(explored.space.total)
    );
    let mut drawn = Drawn {
        y: 14.0,
        ..Drawn::default()
    };
    drawn.text("heading", 16.0, &title);
    drawn.y += 36.0;
    draw_tree(&mut drawn, explored, grouping, looks);
    if let Some(pair) = grid {
        drawn.y += 20.0;
        draw_grid(&mut drawn, explored, grouping, looks, pair);
    }
    framed(drawn, &title, &described(explored, grouping, looks))
}

/// The tree by itself.
pub fn only_tree(explored: &Explored, grouping: &Grouping, looks: &[Look]) -> String {
    let mut drawn = Drawn {
        y: 8.0,
        ..Drawn::default()
    };
    draw_tree(&mut drawn, explored, grouping, looks);
    framed(drawn, "The locks that decide", &described(explored, grouping, looks))
}

/// The grid by itself.
pub fn only_grid(explored: &Explored, grouping: &Grouping, looks: &[Look], pair: (usize, usize)) -> String {
    let mut drawn = Drawn {
        y: 8.0,
        ..Drawn::default()
    };
    draw_grid(&mut drawn, explored, grouping, looks, pair);
    framed(drawn, "Two locks and who wins", &described(explored, grouping, looks))
}

fn framed(drawn: Drawn, title: &str, says: &str) -> String {
    let (width, height) = ((drawn.width + 24.0).max(420.0).round(), (drawn.y + 12.0).round());
    format!(
        "<svg xmlns=\"http://www.w3.org/2000/svg\" viewBox=\"0 0 {width} {height}\" width=\"{width}\" height=\"{height}\" role=\"img\">\n\
         <title>{}</title>\n<desc>{}</desc>\n{PATTERNS}{STYLE}<rect x=\"0\" y=\"0\" width=\"{width}\" height=\"{height}\" fill=\"#fff\"/>\n{}</svg>\n",
        escaped(title),
        escaped(says),
        drawn.out
    )
}

/// The groups with their conditions, for a screen reader.
fn described(explored: &Explored, grouping: &Grouping, looks: &[Look]) -> String {
    let told = grouping.groups.iter().zip(looks).take(20).map(|(group, look)| {
        let each = group.conditions.iter().take(6);
        let each: Vec<String> = each
            .map(|one| says::conjunction(&explored.space, &grouping.axes, one))
            .collect();
        format!(
            "{}: {}, when {}.",
            look.letter,
            words(look, look.states),
            each.join("; or ")
        )
    });
    told.collect::<Vec<_>>().join(" ")
}
