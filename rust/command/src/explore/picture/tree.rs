//! The tree: a question in each row, and below it what each answer leads to.

use super::super::Explored;
use super::super::group::Grouping;
use super::super::paint::{Look, chip, words};
use super::super::tree::Tree;
use super::{Drawn, ROW};
use std::fmt::Write;

const STEP: f64 = 30.0;
/// A letter of a branch's name is so wide.
const NARROW: f64 = 6.7;
/// So many rows are drawn.
const ROWS: usize = 200;

pub fn draw_tree(drawn: &mut Drawn, explored: &Explored, grouping: &Grouping, looks: &[Look]) {
    drawn.text("section", 16.0, "The locks that decide");
    drawn.y += ROW;
    let mut rows = 0;
    let whole = (&*grouping.tree, explored.space.total);
    node(drawn, (explored, grouping, looks), whole, (16.0, 0.0), &mut rows);
    if rows > ROWS {
        drawn.text(
            "",
            16.0,
            &format!("and {} rows more; --json has all conditions", rows - ROWS),
        );
        drawn.y += ROW;
    }
}

/// A question or a leaf at this place, of so many states, with what follows below it.
fn node(
    drawn: &mut Drawn,
    all: (&Explored, &Grouping, &[Look]),
    (tree, states): (&Tree, u64),
    (x, at): (f64, f64),
    rows: &mut usize,
) {
    let (explored, grouping, looks) = all;
    *rows += 1;
    let seen = *rows <= ROWS;
    match tree {
        Tree::Leaf(group) if seen => {
            let look = &looks[*group as usize];
            let y = drawn.y;
            chip(&mut drawn.out, look, x + at, y);
            drawn.text("", x + at + 42.0, &words(look, states));
            drawn.y += ROW;
        }
        Tree::Leaf(_) => {}
        Tree::Split { dimension, branches } => {
            let axis = &grouping.axes[*dimension];
            if seen {
                drawn.text("asked", x + at, &format!("{}?", axis.name(&explored.space)));
                drawn.y += ROW;
            }
            let top = drawn.y - ROW + 20.0;
            let mut last = top;
            for (set, below) in branches {
                let says = format!("{}:", axis.told_short(&explored.space, *set));
                if *rows < ROWS {
                    last = drawn.y + 10.0;
                    let (from, to) = (x + 8.0, x + STEP - 6.0);
                    let _ = writeln!(drawn.out, "<path class=\"line\" d=\"M{from} {last}H{to}\"/>");
                    drawn.text("", x + STEP, &says);
                }
                let wide = says.chars().count() as f64 * NARROW + 12.0;
                let part = states / axis.count as u64 * u64::from(set.count_ones());
                node(drawn, all, (below, part), (x + STEP, wide), rows);
            }
            let _ = writeln!(drawn.out, "<path class=\"line\" d=\"M{} {top}V{last}\"/>", x + 8.0);
        }
    }
}
