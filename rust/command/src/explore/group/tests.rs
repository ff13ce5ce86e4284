//! Conditions of small tables, worked out by hand.

use super::super::dimension::{Dimension, Space};
use super::super::outcome::Outcome;
use super::super::run::Ran;
use super::super::says::conjunction;
use super::{Grouping, check, grouped};

/// Three values are free, read and written, two free and written.
fn space(words: &[(&str, usize)]) -> Space {
    let dimensions = words.iter().enumerate().map(|(word, (name, count))| {
        let (values, labels) = match count {
            2 => (vec![0, 2], vec!["free", "written"]),
            _ => (vec![0, 1, 2], vec!["free", "read", "written"]),
        };
        Dimension {
            word,
            name: name.to_string(),
            values,
            labels: labels.into_iter().map(str::to_string).collect(),
        }
    });
    Space::new(dimensions.collect())
}

fn ran(cells: &[u32]) -> Ran {
    let count = cells.iter().max().map_or(0, |most| most + 1);
    Ran {
        outcomes: vec![Outcome::default(); count as usize],
        cells: cells.to_vec(),
    }
}

/// Each outcome is a group.
fn conditions(space: &Space, cells: &[u32]) -> (Grouping, Vec<Vec<String>>) {
    let ran = ran(cells);
    let count = ran.outcomes.len();
    let grouping = grouped(space, &ran, ((0..count as u32).collect(), count)).unwrap();
    let told = grouping.groups.iter().map(|group| {
        let each = group.conditions.iter();
        each.map(|condition| conjunction(space, &grouping.axes, condition))
            .collect()
    });
    let told = told.collect();
    (grouping, told)
}

/// Lock and address space of one context: 1 exactly where both are free.
#[test]
fn one_conjunction_and_what_is_left() {
    let space = space(&[("w.lock", 3), ("w.addr_space", 2)]);
    let (grouping, told) = conditions(&space, &[1, 0, 0, 0, 0, 0]);
    assert_eq!(told[1], ["w.lock is free and w.addr_space is free"]);
    assert_eq!(told[0], ["w is held"]);
    assert!(grouping.idle.is_empty());
}

/// Three groups that go by the lock, and by the space where it is free.
#[test]
fn three_conjunctions() {
    let space = space(&[("w.lock", 3), ("w.addr_space", 2)]);
    let (_, told) = conditions(&space, &[0, 1, 2, 2, 2, 2]);
    assert_eq!(told[0], ["w.lock is free and w.addr_space is free"]);
    assert_eq!(told[1], ["w.lock is free and w.addr_space is written"]);
    assert_eq!(told[2], ["w.lock is read or written"]);
}

/// The first word makes no difference; 1 where the two others differ.
#[test]
fn a_disjunction_of_two() {
    let space = space(&[("a.lock", 2), ("b.lock", 2), ("c.lock", 2)]);
    let (grouping, told) = conditions(&space, &[0, 1, 1, 0, 0, 1, 1, 0]);
    assert_eq!(grouping.idle, [0]);
    assert_eq!(
        told[1],
        [
            "b.lock is free and c.lock is written",
            "b.lock is written and c.lock is free"
        ]
    );
    assert_eq!(told[0].len(), 2);
}

/// a and b, or not a and c: two conditions of two words, whatever b and c are together.
#[test]
fn a_choice_needs_no_third_condition() {
    let space = space(&[("a.lock", 2), ("b.lock", 2), ("c.lock", 2)]);
    let cells: Vec<u32> = (0..8_u32)
        .map(|s| if s >> 2 == 0 { s >> 1 & 1 } else { s & 1 })
        .collect();
    let (_, told) = conditions(&space, &cells);
    assert_eq!(
        told[1],
        [
            "a.lock is free and b.lock is written",
            "a.lock is written and c.lock is written"
        ]
    );
}

#[test]
fn one_outcome_is_always() {
    let space = space(&[("a.lock", 3), ("b.lock", 3)]);
    let (grouping, told) = conditions(&space, &[0; 9]);
    assert_eq!(told, [["always"]]);
    assert_eq!(grouping.idle, [0, 1]);
}

/// A condition that is too wide, too narrow or met twice is found.
#[test]
fn wrong_covers_are_found() {
    let space = space(&[("a.lock", 3), ("b.lock", 2)]);
    let ran = ran(&[0, 0, 1, 1, 1, 1]);
    let good = || grouped(&space, &ran, (vec![0, 1], 2)).unwrap();
    assert_eq!(good().axes.len(), 1);
    for wrong in [
        vec![vec![0b111]],
        vec![vec![0b010]],
        vec![vec![0b110], vec![0b100]],
        vec![],
    ] {
        let mut grouping = good();
        grouping.groups[1].conditions = wrong.clone();
        assert!(check(&space, &ran, &grouping).is_err(), "{wrong:?}");
    }
    assert!(check(&space, &ran, &good()).is_ok());
}
