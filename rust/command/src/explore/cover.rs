//! Conditions that exclude each other and are a group together.

use super::group::Condition;
use super::states::Table;
use super::tree::Tree;
use rayon::prelude::*;

/// Up to so many cells each group has a tree of its own; above, its leaves of the one tree are taken.
const OWN_TREE: usize = 1 << 12;
/// Up to so many conditions of one group are tried to be joined.
const JOINED: usize = 512;

/// For each group its conditions: one conjunction where that is enough.
pub fn conditions(table: &Table, tree: &Tree, count: usize) -> Vec<Vec<Condition>> {
    let all: Condition = table.counts.iter().map(|count| u64::MAX >> (64 - count)).collect();
    let mut leaves: Vec<Vec<Condition>> = vec![Vec::new(); count];
    tree.leaves(&mut all.clone(), &mut |sets, group| {
        leaves[group as usize].push(sets.to_vec())
    });
    let alone = conjunctions(table, count);
    let mut cells = vec![0; count];
    table.cells.iter().for_each(|group| cells[*group as usize] += 1);
    let each = (0..count)
        .into_par_iter()
        .map(|group| match size(&alone[group]) == cells[group] {
            true => vec![alone[group].clone()],
            false => disjunction(table, group as u32, &all, &leaves[group]),
        });
    each.collect()
}

/// For each group the values that its states have.
fn conjunctions(table: &Table, count: usize) -> Vec<Condition> {
    let mut sets = vec![vec![0; table.counts.len()]; count];
    for (state, group) in table.cells.iter().enumerate() {
        let mut rest = state;
        for at in (0..table.counts.len()).rev() {
            sets[*group as usize][at] |= 1_u64 << (rest % table.counts[at]);
            rest /= table.counts[at];
        }
    }
    sets
}

/// How many states of the table meet a condition.
fn size(condition: &Condition) -> u64 {
    condition.iter().map(|set| u64::from(set.count_ones())).product()
}

/// The shortest list of conditions that exclude each other and are the group together.
fn disjunction(table: &Table, group: u32, all: &Condition, leaves: &[Condition]) -> Vec<Condition> {
    let mut conditions = joined(leaves.to_vec());
    if table.cells.len() <= OWN_TREE {
        let cells = table.cells.iter().map(|cell| u32::from(*cell == group)).collect();
        let mut found = Vec::new();
        let tree = Tree::of(Table::new(table.counts.clone(), cells), Some(1));
        tree.leaves(&mut all.clone(), &mut |sets, number| {
            if number == 1 {
                found.push(sets.to_vec());
            }
        });
        let found = joined(found);
        if found.len() <= conditions.len() {
            conditions = found;
        }
    }
    conditions
}

/// Two conditions that differ in one place are one.
fn joined(mut conditions: Vec<Condition>) -> Vec<Condition> {
    let differ = |one: &Condition, other: &Condition| one.iter().zip(other).filter(|(a, b)| a != b).count();
    while conditions.len() <= JOINED {
        let pairs = (0..conditions.len()).flat_map(|one| (0..one).map(move |other| (other, one)));
        let mut found = pairs.filter(|(one, other)| differ(&conditions[*one], &conditions[*other]) == 1);
        let Some((one, other)) = found.next() else {
            break;
        };
        let gone = conditions.remove(other);
        conditions[one]
            .iter_mut()
            .zip(gone)
            .for_each(|(set, more)| *set |= more);
    }
    conditions
}
