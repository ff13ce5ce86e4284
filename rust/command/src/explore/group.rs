//! States that come to the same, and the conditions on locks that are exactly theirs.

use super::axis::{Axis, axes};
use super::cover::conditions;
use super::dimension::Space;
use super::outcome::Outcome;
use super::run::Ran;
use super::states::Table;
use super::tree::{Tree, spread};
use std::collections::HashMap;
use std::hash::Hash;
use std::rc::Rc;

/// For each axis the set of its values; all must hold.
pub type Condition = Vec<u64>;

pub struct Group {
    /// The outcomes that belong to it.
    pub outcomes: Vec<u32>,
    pub states: u64,
    /// The first of its states.
    pub first: u64,
    /// Each of its states meets exactly one of these, and no other state meets any.
    pub conditions: Vec<Condition>,
}

/// All states in groups.
pub struct Grouping {
    pub groups: Vec<Group>,
    /// For each outcome its group.
    pub of: Vec<u32>,
    /// The words that make a difference.
    pub axes: Vec<Axis>,
    /// The words that make none.
    pub idle: Vec<usize>,
    pub tree: Rc<Tree>,
}

/// Which outcomes are told as one; in the order in which the states meet them.
pub fn by_key<K: Eq + Hash>(outcomes: &[Outcome], key: impl Fn(&Outcome) -> K) -> (Vec<u32>, usize) {
    let mut numbers = HashMap::new();
    let of = outcomes.iter().map(|outcome| {
        let next = numbers.len() as u32;
        *numbers.entry(key(outcome)).or_insert(next)
    });
    let of = of.collect();
    (of, numbers.len())
}

/// Groups without conditions, as those of a sample.
pub fn counted(ran: &Ran, of: &[u32], count: usize) -> Vec<Group> {
    let mut groups: Vec<Group> = (0..count)
        .map(|_| Group {
            outcomes: Vec::new(),
            states: 0,
            first: u64::MAX,
            conditions: Vec::new(),
        })
        .collect();
    for (outcome, group) in of.iter().enumerate() {
        groups[*group as usize].outcomes.push(outcome as u32);
    }
    for (state, cell) in ran.cells.iter().enumerate() {
        let group = &mut groups[of[*cell as usize] as usize];
        group.states += 1;
        group.first = group.first.min(state as u64);
    }
    groups
}

/// All states in groups, with their conditions, which are checked on every state.
pub fn grouped(space: &Space, ran: &Ran, (of, count): (Vec<u32>, usize)) -> Result<Grouping, String> {
    let mut groups = counted(ran, &of, count);
    let counts = space.dimensions.iter().map(|one| one.values.len()).collect();
    let cells = ran.cells.iter().map(|cell| of[*cell as usize]).collect();
    let deciding = Table::new(counts, cells).reduced();
    let idle = (0..space.dimensions.len())
        .filter(|word| !deciding.dimensions.contains(word))
        .collect();
    let axes = axes(space, &deciding.dimensions);
    let table = Table::new(axes.iter().map(|axis| axis.count).collect(), deciding.cells);
    let (table, stand_for) = table.joined_values();
    let tree = Tree::of(table.clone(), None);
    let conditions = conditions(&table, &tree, count);
    for (group, conditions) in groups.iter_mut().zip(conditions) {
        let spread = |condition: Condition| {
            condition
                .iter()
                .zip(&stand_for)
                .map(|(set, values)| spread(*set, values))
                .collect()
        };
        group.conditions = conditions.into_iter().map(spread).collect();
    }
    let grouping = Grouping {
        groups,
        of,
        axes,
        idle,
        tree: tree.spread(&stand_for),
    };
    check(space, ran, &grouping)?;
    Ok(grouping)
}

/// Every state meets one condition, once, and it is one of its own group.
pub fn check(space: &Space, ran: &Ran, grouping: &Grouping) -> Result<(), String> {
    let fault = |says: &str| format!("{says}: this is a fault of the command, please report it with the image");
    let mut met = vec![false; ran.cells.len()];
    let mut count = 0;
    for (number, group) in grouping.groups.iter().enumerate() {
        for condition in &group.conditions {
            let mut good = Ok(());
            each_state(space, grouping, condition, &mut |state| {
                let cell = ran.cells[state as usize] as usize;
                let own = grouping.of[cell] as usize == number;
                if !own || std::mem::replace(&mut met[state as usize], true) {
                    good = Err(fault(&format!(
                        "state {state} meets a condition that is not its own, or two"
                    )));
                }
                count += 1;
            });
            good?;
        }
    }
    match count == ran.cells.len() {
        true => Ok(()),
        false => Err(fault(&format!(
            "{count} of {} states meet a condition",
            ran.cells.len()
        ))),
    }
}

/// Goes through the states that meet a condition.
fn each_state(space: &Space, grouping: &Grouping, condition: &Condition, each: &mut impl FnMut(u64)) {
    fn below(offsets: &[Vec<u64>], state: u64, each: &mut impl FnMut(u64)) {
        match offsets {
            [] => each(state),
            [last] => last.iter().for_each(|offset| each(state + offset)),
            [first, rest @ ..] => first.iter().for_each(|offset| below(rest, state + offset, each)),
        }
    }
    let decided = grouping.axes.iter().zip(condition).map(|(axis, set)| {
        let values = (0..axis.count as u64).filter(|value| set >> value & 1 == 1);
        values.map(|value| axis.offset(space, value)).collect()
    });
    let any = grouping.idle.iter().map(|word| {
        let count = space.dimensions[*word].values.len() as u64;
        (0..count).map(|value| value * space.stride(*word)).collect()
    });
    below(&decided.chain(any).collect::<Vec<Vec<u64>>>(), 0, each);
}

#[cfg(test)]
mod tests;
