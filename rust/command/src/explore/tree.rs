//! Which locks decide: the tree of questions that tells states apart.

use super::states::Table;
use std::collections::HashMap;
use std::rc::Rc;

/// So many cells are looked at for the smallest tree; else each question is the one that leaves least open.
const SEARCH: usize = 1 << 23;

/// Questions about words, and what each answer comes to.
#[derive(Clone, Debug, PartialEq, Eq)]
pub enum Tree {
    Leaf(u32),
    Split {
        dimension: usize,
        /// A set of its values, and what follows.
        branches: Vec<(u64, Rc<Tree>)>,
    },
}

/// Leaves, and how many questions lie before them in all.
type Cost = (usize, usize);

impl Tree {
    /// The tree with fewest leaves, where that can be found in time; of leaves that count, if only one number does.
    pub fn of(table: Table, wanted: Option<u32>) -> Rc<Self> {
        let mut search = Search {
            wanted,
            left: SEARCH,
            known: HashMap::new(),
        };
        let table = table.reduced();
        let smallest = search.smallest(table.clone());
        smallest.map_or_else(|| greedy(table), |(_, tree)| tree)
    }
    /// The same with sets of the values that its own stand for.
    pub fn spread(&self, stand_for: &[Vec<u64>]) -> Rc<Self> {
        Rc::new(match self {
            Self::Leaf(number) => Self::Leaf(*number),
            Self::Split { dimension, branches } => {
                let spread =
                    |(set, tree): &(u64, Rc<Self>)| (spread(*set, &stand_for[*dimension]), tree.spread(stand_for));
                Self::Split {
                    dimension: *dimension,
                    branches: branches.iter().map(spread).collect(),
                }
            }
        })
    }
    /// Each leaf, with the sets of values that lead to it.
    pub fn leaves(&self, sets: &mut Vec<u64>, each: &mut impl FnMut(&[u64], u32)) {
        match self {
            Self::Leaf(number) => each(sets, *number),
            Self::Split { dimension, branches } => {
                let before = sets[*dimension];
                for (set, tree) in branches {
                    sets[*dimension] = *set;
                    tree.leaves(sets, each);
                }
                sets[*dimension] = before;
            }
        }
    }
    #[cfg(test)]
    fn leaf_count(&self) -> usize {
        match self {
            Self::Leaf(_) => 1,
            Self::Split { branches, .. } => branches.iter().map(|(_, tree)| tree.leaf_count()).sum(),
        }
    }
}

/// The values that those of a set stand for.
pub fn spread(set: u64, stand_for: &[u64]) -> u64 {
    let each = stand_for.iter().enumerate().filter(|(at, _)| set >> at & 1 == 1);
    each.fold(0, |all, (_, values)| all | values)
}

struct Search {
    wanted: Option<u32>,
    left: usize,
    known: HashMap<Table, (Cost, Rc<Tree>)>,
}

impl Search {
    /// The smallest tree of a table without idle words; nothing if it takes too long.
    fn smallest(&mut self, table: Table) -> Option<(Cost, Rc<Tree>)> {
        if let Some(number) = table.constant() {
            let counts = self.wanted.is_none_or(|wanted| wanted == number);
            return Some(((usize::from(counts), 0), Rc::new(Tree::Leaf(number))));
        }
        if let Some(known) = self.known.get(&table) {
            return Some(known.clone());
        }
        let work = table.cells.len() * table.dimensions.len() * 4;
        self.left = self.left.checked_sub(work)?;
        let mut best: Option<(Cost, Rc<Tree>)> = None;
        for at in 0..table.dimensions.len() {
            let mut cost = (0, 0);
            let mut branches = Vec::new();
            for set in table.classes(at) {
                let (below, tree) = self.smallest(table.with(at, set.trailing_zeros() as usize).reduced())?;
                cost = (cost.0 + below.0, cost.1 + below.1 + below.0);
                branches.push((set, tree));
            }
            if best.as_ref().is_none_or(|(least, _)| cost < *least) {
                let dimension = table.dimensions[at];
                best = Some((cost, Rc::new(Tree::Split { dimension, branches })));
            }
        }
        let best = best?;
        self.known.insert(table, best.clone());
        Some(best)
    }
}

/// A tree by the question that leaves fewest cells open, step by step.
fn greedy(table: Table) -> Rc<Tree> {
    if let Some(number) = table.constant() {
        return Rc::new(Tree::Leaf(number));
    }
    let open = |at: usize| {
        let classes = table.classes(at);
        let parts = classes.iter().map(|set| table.with(at, set.trailing_zeros() as usize));
        let cells: usize = parts
            .filter(|part| part.constant().is_none())
            .map(|part| part.cells.len())
            .sum();
        (cells, classes.len())
    };
    let at = (0..table.dimensions.len()).min_by_key(|at| open(*at)).unwrap_or(0);
    let branch = |set: u64| (set, greedy(table.with(at, set.trailing_zeros() as usize).reduced()));
    Rc::new(Tree::Split {
        dimension: table.dimensions[at],
        branches: table.classes(at).into_iter().map(branch).collect(),
    })
}

#[cfg(test)]
mod tests;
