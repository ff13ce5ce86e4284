//! Lock and address space of one context together: mostly it is only asked whether both are free.

use super::dimension::{Dimension, Space};
use ronthuyal::words::locks::{FREE, READ, SPACE_WRITTEN, WRITTEN};

/// One word, or lock and address space of a context as one with all their pairs of values.
#[derive(Clone, Debug, PartialEq, Eq)]
pub struct Axis {
    /// Which words of the space.
    pub words: Vec<usize>,
    /// How many values it has: pairs with the second word fastest.
    pub count: usize,
}

/// These words of a space, with pairs put together.
pub fn axes(space: &Space, words: &[usize]) -> Vec<Axis> {
    let mut axes: Vec<Axis> = Vec::new();
    for word in words {
        let count = space.dimensions[*word].values.len();
        let pair = |last: &Axis| {
            let (one, other) = (&space.dimensions[last.words[0]], &space.dimensions[*word]);
            last.words.len() == 1 && paired(one, other)
        };
        match axes.last_mut().filter(|last| pair(last)) {
            Some(last) => {
                last.words.push(*word);
                last.count *= count;
            }
            None => axes.push(Axis {
                words: vec![*word],
                count,
            }),
        }
    }
    axes
}

/// Whether these are lock and address space of one context.
fn paired(one: &Dimension, other: &Dimension) -> bool {
    let (Some(lock), Some(space)) = (one.name.strip_suffix(".lock"), other.name.strip_suffix(".addr_space")) else {
        return false;
    };
    lock == space && one.values.len() * other.values.len() <= 64
}

impl Axis {
    /// All values, as a set.
    pub fn all(&self) -> u64 {
        u64::MAX >> (64 - self.count)
    }
    /// `writer.lock`, or `writer` for a pair.
    pub fn name(&self, space: &Space) -> String {
        let first = &space.dimensions[self.words[0]].name;
        match self.words.len() {
            1 => first.clone(),
            _ => first.trim_end_matches(".lock").to_string(),
        }
    }
    /// For each word the values that occur in a set.
    fn sides(&self, space: &Space, set: u64) -> Vec<u64> {
        let [_, second] = self.words[..] else {
            return vec![set];
        };
        let count = space.dimensions[second].values.len();
        let values = (0..self.count).filter(|value| set >> value & 1 == 1);
        values.fold(vec![0, 0], |sides, value| {
            vec![sides[0] | 1 << (value / count), sides[1] | 1 << (value % count)]
        })
    }
    /// The values of each word, where a set is all their pairs.
    pub fn as_words(&self, space: &Space, set: u64) -> Option<Vec<(usize, u64)>> {
        let sides = self.sides(space, set);
        let pairs: u32 = sides.iter().map(|side| side.count_ones()).product();
        (pairs == set.count_ones()).then(|| self.words.iter().copied().zip(sides).collect())
    }
    /// Whether only its first pair is that of two free words.
    fn usual(&self, space: &Space) -> bool {
        let values = |word: usize| &space.dimensions[word].values[..];
        match self.words[..] {
            [lock, addr_space] => {
                values(lock) == [FREE, READ, WRITTEN] && matches!(values(addr_space), [_, SPACE_WRITTEN])
            }
            _ => false,
        }
    }
    /// Whether a set is every pair but that of two free words.
    pub fn is_held(&self, space: &Space, set: u64) -> bool {
        set == self.all() & !1 && self.usual(space)
    }
    /// The pairs of a set, as they are told.
    pub fn pairs(&self, space: &Space, set: u64) -> Vec<Vec<String>> {
        let values = (0..self.count).filter(|value| set >> value & 1 == 1);
        values.map(|value| self.labels(space, value)).collect()
    }
    /// A value as it is told, word by word.
    fn labels(&self, space: &Space, value: usize) -> Vec<String> {
        match self.words[..] {
            [first, second] => {
                let (one, other) = (&space.dimensions[first], &space.dimensions[second]);
                let count = other.values.len();
                vec![one.labels[value / count].clone(), other.labels[value % count].clone()]
            }
            _ => vec![space.dimensions[self.words[0]].labels[value].clone()],
        }
    }
    /// A set in words, who and what: `writer.lock` `free` and `writer.addr_space` `free`, or `writer` `held`.
    pub fn told(&self, space: &Space, set: u64) -> Vec<(String, String)> {
        if self.is_held(space, set) {
            return vec![(self.name(space), "held".to_string())];
        }
        if let Some(words) = self.as_words(space, set) {
            let some = words.into_iter().map(|(word, set)| (&space.dimensions[word], set));
            let some = some.filter(|(dimension, set)| *set != dimension.all());
            return some
                .map(|(dimension, set)| (dimension.name.clone(), dimension.told(set)))
                .collect();
        }
        let pairs: Vec<String> = self.pairs(space, set).iter().map(|pair| pair.join(" with ")).collect();
        let names: Vec<&str> = self
            .words
            .iter()
            .map(|word| space.dimensions[*word].name.as_str())
            .collect();
        vec![(names.join(" with "), pairs.join(" or "))]
    }
    /// The same without names, for the branch of a tree.
    pub fn told_short(&self, space: &Space, set: u64) -> String {
        if self.is_held(space, set) {
            return "held".to_string();
        }
        if self.words.len() == 1 {
            return space.dimensions[self.words[0]].told(set);
        }
        if set == 1 && self.usual(space) {
            return "free".to_string();
        }
        let short = |dimension: &Dimension| dimension.name.rsplit('.').next().unwrap_or("").to_string();
        match self.as_words(space, set) {
            Some(words) => {
                let some = words
                    .into_iter()
                    .filter(|(word, set)| *set != space.dimensions[*word].all());
                let told = some.map(|(word, set)| {
                    let dimension = &space.dimensions[word];
                    format!("{} {}", short(dimension), dimension.told(set))
                });
                told.collect::<Vec<_>>().join(", ")
            }
            None => self
                .pairs(space, set)
                .iter()
                .map(|pair| pair.join("+"))
                .collect::<Vec<_>>()
                .join(" or "),
        }
    }
    /// What a value adds to the number of a state.
    pub fn offset(&self, space: &Space, value: u64) -> u64 {
        match self.words[..] {
            [first, second] => {
                let count = space.dimensions[second].values.len() as u64;
                value / count * space.stride(first) + value % count * space.stride(second)
            }
            _ => value * space.stride(self.words[0]),
        }
    }
}
