//! The words that are varied, and the numbering of the states.

use ronthuyal::words::value::show;
use ronthuyal::words::{Names, Place, Unit};

/// A word that is varied, and the values that it takes.
#[derive(Clone, Debug, PartialEq, Eq)]
pub struct Dimension {
    pub word: usize,
    /// `writer.lock`, `writer.addr_space`, `cpu.1.queue_locked`.
    pub name: String,
    pub values: Vec<u64>,
    /// The values as they are told.
    pub labels: Vec<String>,
}

impl Dimension {
    pub fn new(place: Place, contexts: usize, values: Vec<u64>, names: &Names) -> Self {
        let unit = place.word().map_or(Unit::Items, |word| word.unit);
        let labels = values.iter().map(|value| label(unit, *value, &values, names)).collect();
        Self {
            word: place.index(contexts),
            name: short(place, names),
            values,
            labels,
        }
    }
    /// `read or written`: the values of a set.
    pub fn told(&self, set: u64) -> String {
        let chosen = (0..self.values.len()).filter(|at| set >> at & 1 == 1);
        let chosen: Vec<&str> = chosen.map(|at| self.labels[at].as_str()).collect();
        chosen.join(" or ")
    }
    /// All values, as a set.
    pub fn all(&self) -> u64 {
        u64::MAX >> (64 - self.values.len())
    }
}

/// An address space that nobody writes is free, be it there or not, unless both are told apart.
fn label(unit: Unit, value: u64, values: &[u64], names: &Names) -> String {
    match unit {
        Unit::AddrSpace if value == 0 && !values.contains(&1) => "free".to_string(),
        Unit::Mark => ["no", "yes"]
            .get(value as usize)
            .map_or(value.to_string(), |mark| mark.to_string()),
        _ => show(unit, value, names),
    }
}

/// The name of a word, that of a context's without `context.`.
pub fn short(place: Place, names: &Names) -> String {
    let name = place.name(names);
    match name.strip_prefix("context.") {
        Some(short) => short.to_string(),
        None => name,
    }
}

/// All states: every value of each word with every value of the others. The last word changes fastest.
#[derive(Clone, Debug, PartialEq, Eq)]
pub struct Space {
    pub dimensions: Vec<Dimension>,
    strides: Vec<u64>,
    /// How many there are; too many for a number are as many as it can say.
    pub total: u64,
}

impl Space {
    pub fn new(dimensions: Vec<Dimension>) -> Self {
        let mut strides = vec![0; dimensions.len()];
        let mut total = 1_u64;
        for (stride, dimension) in strides.iter_mut().zip(&dimensions).rev() {
            *stride = total;
            total = total.saturating_mul(dimension.values.len() as u64);
        }
        Self {
            dimensions,
            strides,
            total,
        }
    }
    /// Which value a word has in a state.
    pub fn digit(&self, state: u64, dimension: usize) -> usize {
        let count = self.dimensions[dimension].values.len() as u64;
        (state / self.strides[dimension] % count) as usize
    }
    pub fn stride(&self, dimension: usize) -> u64 {
        self.strides[dimension]
    }
    /// Stores the words of a state.
    pub fn store(&self, state: u64, words: &mut [u64]) {
        for (at, dimension) in self.dimensions.iter().enumerate() {
            words[dimension.word] = dimension.values[self.digit(state, at)];
        }
    }
    /// The state that an image is in, where its values are among those that are taken.
    pub fn state_of(&self, words: &[u64]) -> Option<u64> {
        let places = self.dimensions.iter().zip(&self.strides);
        places
            .map(|(dimension, stride)| {
                let own = words[dimension.word];
                let at = dimension.values.iter().position(|value| *value == own)?;
                Some(at as u64 * stride)
            })
            .sum()
    }
    /// `writer.lock is read, writer.addr_space is free`.
    pub fn told(&self, state: u64) -> String {
        let each = self.dimensions.iter().enumerate();
        let told: Vec<String> = each
            .map(|(at, dimension)| format!("{} is {}", dimension.name, dimension.labels[self.digit(state, at)]))
            .collect();
        told.join(", ")
    }
}

#[cfg(test)]
mod tests {
    use super::{Dimension, Space};

    fn dimension(word: usize, values: &[u64]) -> Dimension {
        Dimension {
            word,
            name: format!("w{word}"),
            values: values.to_vec(),
            labels: values.iter().map(u64::to_string).collect(),
        }
    }

    /// Three values and two: 0 is (0, 5), 1 is (0, 7), 2 is (1, 5) and so on.
    #[test]
    fn states_are_numbered_with_the_last_word_fastest() {
        let space = Space::new(vec![dimension(0, &[0, 1, 2]), dimension(2, &[5, 7])]);
        assert_eq!(space.total, 6);
        let mut words = [9, 9, 9];
        for (state, want) in [(0, [0, 9, 5]), (1, [0, 9, 7]), (2, [1, 9, 5]), (5, [2, 9, 7])] {
            space.store(state, &mut words);
            assert_eq!(words, want);
            assert_eq!(space.state_of(&words), Some(state));
        }
        assert_eq!(space.state_of(&[3, 9, 5]), None);
        assert_eq!(space.told(3), "w0 is 1, w2 is 7");
    }

    #[test]
    fn no_words_are_one_state_and_too_many_stay_too_many() {
        assert_eq!(Space::new(Vec::new()).total, 1);
        let many: Vec<Dimension> = (0..64).map(|word| dimension(word, &[0, 1, 2])).collect();
        assert_eq!(Space::new(many).total, u64::MAX);
    }
}
