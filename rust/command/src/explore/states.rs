//! What states come to, as a table.

/// For each state a number, the last word fastest; words that make no difference may be left out.
#[derive(Clone, Debug, PartialEq, Eq, Hash)]
pub struct Table {
    /// Which words they are, and how many values each has.
    pub dimensions: Vec<usize>,
    pub counts: Vec<usize>,
    pub cells: Vec<u32>,
}

impl Table {
    pub fn new(counts: Vec<usize>, cells: Vec<u32>) -> Self {
        Self {
            dimensions: (0..counts.len()).collect(),
            counts,
            cells,
        }
    }
    fn stride(&self, at: usize) -> usize {
        self.counts[at + 1..].iter().product()
    }
    /// Whether two values of a word come to the same, whatever the others are.
    fn same(&self, at: usize, one: usize, other: usize) -> bool {
        let stride = self.stride(at);
        let mut blocks = self.cells.chunks_exact(stride * self.counts[at]);
        blocks.all(|block| block[one * stride..][..stride] == block[other * stride..][..stride])
    }
    /// The values of a word in sets that come to the same.
    pub fn classes(&self, at: usize) -> Vec<u64> {
        let mut classes: Vec<(usize, u64)> = Vec::new();
        for value in 0..self.counts[at] {
            match classes.iter_mut().find(|(first, _)| self.same(at, *first, value)) {
                Some((_, set)) => *set |= 1 << value,
                None => classes.push((value, 1 << value)),
            }
        }
        classes.into_iter().map(|(_, set)| set).collect()
    }
    /// The table where a word has this value.
    pub fn with(&self, at: usize, value: usize) -> Self {
        let stride = self.stride(at);
        let blocks = self.cells.chunks_exact(stride * self.counts[at]);
        let cells = blocks.flat_map(|block| &block[value * stride..(value + 1) * stride]);
        let (mut dimensions, mut counts) = (self.dimensions.clone(), self.counts.clone());
        let cells = cells.copied().collect();
        dimensions.remove(at);
        counts.remove(at);
        Self {
            dimensions,
            counts,
            cells,
        }
    }
    /// Without the words that make no difference.
    pub fn reduced(mut self) -> Self {
        for at in (0..self.dimensions.len()).rev() {
            if (1..self.counts[at]).all(|value| self.same(at, 0, value)) {
                self = self.with(at, 0);
            }
        }
        self
    }
    /// With values of a word that come to the same taken as one; and for each word which values each of them stands for.
    pub fn joined_values(mut self) -> (Self, Vec<Vec<u64>>) {
        let mut stand_for = Vec::new();
        for at in 0..self.counts.len() {
            let classes = self.classes(at);
            if classes.len() < self.counts[at] {
                self = self.first_of(at, &classes);
            }
            stand_for.push(classes);
        }
        (self, stand_for)
    }
    /// Only the first value of each of these sets.
    fn first_of(&self, at: usize, sets: &[u64]) -> Self {
        let stride = self.stride(at);
        let mut cells = Vec::new();
        for block in self.cells.chunks_exact(stride * self.counts[at]) {
            for set in sets {
                cells.extend_from_slice(&block[set.trailing_zeros() as usize * stride..][..stride]);
            }
        }
        let mut counts = self.counts.clone();
        counts[at] = sets.len();
        Self::new(counts, cells)
    }
    pub fn constant(&self) -> Option<u32> {
        let first = self.cells[0];
        self.cells.iter().all(|cell| *cell == first).then_some(first)
    }
}
