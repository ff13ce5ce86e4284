//! What an accepted image is surely not meant to be: not tidy, and other things that make no sense.

mod contexts;
mod cpus;

use crate::explain::Labels;
use crate::view::View;
use alloc::string::String;
use alloc::vec::Vec;

/// Something that is accepted and surely not meant.
#[derive(Clone, Debug, PartialEq, Eq)]
#[non_exhaustive]
pub struct Warning {
    /// Whether the image is not tidy for it: the third demand says nothing of such an image.
    pub untidy: bool,
    /// The word that it is about.
    pub word: usize,
    /// What is odd.
    pub says: String,
}

/// An entry of a queue: CPU, slot and whose it is.
type Queued = (usize, usize, u64);

struct Look<'a> {
    view: View<'a>,
    labels: &'a Labels<'a>,
    queued: Vec<Queued>,
    found: Vec<Warning>,
}

/// What is odd about an image that rows 1 to 4 let pass; of another one nothing is said.
pub fn warnings(words: &[u64], labels: &Labels) -> Vec<Warning> {
    let Some(view) = View::new(words) else {
        return Vec::new();
    };
    if crate::explain::image(words, labels).is_some() {
        return Vec::new();
    }
    let entries = |cpu| view.queue(cpu).enumerate().map(move |(slot, owner)| (cpu, slot, owner));
    let mut look = Look {
        view,
        labels,
        queued: view.present_cpus().flat_map(entries).collect(),
        found: Vec::new(),
    };
    (0..view.contexts()).for_each(|number| look.context(number));
    view.present_cpus().for_each(|cpu| look.cpu(cpu));
    look.found
}

/// Whether an accepted image is tidy (docs/SCHEDULING.md).
pub fn is_tidy(words: &[u64]) -> bool {
    let names = crate::names::Names::default();
    let labels = Labels {
        names: &names,
        lines: &[],
    };
    crate::explain::image(words, &labels).is_none() && !warnings(words, &labels).iter().any(|w| w.untidy)
}

impl Look<'_> {
    fn add(&mut self, untidy: bool, word: usize, says: String) {
        self.found.push(Warning { untidy, word, says });
    }
    fn untidy(&mut self, word: usize, says: String) {
        self.add(true, word, says);
    }
    fn odd(&mut self, word: usize, says: String) {
        self.add(false, word, says);
    }
    fn name(&self, number: usize) -> String {
        self.labels.names.of(number as u64)
    }
    fn seated(&self, seat: usize, number: usize) -> Option<usize> {
        let mut present = self.view.present_cpus();
        present.find(|cpu| self.view.block(*cpu, seat) == number as u64)
    }
    fn entries(&self, number: usize) -> Vec<Queued> {
        let of = |entry: &&Queued| entry.2 == number as u64;
        self.queued.iter().filter(of).copied().collect()
    }
}
