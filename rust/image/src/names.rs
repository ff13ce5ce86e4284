//! Names of contexts.

use crate::places::block;
use crate::view::View;
use alloc::format;
use alloc::string::{String, ToString};
use alloc::vec::Vec;

/// The name of each context, by its number.
#[derive(Clone, Debug, Default, PartialEq, Eq)]
pub struct Names(Vec<String>);

impl Names {
    /// These names, in the order of the contexts.
    pub fn new(names: Vec<String>) -> Self {
        Self(names)
    }

    /// Names for an image that brings none: `idle0` for the idle context of CPU 0, `c3` for context 3.
    pub fn invented(words: &[u64]) -> Self {
        let Some(view) = View::new(words) else {
            return Self::default();
        };
        let mut names: Vec<String> = (0..view.contexts()).map(|x| format!("c{x}")).collect();
        for cpu in view.present_cpus().collect::<Vec<_>>().into_iter().rev() {
            if let Some(name) = names.get_mut(view.block(cpu, block::IDLE_CTXT) as usize) {
                *name = format!("idle{cpu}");
            }
        }
        Self(names)
    }

    /// All of them.
    pub fn all(&self) -> &[String] {
        &self.0
    }

    /// The name of a context, or its number where it has none.
    pub fn of(&self, context: u64) -> String {
        match self.0.get(context as usize) {
            Some(name) => name.clone(),
            None => context.to_string(),
        }
    }

    /// The name of a context, if it has one.
    pub fn get(&self, context: u64) -> Option<&str> {
        self.0.get(context as usize).map(String::as_str)
    }

    /// The number of this name, or a number as it is.
    pub fn number(&self, text: &str) -> Option<u64> {
        let named = self.0.iter().position(|name| name == text);
        named.map(|at| at as u64).or_else(|| text.parse().ok())
    }

    /// The context of this name, one of so many; or what is wrong and what is allowed.
    pub fn find(&self, text: &str, contexts: usize) -> Result<usize, String> {
        let number = self.number(text).filter(|number| *number < contexts as u64);
        number
            .map(|number| number as usize)
            .ok_or_else(|| format!("there is no context \"{text}\"; {}", self.known(contexts)))
    }

    /// What may be named, in words.
    pub fn known(&self, contexts: usize) -> String {
        match (self.0.is_empty(), contexts) {
            (false, _) if self.0.len() <= 8 => format!("there are {}", self.0.join(", ")),
            (false, _) => format!("there are {} and {} more", self.0[..7].join(", "), self.0.len() - 7),
            (true, 0) => "there are none".to_string(),
            (true, _) => format!("0 to {} are there", contexts - 1),
        }
    }
}
