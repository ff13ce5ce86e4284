//! Calls, each on the image that the one before it left, and what single calls answered.

use super::print;
use crate::{generate::runs::RUBBISH, port, report::word};
use image::{Answer, Call, run};

/// A run of more calls would hold too many images.
const MOST: usize = 256;

#[derive(Default)]
pub struct Chain {
    pub start: Vec<u64>,
    pub calls: Vec<Call>,
    pub answers: Vec<Answer>,
    /// The image that each call left.
    left: Vec<Vec<u64>>,
}

impl Chain {
    pub fn from(image: &[u64]) -> Self {
        Self {
            start: image.to_vec(),
            ..Self::default()
        }
    }
    pub fn after(&self) -> &[u64] {
        self.left.last().unwrap_or(&self.start)
    }
    pub fn push(&mut self, call: &Call, answer: &Answer, after: Vec<u64>) {
        self.calls.push(*call);
        self.answers.push(*answer);
        self.left.push(after);
    }

    /// A call of a stream of cases: it goes on with the chain if nobody wrote between the two, else
    /// the chain is held and another one begins. False if there was a difference.
    pub fn goes_on(&mut self, image: &[u64], call: &Call, answer: &Answer, after: &[u64]) -> bool {
        let mut good = true;
        if self.calls.len() == MOST || self.after() != image {
            good = self.holds();
            *self = Self::from(image);
        }
        self.push(call, answer, after.to_vec());
        good
    }

    /// One run of them all answers and leaves the same.
    pub fn holds(&self) -> bool {
        self.held(0, self.calls.len())
    }
    /// Two runs, of so many calls and of the rest.
    pub fn holds_in_parts(&self, first: usize) -> bool {
        self.held(0, first) && self.held(first, self.calls.len())
    }

    fn held(&self, from: usize, to: usize) -> bool {
        let before = match from {
            0 => &self.start,
            _ => &self.left[from - 1],
        };
        let after = match to {
            0 => &self.start,
            _ => &self.left[to - 1],
        };
        let calls = &self.calls[from..to];
        let (mut image, words) = (before.clone(), run::words(calls));
        let mut answers = vec![RUBBISH; words.len()];
        let Some(made) = port::run(&mut image, &words, &mut answers) else {
            return true;
        };
        let got = run::answers(&answers);
        let want = &self.answers[from..to];
        if made == calls.len() as u64 && got == want && image == *after {
            return true;
        }
        print(before, calls);
        println!("in a run: {made} made of {}", calls.len());
        for (number, (want, got)) in want.iter().zip(&got).enumerate() {
            if want != got {
                println!("  call {number}: expected {want:?}, got {got:?}");
            }
        }
        for (index, (want, got)) in after.iter().zip(&image).enumerate() {
            if want != got {
                println!("  {}: expected {want}, got {got}", word(before, index));
            }
        }
        false
    }
}
