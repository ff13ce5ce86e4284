//! What each state comes to, for the script.

use super::super::Explored;
use super::super::group::Grouping;
use super::super::outcome::Outcome;
use super::super::paint::Look;
use super::super::says::says_late;
use super::super::way::way;
use serde_json::{Value, json};
use std::collections::HashMap;

/// Things by their number.
struct Known<T> {
    all: Vec<T>,
    numbers: HashMap<T, u32>,
}

impl<T: Clone + Eq + std::hash::Hash> Known<T> {
    fn new() -> Self {
        Self {
            all: Vec::new(),
            numbers: HashMap::new(),
        }
    }
    fn number(&mut self, one: T) -> u32 {
        let next = self.all.len() as u32;
        *self.numbers.entry(one).or_insert_with_key(|one| {
            self.all.push(one.clone());
            next
        })
    }
}

/// What the page shows of a state.
pub struct Shown {
    pub winner: String,
    pub letter: String,
    pub look: usize,
    pub says: String,
    pub late: Option<String>,
    pub way: Vec<String>,
}

fn winner(explored: &Explored, outcome: &Outcome) -> String {
    match outcome.refusal {
        0 => format!("{} is in charge", explored.moment.names.of(outcome.in_charge)),
        number => format!("refused with {number}"),
    }
}

/// All states for the script, and what the image's own state comes to.
pub fn data(explored: &Explored, main: &Grouping, looks: &[Look], own: u64) -> (Value, Shown) {
    let (moment, space, ran) = (&explored.moment, &explored.space, &explored.ran);
    let follows = moment.late.is_some() && !moment.steps.is_empty();
    let late = |outcome: &Outcome| follows.then(|| says_late(moment, outcome));
    let (mut sentences, mut ways) = (Known::new(), Known::new());
    let mut of_states = Vec::new();
    let mut words = moment.words.clone();
    for state in 0..space.total {
        words.copy_from_slice(&moment.words);
        space.store(state, &mut words);
        let before = words.clone();
        let _ = ronthuyal::Image::new(&mut words[..]).call(&ronthuyal::Call::from_words(moment.call));
        let outcome = &ran.outcomes[ran.cells[state as usize] as usize];
        let told = way(moment, &before, &words, outcome);
        let told: Vec<u32> = told.into_iter().map(|sentence| sentences.number(sentence)).collect();
        of_states.push(ways.number(told));
    }
    let outcomes = ran.outcomes.iter().zip(&main.of).map(|(outcome, group)| {
        let look = &looks[*group as usize];
        json!({ "winner": winner(explored, outcome), "says": look.says, "group": look.letter, "look": look.look,
            "late": late(outcome) })
    });
    let all = json!({
        "words": space.dimensions.iter().enumerate().map(|(at, one)| json!({
            "name": one.name, "labels": one.labels, "stride": space.stride(at) })).collect::<Vec<_>>(),
        "total": space.total,
        "own": own,
        "outcomes": outcomes.collect::<Vec<_>>(),
        "cells": runs(&ran.cells),
        "sentences": sentences.all,
        "ways": ways.all,
        "wayCells": runs(&of_states),
    });
    let cell = ran.cells[own as usize] as usize;
    let look = &looks[main.of[cell] as usize];
    let way = &ways.all[of_states[own as usize] as usize];
    let first = Shown {
        winner: winner(explored, &ran.outcomes[cell]),
        letter: look.letter.clone(),
        look: look.look,
        says: look.says.clone(),
        late: late(&ran.outcomes[cell]),
        way: way.iter().map(|at| sentences.all[*at as usize].clone()).collect(),
    };
    (all, first)
}

/// Number and length, for states that follow each other.
fn runs(cells: &[u32]) -> Vec<(u32, usize)> {
    cells
        .chunk_by(|one, other| one == other)
        .map(|run| (run[0], run.len()))
        .collect()
}
