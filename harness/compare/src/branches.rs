//! How often each branch of the decisions is reached, by kind of case.

use crate::{
    expected::{Expected, expected},
    generate::{Case, KINDS, Stream},
};
use image::Answer;
use kernel::branches::{BLOCKS, FULL};

/// A case with its answer and the blocks that its run went through.
pub struct Seen {
    pub case: Case,
    pub answer: Answer,
    pub after: Vec<u64>,
    pub reached: Vec<u32>,
    /// What had no room, if something had none.
    pub full: Option<usize>,
}

pub fn next(stream: &mut Stream) -> Seen {
    let case = stream.next();
    kernel::branches::take();
    kernel::branches::take_no_room();
    let Ok(Expected::Known(answer, after)) = expected(&case.image, &case.call) else {
        panic!("table and kernel disagree: use run");
    };
    let reached = kernel::branches::take();
    stream.answered(&after);
    // The kernel may lack room for a timer that the port has room for.
    let (refused, full) = (answer.refusal == 9, kernel::branches::take_no_room());
    Seen {
        case,
        answer,
        after,
        reached,
        full: full.filter(|_| refused),
    }
}

/// The `if`s without an `else`: the place before one, and its block. Where the first
/// is reached more often than the second, the condition failed.
fn failing(number: usize) -> Option<usize> {
    let (_, before, _) = BLOCKS[number];
    let next = number + 1;
    (before && next < BLOCKS.len() && !BLOCKS[next].1).then_some(next)
}

/// What a case reached: blocks, and conditions that failed.
pub fn branches(reached: &[u32]) -> Vec<bool> {
    let holds = reached.iter().map(|times| *times > 0);
    let fails = (0..reached.len())
        .map(|number| failing(number).is_some_and(|block| reached[number] > reached[block]));
    holds.chain(fails).collect()
}

pub fn name(branch: usize) -> String {
    let (line, before, text) = BLOCKS[branch % BLOCKS.len()];
    let sense = match (branch >= BLOCKS.len(), before) {
        (true, _) => "fails",
        (false, true) => "tried",
        (false, false) => "entered",
    };
    format!("{line:5} {sense:8} {text}")
}

/// What the cases of a list reach together.
#[derive(Default)]
pub struct Union(Vec<bool>);

impl Union {
    pub fn add(&mut self, reached: Vec<u32>) {
        let reached = branches(&reached);
        self.0.resize(reached.len(), false);
        for (all, one) in self.0.iter_mut().zip(reached) {
            *all |= one;
        }
    }
    pub fn print_missing(&self) {
        for branch in (0..self.0.len()).filter(|branch| shown(*branch) && !self.0[*branch]) {
            println!("no case reaches {}", name(branch));
        }
    }
}

/// Conditions are shown by their two outcomes, not by having been tried.
fn shown(branch: usize) -> bool {
    match branch.checked_sub(BLOCKS.len()) {
        None => !BLOCKS[branch].1,
        Some(number) => failing(number).is_some(),
    }
}

pub fn print(seed: u64, count: u64) -> bool {
    let mut stream = Stream::new(seed);
    let mut cases = [0_u64; KINDS.len()];
    let mut hits = vec![[0_u64; KINDS.len()]; 2 * BLOCKS.len()];
    let mut full = [[0_u64; KINDS.len()]; 5 * FULL.len()];
    for _ in 0..count {
        let seen = next(&mut stream);
        let kind = KINDS.iter().position(|k| k.0 == seen.case.kind).unwrap();
        cases[kind] += 1;
        if let Some(which) = seen.full {
            full[FULL.len() * seen.case.call.operation.saturating_sub(1).min(4) as usize
                + which][kind] += 1;
        }
        for (branch, reached) in branches(&seen.reached).into_iter().enumerate() {
            hits[branch][kind] += u64::from(reached);
        }
    }
    println!("cases in 1000 of each kind that reach a branch; < marks less than 5 everywhere");
    println!(
        "{}  line of switch.rs",
        KINDS.map(|kind| format!("{:>8}", kind.1)).concat()
    );
    let rates = |row: &[u64; KINDS.len()]| {
        let rate = |kind: usize| 1000.0 * row[kind] as f64 / cases[kind].max(1) as f64;
        let rare = (0..KINDS.len()).all(|kind| rate(kind) < 5.0);
        let text: String = (0..KINDS.len())
            .map(|kind| format!("{:8.1}", rate(kind)))
            .collect();
        format!("{text} {}", if rare { "<" } else { " " })
    };
    for (branch, row) in hits.iter().enumerate() {
        if shown(branch) {
            println!("{} {}", rates(row), name(branch));
        }
    }
    for (place, row) in full
        .iter()
        .enumerate()
        .filter(|(_, row)| row.iter().any(|n| *n > 0))
    {
        let (operation, which) = (place / FULL.len() + 1, FULL[place % FULL.len()]);
        println!("{}   no room: operation {operation}, {which}", rates(row));
    }
    true
}
