//! How many calls on boards of each sort were compared.

use super::{After, Case, Ledger};
use crate::{generate::Turn, port};
use image::{
    board::{self, Board, CAPACITY_MAX, ROW_TOO_LONG, START_NOT_LATER},
    check,
};

/// Sorts of calls besides their refusals; one may be of several.
pub const SORTS: [&str; 14] = [
    "10, of a stored row",
    "10, of an offered row",
    "  of both",
    "11, among stored starts",
    "11, of an offered start",
    "  equal to the one before",
    "1, K such that 24 + 98 K wraps",
    "K = 512, stored or handed out",
    "none due",
    "  the image would be refused",
    "handed out, the writer was blocked",
    "handed out, the writer was not blocked",
    "  with an interrupt",
    "a due cue that stays, its wake-up refused",
];

#[derive(Default)]
pub struct Tally {
    /// By number, of calls that add and that ask.
    pub refusals: [[u64; 13]; 2],
    pub sorts: [u64; SORTS.len()],
    /// Runs from an empty board that nobody else wrote, and the cues that they handed out.
    pub runs: u64,
    pub handed: u64,
}

impl Tally {
    pub fn add(&mut self, case: &Case, after: &After) {
        let asks = matches!(case.turn, Turn::Ask { .. });
        if let Some(count) = self.refusals[usize::from(asks)].get_mut(after.handed.refusal as usize)
        {
            *count += 1;
        }
        for (count, holds) in self.sorts.iter_mut().zip(sorts(case, after)) {
            *count += u64::from(holds);
        }
    }
    pub fn held(&mut self, ledger: &Ledger) {
        self.runs += 1;
        self.handed += ledger.handed();
    }

    pub fn print(&self) {
        println!("{:46}{:>9}{:>9}", "refusal", "add", "next");
        for refusal in 0..13 {
            let [add, ask] = [0, 1].map(|asks: usize| self.refusals[asks][refusal]);
            println!("{refusal:<46}{add:9}{ask:9}");
        }
        for (name, count) in SORTS.iter().zip(self.sorts) {
            println!("{name:46}{count:9}");
        }
        println!(
            "{:46}{:9}",
            "runs from an empty board, held to the adds", self.runs
        );
        println!("{:46}{:9}", "  cues handed out in them", self.handed);
        if !port::CUE_BOARD {
            println!("NOT compared: there is no archive of the cue board.");
        }
    }
}

fn sorts(case: &Case, after: &After) -> [bool; SORTS.len()] {
    let handed = &after.handed;
    let refused = |number| handed.refusal == number;
    let stored = board::refusal(&case.board, None);
    let asked = match case.turn {
        Turn::Ask { cpu, time } => Some((cpu, time)),
        Turn::Add(_) => None,
    };
    let offered = match &case.turn {
        Turn::Add(cue) => Some(cue),
        Turn::Ask { .. } => None,
    };
    let long = offered.is_some_and(|cue| cue.rows.iter().any(|row| row.len() > board::ROW));
    let last = Board::new(&case.board).and_then(|board| board.starts().last());
    let equal = offered.is_some_and(|cue| last == Some(cue.start));
    let wraps = case.board.len() >= board::SIZES && {
        let capacity = board::number(&case.board, board::CAPACITY);
        capacity > CAPACITY_MAX
            && case.board.len() as u64 == 98_u64.wrapping_mul(capacity).wrapping_add(24)
    };
    let largest =
        Board::new(&after.board).is_some_and(|board| board.capacity() as u64 == CAPACITY_MAX);
    let none_due = asked.is_some() && refused(0) && handed.due == 0;
    let image_refused = asked.is_some_and(|(_, time)| check::image_refusal(&case.image, time) != 0);
    let kept = asked.is_some() && stored == 0 && handed.refusal != 0;
    let due = handed.due == 1;
    [
        refused(ROW_TOO_LONG) && stored == ROW_TOO_LONG,
        refused(ROW_TOO_LONG) && long,
        refused(ROW_TOO_LONG) && long && stored == ROW_TOO_LONG,
        refused(START_NOT_LATER) && stored == START_NOT_LATER,
        refused(START_NOT_LATER) && stored == 0,
        refused(START_NOT_LATER) && stored == 0 && equal,
        refused(1) && wraps,
        largest && refused(0) && (due || asked.is_none()),
        none_due,
        none_due && image_refused,
        due && handed.result == 1,
        due && handed.result == 0,
        due && handed.interrupt == 1,
        kept,
    ]
}
