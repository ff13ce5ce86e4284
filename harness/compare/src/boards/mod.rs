//! Compares the port's cue board with the own reading and with the kernel's `unblock_context`, in
//! runs of calls on one board.

#[cfg(all(test, any(feature = "oracle", cue_board)))]
mod cases;
mod ledger;
mod report;
mod tally;
#[cfg(all(test, any(feature = "oracle", cue_board)))]
mod tests;

use crate::{
    expected::{Contradiction, Expected, expected},
    generate::{Boards, Turn},
    port,
    run::{unedited, unjudged},
};
use image::{
    Answer, Call, View,
    board::{self, Asked, Handed},
};
use ledger::Ledger;
pub use tally::Tally;

/// Calls of a run.
const CALLS: usize = 60;

/// A board, an image and a call.
pub struct Case {
    pub board: Vec<u8>,
    pub image: Vec<u64>,
    pub turn: Turn,
}

/// What a call answers and leaves; one that adds answers the refusal only.
#[derive(Debug, PartialEq, Eq)]
pub struct After {
    pub handed: Handed,
    pub board: Vec<u8>,
    pub image: Vec<u64>,
}

/// True if no difference was found.
pub fn boards(seed: u64, runs: u64) -> bool {
    unedited();
    let mut boards = Boards::new(seed);
    let mut tally = Tally::default();
    for number in 0..runs {
        let mut run = Run::new(&mut boards);
        let good = (0..CALLS).all(|_| run.step(&mut boards, &mut tally));
        if !good || !run.ended(&mut tally) {
            println!("run {number} of seed {seed}");
            return false;
        }
    }
    println!("{runs} runs of {CALLS} calls on a cue board, seed {seed}, no difference");
    tally.print();
    true
}

struct Run {
    board: Vec<u8>,
    image: Vec<u64>,
    /// Whether a due cue stayed on the board at the last call.
    stays: bool,
    /// What came in and went out, as long as the board was empty at first and nobody else wrote it.
    ledger: Option<Ledger>,
    /// Whether the board is also given with some of its bytes spoiled.
    spoils: bool,
}

impl Run {
    fn new(boards: &mut Boards) -> Self {
        let (board, empty) = boards.board();
        Self {
            image: boards.machine(&board),
            board,
            stays: false,
            ledger: empty.then(Ledger::default),
            spoils: boards.once_in(2),
        }
    }

    /// The next call; false if there was a difference.
    fn step(&mut self, boards: &mut Boards, tally: &mut Tally) -> bool {
        // A writer that cannot be woken here would keep its cue on the board for good.
        if boards.once_in(if self.stays { 2 } else { 24 }) {
            self.image = boards.machine(&self.board);
        }
        if boards.once_in(3) {
            self.sleep();
        }
        let spoiled = self.spoils && boards.once_in(4);
        let elsewhere = boards.once_in(10);
        let board = match spoiled {
            true => boards.spoiled(&self.board),
            false => self.board.clone(),
        };
        let image = match elsewhere {
            true => boards.any_image(),
            false => self.image.clone(),
        };
        let turn = boards.turn(&board, &image);
        let case = Case { board, image, turn };
        let Some(after) = one(&case) else {
            return false;
        };
        tally.add(&case, &after);
        self.stays = matches!(after.handed.refusal, 2..=9);
        // A refused board is mended: it would end every further call.
        if spoiled && board::refusal(&case.board, None) != 0 {
            return true;
        }
        match &mut self.ledger {
            Some(_) if spoiled => self.ledger = None,
            Some(ledger) => ledger.enter(&case.turn, &after),
            None => {}
        }
        self.board = after.board;
        if !elsewhere {
            self.image = after.image;
        }
        true
    }

    /// The writer of the next cue blocks, as writers do between cues.
    fn sleep(&mut self) {
        let Asked::Due(slot) = board::ask(&self.board, u64::MAX) else {
            return;
        };
        let here = (0..View(&self.image).cpus()).find(|cpu| View(&self.image).present(*cpu));
        let call = Call {
            operation: 6,
            ..board::wake_up(&self.board, slot, here.unwrap_or(0) as u64, 0)
        };
        if let Ok(Expected::Known(_, after)) = expected(&self.image, &call) {
            self.image = after;
        }
    }

    /// What went out is the first of what came in.
    fn ended(&self, tally: &mut Tally) -> bool {
        let Some(ledger) = &self.ledger else {
            return true;
        };
        tally.held(ledger);
        match ledger.fault(&self.board) {
            None => true,
            Some(text) => {
                println!("{text}");
                false
            }
        }
    }
}

/// What the port left, or without a port what is expected; nothing if there was a difference.
pub fn one(case: &Case) -> Option<After> {
    let got = ported(case);
    let want = match expectation(case, got.as_ref()) {
        Ok(want) => want,
        Err(Contradiction(text)) => {
            report::case(case);
            println!("{text}");
            return None;
        }
    };
    let got = got.unwrap_or_else(|| After {
        board: want.board.clone(),
        image: want.image.clone(),
        ..want
    });
    (!report::differences(case, &want, &got)).then_some(got)
}

fn ported(case: &Case) -> Option<After> {
    let (mut board, mut image) = (case.board.clone(), case.image.clone());
    let handed = match &case.turn {
        Turn::Add(cue) => Handed::refused(port::add(&mut board, cue)?),
        Turn::Ask { cpu, time } => port::next(&mut board, &mut image, *cpu, *time)?,
    };
    Some(After {
        handed,
        board,
        image,
    })
}

fn expectation(case: &Case, got: Option<&After>) -> Result<After, Contradiction> {
    let (mut board, mut image) = (case.board.clone(), case.image.clone());
    let handed = match &case.turn {
        Turn::Add(cue) => Handed::refused(board::add(&mut board, cue)),
        Turn::Ask { cpu, time } => match board::ask(&board, *time) {
            Asked::Refused(refusal) => Handed::refused(refusal),
            Asked::NoneDue => Handed::default(),
            Asked::Due(slot) => {
                let call = board::wake_up(&board, slot, *cpu, *time);
                let (answer, after) = woken(&case.image, &call, got)?;
                image = after;
                board::hand_out(&mut board, slot, &answer)
            }
        },
    };
    Ok(After {
        handed,
        board,
        image,
    })
}

/// Operation 4 by table and kernel. Without the kernel, the port is believed where the table
/// lets the call pass.
fn woken(
    image: &[u64],
    call: &Call,
    got: Option<&After>,
) -> Result<(Answer, Vec<u64>), Contradiction> {
    Ok(match expected(image, call)? {
        Expected::Known(answer, after) => (answer, after),
        Expected::Passes => {
            let answer = got.map(|after| Answer {
                refusal: after.handed.refusal,
                result: after.handed.result,
                interrupt: after.handed.interrupt,
                rule: 0,
            });
            unjudged(image, answer, got.map_or(image, |after| &after.image))
        }
    })
}
