//! Prints a call on a board with the names of its bytes and words.

use super::{After, Case};
use crate::{generate::Turn, report::word};
use image::board::{self, Board, Handed};

/// Bytes that are printed of a board at most.
const BYTES: usize = 400;

pub fn case(case: &Case) {
    println!(
        "{:?}, board of {} bytes, image of {} words",
        case.turn,
        case.board.len(),
        case.image.len()
    );
    if let Some(board) = Board::new(&case.board) {
        println!(
            "K {}, stored {}, handed out {}",
            board.capacity(),
            board.stored(),
            board.handed_out()
        );
    }
    let shown = case.board.len().min(BYTES);
    println!(
        "the board's first {shown} bytes: {:?}",
        &case.board[..shown]
    );
    if matches!(case.turn, Turn::Ask { .. }) {
        println!("words of the image that are not 0:");
        for (index, value) in case.image.iter().enumerate() {
            if *value != 0 {
                println!("  {index:5} {} = {value}", word(&case.image, index));
            }
        }
    }
}

/// Prints each difference; false if there is none.
pub fn differences(case: &Case, want: &After, got: &After) -> bool {
    if want == got {
        return false;
    }
    self::case(case);
    println!("differences:");
    let row = |name: &str, want: u64, got: u64| {
        if want != got {
            println!("  {name}: expected {want}, got {got}");
        }
    };
    for ((name, want), (_, got)) in fields(&want.handed).iter().zip(fields(&got.handed)) {
        row(name, *want, got);
    }
    let capacity = case.board.len().saturating_sub(board::SIZES) / board::CUE;
    for (at, (want, got)) in want.board.iter().zip(&got.board).enumerate() {
        if want != got {
            row(&board::name(capacity, at), (*want).into(), (*got).into());
        }
    }
    for (index, (want, got)) in want.image.iter().zip(&got.image).enumerate() {
        if want != got {
            row(&word(&case.image, index), *want, *got);
        }
    }
    true
}

fn fields(handed: &Handed) -> [(&'static str, u64); 9] {
    [
        ("refusal", handed.refusal),
        ("due", handed.due),
        ("cue", handed.cue),
        ("start", handed.start),
        ("writer", handed.writer),
        ("first length", handed.first_length),
        ("second length", handed.second_length),
        ("result", handed.result),
        ("interrupt mark", handed.interrupt),
    ]
}
