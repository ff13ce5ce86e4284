//! What came into a board and what went out, call by call: document 02's last sentence on it.

use super::After;
use crate::generate::Turn;
use image::board::{Board, Cue, Handed, ROW};

#[derive(Default)]
pub struct Ledger {
    added: Vec<Cue>,
    handed: Vec<Given>,
}

/// A cue as it was handed out, with the bytes of its rows at that time.
struct Given {
    handed: Handed,
    rows: [Vec<u8>; 2],
}

impl Ledger {
    /// Of an accepted call on the board; refused ones bring and give nothing.
    pub fn enter(&mut self, turn: &Turn, after: &After) {
        match turn {
            Turn::Add(cue) if after.handed.refusal == 0 => self.added.push(cue.clone()),
            Turn::Ask { .. } if after.handed.due == 1 => self.handed.push(Given {
                handed: after.handed,
                rows: rows(&after.board, after.handed.cue as usize),
            }),
            _ => {}
        }
    }

    pub fn handed(&self) -> u64 {
        self.handed.len() as u64
    }

    /// What is wrong with the cues handed out, or with their rows on the board at the end.
    pub fn fault(&self, board: &[u8]) -> Option<String> {
        if self.handed.len() > self.added.len() {
            return Some(format!(
                "{} cues came in, {} went out",
                self.added.len(),
                self.handed.len()
            ));
        }
        let mut cues = self.added.iter().zip(&self.handed).enumerate();
        cues.find_map(|(number, (added, given))| {
            let same = given.is(number, added) && rows(board, number) == padded(added);
            (!same).then(|| {
                format!(
                    "cue {number} came in as {added:?} and went out as {:?}",
                    given.handed
                )
            })
        })
    }
}

impl Given {
    fn is(&self, number: usize, added: &Cue) -> bool {
        let Handed {
            cue,
            start,
            writer,
            first_length,
            second_length,
            ..
        } = self.handed;
        (cue, start, writer) == (number as u64, added.start, added.writer)
            && [first_length, second_length] == added.rows.each_ref().map(|row| row.len() as u64)
            && self.rows == padded(added)
    }
}

fn rows(board: &[u8], cue: usize) -> [Vec<u8>; 2] {
    [0, 1].map(|row| Board::new(board).map_or(Vec::new(), |board| board.row(cue, row).to_vec()))
}

fn padded(cue: &Cue) -> [Vec<u8>; 2] {
    cue.rows.clone().map(|mut row| {
        row.resize(ROW, 0);
        row
    })
}

#[cfg(test)]
mod tests {
    use super::{After, Cue, Handed, Ledger, Turn};
    use image::{
        Answer,
        board::{self, length, put, row_at},
    };

    fn cue(start: u64) -> Cue {
        Cue {
            start,
            writer: 1,
            rows: [b"one".to_vec(), b"".to_vec()],
        }
    }

    /// Two cues come in, and these slots go out.
    fn ledger(slots: &[usize]) -> (Ledger, Vec<u8>) {
        let mut bytes = vec![0xee; length(2)];
        bytes[..24].fill(0);
        put(&mut bytes, 0, 2);
        let mut ledger = Ledger::default();
        let mut enter = |turn: Turn, handed: Handed, bytes: &[u8]| {
            let (board, image) = (bytes.to_vec(), vec![]);
            let after = After {
                handed,
                board,
                image,
            };
            ledger.enter(&turn, &after);
        };
        for start in [5, 6, 6] {
            let refusal = board::add(&mut bytes, &cue(start));
            enter(Turn::Add(cue(start)), Handed::refused(refusal), &bytes);
        }
        for slot in slots {
            let handed = board::hand_out(&mut bytes, *slot, &Answer::default());
            enter(Turn::Ask { cpu: 0, time: 9 }, handed, &bytes);
        }
        (ledger, bytes)
    }

    #[test]
    fn the_first_in_order_and_once() {
        for (slots, good) in [
            (&[][..], true),
            (&[0], true),
            (&[0, 1], true),
            (&[1], false),
            (&[1, 0], false),
            (&[0, 0], false),
            (&[0, 1, 1], false),
        ] {
            let (ledger, board) = ledger(slots);
            assert_eq!(ledger.fault(&board).is_none(), good, "{slots:?}");
        }
    }

    /// Also the zeros behind a row, and as the rows stand at the end.
    #[test]
    fn with_all_bytes() {
        for at in [row_at(2, 0, 0), row_at(2, 0, 0) + 39, row_at(2, 0, 1)] {
            let (ledger, mut board) = ledger(&[0]);
            board[at] ^= 1;
            assert!(ledger.fault(&board).is_some());
        }
        // A cue that has not gone out is not looked at.
        let (ledger, mut board) = ledger(&[0]);
        board[row_at(2, 1, 0)] ^= 1;
        assert!(ledger.fault(&board).is_none());
    }
}
