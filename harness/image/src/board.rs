//! The cue board, read from document 02, No. 6: K cues in lent bytes, three sizes first. What a
//! call must answer and leave, but for the wake-up of a writer, which is operation 4.

mod name;
#[cfg(test)]
mod tests;

pub use name::name;

use crate::{Answer, Call};

pub const CAPACITY_MAX: u64 = 512;
/// A row's bytes.
pub const ROW: usize = 40;
/// The bytes of the three sizes, and those of a cue: start, writer, two lengths and two rows.
pub const SIZES: usize = 24;
pub const CUE: usize = 98;

/// Where the three sizes are.
pub const CAPACITY: usize = 0;
pub const STORED: usize = 8;
pub const HANDED_OUT: usize = 16;

/// Refusals of the board's own, besides 1.
pub const ROW_TOO_LONG: u64 = 10;
pub const START_NOT_LATER: u64 = 11;
pub const FULL: u64 = 12;

pub fn length(capacity: usize) -> usize {
    SIZES + CUE * capacity
}
pub fn start_at(cue: usize) -> usize {
    SIZES + 8 * cue
}
pub fn writer_at(capacity: usize, cue: usize) -> usize {
    SIZES + 8 * capacity + 8 * cue
}
pub fn length_at(capacity: usize, cue: usize, row: usize) -> usize {
    SIZES + 16 * capacity + 2 * cue + row
}
pub fn row_at(capacity: usize, cue: usize, row: usize) -> usize {
    SIZES + 18 * capacity + ROW * (2 * cue + row)
}

/// A cue as it is offered.
#[derive(Clone, Debug, PartialEq, Eq, Default)]
pub struct Cue {
    pub start: u64,
    pub writer: u64,
    pub rows: [Vec<u8>; 2],
}

/// What asking for the next cue answers.
#[repr(C)]
#[derive(Clone, Copy, Debug, PartialEq, Eq, Default)]
pub struct Handed {
    pub refusal: u64,
    pub due: u64,
    pub cue: u64,
    pub start: u64,
    pub writer: u64,
    pub first_length: u64,
    pub second_length: u64,
    pub result: u64,
    pub interrupt: u64,
}

impl Handed {
    pub fn refused(refusal: u64) -> Self {
        Self {
            refusal,
            ..Self::default()
        }
    }
}

/// A board whose length and sizes are right.
#[derive(Clone, Copy)]
pub struct Board<'a>(&'a [u8]);

impl<'a> Board<'a> {
    pub fn new(bytes: &'a [u8]) -> Option<Self> {
        sized(bytes).then_some(Self(bytes))
    }
    pub fn capacity(self) -> usize {
        number(self.0, CAPACITY) as usize
    }
    pub fn stored(self) -> usize {
        number(self.0, STORED) as usize
    }
    pub fn handed_out(self) -> usize {
        number(self.0, HANDED_OUT) as usize
    }
    pub fn start(self, cue: usize) -> u64 {
        number(self.0, start_at(cue))
    }
    pub fn writer(self, cue: usize) -> u64 {
        number(self.0, writer_at(self.capacity(), cue))
    }
    pub fn length(self, cue: usize, row: usize) -> usize {
        self.0[length_at(self.capacity(), cue, row)].into()
    }
    /// All 40 bytes of it.
    pub fn row(self, cue: usize, row: usize) -> &'a [u8] {
        &self.0[row_at(self.capacity(), cue, row)..][..ROW]
    }
    pub fn lengths(self) -> impl Iterator<Item = usize> {
        (0..self.stored()).flat_map(move |cue| [0, 1].map(|row| self.length(cue, row)))
    }
    pub fn starts(self) -> impl Iterator<Item = u64> {
        (0..self.stored()).map(move |cue| self.start(cue))
    }
}

pub fn number(bytes: &[u8], at: usize) -> u64 {
    let digits = bytes[at..at + 8].iter().rev();
    digits.fold(0, |number, byte| number << 8 | u64::from(*byte))
}

pub fn put(bytes: &mut [u8], at: usize, number: u64) {
    bytes[at..at + 8].copy_from_slice(&number.to_le_bytes());
}

fn sized(bytes: &[u8]) -> bool {
    if bytes.len() < SIZES {
        return false;
    }
    let [capacity, stored, handed_out] = [CAPACITY, STORED, HANDED_OUT].map(|at| number(bytes, at));
    (1..=CAPACITY_MAX).contains(&capacity)
        && bytes.len() as u64 == SIZES as u64 + CUE as u64 * capacity
        && stored <= capacity
        && handed_out <= stored
}

/// Refusals 1, 10 and 11 of what is stored, and of a cue that is offered as the last in line.
pub fn refusal(bytes: &[u8], offered: Option<&Cue>) -> u64 {
    let Some(board) = Board::new(bytes) else {
        return 1;
    };
    let offered_lengths = offered
        .into_iter()
        .flat_map(|cue| cue.rows.each_ref().map(Vec::len));
    if board
        .lengths()
        .chain(offered_lengths)
        .any(|length| length > ROW)
    {
        return ROW_TOO_LONG;
    }
    let starts: Vec<u64> = board.starts().chain(offered.map(|cue| cue.start)).collect();
    if starts.windows(2).any(|pair| pair[0] >= pair[1]) {
        return START_NOT_LATER;
    }
    0
}

/// The refusal, or 0 and the cue is stored.
pub fn add(bytes: &mut [u8], offered: &Cue) -> u64 {
    let refusal = refusal(bytes, Some(offered));
    if refusal != 0 {
        return refusal;
    }
    let (capacity, slot) = (
        number(bytes, CAPACITY) as usize,
        number(bytes, STORED) as usize,
    );
    if slot == capacity {
        return FULL;
    }
    put(bytes, start_at(slot), offered.start);
    put(bytes, writer_at(capacity, slot), offered.writer);
    for (number, row) in offered.rows.iter().enumerate() {
        bytes[length_at(capacity, slot, number)] = row.len() as u8;
        let place = &mut bytes[row_at(capacity, slot, number)..][..ROW];
        place[..row.len()].copy_from_slice(row);
        place[row.len()..].fill(0);
    }
    put(bytes, STORED, slot as u64 + 1);
    0
}

/// What a board has to say at a time.
#[derive(Clone, Copy, Debug, PartialEq, Eq)]
pub enum Asked {
    Refused(u64),
    NoneDue,
    /// The slot of the cue that is due.
    Due(usize),
}

pub fn ask(bytes: &[u8], time: u64) -> Asked {
    let refusal = refusal(bytes, None);
    if refusal != 0 {
        return Asked::Refused(refusal);
    }
    let board = Board(bytes);
    let next = board.handed_out();
    if next < board.stored() && board.start(next) <= time {
        return Asked::Due(next);
    }
    Asked::NoneDue
}

/// The call that wakes the writer of a due cue.
pub fn wake_up(bytes: &[u8], slot: usize, cpu: u64, time: u64) -> Call {
    Call {
        operation: 4,
        cpu,
        time,
        context: Board(bytes).writer(slot),
    }
}

/// A due cue, once its wake-up was answered: it is handed out unless that was refused.
pub fn hand_out(bytes: &mut [u8], slot: usize, woken: &Answer) -> Handed {
    if woken.refusal != 0 {
        return Handed::refused(woken.refusal);
    }
    put(bytes, HANDED_OUT, slot as u64 + 1);
    let board = Board(bytes);
    Handed {
        refusal: 0,
        due: 1,
        cue: slot as u64,
        start: board.start(slot),
        writer: board.writer(slot),
        first_length: board.length(slot, 0) as u64,
        second_length: board.length(slot, 1) as u64,
        result: woken.result,
        interrupt: woken.interrupt,
    }
}
