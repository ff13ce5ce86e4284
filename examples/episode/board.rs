//! A cue board of eight cues: lent bytes, and the two calls of the archive.

use crate::machine::Machine;

pub const CAPACITY: usize = 8;
pub const ROW: usize = 40;
const HANDED_OUT: usize = 16;
const STORED: usize = 8;

#[repr(C)]
pub struct Handed {
    pub refusal: u64,
    pub due: u64,
    pub cue: u64,
    pub start: u64,
    pub writer: u64,
    pub first_length: u64,
    pub second_length: u64,
    pub result: u64,
    pub interrupt: u64,
}

unsafe extern "C" {
    fn cue_board_add(
        board: *mut u8,
        length: usize,
        start: u64,
        writer: u64,
        first: *const u8,
        first_length: usize,
        second: *const u8,
        second_length: usize,
    ) -> u64;
    fn cue_board_next(
        board: *mut u8,
        length: usize,
        image: *mut u64,
        image_length: usize,
        cpu: u64,
        time: u64,
    ) -> Handed;
}

pub struct Board(Vec<u8>);

impl Board {
    /// All zero but for the capacity.
    pub fn empty() -> Self {
        let mut bytes = vec![0; 24 + 98 * CAPACITY];
        bytes[0] = CAPACITY as u8;
        Self(bytes)
    }

    /// 0, or the refusal.
    pub fn add(&mut self, start: u64, writer: u64, rows: [&str; 2]) -> u64 {
        let (board, length) = (self.0.as_mut_ptr(), self.0.len());
        let [first, second] = rows;
        // SAFETY: each pointer and length are those of a slice that nobody else uses during the call.
        unsafe {
            cue_board_add(
                board,
                length,
                start,
                writer,
                first.as_ptr(),
                first.len(),
                second.as_ptr(),
                second.len(),
            )
        }
    }

    pub fn next(&mut self, machine: &mut Machine, time: u64) -> Handed {
        let (board, length) = (self.0.as_mut_ptr(), self.0.len());
        let image = machine.image();
        // SAFETY: as above.
        unsafe { cue_board_next(board, length, image.as_mut_ptr(), image.len(), 0, time) }
    }

    fn number(&self, at: usize) -> usize {
        u64::from_le_bytes(std::array::from_fn(|byte| self.0[at + byte])) as usize
    }

    pub fn handed_out(&self) -> usize {
        self.number(HANDED_OUT)
    }

    pub fn waiting(&self) -> bool {
        self.handed_out() < self.number(STORED)
    }

    /// The bytes of a row that came in.
    fn row(&self, cue: usize, row: usize) -> &[u8] {
        let length = self.0[24 + 16 * CAPACITY + 2 * cue + row];
        let place = 24 + 18 * CAPACITY + ROW * (2 * cue + row);
        &self.0[place..place + usize::from(length)]
    }

    /// The rows of a cue that are not empty, as text.
    pub fn text(&self, cue: usize) -> String {
        let rows = [0, 1].map(|row| String::from_utf8_lossy(self.row(cue, row)));
        let rows: Vec<&str> = rows
            .iter()
            .map(AsRef::as_ref)
            .filter(|row| *row != "")
            .collect();
        rows.join(" / ")
    }
}
