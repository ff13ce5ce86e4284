//! The calls of the cue board: the own reading of it, and the kernel for the wake-up.

use image::{
    Call,
    board::{self, Asked, Cue, Handed},
};

/// # Safety
/// Each address is that of as many bytes as its length says.
#[unsafe(no_mangle)]
pub unsafe extern "C" fn cue_board_add(
    board: *mut u8,
    len: usize,
    start: u64,
    writer: u64,
    first: *const u8,
    first_len: usize,
    second: *const u8,
    second_len: usize,
) -> u64 {
    let bytes = unsafe { std::slice::from_raw_parts_mut(board, len) };
    let rows = [(first, first_len), (second, second_len)]
        .map(|(row, len)| unsafe { std::slice::from_raw_parts(row, len) }.to_vec());
    board::add(
        bytes,
        &Cue {
            start,
            writer,
            rows,
        },
    )
}

/// # Safety
/// `board` points to `len` bytes, `image` to `words` words.
#[unsafe(no_mangle)]
pub unsafe extern "C" fn cue_board_next(
    board: *mut u8,
    len: usize,
    image: *mut u64,
    words: usize,
    cpu: u64,
    time: u64,
) -> Handed {
    let bytes = unsafe { std::slice::from_raw_parts_mut(board, len) };
    match board::ask(bytes, time) {
        Asked::Refused(refusal) => Handed::refused(refusal),
        Asked::NoneDue => Handed::default(),
        Asked::Due(slot) => {
            let Call {
                cpu, time, context, ..
            } = board::wake_up(bytes, slot, cpu, time);
            let woken = unsafe { crate::ronthuyal_call(image, words, 4, cpu, time, context) };
            board::hand_out(bytes, slot, &woken)
        }
    }
}
