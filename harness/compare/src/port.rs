//! The port, through the functions that its two archives export.

mod apart;
mod humblest;
mod plain;
mod rival;
mod run;
pub mod window;

pub use apart::{apart, switch};
pub use humblest::humblest;
pub use plain::plain_call;
pub use rival::rival;
pub use run::run;

use image::{
    Answer, Call, Group, TotalWeight,
    asked::Asked,
    board::{Cue, Handed},
};

#[cfg(port)]
unsafe extern "C" {
    /// Of the image's address and length, operation, CPU, time and context.
    fn ronthuyal_call(_: *mut u64, _: usize, _: u64, _: u64, _: u64, _: u64) -> Answer;
    /// Of the image's address and length, CPU, time and mask.
    fn ronthuyal_unblock_group(_: *mut u64, _: usize, _: u64, _: u64, _: u64) -> Answer;
    /// Of the image's address and length, and CPU.
    fn ronthuyal_total_weight(_: *const u64, _: usize, _: u64) -> Answer;
    /// Of the image's address and length, CPU and time.
    fn ronthuyal_ask(_: *const u64, _: usize, _: u64, _: u64) -> Asked;
    /// Of the image's address and length, CPU, time and the five words of a reply.
    fn ronthuyal_commit(
        _: *mut u64,
        _: usize,
        _: u64,
        _: u64,
        _: u64,
        _: u64,
        _: u64,
        _: u64,
        _: u64,
    ) -> Answer;
}

#[cfg(cue_board)]
unsafe extern "C" {
    /// Of the board, start, writer and two rows; a slice is its address and its length.
    fn cue_board_add(
        _: *mut u8,
        _: usize,
        _: u64,
        _: u64,
        _: *const u8,
        _: usize,
        _: *const u8,
        _: usize,
    ) -> u64;
    /// Of the board, the image, CPU and time.
    fn cue_board_next(_: *mut u8, _: usize, _: *mut u64, _: usize, _: u64, _: u64) -> Handed;
}

/// Whether there is a port to compare with.
pub const THERE: bool = cfg!(port);
/// Whether there is a cue board.
pub const CUE_BOARD: bool = cfg!(cue_board);

/// The port's answer, or nothing where there is no port.
#[cfg(port)]
pub fn call(image: &mut [u64], call: &Call) -> Option<Answer> {
    let (at, len) = (image.as_mut_ptr(), image.len());
    let Call {
        operation,
        cpu,
        time,
        context,
    } = *call;
    Some(unsafe { ronthuyal_call(at, len, operation, cpu, time, context) })
}

#[cfg(not(port))]
pub fn call(_image: &mut [u64], _call: &Call) -> Option<Answer> {
    None
}

#[cfg(port)]
pub fn unblock_group(image: &mut [u64], group: &Group) -> Option<Answer> {
    let (at, len) = (image.as_mut_ptr(), image.len());
    let Group { cpu, time, mask } = *group;
    Some(unsafe { ronthuyal_unblock_group(at, len, cpu, time, mask) })
}

#[cfg(not(port))]
pub fn unblock_group(_image: &mut [u64], _group: &Group) -> Option<Answer> {
    None
}

#[cfg(port)]
pub fn total_weight(image: &[u64], call: &TotalWeight) -> Option<Answer> {
    Some(unsafe { ronthuyal_total_weight(image.as_ptr(), image.len(), call.cpu) })
}

#[cfg(not(port))]
pub fn total_weight(_image: &[u64], _call: &TotalWeight) -> Option<Answer> {
    None
}

#[cfg(port)]
pub fn ask(image: &[u64], cpu: u64, time: u64) -> Option<Asked> {
    Some(unsafe { ronthuyal_ask(image.as_ptr(), image.len(), cpu, time) })
}

#[cfg(not(port))]
pub fn ask(_image: &[u64], _cpu: u64, _time: u64) -> Option<Asked> {
    None
}

#[cfg(port)]
pub fn commit(image: &mut [u64], cpu: u64, time: u64, reply: Asked) -> Option<Answer> {
    let (at, len) = (image.as_mut_ptr(), image.len());
    let [refusal, result, in_charge, current, v] = reply.words();
    Some(unsafe { ronthuyal_commit(at, len, cpu, time, refusal, result, in_charge, current, v) })
}

#[cfg(not(port))]
pub fn commit(_image: &mut [u64], _cpu: u64, _time: u64, _reply: Asked) -> Option<Answer> {
    None
}

/// The port's refusal, or nothing where there is no cue board.
#[cfg(cue_board)]
pub fn add(board: &mut [u8], cue: &Cue) -> Option<u64> {
    let (at, len) = (board.as_mut_ptr(), board.len());
    let [first, second] = &cue.rows;
    Some(unsafe {
        cue_board_add(
            at,
            len,
            cue.start,
            cue.writer,
            first.as_ptr(),
            first.len(),
            second.as_ptr(),
            second.len(),
        )
    })
}

#[cfg(not(cue_board))]
pub fn add(_board: &mut [u8], _cue: &Cue) -> Option<u64> {
    None
}

#[cfg(cue_board)]
pub fn next(board: &mut [u8], image: &mut [u64], cpu: u64, time: u64) -> Option<Handed> {
    let (at, len) = (board.as_mut_ptr(), board.len());
    let (image_at, image_len) = (image.as_mut_ptr(), image.len());
    Some(unsafe { cue_board_next(at, len, image_at, image_len, cpu, time) })
}

#[cfg(not(cue_board))]
pub fn next(_board: &mut [u8], _image: &mut [u64], _cpu: u64, _time: u64) -> Option<Handed> {
    None
}
