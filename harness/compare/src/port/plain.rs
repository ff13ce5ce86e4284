//! A call by the plain engine.

use image::{Answer, Call};

#[cfg(port)]
unsafe extern "C" {
    /// Of the image's address and length, operation, CPU, time and context.
    fn ronthuyal_plain_call(_: *mut u64, _: usize, _: u64, _: u64, _: u64, _: u64) -> Answer;
}

#[cfg(port)]
pub fn plain_call(image: &mut [u64], call: &Call) -> Option<Answer> {
    let (at, len) = (image.as_mut_ptr(), image.len());
    let Call {
        operation,
        cpu,
        time,
        context,
    } = *call;
    Some(unsafe { ronthuyal_plain_call(at, len, operation, cpu, time, context) })
}

#[cfg(not(port))]
pub fn plain_call(_image: &mut [u64], _call: &Call) -> Option<Answer> {
    None
}
