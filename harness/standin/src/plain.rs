//! A call by the own reading of the plain engine.

use image::{Answer, Call, plain};

/// # Safety
/// `image` points to `len` words.
#[unsafe(no_mangle)]
pub unsafe extern "C" fn ronthuyal_plain_call(
    image: *mut u64,
    len: usize,
    operation: u64,
    cpu: u64,
    time: u64,
    context: u64,
) -> Answer {
    let words = unsafe { std::slice::from_raw_parts_mut(image, len) };
    let call = Call {
        operation,
        cpu,
        time,
        context,
    };
    let other = |words: &mut Vec<u64>, call: &Call| crate::called(words, call);
    let (answer, after) = plain::called(words, &call, crate::weight, other);
    words.copy_from_slice(&after);
    answer
}
