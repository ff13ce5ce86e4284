//! A run of calls by the own reading, each of them the kernel's.

use image::{Answer, Call, View, check, run};

/// # Safety
/// `image`, `calls` and `answers` point to as many words as `len`, `calls_len` and `answers_len` say.
#[unsafe(no_mangle)]
pub unsafe extern "C" fn ronthuyal_run(
    image: *mut u64,
    len: usize,
    calls: *const u64,
    calls_len: usize,
    answers: *mut u64,
    answers_len: usize,
) -> u64 {
    let image = unsafe { std::slice::from_raw_parts_mut(image, len) };
    let calls = unsafe { std::slice::from_raw_parts(calls, calls_len) };
    let answers = unsafe { std::slice::from_raw_parts_mut(answers, answers_len) };
    run::run(image, calls, answers, called)
}

/// Of an image that rows 1 to 4 let pass.
fn called(words: &mut [u64], call: &Call) -> Answer {
    match check::call_refusal(View(words), call) {
        0 => crate::made(words, call),
        refusal => Answer::refused(refusal),
    }
}
