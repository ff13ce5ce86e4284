//! Calls in a lent window, and the sums over it: the own reading beside the kernel's call.

use image::{Answer, Call, window};

/// # Safety
/// `image` points to `len` words, `window` to `words` words.
#[unsafe(no_mangle)]
#[allow(clippy::too_many_arguments)]
pub unsafe extern "C" fn ronthuyal_call_in_window(
    image: *mut u64,
    len: usize,
    window: *mut u64,
    words: usize,
    operation: u64,
    cpu: u64,
    time: u64,
    context: u64,
) -> Answer {
    let image = unsafe { std::slice::from_raw_parts_mut(image, len) };
    let window = unsafe { std::slice::from_raw_parts_mut(window, words) };
    let call = Call {
        operation,
        cpu,
        time,
        context,
    };
    let mut after = image.to_vec();
    let answer = crate::called(&mut after, &call);
    let (answer, after, left) = window::called(image, window, &call, (&answer, &after));
    image.copy_from_slice(&after);
    window.copy_from_slice(&left);
    answer
}

/// # Safety
/// `window` points to `words` words.
#[unsafe(no_mangle)]
pub unsafe extern "C" fn ronthuyal_share(
    window: *const u64,
    words: usize,
    contexts: u64,
    context: u64,
) -> Answer {
    let window = unsafe { std::slice::from_raw_parts(window, words) };
    window::share(window, contexts, context)
}

/// # Safety
/// `window` points to `words` words.
#[unsafe(no_mangle)]
pub unsafe extern "C" fn ronthuyal_share_of_all(
    window: *const u64,
    words: usize,
    contexts: u64,
) -> Answer {
    let window = unsafe { std::slice::from_raw_parts(window, words) };
    window::share_of_all(window, contexts)
}
