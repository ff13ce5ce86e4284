//! Calls in a lent window, and shares.

use image::{Answer, Call};

#[cfg(port)]
unsafe extern "C" {
    /// Of the image's address and length, the window's, operation, CPU, time and context.
    fn ronthuyal_call_in_window(
        _: *mut u64,
        _: usize,
        _: *mut u64,
        _: usize,
        _: u64,
        _: u64,
        _: u64,
        _: u64,
    ) -> Answer;
    /// Of the window's address and length, how many contexts there are, and which one.
    fn ronthuyal_share(_: *const u64, _: usize, _: u64, _: u64) -> Answer;
    /// Of the window's address and length, and how many contexts there are.
    fn ronthuyal_share_of_all(_: *const u64, _: usize, _: u64) -> Answer;
}

#[cfg(port)]
pub fn call(image: &mut [u64], window: &mut [u64], call: &Call) -> Option<Answer> {
    let (at, len) = (image.as_mut_ptr(), image.len());
    let (window_at, window_len) = (window.as_mut_ptr(), window.len());
    let Call {
        operation,
        cpu,
        time,
        context,
    } = *call;
    Some(unsafe {
        ronthuyal_call_in_window(
            at, len, window_at, window_len, operation, cpu, time, context,
        )
    })
}

#[cfg(not(port))]
pub fn call(_image: &mut [u64], _window: &mut [u64], _call: &Call) -> Option<Answer> {
    None
}

#[cfg(port)]
pub fn share(window: &[u64], contexts: u64, context: u64) -> Option<Answer> {
    Some(unsafe { ronthuyal_share(window.as_ptr(), window.len(), contexts, context) })
}

#[cfg(not(port))]
pub fn share(_window: &[u64], _contexts: u64, _context: u64) -> Option<Answer> {
    None
}

#[cfg(port)]
pub fn share_of_all(window: &[u64], contexts: u64) -> Option<Answer> {
    Some(unsafe { ronthuyal_share_of_all(window.as_ptr(), window.len(), contexts) })
}

#[cfg(not(port))]
pub fn share_of_all(_window: &[u64], _contexts: u64) -> Option<Answer> {
    None
}
