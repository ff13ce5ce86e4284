//! A run of calls.

#[cfg(port)]
unsafe extern "C" {
    /// Of the image, the calls and the answers; a slice is its address and its length.
    fn ronthuyal_run(_: *mut u64, _: usize, _: *const u64, _: usize, _: *mut u64, _: usize) -> u64;
}

#[cfg(port)]
pub fn run(image: &mut [u64], calls: &[u64], answers: &mut [u64]) -> Option<u64> {
    let (at, len) = (image.as_mut_ptr(), image.len());
    let (answers_at, answers_len) = (answers.as_mut_ptr(), answers.len());
    Some(unsafe {
        ronthuyal_run(
            at,
            len,
            calls.as_ptr(),
            calls.len(),
            answers_at,
            answers_len,
        )
    })
}

#[cfg(not(port))]
pub fn run(_image: &mut [u64], _calls: &[u64], _answers: &mut [u64]) -> Option<u64> {
    None
}
