//! Whether two CPUs are apart.

use image::{Answer, apart};

/// # Safety
/// `image` points to `len` words.
#[unsafe(no_mangle)]
pub unsafe extern "C" fn ronthuyal_apart(
    image: *const u64,
    len: usize,
    one: u64,
    other: u64,
) -> Answer {
    let words = unsafe { std::slice::from_raw_parts(image, len) };
    apart::apart(words, one, other)
}
