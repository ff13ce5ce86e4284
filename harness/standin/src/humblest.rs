//! Forty trials on the kernel's switch.

use image::humblest::{self, Humblest, Tried};

/// # Safety
/// `image` points to `len` words.
#[unsafe(no_mangle)]
pub unsafe extern "C" fn ronthuyal_humblest(
    image: *const u64,
    len: usize,
    cpu: u64,
    time: u64,
    context: u64,
) -> Humblest {
    let words = unsafe { std::slice::from_raw_parts(image, len) };
    let tried = Tried { cpu, time, context };
    let refusal = humblest::refusal(words, &tried);
    if refusal != 0 {
        return Humblest::refused(refusal);
    }
    let working = humblest::working(words, &tried, |mut changed, switch| {
        let answer = crate::called(&mut changed, &switch);
        Some((answer, changed))
    });
    working.map_or(Humblest::default(), |working| Humblest::of(&working))
}
