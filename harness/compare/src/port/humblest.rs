//! The humblest priority.

use image::humblest::{Humblest, Tried};

#[cfg(port)]
unsafe extern "C" {
    /// Of the image's address and length, CPU, time and context.
    fn ronthuyal_humblest(_: *const u64, _: usize, _: u64, _: u64, _: u64) -> Humblest;
}

/// The image is only read, which is looked at: it must not be one that cannot be written.
#[cfg(port)]
pub fn humblest(image: &mut [u64], tried: &Tried) -> Option<Humblest> {
    let (at, len) = (image.as_mut_ptr().cast_const(), image.len());
    let Tried { cpu, time, context } = *tried;
    Some(unsafe { ronthuyal_humblest(at, len, cpu, time, context) })
}

#[cfg(not(port))]
pub fn humblest(_image: &mut [u64], _tried: &Tried) -> Option<Humblest> {
    None
}
