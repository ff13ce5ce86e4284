//! Whether two CPUs are apart, and the switch by its own export.

use image::Answer;

#[cfg(port)]
unsafe extern "C" {
    /// Of the image's address and length, and two CPUs.
    fn ronthuyal_apart(_: *const u64, _: usize, _: u64, _: u64) -> Answer;
    /// Of the image's address and length, CPU and time.
    fn ronthuyal_switch(_: *mut u64, _: usize, _: u64, _: u64) -> Answer;
}

/// The image is only read, which is looked at: it must not be one that cannot be written.
#[cfg(port)]
pub fn apart(image: &mut [u64], one: u64, other: u64) -> Option<Answer> {
    let (at, len) = (image.as_mut_ptr().cast_const(), image.len());
    Some(unsafe { ronthuyal_apart(at, len, one, other) })
}

#[cfg(not(port))]
pub fn apart(_image: &mut [u64], _one: u64, _other: u64) -> Option<Answer> {
    None
}

#[cfg(port)]
pub fn switch(image: &mut [u64], cpu: u64, time: u64) -> Option<Answer> {
    let (at, len) = (image.as_mut_ptr(), image.len());
    Some(unsafe { ronthuyal_switch(at, len, cpu, time) })
}

#[cfg(not(port))]
pub fn switch(_image: &mut [u64], _cpu: u64, _time: u64) -> Option<Answer> {
    None
}
