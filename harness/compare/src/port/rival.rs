//! Writer against rival.

use image::rival::{Game, Play};

#[cfg(port)]
unsafe extern "C" {
    /// Of the image's address and length, CPU, time, writer, rival and rounds.
    fn ronthuyal_rival(_: *const u64, _: usize, _: u64, _: u64, _: u64, _: u64, _: u64) -> Game;
}

/// The image is only read, which is looked at: it must not be one that cannot be written.
#[cfg(port)]
pub fn rival(image: &mut [u64], play: &Play) -> Option<Game> {
    let (at, len) = (image.as_mut_ptr().cast_const(), image.len());
    let Play {
        cpu,
        time,
        writer,
        rival,
        rounds,
    } = *play;
    Some(unsafe { ronthuyal_rival(at, len, cpu, time, writer, rival, rounds) })
}

#[cfg(not(port))]
pub fn rival(_image: &mut [u64], _play: &Play) -> Option<Game> {
    None
}
