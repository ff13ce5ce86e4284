//! The game, over the kernel's calls.

use image::rival::{Game, Play};

/// # Safety
/// `image` points to `len` words.
#[unsafe(no_mangle)]
pub unsafe extern "C" fn ronthuyal_rival(
    image: *const u64,
    len: usize,
    cpu: u64,
    time: u64,
    writer: u64,
    rival: u64,
    rounds: u64,
) -> Game {
    let words = unsafe { std::slice::from_raw_parts(image, len) };
    let play = Play {
        cpu,
        time,
        writer,
        rival,
        rounds,
    };
    Game::of(words, &play, |image, call| {
        let mut after = image.to_vec();
        (crate::called(&mut after, &call), after)
    })
}
