//! Lists of calls, and images whose numbers are close to their limits.

use super::{Stream, rng::Rng};
use image::{Call, NUMBER_MAX, View, block as b, context as c};

/// What stands in the answers' words before a run.
pub const RUBBISH: u64 = 0x5555_5555_5555_5555;

pub fn length(rng: &mut Rng) -> usize {
    match rng.below(12) {
        0 => 0,
        1 => 1,
        2 => rng.within(41, 90),
        _ => rng.within(2, 24),
    }
}

/// How far below its limit a number begins: a call or a few raise it over.
const BELOW: [u64; 8] = [0, 1, 2, 7, 1 << 24, 1 << 32, 1 << 40, 1 << 56];

/// Some of the numbers that a call raises, of an image that rows 1 to 4 let pass. Deadlines are left
/// as they are: the keys' order goes by them.
pub fn near(rng: &mut Rng, image: &mut [u64]) {
    let few = rng.within(1, 3);
    for _ in 0..few {
        let view = View(image);
        let words = [c::ACTIVE_CPU_TIME, c::SCHED_CPU_TIME, c::VTIME];
        let record = view.context_at(rng.below(view.contexts())) + rng.pick(&words);
        let cpu = rng.below(view.cpus());
        let words = [
            b::V,
            b::PIT_TICKS,
            b::CONTEXT_SWITCHES,
            b::SYSCALL_SWITCHES,
            b::USER,
            b::KERNEL,
            b::IDLE,
            b::TOTAL_WEIGHT,
        ];
        let block = view.block_at(cpu) + rng.pick(&words);
        let live = view.present(cpu) && rng.once_in(2);
        let gone = image[record - (record - 2) % c::WORDS + c::GONE] == 1;
        match (live, gone) {
            (true, _) => image[block] = NUMBER_MAX - rng.pick(&BELOW),
            (false, false) => image[record] = NUMBER_MAX - rng.pick(&BELOW),
            _ => {}
        }
    }
}

/// A call on the image so far; now and then a wild one.
pub fn call(rng: &mut Rng, stream: &mut Stream, image: &[u64], time: u64) -> Call {
    let call = stream.call(image, time);
    match rng.once_in(16) {
        true => wild(rng, call),
        false => call,
    }
}

/// Something that is not there, or a time at its limit.
pub fn wild(rng: &mut Rng, call: Call) -> Call {
    match rng.below(5) {
        0 => Call {
            operation: rng.pick(&[0, 8, u64::MAX]),
            ..call
        },
        1 => Call {
            cpu: rng.pick(&[3, 4, u64::MAX]),
            ..call
        },
        2 => Call {
            context: rng.pick(&[63, 64, u64::MAX]),
            ..call
        },
        3 => Call {
            time: rng.pick(&[NUMBER_MAX, NUMBER_MAX + 1, u64::MAX]),
            ..call
        },
        _ => call,
    }
}

pub fn later(rng: &mut Rng, time: u64) -> u64 {
    let step = rng.pick(&[
        0,
        1,
        400_000,
        3_375_000,
        6_750_000,
        6_750_000,
        25_000_000,
        1 << 40,
    ]);
    time.saturating_add(step).min(NUMBER_MAX)
}
