//! Numbers near the places where a decision turns.

use super::rng::Rng;
use image::{NUMBER_MAX, SLICE_MAX};

/// The scales of one machine: times and virtual times lie near these.
#[derive(Clone, Copy)]
pub struct Scale {
    pub time: u64,
    pub v: u64,
    /// Distances of virtual times.
    pub step: u64,
}

/// Turns around the yield's limit, and a slice's whole length.
const TURNS: [u64; 14] = [
    0, 1, 1_000_000, 2_250_000, 3_374_999, 3_375_000, 3_375_001, 6_750_000, 6_750_000, 6_750_001,
    7_500_000, 20_249_999, 20_250_000, 31_000_000,
];

impl Scale {
    pub fn new(rng: &mut Rng) -> Self {
        let time = rng.pick(&[2_250_000, 40_000_000, 1 << 33, 1 << 53, NUMBER_MAX - 5]);
        Self {
            time: if rng.once_in(16) {
                rng.pick(&[0, 1, 2, 1000])
            } else {
                time
            },
            v: rng.pick(&[0, 1000, 20_000_000, 90_000_000, 1 << 40, 1 << 40, 1 << 61]),
            step: rng.pick(&[1, 477, 10_000, 1_048_576, 9_437_184]),
        }
    }
    /// When the last turn began.
    pub fn begun(&self, rng: &mut Rng) -> u64 {
        if rng.once_in(24) {
            return (self.time + rng.pick(&[1, 5, 1_000_000])).min(NUMBER_MAX);
        }
        let turn = match rng.below(20) {
            0 => (1 << 52) - 1,
            1 => (1 << 52) - rng.pick(&[2, 1000]),
            2 => rng.next() >> 30,
            _ => rng.pick(&TURNS),
        };
        self.time.saturating_sub(turn)
    }
    pub fn wake(&self, rng: &mut Rng) -> u64 {
        let late = self.time + rng.pick(&[0, 1, 2, 3, 5]);
        let wake = match rng.below(5) {
            0 => self.time.saturating_sub(rng.pick(&[1, 1000, 1_000_000])),
            1 => late + 1_000_000,
            _ => late,
        };
        wake.min(NUMBER_MAX)
    }
    /// A virtual time that is mostly up to V.
    pub fn early(&self, rng: &mut Rng) -> u64 {
        let back = self.step * rng.pick(&[0, 0, 1, 2, 3]);
        if rng.once_in(12) {
            0
        } else {
            self.v.saturating_sub(back)
        }
    }
    /// A virtual time that is later than V.
    pub fn late(&self, rng: &mut Rng) -> u64 {
        self.v + 1 + self.step * rng.pick(&[0, 0, 1, 1, 2, 3, 700])
    }
    pub fn vtime(&self, rng: &mut Rng, mostly_late: bool) -> u64 {
        let late = if mostly_late {
            rng.below(8) != 0
        } else {
            rng.once_in(4)
        };
        if late {
            self.late(rng)
        } else {
            self.early(rng)
        }
    }
    pub fn deadline(&self, rng: &mut Rng, vtime: u64) -> u64 {
        match rng.below(4) {
            0 => self.v + self.step * rng.pick(&[0, 1, 2, 3]),
            1 => vtime,
            _ => vtime + self.step * rng.pick(&[1, 1, 2, 4, 9]),
        }
    }
}

pub fn slice(rng: &mut Rng) -> u64 {
    match rng.below(6) {
        0 => 0,
        1 => rng.pick(&[1, 477, SLICE_MAX - 1]),
        2 => rng.next() % (SLICE_MAX + 1),
        _ => SLICE_MAX,
    }
}

pub fn priority(rng: &mut Rng) -> u64 {
    match rng.below(4) {
        0 => 20,
        1 => rng.pick(&[0, 19, 21, 39]),
        _ => rng.below(40) as u64,
    }
}

/// The weight of a priority. Without the kernel any weight in range will do.
pub fn weight(prio: u64) -> u64 {
    #[cfg(feature = "oracle")]
    return kernel::context::switch::SCHED_PRIO_TO_WEIGHT[prio as usize] as u64;
    #[cfg(not(feature = "oracle"))]
    return (1024.0 * 1.25_f64.powi(20 - prio as i32)).clamp(15.0, 88_761.0) as u64;
}

pub fn mask(rng: &mut Rng) -> u64 {
    match rng.below(12) {
        0 => rng.next(),
        1 => rng.next() & 15,
        2 => 0,
        3 => 1 << rng.below(4),
        _ => u64::MAX,
    }
}
