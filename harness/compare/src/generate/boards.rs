//! Runs of calls on cue boards: boards, cues, times and CPUs, near the places where a call turns.

use super::{Stream, group, rng::Rng, spoiled_boards};
use image::{
    MAX_CONTEXTS, NUMBER_MAX, View,
    board::{self, Board, CAPACITY_MAX, Cue, ROW, length, put},
    check,
};

/// A call on a board.
#[derive(Clone, Debug)]
pub enum Turn {
    Add(Cue),
    Ask { cpu: u64, time: u64 },
}

pub struct Boards {
    images: Stream,
    rng: Rng,
    /// Starts of this run lie from here on, at distances up to `step`.
    from: u64,
    step: u64,
}

impl Boards {
    pub fn new(seed: u64) -> Self {
        Self {
            images: Stream::new(seed),
            rng: Rng::new(!seed),
            from: 0,
            step: 1,
        }
    }

    /// The board of another run, and whether it is empty. Past what is stored there may be any
    /// bytes.
    pub fn board(&mut self) -> (Vec<u8>, bool) {
        let rng = &mut self.rng;
        let most = CAPACITY_MAX as usize;
        let capacity = match rng.below(12) {
            0 => rng.within(60, most),
            1 => most,
            2..=6 => rng.within(12, 40),
            _ => rng.within(1, 8),
        };
        (self.from, self.step) = match rng.below(24) {
            // The starts reach the last time that an image takes, or the last of all.
            0 => (NUMBER_MAX - 20, 2),
            1 => (u64::MAX - 20, 2),
            _ => (
                rng.pick(&[0, 1, 1000, 1 << 33]),
                rng.pick(&[1, 3, 3, 40_000]),
            ),
        };
        let mut bytes = vec![0; length(capacity)];
        if !rng.once_in(3) {
            bytes.fill_with(|| rng.next() as u8);
            bytes[..board::SIZES].fill(0);
        }
        put(&mut bytes, board::CAPACITY, capacity as u64);
        let empty = !rng.once_in(3);
        if !empty {
            self.store(&mut bytes, capacity);
        }
        (bytes, empty)
    }

    /// Some cues, or all that there is room for, or one less; some of them handed out.
    fn store(&mut self, bytes: &mut [u8], capacity: usize) {
        let stored = match self.rng.below(4) {
            0 => capacity,
            1 => capacity - 1,
            _ => self.rng.below(capacity + 1),
        };
        let mut start = self.from;
        for _ in 0..stored {
            let mut cue = Cue {
                start,
                writer: self.rng.below(6) as u64,
                ..Cue::default()
            };
            cue.rows = [0, 1].map(|_| row(&mut self.rng, ROW));
            // The starts may come to their end.
            if board::add(bytes, &cue) != 0 {
                break;
            }
            start = start.saturating_add(1 + self.rng.below(self.step as usize) as u64);
        }
        let stored = board::number(bytes, board::STORED) as usize;
        let handed_out = match self.rng.below(3) {
            0 => stored,
            1 => 0,
            _ => self.rng.below(stored + 1),
        };
        put(bytes, board::HANDED_OUT, handed_out as u64);
    }

    /// A machine on which writers can be woken: its image passes rows 1 to 4. Mostly one that
    /// has the writer of the next cue.
    pub fn machine(&mut self, bytes: &[u8]) -> Vec<u64> {
        let writer = Board::new(bytes)
            .filter(|board| board.handed_out() < board.stored())
            .map_or(0, |board| board.writer(board.handed_out()));
        loop {
            let case = self.images.next();
            let mut image = case.image;
            if check::image_refusal(&image, 0) != 0 {
                continue;
            }
            group::prepare(&mut self.rng, &mut image, case.call.cpu);
            let there = writer < image[1] && !View(&image).gone(writer as usize);
            if there || self.rng.once_in(8) {
                return image;
            }
        }
    }

    /// Any image, damaged ones too, for one call.
    pub fn any_image(&mut self) -> Vec<u64> {
        self.images.next().image
    }

    pub fn turn(&mut self, bytes: &[u8], image: &[u64]) -> Turn {
        let (full, waiting) = Board::new(bytes).map_or((false, false), |board| {
            let stored = board.stored();
            (stored == board.capacity(), board.handed_out() < stored)
        });
        let asks = match (full, waiting) {
            (true, true) => 14,
            (true, false) | (false, true) => 8,
            (false, false) => 3,
        };
        if self.rng.below(16) < asks {
            let cpu = cpu(&mut self.rng, image);
            let time = self.time(bytes);
            return Turn::Ask { cpu, time };
        }
        let rng = &mut self.rng;
        let longest = match rng.below(16) {
            // 256 and some more would do if only the lowest byte of a length were looked at.
            0 => rng.pick(&[ROW + 1, ROW + 1, ROW + 1, 255, 256, 257, 296, 300]),
            _ => ROW,
        };
        let rows = [row(rng, longest), row(rng, ROW)];
        Turn::Add(Cue {
            start: self.start(bytes),
            writer: writer(&mut self.rng, image),
            rows: match self.rng.once_in(2) {
                true => rows,
                false => [rows[1].clone(), rows[0].clone()],
            },
        })
    }

    /// Mostly later than the last that is stored, sometimes just not.
    fn start(&mut self, bytes: &[u8]) -> u64 {
        let last = Board::new(bytes).and_then(|board| board.starts().last());
        let rng = &mut self.rng;
        let Some(last) = last else {
            return self.from;
        };
        match rng.below(400) {
            0..=29 => last,
            30..=39 => last.saturating_sub(1),
            40..=47 => rng.pick(&[0, 1, self.from]),
            // No start can follow, or few.
            48 => u64::MAX,
            49 => rng.next(),
            _ => last.saturating_add(1 + rng.below(self.step as usize) as u64),
        }
    }

    /// Near the start of the next cue; sometimes any time, also one that has gone by.
    fn time(&mut self, bytes: &[u8]) -> u64 {
        let next = Board::new(bytes)
            .filter(|board| board.handed_out() < board.stored())
            .map_or(self.from, |board| board.start(board.handed_out()));
        let rng = &mut self.rng;
        match rng.below(16) {
            0..=5 => next,
            6..=8 => next.saturating_add(rng.pick(&[1, 2, 40_000])),
            9 | 10 => next.saturating_sub(1),
            11 => rng.pick(&[0, self.from, next / 2]),
            12 => rng.pick(&[NUMBER_MAX, NUMBER_MAX + 1, u64::MAX]),
            _ => next.saturating_add(rng.below(2 * self.step as usize) as u64),
        }
    }

    /// The board as somebody else may have written it, for one call or for good.
    pub fn spoiled(&mut self, bytes: &[u8]) -> Vec<u8> {
        spoiled_boards::spoiled(&mut self.rng, bytes)
    }

    pub fn once_in(&mut self, times: usize) -> bool {
        self.rng.once_in(times)
    }
}

/// A row up to `longest` bytes, of just that length if it is over 40.
fn row(rng: &mut Rng, longest: usize) -> Vec<u8> {
    let length = match longest > ROW {
        true => longest,
        false => rng.pick(&[0, 0, 1, 7, 12, 20, 31, 32, ROW - 1, ROW, ROW]),
    };
    match rng.once_in(4) {
        true => (0..length).map(|_| rng.next() as u8).collect(),
        false => (0..length).map(|_| rng.within(32, 126) as u8).collect(),
    }
}

/// Mostly a context of the machine: live or gone, locked or not, blocked or not.
fn writer(rng: &mut Rng, image: &[u64]) -> u64 {
    let contexts = match image {
        [_, contexts, ..] if (1..=MAX_CONTEXTS).contains(contexts) => *contexts as usize,
        _ => 1,
    };
    let named = rng.below(contexts) as u64;
    match rng.below(800) {
        // Of no machine: the cue stays to the end.
        0 => rng.pick(&[64, u64::MAX]),
        1 => named + (1 << 32),
        2..=21 => rng.pick(&[contexts as u64, 63]),
        _ => named,
    }
}

fn cpu(rng: &mut Rng, image: &[u64]) -> u64 {
    if check::image_refusal(image, 0) != 0 {
        return 0;
    }
    let view = View(image);
    let cpu = rng.below(view.cpus()) as u64;
    match rng.below(24) {
        0 => rng.pick(&[view.cpus() as u64, 4, 1 << 32, u64::MAX]),
        1..=3 => cpu,
        _ => (0..view.cpus()).find(|cpu| view.present(*cpu)).unwrap_or(0) as u64,
    }
}
