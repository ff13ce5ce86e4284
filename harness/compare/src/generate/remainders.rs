//! What the CPUs carry of a tick (document 02, No. 8). It is drawn from a stream of its own, so
//! that all else is drawn as without it.

use super::{
    machine::Machine,
    rng::Rng,
    values::{self, Scale},
};
use image::{REMAINDER_MAX, View, block as b, context as c, remainder};

#[derive(Clone, Copy, PartialEq, Eq)]
enum Carry {
    /// Nothing on any CPU, before each call.
    Nothing,
    /// Nothing here, before each call: the unchanged kernel decides. Anything on the others.
    Elsewhere,
    /// Anything, over its range too; a chain carries on what each call left.
    Anything,
}

pub struct Remainders {
    rng: Rng,
    carry: Carry,
}

impl Remainders {
    pub fn elsewhere(seed: u64) -> Self {
        Self {
            rng: Rng::new(!seed.rotate_left(32)),
            carry: Carry::Elsewhere,
        }
    }
    pub fn nothing(self) -> Self {
        Self {
            carry: Carry::Nothing,
            ..self
        }
    }
    pub fn anything(self) -> Self {
        Self {
            carry: Carry::Anything,
            ..self
        }
    }
    /// Whether a call of a chain finds what the one before left.
    pub fn are_carried(&self) -> bool {
        self.carry == Carry::Anything
    }

    /// On a machine whose decision is to be made on the CPU `aimed`.
    pub fn put(&mut self, scale: &Scale, machine: &mut Machine, aimed: usize) {
        for at in 0..machine.cpu.len() {
            let last = machine.cpu[at].word[b::SCHEDULE_TIME];
            let drawn = self.one(scale.time.saturating_sub(last));
            machine.cpu[at].remainder = match self.carry {
                Carry::Nothing => 0,
                Carry::Elsewhere if at == aimed => 0,
                _ => drawn,
            };
        }
        if self.carry == Carry::Anything && self.rng.once_in(6) {
            self.turn(scale.time, machine, aimed);
        }
    }

    /// A turn whose ticks, with one more, are a multiple of the holder's weight or of the total: that
    /// one is then one of virtual time, or of V. Just enough for it is carried, or just not.
    fn turn(&mut self, time: u64, machine: &mut Machine, at: usize) {
        let holder = &machine.record[machine.cpu[at].sched()];
        let cpu = &mut machine.cpu[at];
        let weights = [values::weight(holder[c::PRIO]), cpu.word[b::TOTAL_WEIGHT]];
        let weight = self.rng.pick(&weights).max(1);
        let least = self.rng.pick(&[1, 3_375_000, 6_750_000]);
        let ends = |elapsed: &u64| (remainder::converted(*elapsed, 0).0 + 1) % weight == 0;
        let found = (least..least + 3000).find(ends).filter(|e| *e <= time);
        if let Some(elapsed) = found {
            let (_, left) = remainder::converted(elapsed, 0);
            cpu.word[b::SCHEDULE_TIME] = time - elapsed;
            cpu.remainder = (REMAINDER_MAX - left + self.rng.mark()).min(REMAINDER_MAX);
        }
    }

    fn one(&mut self, elapsed: u64) -> u64 {
        let (_, left) = remainder::converted(elapsed.min(1 << 52), 0);
        match self.rng.below(10) {
            0 => 0,
            1 => self.rng.next() % (REMAINDER_MAX + 1),
            // Just enough for one tick more, and just not.
            2 | 3 => REMAINDER_MAX - left,
            4 | 5 => (REMAINDER_MAX + 1 - left).min(REMAINDER_MAX),
            _ => self.rng.pick(&[1, 777, 1_234_567, REMAINDER_MAX]),
        }
    }

    /// Before a call on this CPU, or on one that is not known yet.
    pub fn settle(&self, image: &mut [u64], cpu: Option<u64>) {
        for at in 0..View(image).cpus() {
            let zero = match self.carry {
                Carry::Nothing => true,
                Carry::Elsewhere => cpu.is_none_or(|cpu| at as u64 == cpu),
                Carry::Anything => false,
            };
            if zero {
                let block = View(image).block_at(at);
                image[block + b::REMAINDER] = 0;
            }
        }
    }

    /// Now and then one over its range, or one of an absent CPU.
    pub fn spoil(&mut self, image: &mut [u64]) {
        if self.carry != Carry::Anything || !self.rng.once_in(24) {
            return;
        }
        let view = View(image);
        let absent = (0..view.cpus()).find(|cpu| !view.present(*cpu));
        let (cpu, remainder) = match absent {
            Some(cpu) => (cpu, self.rng.pick(&[1, REMAINDER_MAX])),
            None => {
                let cpu = self.rng.below(view.cpus());
                (cpu, self.rng.pick(&[REMAINDER_MAX + 1, u64::MAX]))
            }
        };
        let block = view.block_at(cpu);
        image[block + b::REMAINDER] = remainder;
    }
}
