//! The seeded generator of cases.

mod aim;
mod boards;
mod breakage;
mod call;
mod case;
pub mod corners;
mod damage;
pub mod either;
mod full;
mod group;
pub mod humblest;
pub mod machine;
mod queue;
mod remainders;
pub mod rival;
pub mod rng;
mod rules;
pub mod runs;
mod seats;
mod spoiled_boards;
#[cfg(test)]
mod tests;
mod tidy;
mod timers;
mod untidy;
mod values;
mod weighed;
pub mod windows;

pub use boards::{Boards, Turn};
pub use case::{Case, KINDS, Kind};
pub use group::Groups;
#[cfg(feature = "oracle")]
pub use {group::mask, values::weight};

use case::Choice;
use image::{Call, NUMBER_MAX, View, block as b, check};
use remainders::Remainders;
use rng::Rng;
use tidy::Size;
use values::Scale;

pub struct Stream {
    rng: Rng,
    remainders: Remainders,
    choice: Choice,
    /// The image after the last call, and how many calls the chain still has.
    chain: Option<(Vec<u64>, Scale, usize)>,
}

impl Stream {
    pub fn new(seed: u64) -> Self {
        Self::of(seed, Choice::All)
    }
    #[cfg(feature = "branches")]
    pub fn small(seed: u64) -> Self {
        Self::of(seed, Choice::Small)
    }
    pub fn chains(seed: u64) -> Self {
        Self::of(seed, Choice::Chains)
    }
    pub fn timers(seed: u64) -> Self {
        Self::of(seed, Choice::Timers)
    }
    pub fn rules(seed: u64) -> Self {
        Self::of(seed, Choice::Rules)
    }
    #[cfg(feature = "oracle")]
    pub fn weighed(seed: u64) -> Self {
        Self::of(seed, Choice::Weighed)
    }
    fn of(seed: u64, choice: Choice) -> Self {
        Self {
            rng: Rng::new(seed),
            remainders: Remainders::elsewhere(seed),
            choice,
            chain: None,
        }
    }
    /// The same cases with no remainder anywhere.
    pub fn without_remainders(self) -> Self {
        Self {
            remainders: self.remainders.nothing(),
            ..self
        }
    }
    /// The same kinds of cases with remainders that are carried.
    pub fn carrying(self) -> Self {
        Self {
            remainders: self.remainders.anything(),
            ..self
        }
    }
    pub fn carries(&self) -> bool {
        self.remainders.are_carried()
    }
    /// What tells the parts of one command apart.
    pub fn name(&self) -> &'static str {
        match self.choice {
            _ if !self.carries() => "",
            Choice::Timers => ", carrying, timers",
            Choice::Rules => ", carrying, rules",
            _ => ", carrying",
        }
    }

    pub fn next(&mut self) -> Case {
        if let Some((mut image, scale, left)) = self.chain.take() {
            let call = self.call(&image, scale.time);
            self.remainders.settle(&mut image, Some(call.cpu));
            if left > 0 {
                self.chain = Some((image.clone(), scale, left - 1));
            }
            return Case {
                kind: Kind::Chain,
                image,
                call,
                chained: true,
            };
        }
        let kind = self.choice.kind(&mut self.rng);
        self.first(kind)
    }

    /// The image that the call left: the next one of a chain begins with it.
    pub fn answered(&mut self, after: &[u64]) {
        // A number that the call raised over its range would end every further call.
        let refused = || (1..=4).contains(&check::refusal(after, &Call::default()));
        if self.choice.long_chains() && refused() {
            self.chain = None;
        }
        if let Some((image, scale, _)) = &mut self.chain {
            image.clear();
            image.extend(after);
            let step = self
                .rng
                .pick(&[0, 1, 400_000, 2_250_000, 3_375_000, 6_750_000, 25_000_000]);
            scale.time = (scale.time + step).min(NUMBER_MAX);
            if self.choice == Choice::Timers {
                timers::relock(&mut self.rng, image);
            }
            if self.choice == Choice::Timers || self.choice.long_chains() {
                timers::resleep(&mut self.rng, scale, image);
            }
        }
    }

    fn first(&mut self, kind: Kind) -> Case {
        let rng = &mut self.rng;
        let scale = Scale::new(rng);
        let size = match self.choice {
            Choice::Small => Size::small(rng),
            _ if kind == Kind::Full && rng.once_in(3) => Size::most(rng),
            _ => Size::any(rng),
        };
        let mut machine = tidy::machine(rng, &size, &scale);
        let spoiled = match kind {
            Kind::Tidy => false,
            Kind::Untidy => true,
            _ => self.choice != Choice::Weighed && rng.once_in(2),
        };
        let mut aimed = rng.below(machine.cpu.len());
        if matches!(
            self.choice,
            Choice::Timers | Choice::Rules | Choice::Weighed
        ) {
            aimed = timers::aimed(rng, &machine);
        }
        self.remainders.put(&scale, &mut machine, aimed);
        if rng.once_in(2) {
            aim::at_holder(rng, &mut machine, aimed, scale.time, !spoiled);
        }
        if rng.once_in(3) {
            aim::at_victims(rng, &mut machine, aimed);
        }
        if self.choice == Choice::Rules || self.choice == Choice::Weighed && rng.once_in(2) {
            rules::put(rng, &mut machine, aimed, scale.time, !spoiled);
        }
        if spoiled {
            untidy::spoil(rng, &scale, &mut machine, aimed);
        }
        let filled = match kind {
            Kind::Full => full::fill(rng, &scale, &mut machine, aimed),
            _ => None,
        };
        if self.choice == Choice::Timers {
            timers::put(rng, &scale, &mut machine, aimed);
        } else if rng.once_in(12) {
            timers::sleeps_again(rng, &scale, &mut machine, aimed);
        }
        if self.choice == Choice::Weighed {
            weighed::put(rng, &mut machine, kind == Kind::Chain);
        }
        let mut image = machine.image();
        let mut call = self.call(&image, scale.time);
        if !self.rng.once_in(4) && machine.cpu[aimed].present() {
            call.cpu = aimed as u64;
        }
        if self.choice == Choice::Timers {
            timers::call(&mut self.rng, &mut call, aimed);
        } else if self.choice == Choice::Rules
            || self.choice == Choice::Weighed && kind == Kind::Tidy
        {
            rules::call(&mut self.rng, &mut call, aimed);
        } else if let Some(filled) = filled {
            // Only a wake-up from another CPU puts a name there.
            call.operation = 4;
            call.cpu = (filled as u64 + 1) % machine.cpu.len() as u64;
        }
        for other in 0..machine.cpu.len() {
            let held = machine.cpu[other].present() && self.rng.once_in(8);
            if held && other as u64 != call.cpu {
                let at = View(&image).block_at(other);
                image[at + b::QUEUE_LOCKED] = 1;
            }
        }
        // Damage may name another CPU.
        let cpu = (kind != Kind::Damaged).then_some(call.cpu);
        self.remainders.settle(&mut image, cpu);
        if kind != Kind::Chain {
            self.remainders.spoil(&mut image);
        }
        if kind == Kind::Damaged {
            damage::spoil(&mut self.rng, &mut image, &mut call);
        }
        if kind == Kind::Chain {
            let left = match self.choice {
                choice if choice.long_chains() => self.rng.within(30, 150),
                _ => self.rng.within(3, 15),
            };
            self.chain = Some((image.clone(), scale, left));
        }
        Case {
            kind,
            image,
            call,
            chained: false,
        }
    }
}
