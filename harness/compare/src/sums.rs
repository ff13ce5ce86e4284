//! The law of the carried remainder over chains (document 02, No. 8): over all decisions of a CPU,
//! each finding the remainder that the last one left, ticks given times 2,250,000 plus the last
//! remainder are the elapsed times summed, times 2^30, plus the first remainder.

use crate::generate::Case;
use image::{Answer, Call, View, block as b, check, decision, remainder};

const SCALE: u128 = 1 << 30;
const NANOS_PER_TICK: u128 = 2_250_000;

/// What the decisions of one CPU come to.
#[derive(Clone, Copy)]
struct Sum {
    first: u64,
    ticks: u128,
    elapsed: u128,
}

#[derive(Default)]
pub struct Sums {
    /// Of the chain that goes on, by CPU.
    cpus: Vec<Sum>,
    decisions: u64,
    /// Those whose ticks the holder's slice shows.
    shown: u64,
    /// The most decisions of one CPU in a chain.
    longest: u64,
    in_chain: Vec<u64>,
}

impl Sums {
    /// Whether the law holds after this call too, on every CPU.
    pub fn hold(&mut self, case: &Case, answer: &Answer, after: &[u64]) -> bool {
        if check::image_refusal(&case.image, 0) != 0 {
            return true;
        }
        let (image, call) = (View(&case.image), &case.call);
        if !case.chained {
            self.begin(image);
        }
        if answer.refusal == 0 && decision::is_made(image, call) {
            self.add(image, call, View(after));
        }
        self.cpus.iter().enumerate().all(|(cpu, sum)| {
            let last = View(after).block(cpu, b::REMAINDER);
            let given = sum.ticks * NANOS_PER_TICK + u128::from(last);
            given == sum.elapsed * SCALE + u128::from(sum.first)
        })
    }

    fn begin(&mut self, image: View) {
        let sum = |cpu| Sum {
            first: image.block(cpu, b::REMAINDER),
            ticks: 0,
            elapsed: 0,
        };
        self.cpus = (0..image.cpus()).map(sum).collect();
        self.in_chain = vec![0; image.cpus()];
    }

    /// The ticks are those that the image shows, where it does.
    fn add(&mut self, before: View, call: &Call, after: View) {
        let cpu = call.cpu as usize;
        let shown = remainder::shown(before, call, after);
        let ticks = shown.unwrap_or(remainder::ticks(before, call));
        self.cpus[cpu].ticks += u128::from(ticks);
        self.cpus[cpu].elapsed += u128::from(remainder::elapsed(before, call));
        self.decisions += 1;
        self.shown += u64::from(shown.is_some());
        self.in_chain[cpu] += 1;
        self.longest = self.longest.max(self.in_chain[cpu]);
    }

    pub fn print(&self) {
        let Self {
            decisions,
            shown,
            longest,
            ..
        } = self;
        println!("{:46} {decisions:8}", "decisions in the sums of ticks");
        println!("{:46} {shown:8}", "  whose ticks the holder's slice shows");
        println!("{:46} {longest:8}", "  the most of one CPU in a chain");
    }
}
