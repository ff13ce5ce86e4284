//! A chain of switches in one run of the port, beside the kernel's own `switch` on a machine that is
//! built already and is not read back.

use super::{
    NO_SUCH_CPU,
    images::{self, CALL, Size, TURN},
};
use crate::port;
use image::{Answer, Call, View, block as b, run};
use kernel::oracle::Built;
use std::{hint::black_box, time::Instant};

/// The switches of a chain, and how often each way makes it.
const CALLS: usize = 256;
const CHAINS: usize = 300;

struct Chain {
    start: Vec<u64>,
    calls: Vec<Call>,
}

/// What a way leaves, and the ns of a call.
type Left = (Vec<u64>, f64);

impl Chain {
    /// Switches of CPU 0, or of all CPUs in turn; a turn is three ticks, so that no fraction of a
    /// tick is carried.
    fn new(start: Vec<u64>, cpus: u64) -> Self {
        let call = |number: u64| Call {
            cpu: number % cpus,
            time: CALL.time + number / cpus * TURN,
            ..CALL
        };
        Self {
            start,
            calls: (0..CALLS as u64).map(call).collect(),
        }
    }
    fn kernel(&self) -> Left {
        let mut machine = Built::new(black_box(&self.start));
        machine.connect(&self.calls[0]);
        let clock = Instant::now();
        for call in &self.calls {
            machine.turn(black_box(call));
            black_box(machine.call(call));
        }
        let each = each(clock);
        let mut image = self.start.clone();
        machine.read_back(&mut image, 0);
        (image, each)
    }
    fn run(&self) -> Left {
        let (mut image, calls) = (self.start.clone(), run::words(&self.calls));
        let mut answers = vec![0; calls.len()];
        let clock = Instant::now();
        black_box(port::run(black_box(&mut image), &calls, &mut answers));
        let each = each(clock);
        (image, each)
    }
    fn single(&self) -> Left {
        let mut image = self.start.clone();
        let clock = Instant::now();
        for call in &self.calls {
            black_box(port::call(black_box(&mut image), call));
        }
        let each = each(clock);
        (image, each)
    }
    /// As many checks of the image alone: row 5 refuses these calls behind it.
    fn checks(&self) -> Left {
        let mut image = self.start.clone();
        let clock = Instant::now();
        for _ in &self.calls {
            black_box(port::call(black_box(&mut image), &NO_SUCH_CPU));
        }
        let each = each(clock);
        (image, each)
    }
    /// As many times one `or` of all words.
    fn ors(&self) -> Left {
        let image = self.start.clone();
        let clock = Instant::now();
        for _ in &self.calls {
            black_box(one_or(black_box(&image)));
        }
        let each = each(clock);
        (image, each)
    }
    /// Answers of single calls, and how many of them took an entry from another CPU.
    fn answers(&self) -> (Vec<Answer>, usize) {
        let mut image = self.start.clone();
        let mut thefts = 0;
        let mut answers = Vec::new();
        for call in &self.calls {
            let before = image.clone();
            answers.extend(port::call(&mut image, call));
            let counts = |image: &[u64], cpu| View(image).block(cpu, b::QUEUE_COUNT);
            let robbed = |cpu: usize| counts(&image, cpu) < counts(&before, cpu);
            let others = (0..before[0] as usize).filter(|cpu| *cpu as u64 != call.cpu);
            thefts += usize::from(others.into_iter().any(robbed));
        }
        (answers, thefts)
    }
}

/// Eight words at a time, so that none waits for the one before it.
fn one_or(words: &[u64]) -> u64 {
    let (parts, rest) = words.as_chunks::<8>();
    let both = |all: [u64; 8], part: &[u64; 8]| std::array::from_fn(|at| all[at] | part[at]);
    let all = parts.iter().fold([0; 8], both);
    all.iter().chain(rest).fold(0, |all, word| all | word)
}

fn each(clock: Instant) -> f64 {
    clock.elapsed().as_nanos() as f64 / CALLS as f64
}

fn row(name: &str, entries: usize, chain: &Chain) -> bool {
    let (answers, thefts) = chain.answers();
    let accepted = answers.iter().all(|answer| answer.refusal == 0);
    let (kernel, single) = (chain.kernel().0, chain.single().0);
    let same = kernel == single && chain.run().0 == single;
    if !accepted || !same {
        println!("a chain does not leave what the kernel leaves: use runs");
        return false;
    }
    let ways = [
        Chain::run,
        Chain::kernel,
        Chain::single,
        Chain::checks,
        Chain::ors,
    ];
    let mut least = [f64::MAX; 5];
    for _ in 0..CHAINS {
        for (least, way) in least.iter_mut().zip(ways) {
            *least = least.min(way(chain).1);
        }
    }
    let [run, kernel, single, check, or] = least;
    let ratio = run / kernel;
    println!(
        "| {name} | {entries} | {thefts} | {run:.0} | {kernel:.0} | {single:.0} | {check:.0} | {or:.0} | {ratio:.2} |"
    );
    true
}

/// Prints rows for some numbers of entries, on 4 CPUs with 64 contexts.
pub fn table() -> bool {
    println!(
        "\n| {CALLS} switches | entries | thefts | in a run | (a) | single calls | (c) | (e) | run/(a) |"
    );
    println!("|---|---|---|---|---|---|---|---|---|");
    let size = |entries| Size {
        cpus: 4,
        contexts: 64,
        entries,
    };
    let alone = |entries| Chain::new(images::last_wins(&size(entries)).image(), 1);
    let pinned = |entries| Chain::new(images::pinned(&size(entries)).image(), 1);
    let stealing = |entries| {
        let mut machine = images::last_wins(&size(entries));
        for cpu in &mut machine.cpu {
            cpu.word[b::STEAL_COUNTER] = 0;
        }
        Chain::new(machine.image(), 4)
    };
    let rows = |name, counts: &[usize], chain: &dyn Fn(usize) -> Chain| {
        counts
            .iter()
            .all(|entries| row(name, *entries, &chain(*entries)))
    };
    rows("of CPU 0", &[0, 8, 32, 59], &alone)
        && rows("of CPU 0, all entries looked at", &[8, 32, 59], &pinned)
        && rows("of all CPUs, with stealing", &[0, 8, 32, 59], &stealing)
}
