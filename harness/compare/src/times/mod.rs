//! How long a checked `switch` of the port takes, beside the kernel's own.

mod asking;
pub mod boards;
pub mod chains;
mod humblest;
mod images;
mod plain;
mod rival;
mod windows;

use crate::{
    expected::{Expected, expected},
    port,
};
use image::{Answer, Call, NUMBER_MAX, View, tidy};
use images::{CALL, Size};
use kernel::oracle::Built;
use std::{hint::black_box, time::Instant};

/// How many calls are timed together, and how often. Each call has an image and a machine
/// of its own.
const BATCH: usize = 32;
const BATCHES: usize = 60;

/// What is timed, on an image or on a machine.
type Way = fn(&mut [u64], &mut Built);

struct Bench {
    start: Vec<u64>,
    images: Vec<Vec<u64>>,
    machines: Vec<Built>,
}

impl Bench {
    fn new(start: Vec<u64>) -> Self {
        Self {
            images: vec![start.clone(); BATCH],
            machines: Vec::new(),
            start,
        }
    }
    /// All images and machines are again those before the call.
    fn prepare(&mut self) {
        self.machines.clear();
        for _ in 0..BATCH {
            self.machines.push(Built::new(black_box(&self.start)));
        }
        for image in &mut self.images {
            image.copy_from_slice(black_box(&self.start));
        }
    }
    /// The mean of a batch, in ns a call.
    fn batch(&mut self, way: Way) -> f64 {
        self.prepare();
        let clock = Instant::now();
        for (image, machine) in self.images.iter_mut().zip(&mut self.machines) {
            way(black_box(image), black_box(machine));
        }
        clock.elapsed().as_nanos() as f64 / BATCH as f64
    }
    /// The least of each way's batches. The ways take turns, so that other work on the
    /// computer meets all of them alike.
    fn least<const WAYS: usize>(&mut self, ways: [Way; WAYS]) -> [f64; WAYS] {
        let mut least = [f64::MAX; WAYS];
        for _ in 0..BATCHES {
            for (least, way) in least.iter_mut().zip(ways) {
                *least = least.min(self.batch(way));
            }
        }
        least
    }
}

fn whole_call(image: &mut [u64], _: &mut Built) {
    black_box(port::call(image, &CALL));
}

/// Refused by row 5, behind the check of the whole image.
const NO_SUCH_CPU: Call = Call {
    cpu: u64::MAX,
    ..CALL
};

fn check_only(image: &mut [u64], _: &mut Built) {
    black_box(port::call(image, &NO_SUCH_CPU));
}

/// Each word compared with one bound, up to the first that is over it.
fn plain(image: &[u64], bound: u64) -> bool {
    image.iter().all(|word| *word <= bound)
}

fn plain_pass(image: &mut [u64], _: &mut Built) {
    black_box(plain(image, black_box(NUMBER_MAX)));
}

fn kernel_only(_: &mut [u64], machine: &mut Built) {
    machine.connect(&CALL);
    black_box(machine.call(&CALL));
}

fn kernel_with_image(image: &mut [u64], _: &mut Built) {
    let mut machine = Built::new(image);
    machine.connect(&CALL);
    let result = machine.call(&CALL);
    black_box(machine.read_back(image, result));
}

/// The decision must be the one that is meant, and the port's the kernel's.
fn agrees(start: &[u64], result: u64) -> bool {
    let mut ours = start.to_vec();
    let Ok(Expected::Known(answer, theirs)) = expected(start, &CALL) else {
        panic!("table and kernel disagree: use run");
    };
    assert_eq!((answer.refusal, answer.result), (0, result));
    assert!(tidy::holds(View(start)) || start[1] <= start[0]);
    assert!(plain(start, NUMBER_MAX));
    port::call(&mut ours, &NO_SUCH_CPU) == Some(Answer::refused(5))
        && port::call(&mut ours, &CALL) == Some(answer)
        && ours == theirs
}

fn row(first: &str, start: Vec<u64>, result: u64) -> bool {
    if !agrees(&start, result) {
        println!("the port does not answer as the kernel does: use run");
        return false;
    }
    let mut bench = Bench::new(start);
    let [port, kernel, both, check, plain] = bench.least([
        whole_call,
        kernel_only,
        kernel_with_image,
        check_only,
        plain_pass,
    ]);
    println!(
        "| {first} | {port:.0} | {kernel:.0} | {both:.0} | {check:.0} | {plain:.0} | {:.2} | {:.2} | {:.2} |",
        port / kernel,
        port / both,
        check / plain
    );
    true
}

const COLUMNS: &str = "port | (a) | (b) | (c) | (d) | port/(a) | port/(b) | (c)/(d) |";
const RULE: &str = "---|---|---|---|---|---|---|---|";

/// Prints the tables of docs/BENCHMARKS.md.
pub fn times() -> bool {
    if !port::THERE {
        println!("There is no archive of the port: there is nothing to time.");
        return false;
    }
    println!("| CPUs | contexts | entries | {COLUMNS}\n|---|---|---|{RULE}");
    let good = Size::all().iter().all(|size| {
        let first = format!("{} | {} | {}", size.cpus, size.contexts, size.entries);
        // With an empty queue the holder stays.
        let result = if size.entries == 0 { 2 } else { 1 };
        row(&first, images::last_wins(size).image(), result)
    });
    println!("\n| 4 CPUs, 64 contexts, 32 entries | {COLUMNS}\n|---|{RULE}");
    let size = Size {
        cpus: 4,
        contexts: 64,
        entries: 32,
    };
    let others = [
        ("the last entry wins", images::last_wins(&size)),
        ("the first entry wins", images::first_wins(&size)),
        ("8 wake-ups before it", images::woken(&size)),
        ("idle steals from the next CPU", images::stolen(&size)),
        ("64 timers, none due", images::timed(&size, 1)),
        ("64 timers on each CPU, none due", images::timed(&size, 4)),
        (
            "64 timers, the holder's superseded",
            images::superseded(&size),
        ),
    ];
    let good = good
        && others
            .iter()
            .all(|(name, machine)| row(name, machine.image(), 1));
    let tables = [
        chains::table,
        plain::table,
        asking::table,
        windows::table,
        humblest::table,
        rival::table,
    ];
    good && tables.iter().all(|table| table())
}
