//! A caption writer's timer comes due while a rival runs. Another CPU has the writer's record locked during the first
//! of four switches: not at all, for reading, or for writing. Who is in charge after each?
//!
//!     rustc --edition 2024 -O examples/moment.rs -L target/staticlib -l static=ronthuyal -o target/moment

#[allow(dead_code)]
#[path = "../rust/image/src/places.rs"]
mod places;

use places::{block, context};

#[repr(C)]
struct Answer {
    refusal: u64,
    result: u64,
    interrupt: u64,
    rule: u64,
}

unsafe extern "C" {
    fn ronthuyal_call(
        image: *mut u64,
        length: usize,
        operation: u64,
        cpu: u64,
        time: u64,
        context: u64,
    ) -> Answer;
}

const SWITCH: u64 = 2;
const CPUS: usize = 2;
const NAMES: [&str; 4] = ["idle", "idle of CPU 1", "rival", "writer"];
const IDLE: usize = 0;
const IDLE_1: usize = 1;
const RIVAL: usize = 2;
const WRITER: usize = 3;
const SLICE: u64 = 9 << 30;

/// The cue's time, and how long a turn is: three timer ticks.
const CUE: u64 = 1_000_000_000;
const TURN: u64 = 6_750_000;

struct Image(Vec<u64>);

impl Image {
    fn record(&mut self, number: usize, word: usize) -> &mut u64 {
        &mut self.0[2 + context::WORDS * number + word]
    }

    fn block(&mut self, cpu: usize, word: usize) -> &mut u64 {
        &mut self.0[2 + context::WORDS * NAMES.len() + block::WORDS * cpu + word]
    }

    fn switch(&mut self, time: u64) {
        let answer =
            unsafe { ronthuyal_call(self.0.as_mut_ptr(), self.0.len(), SWITCH, 0, time, 0) };
        assert_eq!((answer.refusal, answer.interrupt), (0, 0));
        assert!([1, 2].contains(&answer.result));
        assert!((1..=9).contains(&answer.rule));
    }
}

/// The rival is in charge of CPU 0 since one turn; the writer sleeps until the cue. CPU 1 is idle.
fn moment(lock: u64) -> Image {
    let mut image = Image(vec![
        0;
        2 + context::WORDS * NAMES.len() + block::WORDS * CPUS
    ]);
    image.0[..2].copy_from_slice(&[CPUS as u64, NAMES.len() as u64]);
    for number in 0..NAMES.len() {
        *image.record(number, context::DEBUG_ID) = 10 + number as u64;
        *image.record(number, context::SCHED_AFFINITY) = u64::MAX;
        *image.record(number, context::PRIO) = 20;
    }
    for (number, word, value) in [
        (IDLE_1, context::RUNNING, 1),
        (IDLE_1, context::CURRENTLY_SCHEDULED, 1),
        (RIVAL, context::RUNNING, 1),
        (RIVAL, context::CURRENTLY_SCHEDULED, 1),
        (RIVAL, context::USERSPACE, 1),
        (RIVAL, context::IS_ACTIVE, 1),
        (RIVAL, context::REM_SLICE, SLICE),
        (RIVAL, context::VD, SLICE / 1024),
        (WRITER, context::USERSPACE, 1),
        (WRITER, context::STATUS, context::BLOCKED),
        (WRITER, context::HAS_WAKE, 1),
        (WRITER, context::WAKE, CUE),
        (WRITER, context::LOCK, lock),
    ] {
        *image.record(number, word) = value;
    }
    for (cpu, word, value) in [
        (0, block::PRESENT, 1),
        (0, block::CURRENT_CTXT, RIVAL as u64),
        (0, block::SCHED_CTXT, RIVAL as u64),
        (0, block::IDLE_CTXT, IDLE as u64),
        (0, block::SCHEDULE_TIME, CUE - TURN),
        (0, block::STEAL_COUNTER, 1),
        (0, block::STATE, 2),
        (0, block::TOTAL_WEIGHT, 1024),
        (0, block::TIMERS_COUNT, 1),
        (0, block::TIMER_WAKE, CUE),
        (0, block::TIMER_CONTEXT_REF, WRITER as u64),
        (1, block::PRESENT, 1),
        (1, block::CURRENT_CTXT, IDLE_1 as u64),
        (1, block::SCHED_CTXT, IDLE_1 as u64),
        (1, block::IDLE_CTXT, IDLE_1 as u64),
    ] {
        *image.block(cpu, word) = value;
    }
    image
}

fn main() {
    println!(
        "lock of the writer      in charge after the switch at cue +       the writer's timer"
    );
    println!("at the first switch     0 ms      6.75 ms   13.5 ms   20.25 ms    after the first");
    for (lock, name) in ["0 free", "1 read", "2 written"].iter().enumerate() {
        let mut image = moment(lock as u64);
        let mut line = format!("{name:<24}");
        let mut timer = "";
        for turn in 0..4 {
            image.switch(CUE + TURN * turn);
            line += &format!("{:<10}", NAMES[*image.block(0, block::SCHED_CTXT) as usize]);
            if turn == 0 {
                let set = *image.block(0, block::TIMERS_COUNT) == 1;
                let asleep = *image.record(WRITER, context::STATUS) == context::BLOCKED;
                timer = match (set, asleep) {
                    (false, false) => "served",
                    (true, true) => "kept",
                    (false, true) => "lost",
                    (true, false) => "served and kept",
                };
            }
            // the other CPU lets go
            *image.record(WRITER, context::LOCK) = 0;
        }
        println!("{line}  {timer}");
    }
}
