//! A machine of one CPU: its idle context, and writers that sleep until they are woken.

#[allow(dead_code)]
#[path = "../../rust/image/src/places.rs"]
mod places;

use places::{block, context};

pub const NS_PER_MS: u64 = 1_000_000;
const SWITCH: u64 = 2;
const BLOCK: u64 = 6;

#[repr(C)]
struct Answer {
    refusal: u64,
    result: u64,
    interrupt: u64,
    rule: u64,
}

unsafe extern "C" {
    fn ronthuyal_call(
        image: *mut u64,
        length: usize,
        operation: u64,
        cpu: u64,
        time: u64,
        context: u64,
    ) -> Answer;
}

pub struct Machine {
    image: Vec<u64>,
    contexts: usize,
}

/// Context 0 is idle, the writers come behind it.
pub fn context(writer: usize) -> u64 {
    writer as u64 + 1
}
pub fn number(context: u64) -> usize {
    context as usize - 1
}

impl Machine {
    pub fn new(writers: usize) -> Self {
        let contexts = writers + 1;
        let image = vec![0; 2 + context::WORDS * contexts + block::WORDS];
        let mut machine = Self { image, contexts };
        machine.image[..2].copy_from_slice(&[1, contexts as u64]);
        for number in 0..contexts {
            *machine.record(number, context::DEBUG_ID) = number as u64;
            *machine.record(number, context::SCHED_AFFINITY) = 1;
            *machine.record(number, context::PRIO) = 20;
            if number > 0 {
                *machine.record(number, context::USERSPACE) = 1;
                *machine.record(number, context::STATUS) = context::BLOCKED;
            }
        }
        // Idle is current and in charge: its number is 0, as all that is not said.
        *machine.record(0, context::RUNNING) = 1;
        *machine.record(0, context::CURRENTLY_SCHEDULED) = 1;
        *machine.block(block::PRESENT) = 1;
        machine
    }

    pub fn image(&mut self) -> &mut [u64] {
        &mut self.image
    }
    fn record(&mut self, number: usize, word: usize) -> &mut u64 {
        &mut self.image[2 + context::WORDS * number + word]
    }
    fn block(&mut self, word: usize) -> &mut u64 {
        &mut self.image[2 + context::WORDS * self.contexts + word]
    }

    /// Another CPU reads the writer's record, or lets go of it.
    pub fn lock(&mut self, writer: usize, locked: bool) {
        *self.record(writer + 1, context::LOCK) = u64::from(locked);
    }

    pub fn writer_in_charge(&mut self) -> Option<usize> {
        let context = *self.block(block::SCHED_CTXT);
        (context > 0).then(|| number(context))
    }

    /// A writer that had its turn blocks.
    pub fn end_turn(&mut self, time: u64) {
        if let Some(writer) = self.writer_in_charge() {
            self.lock(writer, false);
            self.call(BLOCK, time, context(writer));
        }
    }

    /// The writer that is in charge then, if one is.
    pub fn switch(&mut self, time: u64) -> Option<usize> {
        self.call(SWITCH, time, 0);
        self.writer_in_charge()
    }

    fn call(&mut self, operation: u64, time: u64, context: u64) {
        let (image, length) = (self.image.as_mut_ptr(), self.image.len());
        // SAFETY: pointer and length are those of a slice that nobody else uses during the call.
        let answer = unsafe { ronthuyal_call(image, length, operation, 0, time, context) };
        assert_eq!((answer.refusal, answer.interrupt), (0, 0));
        assert!(answer.result <= 2 && answer.rule <= 9);
    }
}
