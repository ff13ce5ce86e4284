//! A run of calls.

use crate::answer::{Done, Refusal, read};
use crate::call::Call;
use crate::image::Image;
use alloc::vec;
use alloc::vec::Vec;
use ronthuyal_sys as sys;

/// Words of a call, and of an answer.
const WORDS: usize = 4;

impl<W: AsRef<[u64]> + AsMut<[u64]>> Image<W> {
    /// The calls one after the other, each on the image that the one before it left: answers and words are those of
    /// [`call`](Self::call) for each, but operations in a row are made in one run, which checks the image only where it
    /// has to. A refused call changes nothing, and the run goes on.
    ///
    /// ```
    /// use ronthuyal::{Call, Cpu, Image, Outcome, Refusal, Time};
    ///
    /// let mut image = Image::from_text("context idle\ncontext a\ncpu 0 idle_ctxt=idle\nqueue 0 a").unwrap();
    /// let switch = |cpu, millis| Call::switch(Cpu(cpu), Time::from_millis(millis));
    /// let done = image.run(&[switch(0, 1), switch(7, 2), switch(0, 8)]);
    /// assert_eq!(done[0]?.outcome, Outcome::Switched);
    /// assert_eq!(done[1], Err(Refusal::Unknown));
    /// assert_eq!(done[2]?.outcome, Outcome::AllContextsIdle);
    /// # Ok::<(), Refusal>(())
    /// ```
    pub fn run(&mut self, calls: &[Call]) -> Vec<Result<Done, Refusal>> {
        let operation = |call: &Call| call.operation_words().is_some();
        let mut all = Vec::with_capacity(calls.len());
        for part in calls.chunk_by(|one, other| operation(one) == operation(other)) {
            match part.first().is_some_and(operation) {
                true => self.operations(part, &mut all),
                false => all.extend(part.iter().map(|call| self.call(call))),
            }
        }
        all
    }

    fn operations(&mut self, calls: &[Call], all: &mut Vec<Result<Done, Refusal>>) {
        let words: Vec<u64> = calls.iter().filter_map(Call::operation_words).flatten().collect();
        let mut answers = vec![0; words.len()];
        let image = self.words_mut();
        // SAFETY: addresses and lengths are those of three slices that nobody else uses during the run.
        unsafe {
            let (at, length) = (image.as_mut_ptr(), image.len());
            sys::ronthuyal_run(
                at,
                length,
                words.as_ptr(),
                words.len(),
                answers.as_mut_ptr(),
                answers.len(),
            );
        }
        let answer = |words: &[u64]| sys::Answer {
            refusal: words[0],
            result: words[1],
            interrupt: words[2],
            rule: words[3],
        };
        let answers = answers.chunks_exact(WORDS).map(answer);
        all.extend(calls.iter().zip(answers).map(|(call, answer)| read(call, answer)));
    }
}
