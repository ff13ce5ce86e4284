//! A window of a CPU's last decisions.

use crate::answer::{Done, Refusal, read};
use crate::call::Call;
use crate::image::Image;
use crate::typed::ContextId;
use core::time::Duration;
use ronthuyal_sys as sys;

const WORDS: usize = 513;

/// The last 256 decisions of one CPU: who was in charge before each, and for how long.
///
/// It does not say of which CPU it is: have one for each, and lend that of the call's CPU.
///
/// ```
/// use ronthuyal::{Call, ContextId, Cpu, Image, Time, Window};
/// use std::time::Duration;
///
/// let mut image = Image::from_text("context idle\ncontext a\ncpu 0 idle_ctxt=idle\nqueue 0 a").unwrap();
/// let mut window = Window::new();
/// // idle had the first 2 ms, and a the next 6
/// for millis in [2, 8] {
///     image.call_in_window(&mut window, &Call::switch(Cpu(0), Time::from_millis(millis)))?;
/// }
/// assert_eq!(window.len(), 2);
/// assert_eq!(window.share(2, ContextId(0))?, Duration::from_millis(2));
/// assert_eq!(window.share(2, ContextId(1))?, Duration::from_millis(6));
/// assert_eq!(window.share_of_all(2)?, Duration::from_millis(8));
/// # Ok::<(), ronthuyal::Refusal>(())
/// ```
#[derive(Clone, Debug, PartialEq, Eq, Hash)]
pub struct Window([u64; WORDS]);

impl Default for Window {
    fn default() -> Self {
        Self::new()
    }
}

impl Window {
    /// An empty one.
    pub const fn new() -> Self {
        Self([0; WORDS])
    }
    /// These words: the count, 256 contexts, 256 times, oldest first (docs/IMAGE.md).
    pub const fn from_words(words: [u64; WORDS]) -> Self {
        Self(words)
    }
    /// All words.
    pub const fn words(&self) -> &[u64; WORDS] {
        &self.0
    }
    /// How many decisions it says that it holds.
    pub const fn len(&self) -> u64 {
        self.0[0]
    }
    /// Whether it holds none.
    pub const fn is_empty(&self) -> bool {
        self.0[0] == 0
    }
    /// How long a context was in charge, in an image of so many contexts.
    pub fn share(&self, contexts: u64, context: ContextId) -> Result<Duration, Refusal> {
        // SAFETY: address and length are those of a slice, which is only read.
        sum(unsafe { sys::ronthuyal_share(self.0.as_ptr(), WORDS, contexts, context.0) })
    }
    /// How long all of them were.
    pub fn share_of_all(&self, contexts: u64) -> Result<Duration, Refusal> {
        // SAFETY: as above.
        sum(unsafe { sys::ronthuyal_share_of_all(self.0.as_ptr(), WORDS, contexts) })
    }
}

fn sum(answer: sys::Answer) -> Result<Duration, Refusal> {
    match Refusal::new(answer.refusal) {
        Some(refusal) => Err(refusal),
        None => Ok(Duration::from_nanos(answer.result)),
    }
}

impl<W: AsRef<[u64]> + AsMut<[u64]>> Image<W> {
    /// An operation by its number, beside a window: a decision adds its record. Both change, or neither. A call that is
    /// no operation is refused with 5.
    pub fn call_in_window(&mut self, window: &mut Window, call: &Call) -> Result<Done, Refusal> {
        let [operation, cpu, time, context] = call.operation_words().unwrap_or_default();
        let words = self.words_mut();
        let (at, length) = (words.as_mut_ptr(), words.len());
        // SAFETY: addresses and lengths are those of two slices that nobody else uses during the call.
        let answer = unsafe {
            sys::ronthuyal_call_in_window(at, length, window.0.as_mut_ptr(), WORDS, operation, cpu, time, context)
        };
        read(call, answer)
    }
}
