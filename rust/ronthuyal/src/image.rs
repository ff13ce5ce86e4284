//! An image, and the calls on it.

use crate::answer::{Done, Refusal, read};
use crate::call::Call;
use crate::typed::{ContextId, Contexts, Cpu, Time};
use alloc::vec::Vec;
use core::fmt;
use ronthuyal_image::text::{Problem, pack};
use ronthuyal_image::{Call as Words, Explanation, Labels, Names, View, block, explain};
use ronthuyal_sys as sys;

/// A moment of the machine in words: a `Vec<u64>`, or words lent as `&mut [u64]`.
///
/// ```
/// use ronthuyal::{Cpu, Image, Refusal, Time};
///
/// // Any words are answered.
/// let mut words = [1, 2, 3];
/// let mut image = Image::new(&mut words[..]);
/// assert_eq!(image.tick(Cpu(0), Time::ZERO), Err(Refusal::Length));
/// ```
#[derive(Clone, Copy, PartialEq, Eq, Hash)]
pub struct Image<W = Vec<u64>>(W);

/// What a switch would give: who is in charge, who is current, and V. It is handed to [`Image::commit`] as it is.
#[derive(Clone, Copy, Debug, PartialEq, Eq, Hash)]
#[non_exhaustive]
pub struct Reply {
    /// Whether somebody new would be in charge, or a switch back be made.
    pub switched: bool,
    /// Who would be in charge.
    pub in_charge: ContextId,
    /// Who would be current.
    pub current: ContextId,
    /// The CPU's virtual time.
    pub v: u64,
    /// The five words as the archive gives and takes them.
    pub words: [u64; 5],
}

impl Image {
    /// The image that a text describes (docs/TEXT.md); or what is wrong with it, by lines.
    pub fn from_text(text: &str) -> Result<Self, Vec<Problem>> {
        pack(text).map(|packed| Self(packed.words))
    }
}

impl<W: AsRef<[u64]>> Image<W> {
    /// These words.
    pub fn new(words: W) -> Self {
        Self(words)
    }
    /// All words.
    pub fn words(&self) -> &[u64] {
        self.0.as_ref()
    }
    /// The words, given back.
    pub fn into_words(self) -> W {
        self.0
    }
    fn seat(&self, cpu: Cpu, word: usize) -> Option<ContextId> {
        let view = View::new(self.words())?;
        let there = cpu.0 < view.cpus() as u64 && view.present(cpu.0 as usize);
        there.then(|| ContextId(view.block(cpu.0 as usize, word)))
    }
    /// Who is in charge of a CPU that is there.
    pub fn in_charge(&self, cpu: Cpu) -> Option<ContextId> {
        self.seat(cpu, block::SCHED_CTXT)
    }
    /// Who runs on a CPU that is there.
    pub fn current(&self, cpu: Cpu) -> Option<ContextId> {
        self.seat(cpu, block::CURRENT_CTXT)
    }
    /// The weights of a CPU's entries and of who is in charge, added up.
    pub fn total_weight(&self, cpu: Cpu) -> Result<u64, Refusal> {
        let words = self.words();
        // SAFETY: address and length are those of a slice, which is only read.
        let answer = unsafe { sys::ronthuyal_total_weight(words.as_ptr(), words.len(), cpu.0) };
        read(&Call::total_weight(cpu), answer).map(|done| done.result)
    }
    /// What a switch at this time would give. Nothing is changed.
    ///
    /// ```
    /// use ronthuyal::{ContextId, Cpu, Image, Refusal, Time};
    ///
    /// let mut image = Image::from_text("context idle\ncontext a\ncpu 0 idle_ctxt=idle\nqueue 0 a").unwrap();
    /// let reply = image.ask(Cpu(0), Time::ZERO)?;
    /// assert_eq!(reply.in_charge, ContextId(1));
    /// image.commit(Cpu(0), Time::ZERO, &reply)?;
    /// // The machine has moved on: that reply is no longer true.
    /// assert_eq!(image.commit(Cpu(0), Time::ZERO, &reply), Err(Refusal::NotTheReply));
    /// # Ok::<(), Refusal>(())
    /// ```
    pub fn ask(&self, cpu: Cpu, time: Time) -> Result<Reply, Refusal> {
        let words = self.words();
        // SAFETY: address and length are those of a slice, which is only read.
        let asked = unsafe { sys::ronthuyal_ask(words.as_ptr(), words.len(), cpu.0, time.as_nanos()) };
        match Refusal::new(asked.refusal) {
            Some(refusal) => Err(refusal),
            None => Ok(Reply {
                switched: asked.result == 1,
                in_charge: ContextId(asked.in_charge),
                current: ContextId(asked.current),
                v: asked.v,
                words: [asked.refusal, asked.result, asked.in_charge, asked.current, asked.v],
            }),
        }
    }
    /// Why a call would be refused, with the word by name; nothing if it would be made.
    pub fn explain(&self, call: &Call) -> Option<Explanation> {
        let names = Names::invented(self.words());
        let labels = Labels {
            names: &names,
            lines: &[],
        };
        self.explain_with(call, &labels)
    }
    /// The same with names of one's own for the contexts.
    pub fn explain_with(&self, call: &Call, labels: &Labels) -> Option<Explanation> {
        explain::call(self.words(), call.words(), labels).or_else(|| {
            let refusal = |words: &[u64]| {
                let made = Image::new(words.to_vec()).call(call);
                made.map_or_else(Refusal::number, |_| 0)
            };
            // Only the call itself shows whether a decision finds room.
            let no_room = call.words().decides() && refusal(self.words()) == 9;
            no_room.then(|| explain::no_room(self.words(), call.words(), labels, refusal))?
        })
    }
}

impl<W: AsRef<[u64]> + AsMut<[u64]>> Image<W> {
    /// All words, to be changed: what other CPUs do meanwhile.
    pub fn words_mut(&mut self) -> &mut [u64] {
        self.0.as_mut()
    }
    /// Any call.
    pub fn call(&mut self, call: &Call) -> Result<Done, Refusal> {
        let words = self.0.as_mut();
        let (at, length) = (words.as_mut_ptr(), words.len());
        // SAFETY: address and length are those of a slice that nobody else uses during the call.
        let answer = unsafe {
            match *call.words() {
                Words::Operation {
                    operation,
                    cpu,
                    time,
                    context,
                } => sys::ronthuyal_call(at, length, operation, cpu, time, context),
                Words::UnblockGroup { cpu, time, mask } => sys::ronthuyal_unblock_group(at, length, cpu, time, mask),
                Words::TotalWeight { cpu } => sys::ronthuyal_total_weight(at, length, cpu),
                Words::Ask { cpu, time } => {
                    let asked = sys::ronthuyal_ask(at, length, cpu, time);
                    sys::Answer {
                        refusal: asked.refusal,
                        result: asked.result,
                        ..sys::Answer::default()
                    }
                }
                Words::Commit { cpu, time, reply } => {
                    let [refusal, result, in_charge, current, v] = reply;
                    sys::ronthuyal_commit(at, length, cpu, time, refusal, result, in_charge, current, v)
                }
                // A call that this version has no words for is none.
                _ => sys::ronthuyal_call(at, length, 0, 0, 0, 0),
            }
        };
        read(call, answer)
    }
    /// An operation by its number, by the plain engine: the answer and the words of [`call`](Self::call), slowly. A call
    /// that is no operation is refused with 5.
    ///
    /// ```
    /// use ronthuyal::{Call, Cpu, Image, Time};
    ///
    /// let mut image = Image::from_text("context idle\ncontext a\ncpu 0 idle_ctxt=idle\nqueue 0 a").unwrap();
    /// let mut plain = image.clone();
    /// let call = Call::switch(Cpu(0), Time::from_millis(1));
    /// assert_eq!(plain.plain_call(&call), image.call(&call));
    /// assert!(plain == image);
    /// ```
    pub fn plain_call(&mut self, call: &Call) -> Result<Done, Refusal> {
        let [operation, cpu, time, context] = call.operation_words().unwrap_or_default();
        let words = self.0.as_mut();
        let (at, length) = (words.as_mut_ptr(), words.len());
        // SAFETY: address and length are those of a slice that nobody else uses during the call.
        let answer = unsafe { sys::ronthuyal_plain_call(at, length, operation, cpu, time, context) };
        read(call, answer)
    }
    /// The timer's tick: counts it, and switches on the third.
    pub fn tick(&mut self, cpu: Cpu, time: Time) -> Result<Done, Refusal> {
        self.call(&Call::tick(cpu, time))
    }
    /// Who is in charge is decided anew.
    pub fn switch(&mut self, cpu: Cpu, time: Time) -> Result<Done, Refusal> {
        self.call(&Call::switch(cpu, time))
    }
    /// The context gets the rest of the slice, or else as [`switch`](Self::switch).
    pub fn direct_switch_to(&mut self, cpu: Cpu, time: Time, context: ContextId) -> Result<Done, Refusal> {
        self.call(&Call::direct_switch_to(cpu, time, context))
    }
    /// The context is woken and put on a wake-up list.
    pub fn unblock_context(&mut self, cpu: Cpu, time: Time, context: ContextId) -> Result<Done, Refusal> {
        self.call(&Call::unblock_context(cpu, time, context))
    }
    /// Every context of the group is woken, or, refused, none.
    pub fn unblock_group(&mut self, cpu: Cpu, time: Time, group: Contexts) -> Result<Done, Refusal> {
        self.call(&Call::unblock_group(cpu, time, group))
    }
    /// Names on the interrupt list go behind those on the local list.
    pub fn drain_ipi_context_wakeups(&mut self, cpu: Cpu, time: Time) -> Result<Done, Refusal> {
        self.call(&Call::drain_ipi_context_wakeups(cpu, time))
    }
    /// The context becomes Blocked.
    pub fn block(&mut self, cpu: Cpu, time: Time, context: ContextId) -> Result<Done, Refusal> {
        self.call(&Call::block(cpu, time, context))
    }
    /// The context becomes Stopped.
    pub fn hard_block(&mut self, cpu: Cpu, time: Time, context: ContextId) -> Result<Done, Refusal> {
        self.call(&Call::hard_block(cpu, time, context))
    }
    /// The switch, if it gives what was asked in all five words; [`Refusal::NotTheReply`] if it gives something else.
    pub fn commit(&mut self, cpu: Cpu, time: Time, reply: &Reply) -> Result<Done, Refusal> {
        self.call(&Call::from_words(Words::Commit {
            cpu: cpu.0,
            time: time.as_nanos(),
            reply: reply.words,
        }))
    }
}

impl<W: AsRef<[u64]>> fmt::Debug for Image<W> {
    fn fmt(&self, f: &mut fmt::Formatter<'_>) -> fmt::Result {
        f.write_str(&ronthuyal_image::text::show(self.words()))
    }
}
