//! The scheduling decisions of the Redox kernel, ported and proved, over a machine image.
//!
//! An [`Image`] is a moment of a machine in 64-bit words. A call makes of it the next one, and gives a [`Done`]; or it
//! is refused, gives a [`Refusal`], and leaves every word as it was. Any words and any call are answered.
//!
//! ```
//! use ronthuyal::{ContextId, Cpu, Image, Outcome, Rule, Time};
//!
//! // A caption writer sleeps until 1 s while a rival runs.
//! let mut image = Image::from_text(
//!     "context idle
//!      context rival
//!      context writer wake=1s
//!      cpu 0 idle_ctxt=idle sched_ctxt=rival schedule_time=993.25ms steal_counter=1
//!      timer 0 writer",
//! )
//! .unwrap();
//! let done = image.switch(Cpu(0), Time::from_millis(1000))?;
//! assert_eq!(done.outcome, Outcome::Switched);
//! assert_eq!(done.rule, Some(Rule::FirstEligible));
//! assert_eq!(image.in_charge(Cpu(0)), Some(ContextId(2)));
//! # Ok::<(), ronthuyal::Refusal>(())
//! ```
//!
//! A refusal says its number, and [`Image::explain`] the word:
//!
//! ```
//! use ronthuyal::{Call, Cpu, Image, Refusal, Time};
//!
//! let mut image = Image::from_text("context idle\ncpu 0 idle_ctxt=idle queue_locked").unwrap();
//! let refusal = image.switch(Cpu(0), Time::ZERO).unwrap_err();
//! assert_eq!(refusal, Refusal::Locked);
//! let why = image.explain(&Call::switch(Cpu(0), Time::ZERO)).unwrap();
//! assert_eq!(
//!     why.to_string(),
//!     "another CPU holds the queue of CPU 0: cpu.0.queue_locked (word 46) is 1; 0 is needed: the kernel would wait"
//! );
//! ```

#![no_std]

extern crate alloc;

mod answer;
mod call;
mod image;
mod questions;
#[rustfmt::skip]
mod rules;
mod run;
mod typed;
mod window;

pub use answer::{Done, Outcome, Refusal};
pub use call::Call;
pub use image::{Image, Reply};
pub use questions::{Choice, Game};
pub use ronthuyal_image as words;
pub use rules::Rule;
pub use typed::{ContextId, Contexts, Cpu, Time};
pub use window::Window;
