//! The machine image of Ronthuyal: a moment of a scheduler's machine as 64-bit words.
//!
//! Names, units, ranges and places of all words ([`tables`], [`places`], [`Place`]), the text form both ways
//! ([`text`]), why a call is refused ([`explain`]), which locks it looks at
//! ([`locks`]), and what is accepted and surely not meant ([`tidy`]). Nothing here
//! makes a call: that is the crate `ronthuyal`.
//!
//! ```
//! use ronthuyal_image::{explain, text, Labels};
//!
//! let packed = text::pack("context idle\ncontext writer prio=40\ncpu 0 idle_ctxt=idle\nqueue 0 writer").unwrap();
//! let labels = Labels { names: &packed.names, lines: &packed.lines };
//! let why = explain::image(&packed.words, &labels).unwrap();
//! assert_eq!(why.refusal, 3);
//! assert_eq!(why.to_string(), "context.writer.prio (word 44) is 40; 0 to 39 is allowed");
//! assert_eq!(labels.line(44), Some(2));
//! ```

#![no_std]

extern crate alloc;

mod call;
pub mod explain;
pub mod locks;
mod names;
mod near;
mod place;
#[rustfmt::skip]
pub mod places;
#[rustfmt::skip]
pub mod tables;
pub mod text;
pub mod tidy;
pub mod value;
mod view;
mod word;

pub use call::Call;
pub use explain::{Explanation, Labels};
pub use names::Names;
pub use near::nearest;
pub use place::Place;
pub use places::{RULES, block, context};
pub use view::{View, length, record_at};
pub use word::{Array, CallRow, OperationRow, Range, Unit, Word};
