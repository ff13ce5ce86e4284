//! The exports of Ronthuyal's proved archive, as they are: `include/ronthuyal.h` in Rust.
//!
//! Each takes the address and the number of an image's words, and answers for any words and any call. The crate
//! `ronthuyal` has them as safe functions. Without the archive the build stops and says which command makes it.

#![no_std]

#[rustfmt::skip]
mod exports;

pub use exports::*;
