//! The kernel's own scheduling functions, compiled from their sources over shims
//! for what they import, and the oracle that runs them on machine images.

#![allow(dead_code, unused_imports, unused_variables, unexpected_cfgs)]
#![allow(clippy::all)]

macro_rules! warn {
    ($($arg:tt)*) => {
        eprintln!($($arg)*)
    };
}

include!(concat!(env!("OUT_DIR"), "/tree/root.rs"));

mod arch;
mod common;
mod ipi;
mod memory;
mod scheme;
mod sync;
mod syscall;
mod time;

mod numa {
    #[derive(Clone, Copy)]
    pub struct NumaNodeID;
    pub struct NumaNode;

    pub fn make_mask_early(_cpu_id: u32) -> Option<u128> {
        None
    }
}

mod profiling {
    pub struct RingBuffer;
}

mod ptrace {
    pub struct Session;
}

pub mod branches;
mod load;
pub mod oracle;
mod remainder;
mod rule;
mod store;

/// Where the text was edited for the power table; empty in every other build.
pub const EDITED: &str = include_str!(concat!(env!("OUT_DIR"), "/tree/edited.txt"));

use core::sync::atomic::{AtomicU32, Ordering};

static CPU_COUNT: AtomicU32 = AtomicU32::new(1);

fn cpu_id() -> cpu_set::LogicalCpuId {
    percpu::PercpuBlock::current().cpu_id
}

fn cpu_count() -> u32 {
    CPU_COUNT.load(Ordering::Acquire)
}
