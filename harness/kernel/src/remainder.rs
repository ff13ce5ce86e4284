//! The remainders that the CPUs carry (document 02, No. 8). The word is none of the kernel's: it
//! is kept here, of the machine that was built last. Only the text of the build `changed` asks for
//! it, so the unchanged one leaves it as it was.

use crate::cpu_set::LogicalCpuId;
use image::MAX_CPUS;
use std::cell::Cell;

thread_local! {
    static CARRIED: [Cell<u64>; MAX_CPUS as usize] = const { [const { Cell::new(0) }; MAX_CPUS as usize] };
}

/// What this CPU carries, to be added before ticks are divided.
pub fn carried(cpu: LogicalCpuId) -> u128 {
    get(cpu.get() as usize).into()
}

/// What the division left over, for the next one.
pub fn carry(cpu: LogicalCpuId, left: u128) {
    put(cpu.get() as usize, left as u64);
}

pub fn put(cpu: usize, remainder: u64) {
    CARRIED.with(|carried| carried[cpu].set(remainder));
}

pub fn get(cpu: usize) -> u64 {
    CARRIED.with(|carried| carried[cpu].get())
}
