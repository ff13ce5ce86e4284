//! What the kernel's files take from the crate of system calls.

pub const MAX_CPU_COUNT: u32 = 128;
pub const CPU_SET_WORDS: usize = (MAX_CPU_COUNT / usize::BITS) as usize;
pub const UPPER_FDTBL_TAG: usize = 1 << (usize::BITS - 2);

#[derive(Clone, Copy, Debug)]
pub struct PtraceFlags;

impl PtraceFlags {
    pub const fn empty() -> Self {
        Self
    }
}

#[derive(Clone, Debug)]
pub struct Exception;

pub struct Sigcontrol;
pub struct SigProcControl;

pub struct CpuSet([usize; CPU_SET_WORDS]);

impl CpuSet {
    pub fn raw(&self) -> [usize; CPU_SET_WORDS] {
        self.0
    }
}
