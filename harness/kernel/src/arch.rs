//! The machine under the kernel: one thread that plays the CPU of the call.

use crate::percpu::PercpuBlock;
use core::{
    cell::Cell,
    ptr,
    sync::atomic::{AtomicPtr, Ordering},
};

static CURRENT: AtomicPtr<PercpuBlock> = AtomicPtr::new(ptr::null_mut());

impl PercpuBlock {
    pub fn current() -> &'static Self {
        unsafe { &*CURRENT.load(Ordering::Relaxed) }
    }
    pub fn set_current(block: *mut Self) {
        CURRENT.store(block, Ordering::Relaxed);
    }
}

pub fn kfx_size() -> usize {
    0
}

/// Outside every context's stack.
pub fn current_stack_ptr() -> *mut u8 {
    usize::MAX as *mut u8
}

pub mod device {
    use super::Cell;

    #[derive(Clone, Copy)]
    pub struct ApicId(u32);

    impl ApicId {
        pub fn get(self) -> u32 {
            self.0
        }
    }

    pub struct ArchPercpuMisc {
        pub apic_id_opt: Cell<Option<ApicId>>,
    }

    impl ArchPercpuMisc {
        pub const fn default() -> Self {
            Self {
                apic_id_opt: Cell::new(None),
            }
        }
    }
}

pub mod interrupt {
    pub struct InterruptStack;
}

pub mod stop {
    pub unsafe fn emergency_reset() -> ! {
        panic!("emergency reset")
    }
}
