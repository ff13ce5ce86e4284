//! Interrupts to other CPUs are noted.

use crate::percpu::PercpuBlock;
use core::sync::atomic::{AtomicBool, Ordering};

pub enum IpiKind {
    Wakeup,
    Tlb,
}

pub enum IpiTarget {
    Other,
}

static WAKEUP_SENT: AtomicBool = AtomicBool::new(false);

pub fn ipi(kind: IpiKind, _target: IpiTarget) {
    if matches!(kind, IpiKind::Wakeup) {
        WAKEUP_SENT.store(true, Ordering::Relaxed);
    }
}

pub fn ipi_single(_kind: IpiKind, _target: &PercpuBlock) {
    panic!("interrupt to a single CPU")
}

/// Whether a wake-up was sent since this was last asked.
pub fn take_wakeup() -> bool {
    WAKEUP_SENT.swap(false, Ordering::Relaxed)
}
