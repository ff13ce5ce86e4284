//! The handler of signals does nothing; that it was called says that a tick was due.

use crate::sync::CleanLockToken;
use core::sync::atomic::{AtomicBool, Ordering};

static CALLED: AtomicBool = AtomicBool::new(false);

pub fn signal_handler(_token: &mut CleanLockToken) {
    CALLED.store(true, Ordering::Relaxed);
}

/// Whether the handler was called since this was last asked.
pub fn take_called() -> bool {
    CALLED.swap(false, Ordering::Relaxed)
}
