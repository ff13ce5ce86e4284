//! A CPU's counters, for loading and storing.

use super::{CpuStats, Ordering};

/// State, then user, kernel and idle milliseconds, then both counts of switches.
pub type Counters = [u64; 6];

impl CpuStats {
    pub fn put(&self, [state, user, kernel, idle, switches, syscalls]: Counters) {
        self.state.store(state as u8, Ordering::Relaxed);
        self.user.store(user, Ordering::Relaxed);
        self.kernel.store(kernel, Ordering::Relaxed);
        self.idle.store(idle, Ordering::Relaxed);
        self.context_switches.store(switches, Ordering::Relaxed);
        self.syscall_switches.store(syscalls, Ordering::Relaxed);
    }
    pub fn got(&self) -> Counters {
        [
            u64::from(self.state.load(Ordering::Relaxed)),
            self.user.load(Ordering::Relaxed),
            self.kernel.load(Ordering::Relaxed),
            self.idle.load(Ordering::Relaxed),
            self.context_switches.load(Ordering::Relaxed),
            self.syscall_switches.load(Ordering::Relaxed),
        ]
    }
}
