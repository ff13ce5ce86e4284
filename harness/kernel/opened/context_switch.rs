//! Private fields of a CPU's scheduling state, for loading and storing.

use super::{Arc, Cell, ContextLock, ContextSwitchPercpu, RefCell, RunContextData};
use crate::sync::CleanLockToken;

/// The contexts that a CPU names: current, in charge and idle.
pub struct Seats {
    pub current: Arc<ContextLock>,
    pub sched: Arc<ContextLock>,
    pub idle: Arc<ContextLock>,
}

impl ContextSwitchPercpu {
    pub fn schedule_time_cell(&self) -> &Cell<u128> {
        &self.schedule_time
    }
    pub fn pit_ticks_cell(&self) -> &Cell<usize> {
        &self.pit_ticks
    }
    pub fn seat(&self, seats: Seats) {
        self.current_ctxt.replace(Some(seats.current));
        self.sched_ctxt.replace(Some(seats.sched));
        self.idle_ctxt.replace(Some(seats.idle));
    }
    pub fn seats(&self) -> Seats {
        let taken = |seat: &RefCell<Option<Arc<ContextLock>>>| Arc::clone(seat.borrow().as_ref().unwrap());
        Seats {
            current: taken(&self.current_ctxt),
            sched: taken(&self.sched_ctxt),
            idle: taken(&self.idle_ctxt),
        }
    }
    /// The greatest lengths that queue, timers, local and interrupt list had.
    pub fn peaks(&mut self) -> [usize; 4] {
        let mut token = unsafe { CleanLockToken::new() };
        let ipi = self.ipi_context_wakeup_list.lock(token.token()).peak;
        let local = self.local_wakeup_list.get_mut().peak;
        let [queue, timers] = self.run_queue.get_mut().peaks();
        [queue, timers, local, ipi]
    }
    /// Whether a call left something in the places that it only uses itself. Timers
    /// whose context could not be read stay in theirs, and are cleared by the next call.
    pub fn leftover(&mut self) -> bool {
        self.switch_result.take().is_some()
            || !self.tmp_wakeups.get_mut().is_empty()
            || !self.tmp_steal.get_mut().is_empty()
    }
}
