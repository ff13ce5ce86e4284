//! Calls as values, for those who keep or compare them.

use crate::typed::{ContextId, Contexts, Cpu, Time};
use ronthuyal_image::Call as Words;

/// A call on an image.
///
/// ```
/// use ronthuyal::{Call, ContextId, Cpu, Time};
///
/// let call = Call::unblock_context(Cpu(0), Time::from_millis(5), ContextId(2));
/// assert_eq!(call.words().name(), "unblock_context");
/// ```
#[derive(Clone, Copy, Debug, PartialEq, Eq, Hash)]
pub struct Call(Words);

impl Call {
    fn new(operation: u64, cpu: Cpu, time: Time, context: ContextId) -> Self {
        Self(Words::Operation {
            operation,
            cpu: cpu.0,
            time: time.as_nanos(),
            context: context.0,
        })
    }
    /// The timer's tick.
    pub fn tick(cpu: Cpu, time: Time) -> Self {
        Self::new(1, cpu, time, ContextId(0))
    }
    /// Who is in charge is decided anew.
    pub fn switch(cpu: Cpu, time: Time) -> Self {
        Self::new(2, cpu, time, ContextId(0))
    }
    /// The context gets the rest of the slice.
    pub fn direct_switch_to(cpu: Cpu, time: Time, context: ContextId) -> Self {
        Self::new(3, cpu, time, context)
    }
    /// The context is woken.
    pub fn unblock_context(cpu: Cpu, time: Time, context: ContextId) -> Self {
        Self::new(4, cpu, time, context)
    }
    /// The interrupt list is moved behind the local one.
    pub fn drain_ipi_context_wakeups(cpu: Cpu, time: Time) -> Self {
        Self::new(5, cpu, time, ContextId(0))
    }
    /// The context becomes Blocked.
    pub fn block(cpu: Cpu, time: Time, context: ContextId) -> Self {
        Self::new(6, cpu, time, context)
    }
    /// The context becomes Stopped.
    pub fn hard_block(cpu: Cpu, time: Time, context: ContextId) -> Self {
        Self::new(7, cpu, time, context)
    }
    /// Every context of the group is woken, or none.
    pub fn unblock_group(cpu: Cpu, time: Time, group: Contexts) -> Self {
        Self(Words::UnblockGroup {
            cpu: cpu.0,
            time: time.as_nanos(),
            mask: group.mask(),
        })
    }
    /// The weights of a CPU are added up.
    pub fn total_weight(cpu: Cpu) -> Self {
        Self(Words::TotalWeight { cpu: cpu.0 })
    }
    /// Any call by its words.
    pub fn from_words(words: Words) -> Self {
        Self(words)
    }
    /// The call by its words.
    pub fn words(&self) -> &Words {
        &self.0
    }
    /// Operation, CPU, time and context, of an operation by its number.
    pub(crate) fn operation_words(&self) -> Option<[u64; 4]> {
        match self.0 {
            Words::Operation {
                operation,
                cpu,
                time,
                context,
            } => Some([operation, cpu, time, context]),
            _ => None,
        }
    }
    pub(crate) fn operation(&self) -> Option<u64> {
        self.0.operation()
    }
}
