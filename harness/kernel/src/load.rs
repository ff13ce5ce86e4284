//! From an image to the kernel's own structures.

mod block;

use crate::{
    context::{
        Context, ContextLock, Status, WeakContextRef,
        context::{HardBlockedReason, Kstack},
        memory::{AddrSpaceWrapper, GrantFileRef},
        opened::{Entry, key},
        switch::opened::Seats,
    },
    cpu_set::{LogicalCpuId, LogicalCpuSet},
    percpu::PercpuBlock,
    remainder,
    sync::{CleanLockToken, Held},
};
use core::sync::atomic::Ordering;
use image::{View, block as b, context as c};
use std::sync::{Arc, Weak};

/// A context: gone ones have no strong reference any more.
pub struct Slot {
    pub strong: Option<Arc<ContextLock>>,
    pub weak: Weak<ContextLock>,
}

pub struct Machine {
    pub slots: Vec<Slot>,
    pub blocks: Vec<Option<Box<PercpuBlock>>>,
}

pub fn machine(image: View) -> Machine {
    let slots = contexts(image);
    for cpu in 0..image.cpus() {
        remainder::put(cpu, image.block(cpu, b::REMAINDER));
    }
    let blocks = (0..image.cpus())
        .map(|cpu| image.present(cpu).then(|| block::block(image, cpu, &slots)))
        .collect();
    Machine { slots, blocks }
}

/// Contexts whose addresses rise with their numbers.
fn contexts(image: View) -> Vec<Slot> {
    let mut made: Vec<Arc<ContextLock>> = (0..image.contexts())
        .map(|_| {
            let context = Context::new(None, Kstack::new(None).unwrap()).unwrap();
            Arc::new(ContextLock::new(context))
        })
        .collect();
    made.sort_unstable_by_key(Arc::as_ptr);
    made.into_iter()
        .enumerate()
        .map(|(number, lock)| {
            let weak = Arc::downgrade(&lock);
            let strong = (!image.gone(number)).then_some(lock);
            if let Some(lock) = &strong {
                record(image, number, lock);
            }
            Slot { strong, weak }
        })
        .collect()
}

fn record(image: View, number: usize, lock: &ContextLock) {
    let word = |place| image.context(number, place);
    let mark = |place| word(place) == 1;
    let context = unsafe { &mut *lock.value() };
    context.debug_id = word(c::DEBUG_ID) as u32;
    context.status = status(word(c::STATUS));
    context.running = mark(c::RUNNING);
    context.currently_scheduled = mark(c::CURRENTLY_SCHEDULED);
    context.cpu_id = (word(c::CPU_ID) as u32)
        .checked_sub(1)
        .map(LogicalCpuId::new);
    context.schedule_time = word(c::SCHEDULE_TIME).into();
    context.switch_time = word(c::SWITCH_TIME).into();
    context.active_cpu_time = word(c::ACTIVE_CPU_TIME).into();
    context.sched_cpu_time = word(c::SCHED_CPU_TIME).into();
    context
        .sched_affinity
        .override_from(&[word(c::SCHED_AFFINITY) as usize, 0]);
    context.inside_syscall = mark(c::INSIDE_SYSCALL);
    context.wake = mark(c::HAS_WAKE).then(|| word(c::WAKE).into());
    context.userspace = mark(c::USERSPACE);
    context.being_sigkilled = mark(c::BEING_SIGKILLED);
    context.prio = word(c::PRIO) as usize;
    context.vtime = word(c::VTIME);
    context.vd = word(c::VD);
    context.rem_slice = word(c::REM_SLICE);
    context.is_active = mark(c::IS_ACTIVE);
    context.queue_key = mark(c::HAS_QUEUE_KEY).then(|| {
        key(
            word(c::QUEUE_KEY_VD),
            word(c::QUEUE_KEY_REM_SLICE),
            context.debug_id,
        )
    });
    lock.hold(match word(c::LOCK) {
        0 => Held::Free,
        1 => Held::Read(1),
        _ => Held::Written,
    });
    context.addr_space = match word(c::ADDR_SPACE) {
        0 => None,
        free_or_written => {
            let space = AddrSpaceWrapper::new().unwrap();
            if free_or_written == 2 {
                space.inner.hold(Held::Written);
            }
            Some(space)
        }
    };
}

fn status(word: u64) -> Status {
    let hard = |reason| Status::HardBlocked { reason };
    match word {
        c::RUNNABLE => Status::Runnable,
        c::BLOCKED => Status::Blocked,
        c::STOPPED => hard(HardBlockedReason::Stopped),
        c::AWAITING_MMAP => hard(HardBlockedReason::AwaitingMmap {
            file_ref: GrantFileRef,
        }),
        c::NOT_YET_STARTED => hard(HardBlockedReason::NotYetStarted),
        _ => Status::Dead { excp: None },
    }
}
