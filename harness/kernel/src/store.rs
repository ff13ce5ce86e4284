//! From the kernel's structures back to the image. Marks that the kernel does not
//! have (gone, present) stay as they are; locks must be as they were. The remainders
//! are those that were kept aside.

use crate::{
    context::{
        Context, ContextLock, Status, WeakContextRef, context::HardBlockedReason, opened::parts,
    },
    load::{Machine, Slot},
    percpu::PercpuBlock,
    remainder,
    sync::{CleanLockToken, Held},
};
use core::sync::atomic::Ordering;
use image::{View, block as b, context as c};
use std::sync::{Arc, Weak};

pub fn machine(machine: &mut Machine, image: &mut [u64]) {
    for (number, slot) in machine.slots.iter().enumerate() {
        if let Some(lock) = &slot.strong {
            let at = View(image).context_at(number);
            record(lock, &mut image[at..at + c::WORDS]);
        }
    }
    for (cpu, block) in machine.blocks.iter_mut().enumerate() {
        if let Some(block) = block {
            let at = View(image).block_at(cpu);
            one_block(block, &machine.slots, &mut image[at..at + b::WORDS]);
            image[at + b::REMAINDER] = remainder::get(cpu);
        }
    }
}

fn record(lock: &ContextLock, words: &mut [u64]) {
    let context = unsafe { &*lock.value() };
    let time = |time: u128| u64::try_from(time).expect("a time over 64 bits");
    let (key_vd, key_slice, key_id) = context.queue_key.as_ref().map_or((0, 0, 0), parts);
    assert!(context.queue_key.is_none() || key_id == context.debug_id);
    assert_eq!(u64::from(context.debug_id), words[c::DEBUG_ID]);
    words[c::STATUS] = status(&context.status);
    words[c::RUNNING] = context.running.into();
    words[c::CURRENTLY_SCHEDULED] = context.currently_scheduled.into();
    words[c::CPU_ID] = context.cpu_id.map_or(0, |cpu| u64::from(cpu.get()) + 1);
    words[c::SCHEDULE_TIME] = time(context.schedule_time);
    words[c::SWITCH_TIME] = time(context.switch_time);
    words[c::ACTIVE_CPU_TIME] = time(context.active_cpu_time);
    words[c::SCHED_CPU_TIME] = time(context.sched_cpu_time);
    words[c::SCHED_AFFINITY] = context.sched_affinity.to_raw()[0] as u64;
    words[c::INSIDE_SYSCALL] = context.inside_syscall.into();
    words[c::HAS_WAKE] = context.wake.is_some().into();
    words[c::WAKE] = time(context.wake.unwrap_or(0));
    words[c::USERSPACE] = context.userspace.into();
    words[c::BEING_SIGKILLED] = context.being_sigkilled.into();
    words[c::PRIO] = context.prio as u64;
    words[c::VTIME] = context.vtime;
    words[c::VD] = context.vd;
    words[c::REM_SLICE] = context.rem_slice;
    words[c::IS_ACTIVE] = context.is_active.into();
    words[c::HAS_QUEUE_KEY] = context.queue_key.is_some().into();
    words[c::QUEUE_KEY_VD] = key_vd;
    words[c::QUEUE_KEY_REM_SLICE] = key_slice;
    words[c::LOCK] = match lock.held() {
        Held::Free => 0,
        Held::Read(_) => 1,
        Held::Written => 2,
    };
    words[c::ADDR_SPACE] = match context.addr_space.as_ref().map(|space| space.inner.held()) {
        None => 0,
        Some(Held::Free) => 1,
        Some(Held::Written) => 2,
        Some(Held::Read(_)) => panic!("an address space is left locked"),
    };
}

fn status(status: &Status) -> u64 {
    match status {
        Status::Runnable => c::RUNNABLE,
        Status::Blocked => c::BLOCKED,
        Status::HardBlocked { reason } => match reason {
            HardBlockedReason::Stopped => c::STOPPED,
            HardBlockedReason::AwaitingMmap { .. } => c::AWAITING_MMAP,
            HardBlockedReason::NotYetStarted => c::NOT_YET_STARTED,
        },
        Status::Dead { .. } => c::DEAD,
    }
}

/// The number of the context at this address.
fn number(slots: &[Slot], at: *const ContextLock) -> u64 {
    slots
        .binary_search_by_key(&at, |slot| Weak::as_ptr(&slot.weak))
        .expect("a context from nowhere") as u64
}

fn one_block(block: &mut PercpuBlock, slots: &[Slot], words: &mut [u64]) {
    let number_of = |weak: &WeakContextRef| number(slots, Weak::as_ptr(&weak.0));
    let state = &mut block.switch_internals;
    assert!(!state.leftover());
    let seats = state.seats();
    words[b::CURRENT_CTXT] = number(slots, Arc::as_ptr(&seats.current));
    words[b::SCHED_CTXT] = number(slots, Arc::as_ptr(&seats.sched));
    words[b::IDLE_CTXT] = number(slots, Arc::as_ptr(&seats.idle));
    words[b::SCHEDULE_TIME] = state.schedule_time_cell().get() as u64;
    words[b::PIT_TICKS] = state.pit_ticks_cell().get() as u64;
    words[b::BEING_SIGKILLED] = state.being_sigkilled.get().into();
    words[b::INSIDE_SYSCALL] = block.inside_syscall.get().into();
    words[b::STEALABLE] = state.stealable.load(Ordering::Relaxed).into();
    words[b::QUEUE_LEN] = state.queue_len.load(Ordering::Relaxed) as u64;
    words[b::PUBLISHED_WEIGHT] = state.total_weight.load(Ordering::Relaxed);
    words[b::STEAL_COUNTER] = state.steal_counter.load(Ordering::Relaxed) as u64;
    [
        words[b::STATE],
        words[b::USER],
        words[b::KERNEL],
        words[b::IDLE],
        words[b::CONTEXT_SWITCHES],
        words[b::SYSCALL_SWITCHES],
    ] = block.stats.got();
    words[b::QUEUE_LOCKED] = state.run_queue.is_held().into();
    let queue = state.run_queue.get_mut();
    (words[b::V], words[b::TOTAL_WEIGHT]) = queue.virtual_time();

    words[b::QUEUE_COUNT..b::SINGLE].fill(0);
    words[b::SINGLE..b::LAST].fill(0);
    for (slot, entry) in queue.entries().enumerate() {
        words[b::QUEUE_COUNT] += 1;
        words[b::KEY_VD + slot] = entry.vd;
        words[b::KEY_REM_SLICE + slot] = entry.rem_slice;
        words[b::KEY_CTXT_ID + slot] = entry.ctxt_id.into();
        words[b::ENTRY_VTIME + slot] = entry.vtime;
        words[b::ENTRY_WEIGHT + slot] = entry.weight;
        words[b::ENTRY_CONTEXT_REF + slot] = number(slots, Weak::as_ptr(&entry.context));
    }
    for (slot, (wake, context)) in queue.timers().enumerate() {
        words[b::TIMERS_COUNT] += 1;
        words[b::TIMER_WAKE + slot] = *wake as u64;
        words[b::TIMER_CONTEXT_REF + slot] = number_of(context);
    }
    for (slot, context) in state.local_wakeup_list.get_mut().iter().enumerate() {
        words[b::LOCAL_COUNT] += 1;
        words[b::LOCAL_WAKEUP_LIST + slot] = number_of(context);
    }
    let mut token = unsafe { CleanLockToken::new() };
    let ipi = state.ipi_context_wakeup_list.lock(token.token());
    for (slot, context) in ipi.iter().enumerate() {
        words[b::IPI_COUNT] += 1;
        words[b::IPI_CONTEXT_WAKEUP_LIST + slot] = number_of(context);
    }
}
