//! A CPU's block.

use super::Slot;
use crate::{
    context::{WeakContextRef, opened::Entry, switch::opened::Seats},
    cpu_set::LogicalCpuId,
    percpu::PercpuBlock,
    sync::CleanLockToken,
};
use core::sync::atomic::Ordering;
use image::{View, block as b};
use std::sync::Arc;

pub fn block(image: View, cpu: usize, slots: &[Slot]) -> Box<PercpuBlock> {
    let word = |place| image.block(cpu, place);
    let strong = |place| Arc::clone(slots[word(place) as usize].strong.as_ref().unwrap());
    let made = Box::new(PercpuBlock::init(LogicalCpuId::new(cpu as u32)));
    let state = &made.switch_internals;
    state.seat(Seats {
        current: strong(b::CURRENT_CTXT),
        sched: strong(b::SCHED_CTXT),
        idle: strong(b::IDLE_CTXT),
    });
    state
        .schedule_time_cell()
        .set(word(b::SCHEDULE_TIME).into());
    state.pit_ticks_cell().set(word(b::PIT_TICKS) as usize);
    state.being_sigkilled.set(word(b::BEING_SIGKILLED) == 1);
    made.inside_syscall.set(word(b::INSIDE_SYSCALL) == 1);
    state
        .stealable
        .store(word(b::STEALABLE) == 1, Ordering::Relaxed);
    state
        .queue_len
        .store(word(b::QUEUE_LEN) as usize, Ordering::Relaxed);
    state
        .total_weight
        .store(word(b::PUBLISHED_WEIGHT), Ordering::Relaxed);
    state
        .steal_counter
        .store(word(b::STEAL_COUNTER) as usize, Ordering::Relaxed);
    made.stats.put([
        word(b::STATE),
        word(b::USER),
        word(b::KERNEL),
        word(b::IDLE),
        word(b::CONTEXT_SWITCHES),
        word(b::SYSCALL_SWITCHES),
    ]);
    queue(image, cpu, slots, &made);
    lists(image, cpu, slots, &made);
    made
}

fn queue(image: View, cpu: usize, slots: &[Slot], made: &PercpuBlock) {
    let word = |place| image.block(cpu, place);
    let weak = |place| slots[word(place) as usize].weak.clone();
    {
        let mut queue = made.switch_internals.run_queue.lock();
        queue.put_virtual(word(b::V), word(b::TOTAL_WEIGHT));
        for slot in 0..word(b::QUEUE_COUNT) as usize {
            queue.put_entry(Entry {
                vd: word(b::KEY_VD + slot),
                rem_slice: word(b::KEY_REM_SLICE + slot),
                ctxt_id: word(b::KEY_CTXT_ID + slot) as u32,
                vtime: word(b::ENTRY_VTIME + slot),
                weight: word(b::ENTRY_WEIGHT + slot),
                context: weak(b::ENTRY_CONTEXT_REF + slot),
            });
        }
        for slot in 0..word(b::TIMERS_COUNT) as usize {
            queue.put_timer(
                word(b::TIMER_WAKE + slot).into(),
                weak(b::TIMER_CONTEXT_REF + slot),
            );
        }
    }
    made.switch_internals
        .run_queue
        .set_held(word(b::QUEUE_LOCKED) == 1);
}

fn lists(image: View, cpu: usize, slots: &[Slot], made: &PercpuBlock) {
    let word = |place| image.block(cpu, place);
    let named = |place| WeakContextRef(slots[word(place) as usize].weak.clone());
    let mut local = made.switch_internals.local_wakeup_list.borrow_mut();
    for slot in 0..word(b::LOCAL_COUNT) as usize {
        local.push(named(b::LOCAL_WAKEUP_LIST + slot));
    }
    let mut token = unsafe { CleanLockToken::new() };
    let mut ipi = made
        .switch_internals
        .ipi_context_wakeup_list
        .lock(token.token());
    for slot in 0..word(b::IPI_COUNT) as usize {
        ipi.push(named(b::IPI_CONTEXT_WAKEUP_LIST + slot));
    }
}
