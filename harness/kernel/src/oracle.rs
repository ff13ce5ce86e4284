//! The kernel as the oracle: an image and a call that rows 1 to 8 let pass, and the
//! answer and image that the kernel's own function leaves.

use crate::{
    branches,
    context::{
        self,
        context::HardBlockedReason,
        signal,
        switch::{self, SwitchResult},
    },
    cpu_set::LogicalCpuId,
    ipi,
    load::{self, Machine},
    percpu::{self, PercpuBlock},
    rule, store,
    sync::CleanLockToken,
    time,
};
use core::{
    ptr,
    sync::atomic::{AtomicBool, Ordering},
};
use image::{Answer, Call, Fault, Group, MAX_CPUS, ROOM, View};
use std::panic::{AssertUnwindSafe, catch_unwind};

static IN_KERNEL: AtomicBool = AtomicBool::new(false);

/// Panics of the kernel's functions are answers here, and are not to be printed.
pub fn quiet() {
    let print = std::panic::take_hook();
    std::panic::set_hook(Box::new(move |info| {
        if !IN_KERNEL.load(Ordering::Relaxed) {
            print(info);
        }
    }));
}

/// Runs the call; `image` becomes the image after it.
pub fn call(image: &mut [u64], call: &Call) -> Result<Answer, Fault> {
    let before = image.to_vec();
    let mut answer = run(image, call)?;
    // A tick hides the result of its switch: the switch is run for itself.
    if call.operation == 1 && answer.result == DUE && answer.refusal == 0 {
        let mut again = before;
        let ticks = View(&again).block_at(call.cpu as usize) + image::block::PIT_TICKS;
        again[ticks] += 1;
        let switch = Call {
            operation: 2,
            ..*call
        };
        let switched = run(&mut again, &switch)?;
        answer.result = switched.result;
        if again != image || switched.rule != answer.rule {
            return Err(Fault::Panics("a tick and its switch differ".into()));
        }
    }
    Ok(answer)
}

/// Stands for the result of a due tick until that of its switch is known.
const DUE: u64 = u64::MAX;

fn run(image: &mut [u64], call: &Call) -> Result<Answer, Fault> {
    run_each(image, call, std::iter::once(*call))
}

/// The calls of `unblock_context` one by one on one machine; `image` becomes the image after
/// them. True returns are counted, and an interrupt of any call is noted.
pub fn unblock_group(image: &mut [u64], group: &Group) -> Result<Answer, Fault> {
    let here = Call {
        operation: 4,
        cpu: group.cpu,
        time: group.time,
        context: 0,
    };
    run_each(image, &here, group.singles())
}

/// Runs the calls, on the CPU and at the time of `here`; the result is the sum of theirs.
fn run_each(
    image: &mut [u64],
    here: &Call,
    calls: impl Iterator<Item = Call>,
) -> Result<Answer, Fault> {
    let mut built = Built::new(image);
    built.connect(here);
    IN_KERNEL.store(true, Ordering::Relaxed);
    let outcome = catch_unwind(AssertUnwindSafe(|| {
        calls.map(|call| built.call(&call)).sum()
    }));
    IN_KERNEL.store(false, Ordering::Relaxed);
    let result = outcome.map_err(|payload| {
        if payload.is::<spin::WouldWait>() {
            return Fault::Waits;
        }
        Fault::Panics(format!("{:?}", payload.downcast_ref::<&str>()))
    })?;
    Ok(built.read_back(image, result))
}

/// A machine built from an image.
pub struct Built(Machine);

impl Built {
    pub fn new(image: &[u64]) -> Self {
        Self(load::machine(View(image)))
    }
    /// Makes it the kernel's machine, with the CPU and the clock of the call.
    pub fn connect(&mut self, call: &Call) {
        ipi::take_wakeup();
        signal::take_called();
        rule::take();
        time::set(call.time);
        connect(&mut self.0, call.cpu as usize);
    }
    /// The CPU and the clock of a further call, on the machine that is the kernel's already.
    pub fn turn(&mut self, call: &Call) {
        time::set(call.time);
        let block = self.0.blocks[call.cpu as usize].as_mut();
        PercpuBlock::set_current(block.map_or(ptr::null_mut(), |block| &raw mut **block));
    }
    /// The kernel's function alone, on the machine that is its own; it unwinds where it
    /// has no answer.
    pub fn call(&self, call: &Call) -> u64 {
        operation(&self.0, call)
    }
    /// The answer of a call with this result; `image` becomes the image after it.
    pub fn read_back(&mut self, image: &mut [u64], result: u64) -> Answer {
        for block in self.0.blocks.iter_mut().flatten() {
            let peaks = block.switch_internals.peaks();
            if let Some(which) = peaks.iter().position(|peak| *peak > ROOM) {
                branches::no_room(which);
                return Answer::refused(9);
            }
        }
        store::machine(&mut self.0, image);
        Answer {
            refusal: 0,
            result,
            interrupt: ipi::take_wakeup().into(),
            rule: rule::take(),
        }
    }
}

impl Drop for Built {
    fn drop(&mut self) {
        disconnect();
    }
}

fn operation(machine: &Machine, call: &Call) -> u64 {
    let mut clean = unsafe { CleanLockToken::new() };
    let token = &mut clean;
    let named = || {
        machine.slots[call.context as usize]
            .strong
            .as_ref()
            .expect("a context that is gone")
    };
    match call.operation {
        1 => {
            switch::tick(token);
            if signal::take_called() { DUE } else { 0 }
        }
        2 => switched(switch::switch(token)),
        3 => switched(switch::direct_switch_to(named().clone(), token)),
        4 => context::unblock_context(named(), &mut token.downgrade()).into(),
        5 => {
            switch::drain_ipi_context_wakeups(token);
            0
        }
        6 => named().write(token.token()).block("").into(),
        7 => named()
            .write(token.token())
            .hard_block(HardBlockedReason::Stopped)
            .into(),
        _ => panic!("no such operation"),
    }
}

fn switched(result: SwitchResult) -> u64 {
    match result {
        SwitchResult::Switched => 1,
        SwitchResult::AllContextsIdle => 2,
    }
}

fn connect(machine: &mut Machine, cpu: usize) {
    crate::CPU_COUNT.store(machine.blocks.len() as u32, Ordering::Relaxed);
    for (number, block) in machine.blocks.iter_mut().enumerate() {
        let block = block
            .as_mut()
            .map_or(ptr::null_mut(), |block| &raw mut **block);
        unsafe { percpu::init_tlb_shootdown(LogicalCpuId::new(number as u32), block) };
        if number == cpu {
            PercpuBlock::set_current(block);
        }
    }
}

fn disconnect() {
    for number in 0..MAX_CPUS {
        let id = LogicalCpuId::new(number as u32);
        unsafe { percpu::init_tlb_shootdown(id, ptr::null_mut()) };
    }
    PercpuBlock::set_current(ptr::null_mut());
}
