//! The switch of registers and stacks: it finishes at once.

use crate::percpu::PercpuBlock;
use rmm::PhysicalAddress;
use std::sync::Once;

pub const KFX_ALIGN: usize = 16;

#[derive(Debug)]
pub struct Context;

impl Context {
    pub fn new() -> Self {
        Self
    }
    pub fn setup_initial_call(
        &mut self,
        _stack: &super::context::Kstack,
        _func: extern "C" fn(),
        _userspace: bool,
    ) {
    }
}

pub struct EmptyTable(Once);

impl EmptyTable {
    pub fn call_once(&self, make: impl FnOnce() -> PhysicalAddress) {
        self.0.call_once(|| {
            make();
        });
    }
}

pub static EMPTY_CR3: EmptyTable = EmptyTable(Once::new());

pub fn empty_cr3() -> PhysicalAddress {
    PhysicalAddress
}

pub unsafe fn switch_to(_prev: &mut super::Context, next: &mut super::Context) {
    let percpu = PercpuBlock::current();
    percpu.new_addrsp_tmp.set(next.addr_space.clone());
    unsafe { super::switch_finish_hook() }
}
