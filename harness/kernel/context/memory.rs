//! An address space is its lock alone.

use crate::{
    cpu_set::LogicalCpuSet,
    sync::{L4, L5, LockToken, RwLock, RwLockReadGuard},
    syscall::error::Result,
};
use core::{mem, ops::Deref, sync::atomic::AtomicU32};
use std::sync::Arc;

#[derive(Clone, Debug)]
pub struct GrantFileRef;

#[derive(Debug)]
pub struct UserTable;

impl UserTable {
    pub unsafe fn make_current(&self) {}
}

#[derive(Debug)]
pub struct Table {
    pub utable: UserTable,
}

#[derive(Debug)]
pub struct AddrSpace {
    pub table: Table,
}

#[derive(Debug)]
pub struct AddrSpaceWrapper {
    pub inner: RwLock<L5, AddrSpace>,
    pub used_by: LogicalCpuSet,
    pub tlb_ack: AtomicU32,
}

impl AddrSpaceWrapper {
    pub fn new() -> Result<Arc<Self>> {
        Ok(Arc::new(Self {
            inner: RwLock::new(AddrSpace {
                table: Table { utable: UserTable },
            }),
            used_by: LogicalCpuSet::empty(),
            tlb_ack: AtomicU32::new(0),
        }))
    }
    pub fn acquire_read<'a>(
        &'a self,
        token: LockToken<'a, L4>,
    ) -> RwLockReadGuard<'a, L5, AddrSpace> {
        self.inner.read(token)
    }
}

pub struct AddrSpaceSwitchReadGuard {
    lock: RwLockReadGuard<'static, L5, AddrSpace>,
}

impl AddrSpaceSwitchReadGuard {
    pub unsafe fn new(guard: RwLockReadGuard<'_, L5, AddrSpace>) -> Self {
        Self {
            lock: unsafe { mem::transmute::<RwLockReadGuard<'_, _, _>, _>(guard) },
        }
    }
}

impl Deref for AddrSpaceSwitchReadGuard {
    type Target = RwLockReadGuard<'static, L5, AddrSpace>;
    fn deref(&self) -> &Self::Target {
        &self.lock
    }
}
