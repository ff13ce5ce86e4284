use super::{ArcRwLockWriteGuard, LockToken, RwLockReadGuard, RwLockWriteGuard};
use core::{
    cell::{Cell, UnsafeCell},
    fmt,
    marker::PhantomData,
};
use std::sync::Arc;

/// How a lock is held: by nobody, by so many readers, or by a writer.
#[derive(Clone, Copy, Debug, PartialEq, Eq)]
pub enum Held {
    Free,
    Read(u32),
    Written,
}

pub struct RwLock<L, T> {
    pub(super) held: Cell<Held>,
    pub(super) value: UnsafeCell<T>,
    level: PhantomData<L>,
}

unsafe impl<L, T> Sync for RwLock<L, T> {}

impl<L, T> RwLock<L, T> {
    pub const fn new(value: T) -> Self {
        Self {
            held: Cell::new(Held::Free),
            value: UnsafeCell::new(value),
            level: PhantomData,
        }
    }
    /// Says that another CPU holds the lock.
    pub fn hold(&self, held: Held) {
        self.held.set(held);
    }
    pub fn held(&self) -> Held {
        self.held.get()
    }
    /// The value, whoever holds the lock: for loading and storing images.
    pub fn value(&self) -> *mut T {
        self.value.get()
    }

    pub fn try_read<'a, M>(
        &'a self,
        _token: LockToken<'a, M>,
    ) -> Option<RwLockReadGuard<'a, L, T>> {
        self.held.set(match self.held.get() {
            Held::Free => Held::Read(1),
            Held::Read(readers) => Held::Read(readers + 1),
            Held::Written => return None,
        });
        Some(RwLockReadGuard(self))
    }
    pub fn read<'a, M>(&'a self, token: LockToken<'a, M>) -> RwLockReadGuard<'a, L, T> {
        self.try_read(token).unwrap_or_else(|| spin::would_wait())
    }
    pub fn write<'a, M>(&'a self, _token: LockToken<'a, M>) -> RwLockWriteGuard<'a, L, T> {
        if !self.try_hold() {
            spin::would_wait()
        }
        RwLockWriteGuard(self)
    }
    pub unsafe fn try_write_arc(self: &Arc<Self>) -> Option<ArcRwLockWriteGuard<L, T>> {
        self.try_hold()
            .then(|| ArcRwLockWriteGuard(Arc::clone(self)))
    }
    pub unsafe fn write_arc(self: &Arc<Self>) -> ArcRwLockWriteGuard<L, T> {
        unsafe { self.try_write_arc() }.unwrap_or_else(|| spin::would_wait())
    }
    fn try_hold(&self) -> bool {
        let free = self.held.get() == Held::Free;
        if free {
            self.held.set(Held::Written);
        }
        free
    }
}

impl<L, T> fmt::Debug for RwLock<L, T> {
    fn fmt(&self, f: &mut fmt::Formatter<'_>) -> fmt::Result {
        write!(f, "{:?}", self.held.get())
    }
}
