//! Locks of one thread with the kernel's names. They can be held before the call,
//! as by another CPU: a `try_` form then fails, a blocking one reports that it
//! would wait. Lock levels are types only.

mod guard;
mod rwlock;

pub use guard::{ArcRwLockWriteGuard, RwLockReadGuard, RwLockWriteGuard};
pub use rwlock::{Held, RwLock};

use core::{
    cell::{Cell, UnsafeCell},
    marker::PhantomData,
    ops::{Deref, DerefMut},
};

macro_rules! levels {
    ($($level:ident)*) => {
        $(#[derive(Debug)] pub struct $level;)*
    };
}
levels!(L0 L1 L2 L3 L4 L5 L6);

pub struct LockToken<'a, L>(PhantomData<(&'a mut (), L)>);

impl<'a, L> LockToken<'a, L> {
    pub(self) fn made() -> Self {
        Self(PhantomData)
    }
    pub fn token(&mut self) -> LockToken<'_, L> {
        LockToken::made()
    }
    pub fn downgrade<M>(self) -> LockToken<'a, M> {
        LockToken::made()
    }
}

pub struct CleanLockToken(());

impl CleanLockToken {
    pub unsafe fn new() -> Self {
        Self(())
    }
    pub fn token(&mut self) -> LockToken<'_, L0> {
        LockToken::made()
    }
    pub fn downgrade<M>(&mut self) -> LockToken<'_, M> {
        LockToken::made()
    }
}

pub struct Mutex<L, T> {
    held: Cell<bool>,
    value: UnsafeCell<T>,
    level: PhantomData<L>,
}

unsafe impl<L, T> Sync for Mutex<L, T> {}

pub struct MutexGuard<'a, L, T>(&'a Mutex<L, T>);

impl<L, T> Mutex<L, T> {
    pub const fn new(value: T) -> Self {
        Self {
            held: Cell::new(false),
            value: UnsafeCell::new(value),
            level: PhantomData,
        }
    }
    pub fn lock<'a, M>(&'a self, _token: LockToken<'a, M>) -> MutexGuard<'a, L, T> {
        if self.held.replace(true) {
            spin::would_wait()
        }
        MutexGuard(self)
    }
}

impl<L, T> Deref for MutexGuard<'_, L, T> {
    type Target = T;
    fn deref(&self) -> &T {
        unsafe { &*self.0.value.get() }
    }
}

impl<L, T> DerefMut for MutexGuard<'_, L, T> {
    fn deref_mut(&mut self) -> &mut T {
        unsafe { &mut *self.0.value.get() }
    }
}

impl<L, T> Drop for MutexGuard<'_, L, T> {
    fn drop(&mut self) {
        self.0.held.set(false);
    }
}
