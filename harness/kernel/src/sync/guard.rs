use super::{Held, LockToken, RwLock};
use core::ops::{Deref, DerefMut};
use std::sync::Arc;

pub struct RwLockReadGuard<'a, L, T>(pub(super) &'a RwLock<L, T>);
pub struct RwLockWriteGuard<'a, L, T>(pub(super) &'a RwLock<L, T>);
pub struct ArcRwLockWriteGuard<L, T>(pub(super) Arc<RwLock<L, T>>);

impl<L, T> RwLockReadGuard<'_, L, T> {
    pub fn token_split(&mut self) -> (&T, LockToken<'_, L>) {
        (&**self, LockToken::made())
    }
}

impl<L, T> ArcRwLockWriteGuard<L, T> {
    pub fn rwlock(this: &Self) -> &Arc<RwLock<L, T>> {
        &this.0
    }
}

macro_rules! reads {
    ($guard:ty) => {
        impl<L, T> Deref for $guard {
            type Target = T;
            fn deref(&self) -> &T {
                unsafe { &*self.0.value.get() }
            }
        }
    };
}

macro_rules! writes {
    ($guard:ty) => {
        impl<L, T> DerefMut for $guard {
            fn deref_mut(&mut self) -> &mut T {
                unsafe { &mut *self.0.value.get() }
            }
        }
        impl<L, T> Drop for $guard {
            fn drop(&mut self) {
                self.0.held.set(Held::Free);
            }
        }
    };
}

reads!(RwLockReadGuard<'_, L, T>);
reads!(RwLockWriteGuard<'_, L, T>);
reads!(ArcRwLockWriteGuard<L, T>);
writes!(RwLockWriteGuard<'_, L, T>);
writes!(ArcRwLockWriteGuard<L, T>);

impl<L, T> Drop for RwLockReadGuard<'_, L, T> {
    fn drop(&mut self) {
        self.0.held.set(match self.0.held.get() {
            Held::Read(readers) if readers > 1 => Held::Read(readers - 1),
            _ => Held::Free,
        });
    }
}
