//! The spin lock of one thread. It can be held before the call, as by another
//! CPU: then `try_lock` fails, and `lock` reports that it would wait for ever.

/// What unwinds out of the kernel where it would wait for a lock.
pub struct WouldWait;

pub fn would_wait() -> ! {
    std::panic::resume_unwind(Box::new(WouldWait))
}

pub mod mutex {
    use std::{
        cell::{Cell, UnsafeCell},
        ops::{Deref, DerefMut},
    };

    pub struct SpinMutex<T> {
        held: Cell<bool>,
        value: UnsafeCell<T>,
    }

    unsafe impl<T> Sync for SpinMutex<T> {}

    pub struct SpinMutexGuard<'a, T> {
        lock: &'a SpinMutex<T>,
    }

    impl<T> SpinMutex<T> {
        pub const fn new(value: T) -> Self {
            Self {
                held: Cell::new(false),
                value: UnsafeCell::new(value),
            }
        }
        pub fn lock(&self) -> SpinMutexGuard<'_, T> {
            self.try_lock().unwrap_or_else(|| crate::would_wait())
        }
        pub fn try_lock(&self) -> Option<SpinMutexGuard<'_, T>> {
            if self.held.replace(true) {
                return None;
            }
            Some(SpinMutexGuard { lock: self })
        }
        pub fn set_held(&self, held: bool) {
            self.held.set(held);
        }
        pub fn is_held(&self) -> bool {
            self.held.get()
        }
        pub fn get_mut(&mut self) -> &mut T {
            self.value.get_mut()
        }
    }

    impl<T> Deref for SpinMutexGuard<'_, T> {
        type Target = T;
        fn deref(&self) -> &T {
            unsafe { &*self.lock.value.get() }
        }
    }

    impl<T> DerefMut for SpinMutexGuard<'_, T> {
        fn deref_mut(&mut self) -> &mut T {
            unsafe { &mut *self.lock.value.get() }
        }
    }

    impl<T> Drop for SpinMutexGuard<'_, T> {
        fn drop(&mut self) {
            self.lock.held.set(false);
        }
    }
}
