//! What the kernel takes from `alloc`. References are the standard ones; the
//! collections also keep the greatest length that they ever had (`peak`), from
//! which the oracle sees whether a queue, timer set or list passed 64 items.

pub mod collections;
pub mod vec;

pub mod sync {
    pub use std::sync::{Arc, Weak};
}
