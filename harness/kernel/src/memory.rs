//! Frames and page tables: contexts are made without any.

pub use rmm::{Arch as RmmArch, TableKind};

use core::ops::{Deref, DerefMut};
use rmm::PhysicalAddress;

pub const PAGE_SIZE: usize = 4096;

pub struct RmmA;
impl RmmArch for RmmA {}

#[derive(Debug)]
pub struct Enomem;

impl From<Enomem> for crate::syscall::error::Error {
    fn from(_: Enomem) -> Self {
        Self::new(crate::syscall::error::ENOMEM)
    }
}

#[derive(Clone, Copy, Debug)]
pub struct Frame;

impl Frame {
    pub fn base(self) -> PhysicalAddress {
        PhysicalAddress
    }
}

#[derive(Debug)]
pub struct RaiiFrame;

impl RaiiFrame {
    pub fn allocate() -> Result<Self, Enomem> {
        Ok(Self)
    }
    pub fn get(&self) -> Frame {
        Frame
    }
}

#[derive(Debug)]
pub struct FrameAllocated<T>(Box<T>);

impl<T> FrameAllocated<T> {
    pub fn try_new(value: T) -> Option<Self> {
        Some(Self(Box::new(value)))
    }
}

impl<T> Deref for FrameAllocated<T> {
    type Target = T;
    fn deref(&self) -> &T {
        &self.0
    }
}

impl<T> DerefMut for FrameAllocated<T> {
    fn deref_mut(&mut self) -> &mut T {
        &mut self.0
    }
}

pub fn allocate_p2frame(_order: u32, _zeroed: bool) -> Option<Frame> {
    Some(Frame)
}

pub fn allocate_p2frame_with_mask<M>(
    _mask: M,
    _order: u32,
    _strict: bool,
    _zeroed: bool,
) -> Option<Frame> {
    Some(Frame)
}

pub unsafe fn deallocate_p2frame(_frame: Frame, _order: u32) {}
