//! Page tables: none is ever looked at.

#[derive(Clone, Copy, Debug)]
pub struct PhysicalAddress;

impl PhysicalAddress {
    pub fn data(self) -> usize {
        0
    }
}

#[derive(Clone, Copy, Debug)]
pub struct VirtualAddress;

impl VirtualAddress {
    pub fn data(self) -> usize {
        0
    }
}

#[derive(Clone, Copy, Debug)]
pub enum TableKind {
    User,
}

pub trait Arch {
    fn phys_to_virt(_address: PhysicalAddress) -> VirtualAddress {
        VirtualAddress
    }
    fn table(_kind: TableKind) -> PhysicalAddress {
        PhysicalAddress
    }
    fn invalidate_all() {}
    /// # Safety
    /// Nothing is set.
    unsafe fn set_table(_kind: TableKind, _address: PhysicalAddress) {}
}
