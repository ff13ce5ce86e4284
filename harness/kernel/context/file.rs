//! Open files: named by the context's table of files, used by no operation here.

use crate::{
    scheme::Scheme,
    sync::{CleanLockToken, L6, RwLock},
    syscall::error::Result,
};
use std::sync::Arc;

#[derive(Clone, Debug)]
pub struct FileDescriptor {
    pub description: Arc<LockedFileDescription>,
}

impl FileDescriptor {
    pub fn close(self, _token: &mut CleanLockToken) -> Result<()> {
        Ok(())
    }
}

#[derive(Debug)]
pub struct FileDescription {
    pub scheme_ref: SchemeRef,
    pub number: usize,
}

#[derive(Debug)]
pub struct SchemeRef;

impl SchemeRef {
    pub fn upgrade(&self) -> Result<Scheme> {
        Ok(Scheme)
    }
}

pub type LockedFileDescription = RwLock<L6, FileDescription>;
