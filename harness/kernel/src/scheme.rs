//! Files and schemes: named by the kernel's files, used by no operation here.

pub struct CallerCtx {
    pub uid: u32,
    pub gid: u32,
    pub pid: usize,
}

#[derive(Clone, Copy)]
pub struct FileHandle(usize);

impl FileHandle {
    pub fn get(self) -> usize {
        self.0
    }
}

impl From<usize> for FileHandle {
    fn from(number: usize) -> Self {
        Self(number)
    }
}

#[derive(Clone, Copy, PartialEq, Eq)]
pub struct SchemeId(usize);

pub struct Scheme;

impl Scheme {
    pub fn scheme_id(&self) -> SchemeId {
        SchemeId(0)
    }
}
