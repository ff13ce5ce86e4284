//! Why the command ends, with its exit code.

use std::io;
use std::path::Path;

/// Done.
pub const DONE: u8 = 0;
/// Something differs, or an expectation is not met.
pub const DIFFERS: u8 = 1;
/// Arguments or a text that are not understood, or a file that cannot be read.
pub const NOT_UNDERSTOOD: u8 = 2;
/// A call or an image is refused.
pub const REFUSED: u8 = 3;

/// What to print before ending, and with which code.
#[derive(Debug)]
pub struct Stop {
    pub code: u8,
    pub lines: Vec<String>,
}

pub type Ended = Result<u8, Stop>;

impl Stop {
    pub fn not_understood(line: impl Into<String>) -> Self {
        Self {
            code: NOT_UNDERSTOOD,
            lines: vec![line.into()],
        }
    }
    /// At a line of a file.
    pub fn at(path: &Path, line: u32, says: &str) -> Self {
        Self::not_understood(format!("{}:{line}: {says}", path.display()))
    }
    pub fn file(path: &Path, error: &io::Error) -> Self {
        let says = match error.kind() {
            io::ErrorKind::NotFound => "there is no such file".to_string(),
            io::ErrorKind::PermissionDenied => "it may not be opened".to_string(),
            _ => error.to_string(),
        };
        Self::not_understood(format!("{}: {says}", path.display()))
    }
}

/// Writing to a reader that has gone away ends the command quietly.
impl From<io::Error> for Stop {
    fn from(error: io::Error) -> Self {
        match error.kind() {
            io::ErrorKind::BrokenPipe => Self {
                code: DONE,
                lines: Vec::new(),
            },
            _ => Self::not_understood(format!("standard output: {error}")),
        }
    }
}
