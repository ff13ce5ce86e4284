//! Reading a file: an image in words, or one in text.

use crate::stop::Stop;
use ronthuyal::words::text::{self, Packed, Problem};
use ronthuyal::words::{Labels, Names};
use std::fs;
use std::io::{self, Read};
use std::path::{Path, PathBuf};

/// A file that was read.
pub struct Loaded {
    pub path: PathBuf,
    pub packed: Packed,
    /// Whether it was text; words have no lines and invented names.
    pub text: bool,
    /// Bytes behind the last whole word.
    pub torn: usize,
}

/// So many problems of one text are told.
const MOST: usize = 20;

pub fn bytes(path: &Path) -> Result<Vec<u8>, Stop> {
    if path == Path::new("-") {
        let mut bytes = Vec::new();
        return match io::stdin().lock().read_to_end(&mut bytes) {
            Ok(_) => Ok(bytes),
            Err(error) => Err(Stop::file(path, &error)),
        };
    }
    fs::read(path).map_err(|error| Stop::file(path, &error))
}

/// Text has no zero bytes, and words of an image always do, unless they are no letters either. Nothing is no words.
pub fn is_text(bytes: &[u8]) -> Option<&str> {
    let text = std::str::from_utf8(bytes).ok();
    text.filter(|text| !text.is_empty() && !text.contains('\0'))
}

pub fn load(path: &Path) -> Result<Loaded, Stop> {
    read(path, &bytes(path)?)
}

pub fn read(path: &Path, bytes: &[u8]) -> Result<Loaded, Stop> {
    let packed = match is_text(bytes) {
        Some(text) => pack_text(path, text)?,
        None => pack_words(bytes),
    };
    let text = is_text(bytes).is_some();
    Ok(Loaded {
        path: path.to_path_buf(),
        packed,
        text,
        torn: if text { 0 } else { bytes.len() % 8 },
    })
}

/// The image of a text; of a trace, that before its first call.
fn pack_text(path: &Path, text: &str) -> Result<Packed, Stop> {
    let mut image = text;
    let mut at = 0;
    for line in text.split_inclusive('\n') {
        if matches!(text::first(text::without_comment(line)), "call" | "expect") {
            image = &text[..at];
            break;
        }
        at += line.len();
    }
    text::pack(image).map_err(|problems| told(path, &problems))
}

pub fn told(path: &Path, problems: &[Problem]) -> Stop {
    let line = |problem: &Problem| format!("{}:{}: {}", path.display(), problem.line, problem.says);
    let mut lines: Vec<String> = problems.iter().take(MOST).map(line).collect();
    if problems.len() > MOST {
        lines.push(format!("{}: and {} more", path.display(), problems.len() - MOST));
    }
    Stop {
        code: crate::stop::NOT_UNDERSTOOD,
        lines,
    }
}

pub fn pack_words(bytes: &[u8]) -> Packed {
    let chunks = bytes.chunks_exact(8);
    let words: Vec<u64> = chunks
        .map(|b| u64::from_le_bytes(b.try_into().unwrap_or_default()))
        .collect();
    Packed::of_words(words)
}

impl Loaded {
    pub fn words(&self) -> &[u64] {
        &self.packed.words
    }
    pub fn names(&self) -> &Names {
        &self.packed.names
    }
    pub fn labels(&self) -> Labels<'_> {
        Labels {
            names: &self.packed.names,
            lines: &self.packed.lines,
        }
    }
    /// `FILE:LINE: ` of a word, or `FILE: `.
    pub fn at(&self, word: Option<usize>) -> String {
        match word.and_then(|word| self.labels().line(word)) {
            Some(line) => format!("{}:{line}: ", self.path.display()),
            None => format!("{}: ", self.path.display()),
        }
    }
    /// A call needs whole words.
    pub fn whole(self) -> Result<Self, Stop> {
        match self.torn {
            0 => Ok(self),
            _ => Err(Stop::not_understood(self.torn_says())),
        }
    }
    pub fn torn_says(&self) -> String {
        let bytes = self.words().len() * 8 + self.torn;
        format!(
            "{}: {bytes} bytes; an image is of whole words, 8 bytes each",
            self.path.display()
        )
    }
}
