//! `pack` and `show`: text to words and back.

use crate::load::{self, Loaded};
use crate::output;
use crate::stop::{DONE, Ended, Stop};
use ronthuyal::words::{explain, text};
use std::io::{self, IsTerminal, Write};
use std::path::Path;

pub fn pack(path: &Path, to: Option<&Path>) -> Ended {
    let loaded = load::load(path)?;
    if !loaded.text {
        return Err(Stop::not_understood(format!(
            "{}: words already; pack makes words of a text",
            path.display()
        )));
    }
    // It is packed all the same: damage may be wanted.
    if let Some(why) = explain::image(loaded.words(), &loaded.labels()) {
        eprintln!("{}warning: refused with {}: {why}", loaded.at(why.word), why.refusal);
    }
    let bytes = output::to_bytes(loaded.words());
    match to {
        Some(to) => output::file(to, &bytes)?,
        None if io::stdout().is_terminal() => {
            return Err(Stop::not_understood(
                "words are not for a terminal; -o IMAGE names a file for them",
            ));
        }
        None => io::stdout().lock().write_all(&bytes)?,
    }
    Ok(DONE)
}

pub fn show(path: &Path, names: Option<&Path>, to: Option<&Path>) -> Ended {
    let bytes = load::bytes(path)?;
    // What cannot be read as text is shown as the words that it is.
    let loaded = load::read(path, &bytes).or_else(|stop| match load::is_text(&bytes) {
        Some(_) => Err(stop),
        None => Ok(Loaded {
            path: path.to_path_buf(),
            packed: load::pack_words(&bytes),
            text: false,
            torn: bytes.len() % 8,
        }),
    })?;
    let mut shown = String::new();
    if loaded.torn > 0 {
        shown += &format!("# left out: bytes behind the last whole word, {}\n", loaded.torn);
    }
    shown += &match names {
        Some(names) => text::describe(loaded.words(), load::load(names)?.names()),
        None => text::describe(loaded.words(), loaded.names()),
    };
    match to {
        Some(to) => output::file(to, shown.as_bytes())?,
        None => io::stdout().lock().write_all(shown.as_bytes())?,
    }
    Ok(DONE)
}
