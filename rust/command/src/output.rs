//! Writing files, and numbers in JSON.

use crate::stop::Stop;
use ronthuyal::words::text;
use ronthuyal::words::{Names, text::Packed};
use serde_json::Value;
use std::fs;
use std::io::{self, Write};
use std::path::Path;

pub fn file(path: &Path, bytes: &[u8]) -> Result<(), Stop> {
    fs::write(path, bytes).map_err(|error| Stop::file(path, &error))
}

/// An image: as text where the name ends in .txt, else in words.
pub fn image(path: &Path, words: &[u64], names: &Names) -> Result<(), Stop> {
    match path.extension().is_some_and(|extension| extension == "txt") {
        true => file(path, text::describe(words, names).as_bytes()),
        false => file(path, &to_bytes(words)),
    }
}

pub fn to_bytes(words: &[u64]) -> Vec<u8> {
    words.iter().flat_map(|word| word.to_le_bytes()).collect()
}

/// A 64-bit number: as a string, since JSON's numbers lose bits in many readers.
pub fn word(value: u64) -> Value {
    Value::String(value.to_string())
}

pub fn line(out: &mut impl Write, value: &Value) -> io::Result<()> {
    writeln!(out, "{value}")
}

/// The index of a word, its name and its value as written.
pub fn named(packed: &Packed, index: usize) -> (String, String) {
    use ronthuyal::words::{Place, value};
    let size = |at: usize| packed.words.get(at).copied().unwrap_or(0);
    let place = Place::of(size(0), size(1), index);
    let shown = match place.word() {
        Some(word) => value::show(word.unit, packed.words[index], &packed.names),
        None => packed.words[index].to_string(),
    };
    (place.name(&packed.names), shown)
}
