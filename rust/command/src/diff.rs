//! `diff`: which words of two images differ, by name.

use crate::load::{self, Loaded};
use crate::output::{self, named, word};
use crate::stop::{DIFFERS, DONE, Ended};
use ronthuyal::words::View;
use serde_json::json;
use std::io::{self, Write};
use std::path::Path;

pub fn diff(one: &Path, other: &Path, as_json: bool) -> Ended {
    let (mut one, mut other) = (load::load(one)?.whole()?, load::load(other)?.whole()?);
    // Words have no names: those of the text, if one of the two is.
    match (one.text, other.text) {
        (true, _) => other.packed.names = one.packed.names.clone(),
        (false, true) => one.packed.names = other.packed.names.clone(),
        _ => other.packed.names = one.packed.names.clone(),
    }
    let mut out = io::BufWriter::new(io::stdout().lock());
    if let Some(says) = sizes(&one, &other) {
        match as_json {
            true => output::line(&mut out, &json!({ "differs": says }))?,
            false => writeln!(out, "{says}")?,
        }
        out.flush()?;
        return Ok(DIFFERS);
    }
    let pairs = one.words().iter().zip(other.words()).enumerate();
    let differing: Vec<usize> = pairs.filter(|(_, (a, b))| a != b).map(|(index, _)| index).collect();
    let names: Vec<String> = differing.iter().map(|index| named(&one.packed, *index).0).collect();
    let widest = names.iter().map(|name| name.chars().count()).max().unwrap_or(0);
    for (index, name) in differing.iter().zip(&names) {
        let (was, is) = (named(&one.packed, *index).1, named(&other.packed, *index).1);
        if as_json {
            let row = json!({ "word": index, "name": name, "one": word(one.words()[*index]),
                "other": word(other.words()[*index]) });
            output::line(&mut out, &row)?;
        } else {
            writeln!(out, "{name:widest$}  {was} -> {is}")?;
        }
    }
    out.flush()?;
    Ok(if differing.is_empty() { DONE } else { DIFFERS })
}

/// What differs where images are not of one size.
fn sizes(one: &Loaded, other: &Loaded) -> Option<String> {
    let size = |loaded: &Loaded| match View::new(loaded.words()) {
        Some(view) => format!("{} CPUs and {} contexts", view.cpus(), view.contexts()),
        None => format!("{} words", loaded.words().len()),
    };
    let (one, other) = (size(one), size(other));
    (one != other).then(|| format!("the one has {one}, the other {other}"))
}
