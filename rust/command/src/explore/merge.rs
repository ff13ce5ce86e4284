//! Parts of the states, and parts joined.

use super::json;
use super::run::joined;
use super::{Explored, STATES_OF_SHARDS};
use crate::load;
use crate::stop::Stop;
use ronthuyal::words::value::number;
use std::ops::Range;
use std::path::{Path, PathBuf};

/// The states of part I of N; I is 1 to N.
pub fn shard(text: &str, total: u64) -> Result<Range<u64>, String> {
    let wrong = || format!("--shard {text}: I/N is allowed, with I from 1 to N, as 1/4");
    let (part, parts) = text.split_once('/').ok_or_else(wrong)?;
    let (part, parts) = (number(part).ok_or_else(wrong)?, number(parts).ok_or_else(wrong)?);
    if part == 0 || part > parts {
        return Err(wrong());
    }
    let at = |part: u64| (u128::from(total) * u128::from(part) / u128::from(parts)) as u64;
    Ok(at(part - 1)..at(part))
}

/// The answer of all parts: that of one run.
pub fn merged(paths: &[PathBuf]) -> Result<Explored, Stop> {
    let mut parts: Vec<(&Path, Explored)> = Vec::new();
    for path in paths {
        let bytes = load::bytes(path)?;
        let text = String::from_utf8_lossy(&bytes);
        let part = json::read(&text).map_err(|says| wrong(path, &says))?;
        if let Some((first, other)) = parts.first() {
            same(&part, other).map_err(|what| {
                wrong(
                    path,
                    &format!(
                        "another {what} than in {}; parts of one moment are joined",
                        first.display()
                    ),
                )
            })?;
        }
        parts.push((path, part));
    }
    parts.sort_by_key(|(_, part)| (part.states.start, part.states.end));
    let mut at = 0;
    for (path, part) in &parts {
        let states = &part.states;
        if states.start != at {
            let what = if states.start < at { "twice" } else { "in no part" };
            let (one, other) = (states.start.min(at), states.start.max(at) - 1);
            let says = format!("states {one} to {other} are {what}; each part comes once");
            return Err(wrong(path, &says));
        }
        at = states.end;
    }
    let (path, first) = parts.remove(0);
    let total = first.space.total;
    if at != total {
        let says = format!("states {at} to {} are in no part; each part comes once", total - 1);
        return Err(wrong(path, &says));
    }
    if total > STATES_OF_SHARDS {
        return Err(wrong(
            path,
            &format!("{total} states; up to {STATES_OF_SHARDS} are joined"),
        ));
    }
    let rest = parts.into_iter().map(|(_, part)| part.ran);
    Ok(Explored {
        ran: joined(std::iter::once(first.ran).chain(rest)),
        states: 0..total,
        ..first
    })
}

fn wrong(path: &Path, says: &str) -> Stop {
    Stop::not_understood(format!("{}: {says}", path.display()))
}

/// Parts of one moment: what differs, if anything does.
fn same(one: &Explored, other: &Explored) -> Result<(), &'static str> {
    let (a, b) = (&one.moment, &other.moment);
    let differ = [
        ("image", a.words != b.words || a.names != b.names),
        ("call", a.written != b.written || a.lines != b.lines || a.hold != b.hold),
        ("context", a.asked != b.asked || a.late != b.late),
        ("list of locks", one.space != other.space || one.stay != other.stay),
    ];
    match differ.iter().find(|(_, differs)| *differs) {
        Some((what, _)) => Err(what),
        None => Ok(()),
    }
}

#[cfg(test)]
mod tests {
    use super::shard;

    /// Parts follow each other and are all states, also where they are not of one size.
    #[test]
    fn parts_are_all_states() {
        assert_eq!(shard("1/4", 432), Ok(0..108));
        assert_eq!(shard("4/4", 432), Ok(324..432));
        assert_eq!(
            [shard("1/3", 10), shard("2/3", 10), shard("3/3", 10)],
            [Ok(0..3), Ok(3..6), Ok(6..10)]
        );
        assert_eq!(shard("1/1", u64::MAX), Ok(0..u64::MAX));
        for text in ["0/4", "5/4", "1", "a/b", "1/0", ""] {
            assert!(shard(text, 10).is_err(), "{text}");
        }
    }
}
