//! The known name that is nearest to one that is not known.

use alloc::format;
use alloc::string::String;
use alloc::vec::Vec;

/// What to say of a name that is not known: `is lock meant?`, or all that there are.
pub fn nearest(name: &str, known: &[&str]) -> String {
    let name = name.to_lowercase();
    let apart = |other: &str| distance(&name, &other.to_lowercase());
    let best = known.iter().min_by_key(|other| apart(other));
    match best {
        Some(best) if apart(best) <= 2 && name.len() > 2 => {
            format!("is {best} meant?")
        }
        _ => format!("there are {}", known.join(", ")),
    }
}

/// How many letters differ, are too many or are missing.
fn distance(one: &str, other: &str) -> usize {
    let other: Vec<char> = other.chars().collect();
    let mut row: Vec<usize> = (0..=other.len()).collect();
    for (at, letter) in one.chars().enumerate() {
        let mut corner = row[0];
        row[0] = at + 1;
        for (place, known) in other.iter().enumerate() {
            let swapped = corner + usize::from(letter != *known);
            corner = row[place + 1];
            row[place + 1] = swapped.min(corner + 1).min(row[place] + 1);
        }
    }
    row[other.len()]
}
