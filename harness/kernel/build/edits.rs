//! One-place edits of a text, by lists: those of the power table, of which RONTHUYAL_EDIT
//! chooses one by its number from 1, and the changes of the build `changed`.

use std::{env, fs, path::Path};

pub struct Edit {
    pub file: String,
    /// Which of the places where `old` stands, from 1.
    place: usize,
    old: String,
    new: String,
}

/// The lines of a list as their parts. `#` begins a comment, and `\|` stands for a bar in
/// the text.
fn lines(list: &Path) -> Vec<Vec<String>> {
    let text = fs::read_to_string(list).unwrap();
    let parts = |line: &str| {
        let line = line.replace("\\|", "\0");
        line.split('|')
            .map(|part| part.trim().replace('\0', "|"))
            .collect()
    };
    text.lines()
        .filter(|line| !line.is_empty() && !line.starts_with('#'))
        .map(parts)
        .collect()
}

/// A line of the list is `file | place | old | new | remark`.
pub fn chosen(list: &Path) -> Option<Edit> {
    let number: usize = env::var("RONTHUYAL_EDIT").ok()?.parse().ok()?;
    let lines = lines(list);
    let line = lines.get(number.checked_sub(1)?);
    Some(Edit::new(
        line.unwrap_or_else(|| panic!("no edit {number}")),
    ))
}

/// A line of the list is `name | file | place | old | new | remark`.
#[allow(dead_code)]
pub fn named(list: &Path) -> Vec<(String, Edit)> {
    lines(list)
        .iter()
        .map(|line| (line[0].clone(), Edit::new(&line[1..])))
        .collect()
}

impl Edit {
    fn new(part: &[String]) -> Self {
        Self {
            file: part[0].clone(),
            place: part[1].parse().unwrap(),
            old: part[2].clone(),
            new: part[3].clone(),
        }
    }
    fn at(&self, text: &str) -> usize {
        text.match_indices(&self.old)
            .nth(self.place - 1)
            .unwrap_or_else(|| panic!("{} has no {:?} no. {}", self.file, self.old, self.place))
            .0
    }
    /// File and line of the edit.
    pub fn whereabouts(&self, text: &str) -> String {
        let line = text[..self.at(text)].lines().count();
        format!("{}:{line}", self.file)
    }
    pub fn applied(&self, text: &str) -> String {
        let at = self.at(text);
        format!(
            "{}{}{}",
            &text[..at],
            self.new,
            &text[at + self.old.len()..]
        )
    }
}
