//! What is edited in a file's text before it is compiled.

use crate::edits::{self, Edit};
use std::path::Path;

pub struct Edits {
    /// Those of changes.txt, by their names; nothing in the unchanged build.
    changes: Vec<(String, Edit)>,
    /// That of the power table, if one is chosen.
    power: Option<Edit>,
}

impl Edits {
    pub fn new(harness: &Path, changed: bool) -> Self {
        let changes = match changed {
            true => edits::named(&harness.join("changes.txt")),
            false => Vec::new(),
        };
        Self {
            changes,
            power: edits::chosen(&harness.join("power.txt")),
        }
    }

    /// The text of a file as it is compiled; `edited` gets the place of the power table's
    /// edit. That may be of FILE: made in both builds, before the changes; of NAME/FILE:
    /// instead of the change of that name; of changed/FILE: after all changes.
    pub fn of(&self, file: &str, text: String, edited: &mut String) -> String {
        let mut text = self.by_power("", file, &text, edited).unwrap_or(text);
        for (name, change) in self
            .changes
            .iter()
            .filter(|(_, change)| change.file == file)
        {
            let instead = self.by_power(name, file, &text, edited);
            text = instead.unwrap_or_else(|| change.applied(&text));
        }
        match self.changes.is_empty() {
            true => text,
            false => self
                .by_power("changed", file, &text, edited)
                .unwrap_or(text),
        }
    }

    fn by_power(
        &self,
        before: &str,
        file: &str,
        text: &str,
        edited: &mut String,
    ) -> Option<String> {
        let name = Path::new(before).join(file);
        let edit = self
            .power
            .as_ref()
            .filter(|edit| Path::new(&edit.file) == name)?;
        *edited = edit.whereabouts(text);
        Some(edit.applied(text))
    }
}
