//! What a comparison must meet at least once, and how often it did.

pub struct Met(Vec<(&'static str, u64)>);

impl Met {
    pub fn of(names: &[&'static str]) -> Self {
        Self(names.iter().map(|name| (*name, 0)).collect())
    }
    pub fn note(&mut self, name: &str) {
        self.note_if(true, name);
    }
    pub fn note_if(&mut self, met: bool, name: &str) {
        let entry = self.0.iter_mut().find(|(known, _)| *known == name);
        entry.expect("a name of the list").1 += u64::from(met);
    }
    /// Prints the counts; false if something was not met in so many cases that it should have been.
    pub fn hold(&self, cases: u64, enough: u64) -> bool {
        for (name, count) in &self.0 {
            println!("{name:46}{count:9}");
        }
        let missing = self.missing();
        if cases >= enough && !missing.is_empty() {
            println!("NOT met in {cases} cases: {}", missing.join("; "));
            return false;
        }
        true
    }
    pub fn missing(&self) -> Vec<&'static str> {
        let names = self.0.iter().filter(|(_, count)| *count == 0);
        names.map(|(name, _)| *name).collect()
    }
}

#[cfg(test)]
mod tests {
    use super::Met;

    #[test]
    fn what_is_not_met_fails() {
        let mut met = Met::of(&["one", "other"]);
        met.note("one");
        assert_eq!(met.missing(), ["other"]);
        assert!(met.hold(99, 100));
        assert!(!met.hold(100, 100));
        met.note_if(false, "other");
        assert!(!met.hold(100, 100));
        met.note_if(true, "other");
        assert!(met.hold(100, 100));
    }
}
