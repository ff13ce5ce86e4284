//! The rule of a decision (document 02, No. 3), as the marks in the text of the build
//! `changed` note it; the unchanged text has none, and 0 is all that is ever noted.

use std::cell::Cell;

thread_local! {
    static RULE: Cell<u64> = const { Cell::new(0) };
}

/// A later mark of the same decision stands.
pub fn note(rule: u64) {
    RULE.set(rule);
}

/// After the scan: an eligible entry, else the holder alone, else nobody who is eligible.
pub fn scanned(eligible_entry: bool, eligible_holder: bool) {
    note(match (eligible_entry, eligible_holder) {
        (true, _) => 1,
        (false, true) => 4,
        (false, false) => 9,
    });
}

/// The holder stays before an eligible entry, by its deadline or by its slice. True, as it
/// stands in the condition.
pub fn kept(by_deadline: bool) -> bool {
    note(if by_deadline { 2 } else { 3 });
    true
}

/// What was noted since this was last asked.
pub fn take() -> u64 {
    RULE.take()
}
