//! Names of words, for reports.

use ronthuyal_image::{Names, Place};

/// What the word at `index` is called, in an image of these sizes; contexts by their numbers.
pub fn of(cpus: u64, contexts: u64, index: usize) -> String {
    Place::of(cpus, contexts, index).name(&Names::default())
}

#[cfg(test)]
mod tests {
    use super::of;

    #[test]
    fn names() {
        assert_eq!(of(2, 3, 0), "cpus");
        assert_eq!(of(2, 3, 2 + 26 + 17), "context.1.vtime");
        assert_eq!(of(2, 3, 80 + 10), "cpu.0.published_weight");
        assert_eq!(of(2, 3, 746 + 153 + 5), "cpu.1.queue[5].key.ctxt_id");
        assert_eq!(of(2, 3, 80 + 664), "cpu.0.ipi_context_wakeup_list[63]");
        assert_eq!(of(2, 3, 80 + 665), "cpu.0.remainder");
        assert_eq!(of(2, 3, 80 + 2 * 666), "word[1412]");
    }
}
