use super::{ENOUGH, plain};
use crate::expected::KERNEL;

/// No difference, and each sort is met in as many cases as must meet it.
#[test]
fn each_sort_is_met() {
    let _alone = KERNEL.lock();
    assert!(plain(1, ENOUGH));
}
