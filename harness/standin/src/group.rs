//! `unblock_group` by single calls, each on the image that the one before left.

use image::{Answer, Group, check};
use kernel::oracle;

pub fn unblock_group(words: &mut [u64], group: &Group) -> Answer {
    let refusal = check::group_refusal(words, group);
    if refusal != 0 {
        return Answer::refused(refusal);
    }
    let _alone = crate::KERNEL.lock();
    let before = words.to_vec();
    let mut all = Answer::default();
    for call in group.singles() {
        let one = oracle::call(words, &call).unwrap_or(Answer::refused(u64::MAX));
        if one.refusal != 0 {
            words.copy_from_slice(&before);
            return one;
        }
        all.result += one.result;
        all.interrupt |= one.interrupt;
    }
    all
}
