//! Parts and the whole.

use super::{STEAL, kept, printed, ronthuyal};

/// Parts in any order are joined to what one run gives, byte by byte; a part that is missing, there twice or of another
/// moment is told.
#[test]
fn parts_are_joined_to_one_run() {
    let file = kept("parts.txt", STEAL);
    let call = ["explore", &file, "switch", "1", "5ms"];
    let part = |number: usize, of: usize| {
        let shard = format!("{number}/{of}");
        let text = printed(&[&call[..], &["--shard", &shard, "--json"]].concat());
        kept(&format!("part-{number}-{of}.json"), &text)
    };
    let parts: Vec<String> = (1..=5).map(|number| part(number, 5)).collect();
    let order = [3, 0, 4, 1, 2].map(|at| parts[at].as_str());
    let joined = |more: &[&str]| printed(&[&["explore", "--merge"][..], &order, more].concat());
    assert_eq!(joined(&["--json"]), printed(&[&call[..], &["--json"]].concat()));
    assert_eq!(joined(&[]), printed(&call));
    let said = |parts: &[&str]| {
        let done = ronthuyal(&[&["explore", "--merge"][..], parts].concat());
        assert_eq!(done.status.code(), Some(2));
        String::from_utf8(done.stderr).unwrap()
    };
    assert!(said(&order[..4]).contains("are in no part"), "{}", said(&order[..4]));
    let twice = [&order[..], &order[..1]].concat();
    assert!(said(&twice).contains("twice"), "{}", said(&twice));
    let other = part(1, 2);
    assert!(said(&[&other, &parts[4]]).contains("in no part"));
    let another = kept("another.txt", &STEAL.replace("context clock", "context clock prio=3"));
    let another = printed(&["explore", &another, "switch", "1", "5ms", "--shard", "1/2", "--json"]);
    let another = kept("another.json", &another);
    assert!(said(&[&parts[0], &another]).contains("another image"));
}
