//! Small tables and their trees, worked out by hand.

use super::super::states::Table;
use super::{Tree, greedy};

fn table(counts: &[usize], cells: &[u32]) -> Table {
    Table::new(counts.to_vec(), cells.to_vec())
}

fn leaves(tree: &Tree, words: usize) -> Vec<(Vec<u64>, u32)> {
    let mut found = Vec::new();
    tree.leaves(&mut vec![0; words], &mut |sets, number| {
        found.push((sets.to_vec(), number))
    });
    found
}

/// 3 values and 2: 7 exactly at (0, 0). The word between makes no difference.
#[test]
fn words_without_difference_are_left_out() {
    let cells = [7, 1, 7, 1, 1, 1, 1, 1, 1, 1, 1, 1];
    let reduced = table(&[3, 2, 2], &cells).reduced();
    assert_eq!((reduced.dimensions, reduced.counts), (vec![0, 2], vec![3, 2]));
    assert_eq!(reduced.cells, [7, 1, 1, 1, 1, 1]);
}

#[test]
fn values_that_come_to_the_same_are_one_branch() {
    let tree = Tree::of(table(&[3], &[4, 5, 5]), None);
    assert_eq!(leaves(&tree, 1), [(vec![0b001], 4), (vec![0b110], 5)]);
}

/// If a then b else c: asking a first gives 4 leaves, b or c first gives more.
#[test]
fn the_smallest_tree_asks_the_right_word_first() {
    let cells: Vec<u32> = (0..8_u32)
        .map(|s| if s & 1 == 1 { s >> 1 & 1 } else { s >> 2 & 1 })
        .collect();
    // The word that is asked first is the last one.
    let tree = Tree::of(table(&[2, 2, 2], &cells), None);
    assert_eq!(tree.leaf_count(), 4);
    assert!(matches!(*tree, Tree::Split { dimension: 2, .. }));
}

/// Three words, 1 where an odd number of them is 1: every state is a leaf of its own.
#[test]
fn parity_needs_every_state() {
    let cells: Vec<u32> = (0..8_u32).map(|s| s.count_ones() % 2).collect();
    assert_eq!(Tree::of(table(&[2, 2, 2], &cells), None).leaf_count(), 8);
    assert_eq!(greedy(table(&[2, 2, 2], &cells)).leaf_count(), 8);
}

/// The first free of three is taken: whichever way it is found, three questions and four leaves.
#[test]
fn a_list_of_trials_is_a_comb() {
    let cells: Vec<u32> = (0..8_u32).map(|s| s.trailing_ones().min(3)).collect();
    for tree in [
        Tree::of(table(&[2, 2, 2], &cells), None),
        greedy(table(&[2, 2, 2], &cells)),
    ] {
        assert_eq!(tree.leaf_count(), 4);
        assert!(matches!(*tree, Tree::Split { dimension: 2, .. }));
    }
}

/// Of 0, 1 and 2 the last two come to the same, whatever the other word is: two values are left.
#[test]
fn values_that_always_come_to_the_same_are_joined() {
    let (joined, stand_for) = table(&[3, 2], &[4, 5, 6, 7, 6, 7]).joined_values();
    assert_eq!((joined.counts, joined.cells), (vec![2, 2], vec![4, 5, 6, 7]));
    assert_eq!(stand_for, [vec![0b001, 0b110], vec![0b01, 0b10]]);
    let tree = Tree::of(table(&[2], &[4, 5]), None).spread(&[vec![0b001, 0b110]]);
    assert_eq!(leaves(&tree, 1), [(vec![0b001], 4), (vec![0b110], 5)]);
}
