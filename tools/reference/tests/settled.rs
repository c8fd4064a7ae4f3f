//! What the Rust's `optimize` leaves, on cases that document 01 decides.
use reference::settled::{settled, Settled};

#[test]
fn p4_fixes_both_and_leaves_true_rules() {
    let set = [2, 0, 2, 1, 11, 0, 1, 13, 2, 14, 11, 0, 11, 1];
    assert_eq!(settled(&set, 16384), Settled::Words(vec![1, 1, 1, 10, 1, 1, 10, 1]));
}

#[test]
fn p5_is_inconsistent() {
    assert_eq!(settled(&[1, 0, 2, 1, 11, 0, 1, 14, 11, 0], 16384), Settled::Inconsistent);
}

#[test]
fn a_comparison_is_never_folded() {
    let set = [0, 0, 1, 1, 18, 0, 20, 1, 20, 2];
    assert_eq!(settled(&set, 16384), Settled::Words(vec![1, 18, 0, 20, 1, 20, 2]));
}
