//! The join on sets whose outcome is worked out by hand from document 02, 2.8.
use reference::generate::pairs::pair;
use reference::join::{join, statements};

const WORK: usize = 16384;
/// One Boolean variable: the rule v0; the rules not v0, v0.
const ONE: [i32; 6] = [1, 0, 1, 1, 11, 0];
const TWO: [i32; 10] = [1, 0, 2, 1, 14, 11, 0, 1, 11, 0];
/// An integer over 0 and 1, as a range and by its values.
const RANGED: [i32; 6] = [0, 1, 0, 0, 1, 0];
const LISTED: [i32; 7] = [0, 1, 1, 2, 0, 1, 0];

#[test]
fn declarations_then_both_sets_statements() {
    assert_eq!(join(&ONE, &TWO, 13, WORK), Ok(vec![1, 0, 3, 1, 11, 0, 1, 14, 11, 0, 1, 11, 0]));
    assert_eq!(join(&RANGED, &RANGED, 6, WORK), Ok(RANGED.to_vec()));
}

#[test]
fn refusals_in_order() {
    assert_eq!(join(&[], &[], 0, WORK - 1), Err(1));
    assert_eq!(join(&[0, 0, 1, 1, 11, 0], &[], 0, WORK), Err(6));
    assert_eq!(join(&ONE, &[], 0, WORK), Err(3));
    assert_eq!(join(&RANGED, &LISTED, 0, WORK), Err(16));
    assert_eq!(join(&ONE, &TWO, 12, WORK), Err(17));
}

#[test]
fn over_4096_words() {
    let mut set = vec![1, 0, 1, 1, 12, 1023];
    (0..1023).for_each(|_| set.extend([11, 0]));
    let words = 2 * set.len() - 3;
    assert_eq!(words, 4101);
    assert_eq!(join(&set, &set, 5000, WORK), Err(17));
    assert!(statements(&set, &set, WORK).is_empty());
}

#[test]
fn statements_by_number() {
    let all = statements(&ONE, &TWO, WORK);
    let places: Vec<(usize, usize, usize)> = all.iter().map(|p| (p.set, p.start, p.words.len())).collect();
    assert_eq!(places, [(1, 3, 3), (2, 3, 4), (2, 7, 3)]);
    assert!(statements(&RANGED, &LISTED, WORK).is_empty());
}

#[test]
fn parted_sets_join_again() {
    for index in 0..400 {
        let p = pair("mixed", 5, index).unwrap();
        if let Some(whole) = p.whole {
            assert_eq!(join(&p.first, &p.second, 4096, WORK), Ok(whole));
        }
    }
}
