//! Merging: what the Rust gives for small sets, what document 02 says of self-ties, and the model against the Rust.
use reference::generate::{case, FAMILIES};
use reference::meaning::{check_with, judge_with, Verdict};
use reference::merge::{expected, model, ties};
use reference::{call, call_with, Outcome};

const WORK: usize = 16384;

fn compiled(set: &[i32]) -> Vec<i32> {
    match call_with(set, WORK, WORK, true) {
        Outcome::Compiled(words) => words,
        other => panic!("{set:?}: {other:?}"),
    }
}

/// Fixed words, map, emitted counts, clauses; each by hand from document 02.
#[test]
fn a_tie_plain_and_negated() {
    let iff = [2, 0, 1, 1, 16, 11, 0, 11, 1];
    assert_eq!(compiled(&iff), [2, 2, 1, 1, 1, 0, 2, 2, 1, -1, 0, 2, -1, 1, 0]);
    let xor = [2, 0, 1, 1, 15, 11, 0, 11, 1];
    assert_eq!(compiled(&xor), [2, 2, 1, -1, 1, 0, 2, 2, 1, -1, 0, 2, -1, 1, 0]);
}

#[test]
fn numbers_of_the_pass_come_first() {
    let set = [3, 0, 2, 1, 13, 2, 11, 0, 11, 1, 1, 16, 11, 1, 11, 2];
    assert_eq!(compiled(&set)[3..7], [2, 1, 1, 2]);
}

/// Of variables 0 = 1, 2 = 3 and then 1 = 2 the last has a number on both sides: two classes stay.
#[test]
fn joined_classes_stay_two() {
    let set = [4, 0, 3, 1, 16, 11, 0, 11, 1, 1, 16, 11, 2, 11, 3, 1, 16, 11, 1, 11, 2];
    assert_eq!(compiled(&set)[4..9], [1, 1, 2, 2, 2]);
    assert_eq!(ties(&set).unwrap().joins, 1);
    assert_eq!(check_with(&set, true), Verdict::Agrees(2, 16));
}

/// And of one member and a constant fold away; Not and a negated side do not.
#[test]
fn ties_are_told_after_folding() {
    assert_eq!(compiled(&[2, 0, 1, 1, 12, 1, 15, 11, 0, 11, 1])[2..5], [1, -1, 1]);
    assert_eq!(compiled(&[2, 0, 1, 1, 16, 10, 1, 15, 11, 0, 12, 2, 11, 1, 10, 1])[2..5], [1, -1, 1]);
    assert_eq!(compiled(&[2, 0, 1, 1, 14, 16, 11, 0, 11, 1])[2..5], [1, 2, 2]);
    assert_eq!(compiled(&[2, 0, 1, 1, 16, 14, 11, 0, 11, 1])[2..5], [1, 2, 2]);
    assert_eq!(compiled(&[2, 0, 2, 1, 11, 0, 1, 16, 11, 0, 11, 1])[..5], [1, 1, 0, 0, 0]);
}

/// The two cases of docs/DIFFERENCES.md, and the same ties once the variable has a number.
#[test]
fn self_ties() {
    let (iff, xor) = ([1, 0, 1, 1, 16, 11, 0, 11, 0], [1, 0, 1, 1, 15, 11, 0, 11, 0]);
    assert_eq!(call_with(&iff, WORK, WORK, true), Outcome::Panicked);
    assert_eq!(compiled(&xor)[1], -1);
    for set in [iff, xor] {
        assert!(ties(&set).unwrap().apart());
        assert_eq!(model(&set, WORK, WORK), call(&set, WORK, WORK));
        assert_eq!(expected(&set, WORK, WORK), call(&set, WORK, WORK));
    }
    for code in [15, 16] {
        let set = [2, 0, 2, 1, 15, 11, 0, 11, 1, 1, code, 11, 1, 11, 1];
        assert!(!ties(&set).unwrap().apart());
        assert_eq!(compiled(&set)[2..5], [1, -1, 1]);
    }
}

#[test]
fn the_model_is_the_rust() {
    for family in FAMILIES {
        for index in 0..400 {
            let case = case(family, 21, index).unwrap();
            let ties = ties(&case.set).unwrap_or_default();
            let rust = call_with(&case.set, case.out_len, case.work_len, true);
            assert!(ties.apart() || model(&case.set, case.out_len, case.work_len) == rust, "{family} {index}");
            assert!(ties.self_iffs > 0 || rust != Outcome::Panicked, "{family} {index}");
        }
    }
}

#[test]
fn no_difference_in_meaning() {
    for family in FAMILIES {
        for index in 0..300 {
            let set = case(family, 22, index).unwrap().set;
            if let Verdict::Differs(how) = check_with(&set, true) {
                panic!("{family} {index}: {how}\n{set:?}");
            }
        }
    }
}

/// The sign of a map word, a shared number and every literal count.
#[test]
fn wrong_answers_are_noticed() {
    let set = [4, 0, 3, 1, 15, 11, 0, 11, 1, 1, 16, 11, 2, 11, 0, 1, 13, 2, 11, 1, 11, 3];
    let answer = compiled(&set);
    assert_eq!(answer[4..9], [1, -1, 1, 2, 2]);
    let Verdict::Agrees(passing, 16) = judge_with(&set, &answer, true) else {
        panic!("{:?}", judge_with(&set, &answer, true));
    };
    assert_eq!(passing, 3);
    assert!(matches!(judge_with(&set, &answer, false), Verdict::Differs(_)), "merged words where none may be");
    for (at, word) in [(4, -1), (5, 1), (5, 3), (5, 0), (6, -1), (7, -2), (7, 1), (7, i32::MIN), (8, 1)] {
        let mut wrong = answer.clone();
        wrong[at] = word;
        assert!(matches!(judge_with(&set, &wrong, true), Verdict::Differs(_)), "word {at} as {word}");
    }
}

/// The family has what it is for, and not too many sets that are not compared.
#[test]
fn the_family_ties() {
    let found: Vec<_> = (0..1600).filter_map(|index| ties(&case("ties", 23, index).unwrap().set)).collect();
    let count = |test: &dyn Fn(&reference::merge::Ties) -> bool| found.iter().filter(|ties| test(ties)).count();
    assert!(count(&|ties| ties.classes > 0) > 900);
    assert!(count(&|ties| ties.classes > 1) > 100);
    assert!(count(&|ties| ties.joins > 0) > 200);
    assert!(count(&|ties| ties.literals.iter().flatten().any(|(_, negated)| *negated)) > 700);
    assert!((20..200).contains(&count(&|ties| ties.self_iffs > 0)));
    assert!((20..200).contains(&count(&|ties| ties.self_xors > 0)));
}
