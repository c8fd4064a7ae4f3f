//! The meaning of answers over small sets of every family, and that wrong answers are noticed.
use reference::call::counted;
use reference::generate::{case, FAMILIES, GOOD};
use reference::meaning::{check, judge, Verdict};
use reference::{call, Outcome};

#[test]
fn no_difference_in_meaning() {
    for family in FAMILIES {
        for index in 0..300 {
            let set = case(family, 11, index).unwrap().set;
            if let Verdict::Differs(how) = check(&set) {
                panic!("{family} {index}: {how}\n{set:?}");
            }
        }
    }
}

#[test]
fn the_counted_length_is_the_answers() {
    for family in FAMILIES {
        for index in 0..200 {
            let set = case(family, 12, index).unwrap().set;
            if let Outcome::Compiled(answer) = call(&set, usize::MAX, 16384) {
                assert_eq!(counted(&set), Some(answer.len() as u64), "{family} {index}");
            }
        }
    }
}

/// Every word of P1's answer counts.
#[test]
fn wrong_answers_are_noticed() {
    let p1 = [3, 0, 1, 1, 16, 11, 0, 12, 2, 11, 1, 11, 2];
    let Outcome::Compiled(answer) = call(&p1, 100, 16384) else {
        panic!("P1 is compiled");
    };
    assert_eq!(judge(&p1, &answer), Verdict::Agrees(4, 8));
    for at in 0..answer.len() {
        let mut wrong = answer.clone();
        wrong[at] = if wrong[at] == 0 { 1 } else { -wrong[at] };
        assert!(matches!(judge(&p1, &wrong), Verdict::Differs(_)), "word {at}");
        assert!(matches!(judge(&p1, &answer[..at]), Verdict::Differs(_)), "cut to {at}");
    }
    assert!(matches!(judge(&p1, &[answer, vec![0]].concat()), Verdict::Differs(_)));
}

/// Any words can be judged.
#[test]
fn nothing_panics_on_wrong_answers() {
    let extremes = [i32::MIN, -1, 0, 1, 3, 1_000_000, i32::MAX];
    for family in GOOD {
        for index in 0..20 {
            let set = case(family, 15, index).unwrap().set;
            let Outcome::Compiled(answer) = call(&set, 400, 16384) else {
                continue;
            };
            for at in 0..answer.len() {
                for word in extremes {
                    let mut wrong = answer.clone();
                    wrong[at] = word;
                    let _ = judge(&set, &wrong);
                }
            }
        }
    }
}

#[test]
fn nothing_panics_on_damaged_sets() {
    for index in 0..3000 {
        let case = case("damaged", 13, index).unwrap();
        assert_ne!(call(&case.set, case.out_len, case.work_len), Outcome::Panicked);
    }
}

#[test]
fn most_small_sets_are_enumerated() {
    for family in GOOD {
        let verdicts = (0..200).map(|index| check(&case(family, 14, index).unwrap().set));
        let enumerated = verdicts.filter(|v| matches!(v, Verdict::Agrees(_, _) | Verdict::Contradiction(_))).count();
        assert!(enumerated > 120, "{family}: {enumerated} of 200");
    }
}
