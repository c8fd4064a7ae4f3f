//! Every limit, at it and one past it, with the outcome written by hand.
use reference::generate::{case, limits, FAMILIES, IFS};
use reference::{call, Outcome};

#[test]
fn limits_of_the_documents() {
    let found: Vec<String> = limits::all().iter().filter_map(|limit| limit.difference()).collect();
    assert!(found.is_empty(), "{}", found.join("\n"));
}

/// Each refusal is met by some limit.
#[test]
fn every_refusal_is_met() {
    let all = limits::all();
    for number in 1..=12 {
        let met = all.iter().any(|limit| limit.expected == limits::Expected::Refused(number));
        assert!(met, "no limit is refused {number}");
    }
}

#[test]
fn a_case_is_made_again() {
    for family in FAMILIES.into_iter().chain(IFS).chain(["longest"]) {
        for index in [0, 15, 300] {
            assert_eq!(case(family, 8, index), case(family, 8, index));
        }
        assert_ne!(case(family, 8, 0), case(family, 8, 1));
    }
    assert_eq!(case("none such", 8, 0), None);
}

/// The lengths that the family `lengths` is made for.
#[test]
fn answers_around_a_slice() {
    let outcome = |index| {
        let case = case("lengths", 5, index).unwrap();
        call(&case.set, case.out_len, case.work_len)
    };
    let length = |index| match outcome(index) {
        Outcome::Compiled(answer) => answer.len(),
        _ => 0,
    };
    assert_eq!(length(15), 16383);
    assert_eq!(length(16), 16384);
    assert_eq!(outcome(17), Outcome::Refused(12));
}

/// A table so wide that its answer is only counted.
#[test]
fn an_answer_too_long_to_build() {
    let case = case("longest", 1, 9).unwrap();
    assert!(reference::call::counted(&case.set).unwrap() > 20_000_000);
    assert_eq!(call(&case.set, case.out_len, case.work_len), Outcome::Refused(12));
}
