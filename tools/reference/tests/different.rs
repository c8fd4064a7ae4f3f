//! AllDifferent (request 2.1): the clauses of the smallest sets, by hand from document 02 and the Rust's text; what is refused; the family.
use reference::answer::{decode, Comparison};
use reference::generate::case;
use reference::meaning::{check, judge, Verdict};
use reference::roster::{self, Checked};
use reference::settled::{settled, Settled};
use reference::{call, call_with, listing, Outcome};

const WORK: usize = 16384;

/// The integers' numbers and the clauses of a set's listing.
fn listed(set: &[i32]) -> String {
    let text = listing::print(set, &call(set, WORK, WORK));
    let lines = text.lines().filter(|line| ["ints=", "clause="].iter().any(|key| line.starts_with(key)));
    lines.collect::<Vec<_>>().join(" ")
}

fn refused(set: &[i32], number: u8) {
    assert_eq!(call(set, WORK, WORK), Outcome::Refused(number), "{set:?}");
}

#[test]
fn pairs_in_order_then_values_rising() {
    let three = [0, 3, 0, 0, 2, 0, 0, 2, 0, 0, 2, 1, 3, 3, 21, 0, 21, 1, 21, 2];
    assert_eq!(
        listed(&three),
        "ints=1,2,3 clause=;1:0:0,1,1,-1 clause=;1:0:0,1,2,-1 clause=;1:0:1,1,2,-1 \
         clause=;0:0:0,1;0:0:1,1;0:0:2,1 clause=;0:-1:0,1;0:-1:1,1;0:-1:2,1 clause=;0:-2:0,1;0:-2:1,1;0:-2:2,1"
    );
    assert_eq!(check(&three), Verdict::Agrees(6, 27));
}

/// Numbers are given as the pairs meet the variables.
#[test]
fn numbers_in_order_of_meeting() {
    let turned = [0, 2, 0, 0, 2, 0, 0, 2, 1, 3, 2, 21, 1, 21, 0];
    assert_eq!(listed(&turned), "ints=2,1 clause=;1:0:0,1,1,-1");
}

/// 0 to 2 as a range and by its values are equal domains; 0 to 2 and 1 to 3 are not, nor are 0, 1, 2 and 0, 1, 3.
#[test]
fn equal_domains_in_both_kinds() {
    let both = [0, 2, 0, 0, 1, 1, 2, 0, 1, 1, 3, 2, 21, 0, 21, 1];
    assert_eq!(listed(&both), "ints=1,2 clause=;1:0:0,1,1,-1 clause=;0:0:0,1;0:0:1,1 clause=;0:-1:0,1;0:-1:1,1");
    let moved = [0, 2, 0, 0, 1, 0, 1, 2, 1, 3, 2, 21, 0, 21, 1];
    assert_eq!(listed(&moved), "ints=1,2 clause=;1:0:0,1,1,-1");
    let gap = [0, 2, 0, 0, 1, 1, 2, 0, 2, 1, 3, 2, 21, 0, 21, 1];
    assert_eq!(listed(&gap), "ints=1,2 clause=;1:0:0,1,1,-1");
}

/// Two variables of three values: the values are not used up. Three of two values: nobody passes the pairs.
#[test]
fn another_count_has_no_value_clauses() {
    assert_eq!(listed(&[0, 2, 0, 0, 2, 0, 0, 2, 1, 3, 2, 21, 0, 21, 1]), "ints=1,2 clause=;1:0:0,1,1,-1");
    let three = [0, 3, 0, 0, 1, 0, 0, 1, 0, 0, 1, 1, 3, 3, 21, 0, 21, 1, 21, 2];
    assert_eq!(listed(&three), "ints=1,2,3 clause=;1:0:0,1,1,-1 clause=;1:0:0,1,2,-1 clause=;1:0:1,1,2,-1");
    assert_eq!(check(&three), Verdict::Agrees(0, 8));
}

#[test]
fn one_variable_twice() {
    let twice = [0, 1, 0, 0, 1, 1, 3, 2, 21, 0, 21, 0];
    assert_eq!(listed(&twice), "ints=1 clause=;1:0: clause=;0:0:0,1;0:0:0,1 clause=;0:-1:0,1;0:-1:0,1");
    assert_eq!(check(&twice), Verdict::Agrees(0, 2));
}

/// "All are variables" is judged after folding: a variable of one value is a constant, 1 times a variable is the variable.
#[test]
fn folded_before_it_is_judged() {
    assert_eq!(listed(&[0, 2, 0, 0, 1, 0, 1, 1, 1, 3, 2, 21, 0, 21, 1]), "ints=1,0 clause=;1:-1:0,1");
    let values = "clause=;0:0:0,1;0:0:1,1 clause=;0:-1:0,1;0:-1:1,1";
    let bits = |first: &[i32]| [&[0, 2, 0, 0, 1, 0, 0, 1, 1, 3, 2], first, &[21, 1]].concat();
    assert_eq!(listed(&bits(&[22, 1, 1, 21, 0])), format!("ints=1,2 clause=;1:0:0,1,1,-1 {values}"));
    assert_eq!(listed(&bits(&[22, 1, -1, 21, 0])), "ints=1,2 clause=;1:0:0,-1,1,-1");
    let left = settled(&[0, 2, 0, 0, 1, 0, 1, 1, 1, 3, 2, 21, 1, 22, 1, -1, 21, 0], WORK);
    assert_eq!(left, Settled::Words(vec![3, 2, 20, 1, 22, 1, -1, 21, 0]));
}

#[test]
fn none_and_one() {
    for set in [&[0, 1, 0, 0, 1, 1, 3, 0][..], &[0, 1, 0, 0, 1, 1, 3, 1, 21, 0]] {
        assert_eq!(call(set, WORK, WORK), Outcome::Compiled(vec![0, 0, 0, 0]), "{set:?}");
    }
    assert_eq!(call(&[0, 1, 0, 5, 5, 1, 3, 1, 21, 0], WORK, WORK), Outcome::Compiled(vec![0, 0, 0, 0]));
}

/// Equal constants compile to a clause that nobody passes.
#[test]
fn fixes_nothing_and_finds_no_contradiction() {
    let set = [0, 0, 1, 3, 2, 20, 4, 20, 4];
    assert_eq!(call(&set, WORK, WORK), Outcome::Compiled(vec![0, 0, 1, 0, 1, 1, 0, 0]));
    assert_eq!(check(&set), Verdict::Agrees(0, 1));
}

/// Domains that the Rust would enumerate in gigabytes: the pairs alone.
#[test]
fn wide_domains_are_not_enumerated() {
    for high in [99_999, 100_000, 500_000_000] {
        let set = [0, 2, 0, 0, high, 0, 0, high, 1, 3, 2, 21, 0, 21, 1];
        assert_eq!(listed(&set), "ints=1,2 clause=;1:0:0,1,1,-1");
    }
    assert_eq!(call(&[0, 1, 0, 0, 1073741823, 1, 3, 1, 21, 0], WORK, WORK), Outcome::Compiled(vec![0; 4]));
}

#[test]
fn refusals() {
    refused(&[0, 0, 1, 3], 3);
    refused(&[0, 0, 1, 3, 2, 20, 0], 3);
    refused(&[0, 0, 1, 3, -1], 4);
    refused(&[0, 0, 1, 3, 4097], 4);
    refused(&[1, 0, 1, 3, 1, 11, 0], 5);
    refused(&[0, 0, 1, 3, 1, 21, 0], 6);
    refused(&[0, 0, 1, 3, 2, 20, 1073741823, 20, 1], 9);
    refused(&[0, 0, 1, 3, 1, 22, 1, 2, 20, 1073741823], 9);
    assert_eq!(listed(&[0, 0, 1, 3, 2, 20, 1073741823, 20, 0]), "ints= clause=;1:1073741823:");
}

/// The first broken statement; a roster is checked as written.
#[test]
fn rosters() {
    let set = [1, 2, 0, 0, 2, 0, 0, 2, 2, 1, 11, 0, 3, 3, 21, 0, 21, 1, 22, 1, 2, 21, 0];
    for (values, said) in [
        ([1, 1, 0], Checked::Yes),
        ([1, 1, 1], Checked::Broken(2)),
        ([1, 1, 2], Checked::Broken(2)),
        ([1, 0, 2], Checked::Broken(2)),
        ([0, 1, 1], Checked::Broken(1)),
        ([1, 3, 3], Checked::Refused(15)),
    ] {
        assert_eq!(roster::check(&set, &values, WORK), said, "{values:?}");
    }
}

/// Merging passes over the statement.
#[test]
fn merging_passes_over_it() {
    let set = [2, 2, 0, 0, 1, 0, 0, 1, 2, 3, 2, 21, 0, 21, 1, 1, 15, 11, 0, 11, 1];
    let (Outcome::Compiled(plain), Outcome::Compiled(merged)) =
        (call(&set, WORK, WORK), call_with(&set, WORK, WORK, true))
    else {
        panic!("compiled");
    };
    assert_eq!((&plain[2..6], &merged[2..6]), (&[1, 2, 1, 2][..], &[1, -1, 1, 2][..]));
    let clauses = |words: &[i32]| decode(2, 2, words).unwrap().clauses[..3].to_vec();
    assert_eq!(clauses(&plain), clauses(&merged));
}

/// Every word of an answer with pairs and values counts.
#[test]
fn wrong_answers_are_noticed() {
    let set = [0, 2, 0, 0, 1, 1, 2, 0, 1, 1, 3, 2, 21, 0, 21, 1];
    let Outcome::Compiled(answer) = call(&set, WORK, WORK) else {
        panic!("compiled");
    };
    assert_eq!(judge(&set, &answer), Verdict::Agrees(2, 4));
    for (at, word) in [(14, 0), (15, 0), (16, 1), (24, 1), (25, 5)] {
        let mut wrong = answer.clone();
        assert_ne!(wrong[at], word, "word {at}");
        wrong[at] = word;
        assert!(matches!(judge(&set, &wrong), Verdict::Differs(_)), "word {at} as {word}");
    }
}

/// The family has what it is for.
#[test]
fn the_family_different() {
    let (mut valued, mut pairs_alone, mut refused) = (0, 0, 0);
    for index in 0..1600 {
        let set = case("different", 31, index).unwrap().set;
        let Outcome::Compiled(words) = call(&set, 1 << 22, WORK) else {
            refused += 1;
            continue;
        };
        let single = |c: &Comparison| c.op == 0 && c.terms.len() == 1;
        let answer = decode(set[0] as usize, set[1] as usize, &words).unwrap();
        let value =
            answer.clauses.iter().any(|clause| clause.comparisons.len() > 1 && clause.comparisons.iter().all(single));
        valued += value as u32;
        pairs_alone += (!value && !answer.clauses.is_empty()) as u32;
    }
    assert!(
        valued > 400 && pairs_alone > 400 && refused < 200,
        "{valued} with values, {pairs_alone} without, {refused} refused"
    );
}

/// Two million pairs, the answer one word under the longest, the longest, and one word over.
#[test]
fn the_longest_answers() {
    let counted = |index| reference::call::counted(&case("longest", 1, index).unwrap().set);
    assert_eq!([12, 13, 14].map(counted), [Some(16777215), Some(16777216), Some(16777217)]);
}
