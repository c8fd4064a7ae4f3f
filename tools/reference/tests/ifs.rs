//! If (request 2.5): the clauses of the smallest sets, by hand from document 02 and the Rust's text; how long answers get; the families.
use reference::answer::decode;
use reference::call::counted;
use reference::generate::{case, iflimits, IFS};
use reference::meaning::{check, check_with, judge, Verdict};
use reference::merge::{model, ties};
use reference::roster::{self, Checked};
use reference::settled::{settled, Settled};
use reference::{call, call_with, listing, Outcome};

const WORK: usize = 16384;
const LONG: usize = 1 << 22;

/// The maps, the records and the clauses of a listing.
fn lines(set: &[i32], outcome: &Outcome) -> String {
    let keys = ["bools=", "ints=", "domain=", "clause="];
    let text = listing::print(set, outcome);
    let lines = text.lines().filter(|line| keys.iter().any(|key| line.starts_with(key)));
    lines.collect::<Vec<_>>().join(" ")
}

fn listed(set: &[i32]) -> String {
    lines(set, &call(set, WORK, WORK))
}

/// One integer from 0 to 5, as many Booleans, and these statements.
fn over(bools: i32, statements: &[&[i32]]) -> Vec<i32> {
    [&[bools, 1, 0, 0, 5, statements.len() as i32], &statements.concat()[..]].concat()
}

/// A rule that an integer expression equals another.
fn equals(left: &[i32], right: &[i32]) -> Vec<i32> {
    [&[1, 18, 0], left, right].concat()
}

fn left(set: &[i32]) -> Vec<i32> {
    match settled(set, WORK) {
        Settled::Words(words) => words,
        other => panic!("{other:?}"),
    }
}

/// The branches, the new integer, the condition plain and negated, the new Boolean; the condition and the first equation with it
/// negated, the condition's negation and the second with it plain; then the rule.
#[test]
fn the_order_inside_an_open_if() {
    let set = [2, 2, 0, 0, 5, 0, 2, 9, 1, 1, 18, 0, 23, 12, 2, 11, 0, 11, 1, 21, 0, 21, 1, 20, 4];
    assert_eq!(
        listed(&set),
        "bools=1,2 ints=1,2 domain=0,0,5,6 domain=0,2,9,8 domain=0,0,9,10 \
         clause=1,-3 clause=2,-3 clause=-3;0:0:0,1,2,-1 clause=-1,-2,3 clause=3;0:0:1,1,2,-1 clause=;0:-4:2,1"
    );
    // both hold and the first is 4: 8 assignments; else the second is 4: 18
    assert_eq!(check(&set), Verdict::Agrees(26, 192));
}

/// A declared variable's own literal; else a new one, in front of a single clause and behind each of several, the condition negated
/// first. A negated variable is not a variable.
#[test]
fn constant_branches() {
    let choose = |condition: &[i32]| [&[23], condition, &[20, 2, 20, 7]].concat();
    let set = |condition: &[i32]| over(2, &[&equals(&choose(condition), &[21, 0])]);
    let after = "clause=;0:0:0,1,1,-1";
    assert_eq!(listed(&set(&[11, 0])), format!("bools=1,0 ints=2 domain=1,-1,2,7 domain=0,0,5,6 {after}"));
    assert_eq!(
        listed(&set(&[14, 11, 0])),
        format!("bools=2,0 ints=2 domain=1,-1,2,7 domain=0,0,5,6 clause=1,2 clause=-1,-2 {after}")
    );
    assert_eq!(
        listed(&set(&[12, 2, 11, 0, 11, 1])),
        format!("bools=2,3 ints=2 domain=1,-1,2,7 domain=0,0,5,6 clause=1,-2,-3 clause=2,-1 clause=3,-1 {after}")
    );
    assert_eq!(check(&set(&[14, 11, 0])), Verdict::Agrees(2, 24));
}

/// What a branch comes to decides, not how it is written; its variables are met all the same.
#[test]
fn branches_that_come_to_a_constant() {
    let set = |branch: &[i32]| over(1, &[&equals(&[&[23, 11, 0], branch, &[20, 4]].concat(), &[20, 2])]);
    let said = |low| format!("bools=1 ints=1 domain=0,0,5,6 domain=1,-1,{low},4 clause=;0:-2:1,1");
    assert_eq!(listed(&set(&[22, 3, 1, 21, 0, -1, 21, 0, 1, 20, 3])), said(3));
    assert_eq!(listed(&set(&[22, 1, 0, 21, 0])), said(0));
}

/// The lower value stands in the second place; equal values are a range of one, but the condition has its clauses.
#[test]
fn the_record_of_two_values() {
    let set = |condition: &[i32], t, f| over(1, &[&equals(&[&[23], condition, &[20, t, 20, f]].concat(), &[21, 0])]);
    let after = "domain=0,0,5,6 clause=;0:0:0,1,1,-1";
    assert_eq!(listed(&set(&[11, 0], 7, 2)), format!("bools=1 ints=2 domain=1,1,2,7 {after}"));
    assert_eq!(listed(&set(&[11, 0], 1, 5)), format!("bools=1 ints=2 domain=1,-1,1,5 {after}"));
    assert_eq!(listed(&set(&[11, 0], 3, 3)), format!("bools=1 ints=2 domain=0,3,3,1 {after}"));
    assert_eq!(
        listed(&set(&[14, 11, 0], 3, 3)),
        "bools=2 ints=2 domain=0,3,3,1 domain=0,0,5,6 clause=1,2 clause=-1,-2 clause=;0:0:0,1,1,-1"
    );
}

const OPEN: [i32; 7] = [23, 11, 0, 21, 0, 20, 7];
const MADE: &str = "clause=1,-2 clause=-2;0:0:0,1,1,-1 clause=-1,2 clause=2;0:7:1,-1";

/// An open If is made once, on both sides, in two rules and in both signs; one of constants at each visit.
#[test]
fn open_ifs_are_found_again() {
    let head = format!("bools=1 ints=1 domain=0,0,5,6 domain=0,0,7,8 {MADE}");
    assert_eq!(listed(&over(1, &[&equals(&OPEN, &OPEN)])), format!("{head} clause=;0:0:"));
    let two = [equals(&OPEN, &[20, 1]), [&[1, 18, 1], &OPEN[..], &[20, 2]].concat()];
    assert_eq!(listed(&over(1, &[&two[0], &two[1]])), format!("{head} clause=;0:-1:1,1 clause=;1:-2:1,1"));
    let crossed = [&[1, 15, 18, 0], &OPEN[..], &[20, 1, 11, 0]].concat();
    assert_eq!(listed(&over(1, &[&crossed])), format!("{head} clause=1;0:-1:1,1 clause=-1;1:-1:1,1"));
    let constant = [23, 11, 0, 20, 2, 20, 7];
    let twice = "domain=1,-1,2,7 domain=1,-1,2,7";
    assert_eq!(
        listed(&over(1, &[&equals(&constant, &constant)])),
        format!("bools=1 ints=0 {twice} clause=;0:0:0,1,1,-1")
    );
    let crossed = [&[1, 15, 18, 0], &constant[..], &[20, 2, 11, 1]].concat();
    assert_eq!(listed(&over(2, &[&crossed])), format!("bools=1,2 ints=0 {twice} clause=2;0:-2:0,1 clause=-2;1:-2:1,1"));
}

/// In a rule a Xor or Iff in a condition is split, at each place with numbers of its own, so that such Ifs are not found again.
#[test]
fn split_conditions_are_not_equal() {
    let xor = [23, 15, 11, 0, 11, 1, 21, 0, 20, 7];
    let made = |a, b, u, v| {
        format!(
            "clause={a},{b},-{u} clause=-{a},-{b},-{u} clause=-{u};0:0:0,1,{v},-1 \
             clause={a},-{b},{u} clause=-{a},{b},{u} clause={u};0:7:{v},-1"
        )
    };
    assert_eq!(
        listed(&over(3, &[&equals(&xor, &xor)])),
        format!(
            "bools=5,6,0 ints=1 domain=0,0,5,6 domain=0,0,7,8 domain=0,0,7,8 clause=5,-1 clause=-5,1 clause=6,-2 clause=-6,2 \
             clause=5,-3 clause=-5,3 clause=6,-4 clause=-6,4 {} {} clause=;0:0:1,1,2,-1",
            made(1, 2, 7, 1),
            made(3, 4, 8, 2)
        )
    );
    let crossed = [&[1, 16, 18, 0], &xor[..], &[20, 1, 11, 2]].concat();
    let again = listed(&over(3, &[&crossed]));
    assert_eq!(again.matches("domain=").count(), 2, "one place, both signs: {again}");
}

/// In columns nothing is split: the same words are the same If. A rule finds it where no Xor or Iff is in it.
#[test]
fn columns_and_rules() {
    let column = |e: &[i32]| [&[2, 1, 1], e, &[1]].concat();
    let ints = |statements: &[&[i32]]| listed(&over(2, statements)).matches("domain=").count();
    let iff = [23, 16, 11, 0, 11, 1, 21, 0, 20, 3];
    assert_eq!(ints(&[&column(&iff), &column(&iff)]), 1 + 1 + 2, "the variable, one If, two columns");
    assert_eq!(ints(&[&column(&iff), &equals(&iff, &[20, 2])]), 1 + 1 + 1 + 1, "another If in the rule");
    assert_eq!(ints(&[&column(&OPEN), &equals(&OPEN, &[20, 2])]), 1 + 1 + 1, "found again");
    assert_eq!(ints(&[&equals(&OPEN, &[20, 2]), &column(&OPEN)]), 1 + 1 + 1, "found again");
    assert_eq!(
        listed(&over(2, &[&column(&iff)])),
        "bools=1,2 ints=1 domain=0,0,5,6 domain=0,0,5,6 domain=0,0,5,6 \
         clause=1,-2,-3 clause=-1,2,-3 clause=-3;0:0:0,1,1,-1 clause=1,2,3 clause=-1,-2,3 clause=3;0:3:1,-1 \
         clause=;0:0:1,1,2,-1 clause=;0:-1:2,1"
    );
}

/// A column gets a range of its own, from the lower value to the higher: 1, 2 and 3 are all of it.
#[test]
fn a_column_over_two_values() {
    let set = |rows: i32, cells: &[i32]| over(1, &[&[&[2, 1, rows, 23, 11, 0, 20, 1, 20, 3], cells].concat()]);
    let head = "bools=1 ints=0 domain=1,-1,1,3 domain=0,1,3,3 clause=;0:0:0,1,1,-1";
    assert_eq!(listed(&set(3, &[1, 2, 3])), head);
    assert_eq!(listed(&set(2, &[1, 3])), format!("{head} clause=;0:-1:1,1;0:-3:1,1"));
    let doubled = over(1, &[&[2, 1, 0, 22, 2, -2, 23, 11, 0, 20, 1, 20, 3, 1, 20, 1]]);
    assert!(listed(&doubled).starts_with("bools=1 ints=0 domain=1,-1,1,3 domain=0,-5,-1,5 "), "{}", listed(&doubled));
}

/// Each pair of an AllDifferent is split anew.
#[test]
fn all_different_pairs() {
    let set = |e: &[i32]| over(2, &[&[&[3, 3], e, &[20, 1, 20, 2]].concat()]);
    let ints = |e: &[i32]| listed(&set(e)).matches("domain=").count();
    assert_eq!(ints(&OPEN), 2, "made for the first pair, found for the second");
    assert_eq!(ints(&[23, 15, 11, 0, 11, 1, 21, 0, 20, 3]), 3, "made for both");
    assert_eq!(
        listed(&set(&[23, 11, 0, 20, 0, 20, 3])),
        "bools=1,0 ints=0 domain=1,-1,0,3 domain=1,-1,0,3 clause=;1:-1:0,1 clause=;1:-2:1,1 clause=;1:-1:"
    );
}

/// The condition is split before the branches, the first branch before the second; and what Ifs register stands before the rule.
#[test]
fn the_order_of_splitting() {
    let inner = [23, 16, 11, 1, 11, 2, 21, 0, 20, 1];
    let outer = [&[23, 15, 11, 0, 11, 1], &inner[..], &[20, 7]].concat();
    assert_eq!(
        listed(&over(3, &[&equals(&outer, &[20, 4])])),
        "bools=5,6,7 ints=1 domain=0,0,5,6 domain=0,0,5,6 domain=0,0,7,8 \
         clause=5,-1 clause=-5,1 clause=6,-2 clause=-6,2 clause=6,-3 clause=-6,3 clause=7,-4 clause=-7,4 \
         clause=3,-4,-8 clause=-3,4,-8 clause=-8;0:0:0,1,1,-1 clause=3,4,8 clause=-3,-4,8 clause=8;0:1:1,-1 \
         clause=1,2,-9 clause=-1,-2,-9 clause=-9;0:0:1,1,2,-1 clause=1,-2,9 clause=-1,2,9 clause=9;0:7:2,-1 clause=;0:-4:2,1"
    );
}

/// A known condition picks its branch, also late and in a column; equal branches stay; a comparison with an If fixes nothing.
#[test]
fn folding() {
    assert_eq!(left(&over(2, &[&[1, 11, 0], &equals(&OPEN, &[20, 1])])), [1, 2, 1, 10, 1, 1, 18, 0, 21, 0, 20, 1]);
    assert_eq!(left(&over(1, &[&[1, 14, 11, 0], &[&[2, 1, 0], &OPEN[..]].concat()])), [0, 1, 10, 1, 2, 1, 0, 20, 7]);
    let late = over(2, &[&equals(&[23, 11, 1, 21, 0, 20, 7], &[20, 1]), &[1, 17, 11, 0, 11, 1], &[1, 11, 0]]);
    assert_eq!(left(&late), [1, 1, 1, 18, 0, 21, 0, 20, 1, 1, 10, 1, 1, 10, 1]);
    let same = equals(&[23, 11, 0, 20, 3, 20, 3], &[20, 3]);
    assert_eq!(left(&over(1, &[&same])), [&[2][..], &same].concat());
    let inner = equals(&[23, 13, 2, 11, 0, 10, 0, 22, 1, 1, 21, 0, 22, 0], &[20, 3]);
    assert_eq!(left(&over(1, &[&inner])), [&[2][..], &equals(&[23, 11, 0, 21, 0, 20, 0], &[20, 3])].concat());
    let fixing = over(1, &[&equals(&[23, 11, 0, 20, 0, 20, 1], &[20, 0])]);
    assert_eq!(left(&fixing)[0], 2);
}

/// With merging a record's literal is that of the signed map.
#[test]
fn merged_literals() {
    let tie = [1, 15, 11, 0, 11, 1];
    let set = |t, f| over(2, &[&tie, &equals(&[23, 11, 1, 20, t, 20, f], &[21, 0])]);
    let merged = |set: &[i32]| lines(set, &call_with(set, WORK, WORK, true));
    let after = "domain=0,0,5,6 clause=1,-1 clause=-1,1 clause=;0:0:0,1,1,-1";
    assert_eq!(merged(&set(2, 7)), format!("bools=1,-1 ints=2 domain=1,1,2,7 {after}"));
    assert_eq!(merged(&set(7, 2)), format!("bools=1,-1 ints=2 domain=1,-1,2,7 {after}"));
    assert!(listed(&set(2, 7)).starts_with("bools=1,2 ints=2 domain=1,-2,2,7 "));
}

#[test]
fn rosters() {
    let set =
        over(2, &[&equals(&[23, 15, 11, 0, 11, 1, 21, 0, 20, 7], &[20, 4]), &[&[3, 2], &OPEN[..], &[20, 7]].concat()]);
    for (values, said) in [
        ([1, 0, 4], Checked::Yes),
        ([1, 0, 3], Checked::Broken(1)),
        ([1, 1, 4], Checked::Broken(1)),
        ([0, 1, 4], Checked::Broken(2)),
        ([1, 0, 6], Checked::Refused(15)),
    ] {
        assert_eq!(roster::check(&set, &values, WORK), said, "{values:?}");
    }
}

/// The kind, the literal's sign and number, both values.
#[test]
fn wrong_records_are_noticed() {
    let set = over(2, &[&equals(&[23, 14, 11, 0, 20, 2, 20, 4], &[21, 0]), &[1, 13, 2, 11, 0, 11, 1]]);
    let Outcome::Compiled(answer) = call(&set, WORK, WORK) else {
        panic!("compiled");
    };
    let at = 7;
    assert_eq!(answer[at..at + 8], [1, -1, 2, 4, 0, 0, 5, 6]);
    assert_eq!(judge(&set, &answer), Verdict::Agrees(3, 24));
    let wrong = [(0, 0), (0, 2), (1, 1), (1, 0), (1, -2), (1, -4), (2, 3), (2, 4), (3, 5), (4, 1), (7, 5)];
    for (place, word) in wrong {
        let mut changed = answer.clone();
        changed[at + place] = word;
        assert!(matches!(judge(&set, &changed), Verdict::Differs(_)), "word {place} as {word}");
    }
}

/// c_0 = v0 and v1, c_k = (If(c_(k-1), t, 0) = 0).
fn nest(levels: usize, t: [i32; 2]) -> Vec<i32> {
    let tail = [&t[..], &[20, 0, 20, 0]].concat();
    [[18, 0, 23].repeat(levels), vec![12, 2, 11, 0, 11, 1], tail.repeat(levels)].concat()
}

fn lengths(set: &[i32]) -> (usize, usize, i32, usize, usize) {
    let Outcome::Compiled(words) = call(set, LONG, WORK) else {
        panic!("compiled");
    };
    assert_eq!(counted(set), Some(words.len() as u64));
    assert_eq!(call(set, words.len() - 1, WORK), Outcome::Refused(12));
    let answer = decode(set[0] as usize, set[1] as usize, &words).unwrap();
    (set.len(), words.len(), answer.bools, answer.domains.len(), answer.clauses.len())
}

/// The figures of notes that were taken from runs of the Rust.
#[test]
fn how_answers_grow() {
    let constants = [vec![2, 0, 1, 1], nest(14, [20, 1])].concat();
    assert_eq!(lengths(&constants), (136, 303098, 16385, 16383, 40959));
    let open = over(2, &[&[vec![1], nest(31, [21, 0])].concat()]);
    assert_eq!((lengths(&open).1, lengths(&open).3), (1194, 32));
    let mut iffs = vec![11, 0];
    (0..13).for_each(|i| iffs = [&[16], &iffs[..], &[11, 1 + i % 7]].concat());
    let column = [vec![8, 0, 1, 2, 1, 1, 23], iffs, vec![20, 0, 20, 1, 0]].concat();
    assert_eq!(lengths(&column), (53, 278571, 9, 2, 16386));
    let pairs = [vec![1, 0, 1, 3, 130], [23, 11, 0, 20, 0, 20, 1].repeat(130)].concat();
    assert_eq!(lengths(&pairs), (915, 142550, 1, 16770, 8385));
    let crossed = over(2, &[&[vec![3, 60], [23, 15, 11, 0, 11, 1, 21, 0, 20, 7].repeat(60)].concat()]);
    let (words, _, bools, ints, _) = lengths(&crossed);
    assert_eq!((words, bools, ints), (608, 10622, 3541));
}

/// Only counted: 2 to the 30th Ifs, 2 to the 60th clauses.
#[test]
fn answers_too_long_to_build() {
    let constants = [vec![2, 0, 1, 1], nest(30, [20, 1])].concat();
    let mut iffs = vec![11, 0];
    (0..60).for_each(|_| iffs = [&[16], &iffs[..], &[11, 1]].concat());
    let column = [vec![2, 0, 1, 2, 1, 0, 23], iffs, vec![20, 0, 20, 1]].concat();
    for set in [constants, column] {
        assert!(counted(&set).unwrap() > 1 << 33);
        assert_eq!(call(&set, usize::MAX, WORK), Outcome::Refused(12));
    }
}

#[test]
fn limits_of_request_2_5() {
    let all = iflimits::all();
    let found: Vec<String> = all.iter().filter_map(|limit| limit.difference()).collect();
    assert!(found.is_empty(), "{}", found.join("\n"));
}

#[test]
fn no_difference_in_meaning() {
    for family in IFS {
        for index in 0..200 {
            let set = case(family, 41, index).unwrap().set;
            if let Verdict::Differs(how) = check(&set) {
                panic!("{family} {index}: {how}\n{set:?}");
            }
        }
    }
}

/// With merging: the plain answer renumbered, records included, is the Rust's.
#[test]
fn merged_answers() {
    for family in IFS {
        for index in 0..100 {
            let case = case(family, 44, index).unwrap();
            let rust = call_with(&case.set, case.out_len, WORK, true);
            let apart = ties(&case.set).unwrap_or_default().apart();
            assert!(apart || model(&case.set, case.out_len, WORK) == rust, "{family} {index}");
            let verdict = check_with(&case.set, true);
            assert!(!matches!(verdict, Verdict::Differs(_)), "{family} {index}: {verdict:?}");
        }
    }
}

#[test]
fn the_counted_length_is_the_answers() {
    for family in IFS {
        for index in 0..200 {
            let set = case(family, 42, index).unwrap().set;
            let outcome = call(&set, usize::MAX, WORK);
            assert_ne!(outcome, Outcome::Panicked, "{family} {index}");
            if let Outcome::Compiled(answer) = outcome {
                assert_eq!(counted(&set), Some(answer.len() as u64), "{family} {index}");
            }
        }
    }
}

/// Answers with records of both kinds, and Ifs that were found again, in each family that is made for Ifs.
#[test]
fn the_families_have_ifs() {
    for family in &IFS[..11] {
        let (mut two, mut compiled) = (0, 0);
        for index in 0..200 {
            let case = case(family, 43, index).unwrap();
            if let Outcome::Compiled(words) = call(&case.set, LONG, WORK) {
                let answer = decode(case.set[0] as usize, case.set[1] as usize, &words).unwrap();
                compiled += 1;
                two += answer.domains.iter().any(|record| record[0] == 1) as u32;
            }
        }
        assert!(compiled > 100 && two > 20, "{family}: {compiled} compiled, {two} with records of two values");
    }
}
