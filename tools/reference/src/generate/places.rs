//! Limits at one word: counts, values, codes, indices, depth (refusals 3 to 8).
use super::limits::{Expected, Expected::*, Limit};
use crate::set::{LIMIT, STAR};

/// Words put into one place of a set, with the outcome.
type Middle<'a> = (&'a [i32], Expected);
/// A name, the words before the place, those after it, and what is put there.
type Place<'a> = (&'a str, &'a [i32], &'a [i32], &'a [Middle<'a>]);

const PAST: i32 = LIMIT + 1;
const COUNTS: [Place; 9] = [
    ("Booleans", &[], &[0, 0], &[(&[512], Compiled), (&[513], Refused(4)), (&[-1], Refused(4))]),
    ("integers", &[0], &[], &[(&[256], Refused(3)), (&[257], Refused(4)), (&[-1], Refused(4))]),
    ("statements", &[0, 0], &[], &MEMBERS),
    ("And", &[0, 0, 1, 1, 12], &[], &MEMBERS),
    ("Or", &[0, 0, 1, 1, 13], &[], &MEMBERS),
    ("terms", &[0, 0, 1, 1, 18, 0, 22], &[], &MEMBERS),
    ("columns", &[0, 0, 1, 2], &[], &MEMBERS),
    ("differing expressions", &[0, 0, 1, 3], &[], &MEMBERS),
    ("rows", &[0, 0, 1, 2, 0], &[], &[(&[4096], Compiled), (&[4097], Refused(4)), (&[-1], Refused(4))]),
];
const MEMBERS: [Middle; 3] = [(&[4096], Refused(3)), (&[4097], Refused(4)), (&[-1], Refused(4))];
const ENUMERATED_COUNTS: [Middle; 7] = [
    (&[1, 0, 0], Compiled),
    (&[4096], Refused(3)),
    (&[4097], Refused(4)),
    (&[i32::MAX], Refused(4)),
    (&[0], Refused(7)),
    (&[-1], Refused(7)),
    (&[i32::MIN], Refused(7)),
];
const SCALARS: [Middle; 7] = [
    (&[LIMIT], Compiled),
    (&[-LIMIT], Compiled),
    (&[PAST], Refused(4)),
    (&[-PAST], Refused(4)),
    (&[STAR], Refused(4)),
    (&[STAR + 1], Refused(4)),
    (&[i32::MAX], Refused(4)),
];
const CELLS: [Middle; 7] = [
    (&[LIMIT], Compiled),
    (&[-LIMIT], Compiled),
    (&[STAR], Compiled),
    (&[PAST], Refused(4)),
    (&[-PAST], Refused(4)),
    (&[STAR + 1], Refused(4)),
    (&[i32::MAX], Refused(4)),
];
const RANGES: [Middle; 9] = [
    (&[-LIMIT, LIMIT], Compiled),
    (&[0, 0], Compiled),
    (&[1, 0], Refused(7)),
    (&[LIMIT, -LIMIT], Refused(7)),
    (&[-PAST, 0], Refused(4)),
    (&[PAST, 0], Refused(4)),
    (&[0, PAST], Refused(4)),
    (&[5, -PAST], Refused(4)),
    (&[STAR, 0], Refused(4)),
];
const PAIRS: [Middle; 6] = [
    (&[-LIMIT, LIMIT], Compiled),
    (&[0, 0], Refused(7)),
    (&[1, 0], Refused(7)),
    (&[1, -PAST], Refused(4)),
    (&[1, PAST], Refused(4)),
    (&[PAST, 0], Refused(4)),
];
const CONSTANTS: [Middle; 4] = [(&[0], Contradiction), (&[1], Compiled), (&[2], Refused(4)), (&[-1], Refused(4))];
const VALUES: [Place; 8] = [
    ("enumerated count", &[0, 1, 1], &[], &ENUMERATED_COUNTS),
    ("one enumerated value", &[0, 1, 1, 1], &[0], &SCALARS),
    ("two enumerated values", &[0, 1, 1, 2], &[0], &PAIRS),
    ("range", &[0, 1, 0], &[0], &RANGES),
    ("constant", &[0, 0, 1, 1, 18, 0, 20], &[20, 0], &SCALARS),
    ("coefficient", &[0, 0, 1, 1, 18, 0, 22, 1], &[20, 1, 20, 0], &SCALARS),
    ("cell", &[0, 0, 1, 2, 1, 1, 20, 0], &[], &CELLS),
    ("Boolean constant", &[0, 0, 1, 1, 10], &[], &CONSTANTS),
];

/// Cases that differ in the words put into one place of a set.
fn at(name: &str, before: &[i32], after: &[i32], middles: &[Middle]) -> Vec<Limit> {
    let make = |(middle, expected): &Middle| {
        Limit::new(&format!("{name} {middle:?}"), [before, middle, after].concat(), *expected)
    };
    middles.iter().map(make).collect()
}

fn each(places: &[Place]) -> Vec<Limit> {
    places.iter().flat_map(|(name, before, after, middles)| at(name, before, after, middles)).collect()
}

pub fn counts() -> Vec<Limit> {
    let mut all = each(&COUNTS);
    let integers = [vec![0, 256], [0, 0, 1].repeat(256), vec![0]].concat();
    let statements = [vec![0, 0, 1364], [1, 10, 1].repeat(1364)].concat();
    let values = [0, 1, 1, 4091].into_iter().chain(0..4091).chain([0]).collect();
    all.push(Limit::new("256 integers", integers, Compiled));
    all.push(Limit::new("1364 statements", statements, Compiled));
    all.push(Limit::new("4091 enumerated values", values, Compiled));
    all
}

pub fn values() -> Vec<Limit> {
    let mut all = each(&VALUES);
    all.extend(operators());
    all
}

fn operators() -> Vec<Limit> {
    let mut middles: Vec<(Vec<i32>, Expected)> = (0..=5).map(|op| (vec![op], Compiled)).collect();
    middles.extend([(vec![6], Refused(4)), (vec![-1], Refused(4))]);
    let middles: Vec<(&[i32], Expected)> = middles.iter().map(|(words, e)| (&words[..], *e)).collect();
    at("operator", &[0, 0, 1, 1, 18], &[20, 0, 20, 0], &middles)
}

pub fn codes() -> Vec<Limit> {
    let unknown: [(&[i32], Expected); 4] =
        [(&[-1], Refused(5)), (&[3], Refused(5)), (&[9], Refused(5)), (&[STAR], Refused(5))];
    let mut all = at("domain code", &[0, 1], &[0, 0, 0], &unknown);
    all.extend(at("domain code", &[0, 1], &[0, 0, 0], &[(&[2], Refused(5)), (&[0], Compiled)]));
    let unknown: [(&[i32], Expected); 5] =
        [(&[-1], Refused(5)), (&[0], Refused(5)), (&[4], Refused(5)), (&[9], Refused(5)), (&[STAR], Refused(5))];
    all.extend(at("statement code", &[0, 0, 1], &[0], &unknown));
    all.extend(at("statement code", &[0, 0, 1], &[0], &[(&[1, 12], Compiled), (&[2, 0], Compiled), (&[3], Compiled)]));
    for code in [-1, 0, 9, 19, 20, 21, 22, 24, i32::MAX] {
        all.push(Limit::new(&format!("Boolean code {code}"), vec![1, 0, 1, 1, code, 0], Refused(5)));
        all.push(Limit::new(&format!("member code {code}"), vec![1, 0, 1, 1, 12, 1, code, 0], Refused(5)));
    }
    for code in [-1, 0, 10, 11, 14, 18, 19, 24, i32::MAX] {
        all.push(Limit::new(&format!("left code {code}"), vec![1, 0, 1, 1, 18, 0, code, 0, 20, 0], Refused(5)));
        all.push(Limit::new(&format!("right code {code}"), vec![1, 0, 1, 1, 18, 0, 20, 0, code, 0], Refused(5)));
        all.push(Limit::new(&format!("term code {code}"), vec![1, 0, 1, 1, 18, 0, 22, 1, 1, code, 0], Refused(5)));
        all.push(Limit::new(&format!("column code {code}"), vec![1, 0, 1, 2, 1, 0, code, 0], Refused(5)));
        all.push(Limit::new(&format!("differing code {code}"), vec![1, 0, 1, 3, 1, code, 0], Refused(5)));
    }
    for (count, index, expected) in [(2, 1, Compiled), (2, 2, Refused(6)), (2, -1, Refused(6)), (0, 0, Refused(6))] {
        all.push(Limit::new(&format!("Boolean {index} of {count}"), vec![count, 0, 1, 1, 11, index], expected));
        let ints = [vec![0, count], [0, 0, 1].repeat(count as usize)].concat();
        let set = [&ints[..], &[1, 2, 1, 0, 21, index]].concat();
        all.push(Limit::new(&format!("integer {index} of {count}"), set, expected));
        let set = [&ints[..], &[1, 3, 1, 21, index]].concat();
        all.push(Limit::new(&format!("differing integer {index} of {count}"), set, expected));
    }
    all
}

pub fn depths() -> Vec<Limit> {
    let leaf = [11, 0];
    let shapes: [(&str, &[i32], &[i32]); 9] = [
        ("And", &[12, 1], &[]),
        ("Or of two", &[13, 2], &leaf),
        ("Not", &[14], &[]),
        ("Xor left", &[15], &leaf),
        ("Xor right", &[15, 11, 0], &[]),
        ("Iff left", &[16], &leaf),
        ("Iff right", &[16, 11, 0], &[]),
        ("Imp left", &[17], &leaf),
        ("Imp right", &[17, 11, 0], &[]),
    ];
    let mut all = vec![];
    for (name, open, close) in shapes {
        all.push(deep(&format!("{name}, depth 64"), open, close, 63, &leaf));
        let past = deep(&format!("{name}, depth 65"), open, close, 64, &leaf);
        all.push(Limit { expected: Refused(8), ..past });
    }
    all.extend(at_level_65());
    all.extend(deep_sums());
    all
}

/// A rule nested to a depth over some words.
fn deep(name: &str, open: &[i32], close: &[i32], times: usize, inner: &[i32]) -> Limit {
    let rule = [open.repeat(times), inner.to_vec(), close.repeat(times)].concat();
    Limit::new(name, [vec![1, 0, 1, 1], rule].concat(), Accepted)
}

fn at_level_65() -> Vec<Limit> {
    let nots = [vec![1, 0, 1, 1], vec![14; 64]].concat();
    let mut all = at(
        "after 64 Not",
        &nots,
        &[],
        &[
            (&[], Refused(3)),
            (&[9], Refused(5)),
            (&[20, 0], Refused(5)),
            (&[11], Refused(8)),
            (&[10, 7], Refused(8)),
            (&[12, -1], Refused(8)),
        ],
    );
    all.extend(at(
        "after 63 Not",
        &nots[..nots.len() - 1],
        &[],
        &[
            (&[12, 0], Contradiction),
            (&[13, 0], Compiled),
            (&[12, 1, 11, 0], Refused(8)),
            (&[18, 0, 20, 0, 20, 0], Refused(8)),
            (&[18, 6], Refused(4)),
        ],
    ));
    let comparison: &[i32] = &[18, 0, 20, 0, 20, 0];
    all.extend(at("after 62 Not", &nots[..nots.len() - 2], &[], &[(comparison, Compiled)]));
    all
}

fn deep_sums() -> Vec<Limit> {
    let nested = |times: usize| [[22, 1, 1].repeat(times), vec![20, 0]].concat();
    let left = |times| [vec![0, 0, 1, 1, 18, 0], nested(times), vec![20, 0]].concat();
    let right = |times| [vec![0, 0, 1, 1, 18, 0, 20, 0], nested(times)].concat();
    let column = |times| [vec![0, 0, 1, 2, 1, 0], nested(times)].concat();
    let differing = |times| [vec![0, 0, 1, 3, 2, 20, 1], nested(times)].concat();
    vec![
        Limit::new("sums on the left, depth 64", left(62), Compiled),
        Limit::new("sums on the left, depth 65", left(63), Refused(8)),
        Limit::new("sums on the right, depth 64", right(62), Compiled),
        Limit::new("sums on the right, depth 65", right(63), Refused(8)),
        Limit::new("sums in a column, depth 64", column(63), Compiled),
        Limit::new("sums in a column, depth 65", column(64), Refused(8)),
        Limit::new("differing sums, depth 64", differing(63), Compiled),
        Limit::new("differing sums, depth 65", differing(64), Refused(8)),
    ]
}
