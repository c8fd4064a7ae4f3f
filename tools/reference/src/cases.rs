//! P1 to P12 and the "Also" cases, with what document 01 says of them written by hand.
use crate::call::{call, Outcome};
use crate::listing::print;
use crate::meaning::{check, Verdict};

const SLICE: usize = 16384;
const EMPTY: &str = "answer=compiled\nfixed=\nbools=\nints=\nemitted=0,0\n";

pub struct Known {
    pub name: &'static str,
    pub set: Vec<i32>,
    pub out_len: usize,
    /// The listing's text.
    pub expected: String,
}

/// The cases whose listing is not the expected one, each with both texts.
pub fn differences() -> Vec<String> {
    let mut found: Vec<String> = known().iter().filter_map(difference).collect();
    if call(&P6, SLICE, SLICE) != Outcome::Compiled(vec![0, 0, 0]) {
        found.push("P6: not three zero words".to_string());
    }
    if check(&[0, 0, 1, 1, 18, 0, 20, 1, 20, 2]) != Verdict::Agrees(0, 1) {
        found.push("1 = 2: passed by some assignment".to_string());
    }
    if call(&P6, 3, SLICE - 1) != Outcome::Refused(1) {
        found.push("P6 with a work slice of 16383 words: not refused 1".to_string());
    }
    found
}

fn difference(known: &Known) -> Option<String> {
    let outcome = call(&known.set, known.out_len, SLICE);
    let got = print(&known.set, &outcome);
    if got == known.expected {
        return None;
    }
    Some(format!("{}: expected\n{}got\n{got}", known.name, known.expected))
}

const P6: [i32; 3] = [0, 0, 0];

fn case(name: &'static str, set: &[i32], expected: &str) -> Known {
    Known { name, set: set.to_vec(), out_len: SLICE, expected: expected.to_string() }
}

pub fn known() -> Vec<Known> {
    let mut all = rules();
    all.extend(tables());
    all.extend(limits());
    all
}

fn rules() -> Vec<Known> {
    let two_ands = [12, 2, 11, 0, 11, 1, 12, 2, 11, 2, 11, 3];
    let p2: Vec<i32> = [4, 0, 1, 1, 13, 2].into_iter().chain(two_ands).collect();
    let p3: Vec<i32> = [6, 0, 1, 1, 13, 3].into_iter().chain(two_ands).chain([12, 2, 11, 4, 11, 5]).collect();
    vec![
        case(
            "P1",
            &[3, 0, 1, 1, 16, 11, 0, 12, 2, 11, 1, 11, 2],
            "answer=compiled\nfixed=2,2,2\nbools=1,2,3\nints=\nemitted=3,0\n\
             clause=1,-2,-3\nclause=2,-1\nclause=3,-1\nclauses=3\ntotal=7\n",
        ),
        case(
            "P2",
            &p2,
            "answer=compiled\nfixed=2,2,2,2\nbools=1,2,3,4\nints=\nemitted=5,0\n\
             clause=1,-5\nclause=2,-5\nclause=3,5\nclause=4,5\nclauses=4\ntotal=8\n",
        ),
        case(
            "P3",
            &p3,
            "answer=compiled\nfixed=2,2,2,2,2,2\nbools=1,2,3,4,5,6\nints=\nemitted=9,0\n\
             clause=1,-7\nclause=2,-7\nclause=3,-8\nclause=4,-8\nclause=5,-9\nclause=6,-9\nclause=7,8,9\n\
             clauses=7\ntotal=15\n",
        ),
        case(
            "P4",
            &[2, 0, 2, 1, 11, 0, 1, 13, 2, 14, 11, 0, 11, 1],
            "answer=compiled\nfixed=1,1\nbools=0,0\nints=\nemitted=0,0\nclauses=0\ntotal=0\n",
        ),
        case("P5", &[1, 0, 2, 1, 11, 0, 1, 14, 11, 0], "answer=contradiction\n"),
        case("P6", &P6, &format!("{EMPTY}clauses=0\ntotal=0\n")),
        case("P7", &[0, 0, 1, 1, 13, 0], "answer=contradiction\n"),
        case("P8", &[0, 0, 1, 1, 12, 0], &format!("{EMPTY}clauses=0\ntotal=0\n")),
    ]
}

fn tables() -> Vec<Known> {
    let one = "answer=compiled\nfixed=\nbools=\nints=1\nemitted=0,1\ndomain=0,0,2,3\n";
    let star = i32::MIN;
    vec![
        case(
            "P9",
            &[0, 1, 0, 0, 2, 1, 2, 1, 2, 21, 0, 0, 2],
            &format!("{one}clause=;0:0:0,1;0:-2:0,1\nclauses=1\ntotal=2\n"),
        ),
        case("P10", &[0, 1, 0, 0, 2, 1, 2, 1, 3, 21, 0, 0, 1, 2], &format!("{one}clauses=0\ntotal=0\n")),
        case("P11", &[0, 1, 0, 0, 2, 1, 2, 1, 1, 21, 0, 5], &format!("{one}clause=\nclauses=1\ntotal=0\n")),
        case(
            "P12",
            &[0, 2, 0, 0, 1, 0, 0, 1, 1, 2, 2, 2, 21, 0, 21, 1, 0, 0, 1, 1],
            "answer=compiled\nfixed=\nbools=\nints=1,2\nemitted=0,2\ndomain=0,0,1,2\ndomain=0,0,1,2\n\
             clause=;1:0:0,1;0:0:1,1\nclause=;1:-1:0,1;0:-1:1,1\nclauses=2\ntotal=4\n",
        ),
        case(
            "a row of stars only",
            &[0, 1, 0, 0, 2, 1, 2, 1, 2, 21, 0, 1, star],
            &format!("{one}clauses=0\ntotal=0\n"),
        ),
    ]
}

fn limits() -> Vec<Known> {
    let largest = 1073741823;
    vec![
        case("1 = 2", &[0, 0, 1, 1, 18, 0, 20, 1, 20, 2], &format!("{EMPTY}clause=;0:-1:\nclauses=1\ntotal=1\n")),
        case(
            "1073741823 against 0",
            &[0, 0, 1, 1, 18, 0, 20, largest, 20, 0],
            &format!("{EMPTY}clause=;0:1073741823:\nclauses=1\ntotal=1\n"),
        ),
        case("1073741823 against 1", &[0, 0, 1, 1, 18, 0, 20, largest, 20, 1], "answer=refused,9\n"),
        case("depth 64", &nots(63), "answer=compiled\nfixed=0\nbools=0\nints=\nemitted=0,0\nclauses=0\ntotal=0\n"),
        case("depth 65", &nots(64), "answer=refused,8\n"),
        case("4096 words", &wide_or(), &wide_or_listing()),
        case("4097 words", &[wide_or(), vec![0]].concat(), "answer=refused,2\n"),
        Known { out_len: 3, ..case("P6 into 3 words", &P6, &format!("{EMPTY}clauses=0\ntotal=0\n")) },
        Known { out_len: 2, ..case("P6 into 2 words", &P6, "answer=refused,12\n") },
    ]
}

fn nots(count: usize) -> Vec<i32> {
    [vec![1, 0, 1, 1], vec![14; count], vec![11, 0]].concat()
}

/// An Or of 2045 times the one variable: 4096 words.
fn wide_or() -> Vec<i32> {
    [vec![1, 0, 1, 1, 13, 2045], [11, 0].repeat(2045)].concat()
}

fn wide_or_listing() -> String {
    let ones = vec!["1"; 2045].join(",");
    format!("answer=compiled\nfixed=2\nbools=1\nints=\nemitted=1,0\nclause={ones}\nclauses=1\ntotal=2045\n")
}
