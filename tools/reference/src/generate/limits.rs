//! Every limit of document 01 and of AllDifferent (document 02, 2.1), at the limit and one past it, with the outcome written by hand.
use super::rng::Rng;
use super::{damage, heavy, places, Case, SLICE};
use crate::call::{call, Outcome};

#[derive(Clone, Copy, Debug, PartialEq)]
pub enum Expected {
    Compiled,
    Contradiction,
    /// Either of these two.
    Accepted,
    Refused(u8),
}

#[derive(Clone)]
pub struct Limit {
    pub name: String,
    pub case: Case,
    pub expected: Expected,
}

impl Limit {
    pub fn new(name: &str, set: Vec<i32>, expected: Expected) -> Limit {
        Limit { name: name.to_string(), case: Case { set, out_len: 1 << 20, work_len: SLICE }, expected }
    }

    /// The outcome, where it is not the expected one.
    pub fn difference(&self) -> Option<String> {
        let got = call(&self.case.set, self.case.out_len, self.case.work_len);
        let fits = match (self.expected, &got) {
            (Expected::Compiled | Expected::Accepted, Outcome::Compiled(_)) => true,
            (Expected::Contradiction | Expected::Accepted, Outcome::Contradiction) => true,
            (Expected::Refused(expected), Outcome::Refused(number)) => expected == *number,
            _ => false,
        };
        if fits {
            return None;
        }
        Some(format!("{}: expected {:?}, got {got:?}", self.name, self.expected))
    }
}

/// A limit by its number; further numbers give damaged copies of them.
pub fn limit(rng: &mut Rng, mut all: Vec<Limit>, index: u64) -> Case {
    let count = all.len() as u64;
    let mut case = all.swap_remove((index % count) as usize).case;
    if index >= count {
        let copy = rng.next() % 4096;
        case.set = damage::damage(rng, case.set, copy);
    }
    case
}

pub fn all() -> Vec<Limit> {
    let mut all = slices();
    all.extend(places::counts());
    all.extend(places::values());
    all.extend(places::codes());
    all.extend(places::depths());
    all.extend(heavy::weights());
    all.extend(heavy::variables());
    all.extend(heavy::spans());
    all.extend(heavy::pair_weights());
    all.extend(heavy::pair_variables());
    all.extend(heavy::orders());
    all
}

/// Refusals 1, 2, 3 and 12 by lengths.
fn slices() -> Vec<Limit> {
    use Expected::*;
    let p1 = vec![3, 0, 1, 1, 16, 11, 0, 12, 2, 11, 1, 11, 2];
    let of = |name: &str, set: Vec<i32>, out_len: usize, work_len: usize, expected| Limit {
        case: Case { set, out_len, work_len },
        ..Limit::new(name, vec![], expected)
    };
    let zeros = |count| vec![0; count];
    let mut all = vec![
        of("work of 16384 words", p1.clone(), SLICE, SLICE, Compiled),
        of("work of 16383 words", p1.clone(), SLICE, SLICE - 1, Refused(1)),
        of("no work", p1.clone(), SLICE, 0, Refused(1)),
        of("1 before 2", zeros(4097), SLICE, SLICE - 1, Refused(1)),
        of("1 before 3", vec![], 0, 0, Refused(1)),
        of("2 before 3", zeros(4097), SLICE, SLICE, Refused(2)),
        of("4096 words, all but three too many", zeros(4096), SLICE, SLICE, Refused(3)),
        of("three words", zeros(3), SLICE, SLICE, Compiled),
        of("four words", zeros(4), SLICE, SLICE, Refused(3)),
        of("P1 into its length", p1.clone(), 22, SLICE, Compiled),
        of("P1 into one word less", p1.clone(), 21, SLICE, Refused(12)),
        of("P1 into nothing", p1.clone(), 0, SLICE, Refused(12)),
        of("contradiction into nothing", vec![0, 0, 1, 1, 13, 0], 0, SLICE, Contradiction),
    ];
    for length in 0..p1.len() {
        all.push(of(&format!("P1 cut to {length} words"), p1[..length].to_vec(), SLICE, SLICE, Refused(3)));
    }
    all.push(of("a word after P1", [p1, vec![0]].concat(), SLICE, SLICE, Refused(3)));
    all
}
