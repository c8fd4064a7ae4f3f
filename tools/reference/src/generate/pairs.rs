//! Pairs of sets to join: a set parted in two, its statements dealt out, a copy damaged or declared otherwise, a set twice.
use super::damage::damage;
use super::rng::Rng;
use super::{case, Case, SLICE};
use crate::refuse::accept;
use crate::set::{Domain, Set};

/// Two sets, and the set that they were parted from where their join is that set again.
#[derive(Clone, Debug, PartialEq)]
pub struct Pair {
    pub first: Vec<i32>,
    pub second: Vec<i32>,
    pub whole: Option<Vec<i32>>,
    pub out_len: usize,
}

/// A pair made from a case of a family.
pub fn pair(family: &str, seed: u64, index: u64) -> Option<Pair> {
    let Case { set: words, out_len, .. } = case(family, seed, index)?;
    let mut rng = Rng::of(seed, "pair", index);
    let Ok(set) = accept(&words, SLICE) else {
        let other = rng.pick(&[words.clone(), vec![0, 0, 0], vec![]]);
        let (first, second) = if rng.chance(50) { (words, other) } else { (other, words) };
        return Some(Pair { first, second, whole: None, out_len });
    };
    let (a, b) = cut(&mut rng, &set);
    let (mut first, mut second, mut whole) = (a.words(), b.words(), None);
    match rng.below(16) {
        0..=6 => whole = Some(words),
        7..=9 => (first, second) = dealt(&mut rng, &set),
        10 | 11 => first = damage_one(&mut rng, first),
        12 | 13 => second = damage_one(&mut rng, second),
        14 => second = otherwise(&mut rng, b).words(),
        _ => (first, second) = (words.clone(), words),
    }
    Some(Pair { first, second, whole, out_len })
}

/// The first statements, and the others.
fn cut(rng: &mut Rng, set: &Set) -> (Set, Set) {
    let k = rng.below(set.statements.len() + 1);
    let (mut a, mut b) = (set.clone(), set.clone());
    a.statements.truncate(k);
    b.statements.drain(..k);
    (a, b)
}

/// Each statement to one of two sets.
fn dealt(rng: &mut Rng, set: &Set) -> (Vec<i32>, Vec<i32>) {
    let (mut a, mut b) = (set.clone(), set.clone());
    a.statements.clear();
    b.statements.clear();
    for statement in &set.statements {
        let to = if rng.chance(50) { &mut a } else { &mut b };
        to.statements.push(statement.clone());
    }
    (a.words(), b.words())
}

fn damage_one(rng: &mut Rng, words: Vec<i32>) -> Vec<i32> {
    let copy = rng.below(256) as u64;
    damage(rng, words, copy)
}

/// Other declarations: a domain in the other form or with a further value, or one Boolean more.
fn otherwise(rng: &mut Rng, mut set: Set) -> Set {
    if set.domains.is_empty() || rng.chance(20) {
        set.bools += 1;
        return set;
    }
    let v = rng.below(set.domains.len());
    set.domains[v] = match &set.domains[v] {
        Domain::Range(low, high) if (*high as i64 - *low as i64) < 64 && rng.chance(70) => {
            Domain::Values((*low..=*high).collect())
        }
        Domain::Range(low, high) => Domain::Range(*low, high.saturating_add(1)),
        Domain::Values(values) => Domain::Range(values[0], values[values.len() - 1]),
    };
    set
}
