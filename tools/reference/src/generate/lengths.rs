//! Answers at the length of a slice, one word under it and one over it.
use super::rng::Rng;
use super::{set, Case, Scale, GOOD, SLICE};
use crate::call::{compile, Outcome, ANSWER};
use crate::set::{Domain, Int, Set, Statement, Table};

/// Sets with their own answer's length as the output's, and sets made for a slice of 16384 words.
pub fn near(seed: u64, index: u64) -> Case {
    let (base, variant) = (index / 5, index % 5);
    let mut rng = Rng::of(seed, "length", base);
    if base % 4 == 3 {
        let target = SLICE as u64 - 1 + [0, 1, 2, 1, 2][variant as usize];
        let most = rng.size(10, 25) as u64;
        return Case { set: exact(target, most).words(), out_len: SLICE, work_len: SLICE };
    }
    let family = rng.pick(&GOOD);
    let scale = if base % 4 == 2 { Scale::Medium } else { Scale::Small };
    let words = set(family, &mut rng, scale).map_or(vec![], |set| set.words());
    let length = length(&words);
    let out_len = [length, length.saturating_sub(1), length + 1, 0, length / 2][variant as usize];
    Case { set: words, out_len, work_len: SLICE }
}

/// The length of the set's answer; 0 where there is none.
fn length(words: &[i32]) -> usize {
    match crate::refuse::accept(words, SLICE).map(|set| compile(&set, ANSWER as usize, false)) {
        Ok(Outcome::Compiled(answer)) => answer.len(),
        _ => 0,
    }
}

/// The longest answers allowed, one word under and one over, with slices of those lengths, by tables and by AllDifferent; and far
/// longer ones.
pub fn longest(index: u64) -> Case {
    if index % 15 >= 12 {
        let set = exact_different(ANSWER - 1 + index % 3);
        return Case { set: set.words(), out_len: ANSWER as usize, work_len: SLICE };
    }
    let index = index % 15;
    if index >= 9 {
        let columns = [400, 900, 1360][index as usize % 3];
        let statements = vec![one_row(columns)];
        let set = Set { bools: 0, domains: vec![Domain::Range(0, 1)], statements };
        return Case { set: set.words(), out_len: ANSWER as usize, work_len: SLICE };
    }
    let target = ANSWER - 1 + index % 3;
    let out_len = ANSWER as usize - 1 + (index / 3) as usize;
    Case { set: exact(target, 300).words(), out_len, work_len: SLICE }
}

/// A set whose answer has that many words: tables of one row over one variable, of at most `most` columns.
pub fn exact(target: u64, most: u64) -> Set {
    // one map word, the counts of Booleans, integers and clauses, one record
    let mut left = target.saturating_sub(1 + 3 + 4);
    let mut statements = vec![];
    let mut columns = most;
    while columns > 0 {
        while row_words(columns) <= left && statements.len() < 40 {
            left -= row_words(columns);
            statements.push(one_row(columns as usize));
        }
        columns -= 1;
    }
    let mut domains = vec![Domain::Range(0, 1)];
    if left % 2 == 1 {
        domains.push(Domain::Range(0, 1));
    }
    Set { bools: (left / 2) as usize, domains, statements }
}

/// The same by one AllDifferent of some two thousand variables: `often` times the first of eight, the others in turn.
fn exact_different(target: u64) -> Set {
    const VARIABLES: u64 = 8;
    // the map, the counts of Booleans, integers and clauses, the records
    let left = target - VARIABLES - 3 - 4 * VARIABLES;
    let pairs = |n: u64| n * n.saturating_sub(1) / 2;
    // a pair of two variables has 9 words, one of the same variable 5
    let words = |n: u64, often: u64| {
        let others = |v: u64| (n - often + VARIABLES - 2 - v) / (VARIABLES - 1);
        9 * pairs(n) - 4 * pairs(often) - (0..VARIABLES - 1).map(|v| 4 * pairs(others(v))).sum::<u64>()
    };
    let sizes = (1900..2020).flat_map(|n| (100..n / 2).map(move |often| (n, often)));
    let fits = |(n, often): &(u64, u64)| words(*n, *often) <= left && left - words(*n, *often) < 1000;
    let (n, often) = sizes.into_iter().find(fits).unwrap_or((0, 0));
    let left = left - words(n, often);
    let variable = |k: u64| if k < often { 0 } else { 1 + (k - often) % (VARIABLES - 1) };
    let exprs = (0..n).map(|k| Int::Var(variable(k) as usize)).collect();
    let domains = vec![Domain::Range(0, 1); (VARIABLES + left % 2) as usize];
    Set { bools: (left / 2) as usize, domains, statements: vec![Statement::AllDifferent(exprs)] }
}

/// A clause for each prefix and later column: the prefix differs, or the column is 0.
fn row_words(columns: u64) -> u64 {
    (0..columns).map(|prefix| (columns - prefix) * (2 + 5 * (prefix + 1))).sum()
}

fn one_row(columns: usize) -> Statement {
    Statement::Table(Table { columns: vec![Int::Var(0); columns], rows: vec![vec![Some(0); columns]] })
}
