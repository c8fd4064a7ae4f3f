//! What lists of clauses come to: how many, of how many words, without building them.
use crate::set::Domain;
use std::collections::BTreeSet;

/// `literals` and `comparisons` are read only of a single clause.
#[derive(Clone, Copy, Default)]
pub struct Tally {
    pub clauses: u128,
    pub words: u128,
    pub literals: u128,
    pub comparisons: u128,
    /// The words of the Ifs that are made on the way, anew at every visit: their clauses and records.
    pub beside: u128,
}

pub const LITERAL: Tally = Tally { clauses: 1, words: 3, literals: 1, comparisons: 0, beside: 0 };
/// A split Xor or Iff seen from above: two clauses of two literals.
pub const SPLIT: Tally = Tally { clauses: 2, words: 8, literals: 0, comparisons: 0, beside: 0 };
/// A comparison of a column with a value: operator, constant, count of terms and one term.
pub const EQUALITY: u128 = 5;

/// A clause of one comparison of so many words.
pub fn compared(words: u128, beside: u128) -> Tally {
    Tally { clauses: 1, words: 2 + words, literals: 0, comparisons: 1, beside }
}

pub fn either(members: &[Tally], disjoined: bool) -> Tally {
    if disjoined {
        disjunction(members)
    } else {
        conjunction(members)
    }
}

/// A single clause keeps its own figures.
pub fn conjunction(members: &[Tally]) -> Tally {
    members.iter().fold(Tally::default(), |a, b| Tally {
        clauses: a.clauses + b.clauses,
        words: a.words + b.words,
        literals: a.literals + b.literals,
        comparisons: a.comparisons + b.comparisons,
        beside: a.beside + b.beside,
    })
}

pub fn disjunction(members: &[Tally]) -> Tally {
    Tally { beside: members.iter().map(|m| m.beside).sum(), ..disjoined(members) }
}

fn disjoined(members: &[Tally]) -> Tally {
    if members.len() == 1 {
        return members[0];
    }
    if members.iter().any(|m| m.clauses == 0) {
        return Tally::default();
    }
    let empty = Tally { clauses: 1, words: 2, ..Tally::default() };
    let singles = members.iter().filter(|m| m.clauses == 1);
    let pool = singles.fold(empty, |pool, m| Tally {
        words: pool.words + m.words - 2,
        literals: pool.literals + m.literals,
        comparisons: pool.comparisons + m.comparisons,
        ..empty
    });
    let longer: Vec<Tally> = members.iter().filter(|m| m.clauses > 1).copied().collect();
    pooled(pool, &longer)
}

fn pooled(pool: Tally, longer: &[Tally]) -> Tally {
    let all = conjunction(longer);
    let each = |more: u128| Tally { words: all.words + all.clauses * more, ..all };
    if longer.len() == 2 && pool.literals == 0 && pool.comparisons == 0 {
        return each(1);
    }
    if longer.len() == 1 && pool.literals <= 1 && pool.comparisons == 0 {
        return each(pool.literals);
    }
    let new = longer.len() as u128;
    let pool = Tally { words: pool.words + new, literals: pool.literals + new, ..pool };
    conjunction(&[each(1), pool])
}

/// The words of a table's clauses, its columns having these domains.
pub fn table_words(domains: &[Domain], rows: &[Vec<Option<i32>>]) -> u128 {
    if rows.iter().flatten().any(Option::is_none) {
        starred_words(rows)
    } else {
        supports_words(domains, rows)
    }
}

fn starred_words(rows: &[Vec<Option<i32>>]) -> u128 {
    let row = |row: &Vec<Option<i32>>| {
        let equalities: Vec<Tally> = row.iter().flatten().map(|_| compared(EQUALITY, 0)).collect();
        conjunction(&equalities)
    };
    let rows: Vec<Tally> = rows.iter().map(row).collect();
    disjunction(&rows).words
}

fn supports_words(domains: &[Domain], rows: &[Vec<Option<i32>>]) -> u128 {
    let inside = |row: &[i32]| row.iter().zip(domains).all(|(cell, domain)| domain.holds(*cell as i64));
    let mut kept: Vec<Vec<i32>> = rows.iter().map(|row| row.iter().flatten().copied().collect()).collect();
    kept.retain(|row| inside(row));
    kept.sort();
    if kept.is_empty() {
        return 2;
    }
    (0..domains.len()).map(|prefix| prefix_words(domains, &kept, prefix)).sum()
}

/// The clauses of one prefix length: each group of rows, each later column.
fn prefix_words(domains: &[Domain], rows: &[Vec<i32>], prefix: usize) -> u128 {
    let groups = rows.chunk_by(|a, b| a[..prefix] == b[..prefix]);
    let clause = |group: &[Vec<i32>], column: usize| {
        let values = group.iter().map(|row| row[column]).collect::<BTreeSet<i32>>().len() as u64;
        if values == domains[column].count() {
            return 0;
        }
        2 + EQUALITY * (prefix as u128 + values as u128)
    };
    groups.map(|group| (prefix..domains.len()).map(|column| clause(group, column)).sum::<u128>()).sum()
}
