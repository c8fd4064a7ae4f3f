//! Request 2.8: two sets with identical declarations as one, by a plain reading of document 02; a joined statement by its number.
use crate::read::Refusal;
use crate::refuse::accept;
use crate::set::{statement_words, Set, Statement};

const SET: usize = 4096;

/// The words before the count of statements.
fn declarations(set: &Set) -> Vec<i32> {
    let mut words = Set { bools: set.bools, domains: set.domains.clone(), statements: vec![] }.words();
    words.pop();
    words
}

/// Both sets, where the join is not refused whatever the buffer.
fn agreed(first: &[i32], second: &[i32], work_len: usize) -> Result<(Set, Set), Refusal> {
    let a = accept(first, work_len)?;
    let b = accept(second, work_len)?;
    if declarations(&a) != declarations(&b) {
        return Err(16);
    }
    if whole(&a, &b).words().len() > SET {
        return Err(17);
    }
    Ok((a, b))
}

fn whole(a: &Set, b: &Set) -> Set {
    Set {
        bools: a.bools,
        domains: a.domains.clone(),
        statements: a.statements.iter().chain(&b.statements).cloned().collect(),
    }
}

/// The joined set's words, or the refusal.
pub fn join(first: &[i32], second: &[i32], buffer_len: usize, work_len: usize) -> Result<Vec<i32>, Refusal> {
    let (a, b) = agreed(first, second, work_len)?;
    let words = whole(&a, &b).words();
    if words.len() > buffer_len {
        return Err(17);
    }
    Ok(words)
}

/// Where a joined statement stands.
#[derive(Clone, Debug, PartialEq)]
pub struct Place {
    /// 1 or 2.
    pub set: usize,
    pub start: usize,
    pub words: Vec<i32>,
}

/// The statements of a set with their places.
fn places(set: &Set, number: usize) -> Vec<Place> {
    let mut start = declarations(set).len() + 1;
    let place = |statement: &Statement| {
        let mut words = vec![];
        statement_words(statement, &mut words);
        start += words.len();
        Place { set: number, start: start - words.len(), words }
    };
    set.statements.iter().map(place).collect()
}

/// The places of the joined statements, in order; none where the sets cannot be joined in any buffer.
pub fn statements(first: &[i32], second: &[i32], work_len: usize) -> Vec<Place> {
    match agreed(first, second, work_len) {
        Err(_) => vec![],
        Ok((a, b)) => [places(&a, 1), places(&b, 2)].concat(),
    }
}
