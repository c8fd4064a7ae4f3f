//! A finished roster, checked by a plain reading of request 2.6: refusals 1 to 11, 14, 15, then every statement in full.
use crate::meaning::{statement_holds, Assignment};
use crate::refuse::accept;
use crate::set::Set;

#[derive(Clone, Copy, Debug, PartialEq)]
pub enum Checked {
    Yes,
    /// The first broken statement, from 1.
    Broken(usize),
    Refused(u8),
}

/// The values are the Booleans', then the integers'.
pub fn check(words: &[i32], values: &[i32], work_len: usize) -> Checked {
    match accept(words, work_len) {
        Ok(set) => check_set(&set, values),
        Err(refusal) => Checked::Refused(refusal),
    }
}

/// The same for a set that refusals 1 to 11 let through.
pub fn check_set(set: &Set, values: &[i32]) -> Checked {
    if values.len() != set.bools + set.domains.len() {
        return Checked::Refused(14);
    }
    let (bools, ints) = values.split_at(set.bools);
    let inside = set.domains.iter().zip(ints).all(|(domain, value)| domain.holds(*value as i64));
    if bools.iter().any(|bit| !(0..=1).contains(bit)) || !inside {
        return Checked::Refused(15);
    }
    let a = assignment(set, values);
    let truths: Vec<bool> = set.statements.iter().map(|statement| statement_holds(statement, &a)).collect();
    truths.iter().position(|truth| !truth).map_or(Checked::Yes, |place| Checked::Broken(place + 1))
}

/// Of as many values as there are variables.
pub fn assignment(set: &Set, values: &[i32]) -> Assignment {
    let (bools, ints) = values.split_at(set.bools);
    Assignment { bools: bools.iter().map(|bit| *bit == 1).collect(), ints: ints.iter().map(|value| *value as i64).collect() }
}
