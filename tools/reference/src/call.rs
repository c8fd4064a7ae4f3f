//! Document 01's call: refusals 1 to 11, Contradiction, refusal 12, or the answer.
use crate::read::Refusal;
use crate::refuse::accept;
use crate::set::Set;
use crate::{rust, size};
use std::panic::{catch_unwind, AssertUnwindSafe};

/// The longest answer in words.
pub const ANSWER: u64 = 16777216;
/// Answers that count longer than this are not built: the Rust would need gigabytes for them.
pub const BUILT: u64 = 20_000_000;

#[derive(Clone, Debug, PartialEq)]
pub enum Outcome {
    Compiled(Vec<i32>),
    Contradiction,
    Refused(Refusal),
    /// The Rust panicked on an accepted set: seen only with merging, where its assertion fails on a self-tie.
    Panicked,
}

/// The call on a set, with an output slice and a work slice of these lengths.
pub fn call(set: &[i32], out_len: usize, work_len: usize) -> Outcome {
    call_with(set, out_len, work_len, false)
}

/// The call with the Rust's merging on or off (request 2.7).
pub fn call_with(set: &[i32], out_len: usize, work_len: usize, merge: bool) -> Outcome {
    match accept(set, work_len) {
        Err(refusal) => Outcome::Refused(refusal),
        Ok(set) => compile(&set, out_len, merge),
    }
}

/// The rest of the call on a set that refusals 1 to 11 let through.
pub fn compile(set: &Set, out_len: usize, merge: bool) -> Outcome {
    catch_unwind(AssertUnwindSafe(|| run(set, out_len, merge))).unwrap_or(Outcome::Panicked)
}

fn run(set: &Set, out_len: usize, merge: bool) -> Outcome {
    let Some(csp) = rust::optimized(set) else {
        return Outcome::Contradiction;
    };
    if size::words(set, &csp) > BUILT {
        return Outcome::Refused(12);
    }
    let answer = rust::answer(set, csp, merge);
    if answer.len() > out_len || answer.len() as u64 > ANSWER {
        return Outcome::Refused(12);
    }
    Outcome::Compiled(answer)
}

/// The Rust's own work on a set that was read, for timing: its problem is built, optimized, normalized and written out.
pub fn timed(set: &Set, merge: bool) -> Option<Vec<i32>> {
    rust::optimized(set).map(|csp| rust::answer(set, csp, merge))
}

/// The answer's length as `size` counts it; nothing for a set refused by 1 to 11 or found contradictory.
pub fn counted(set: &[i32]) -> Option<u64> {
    let set = accept(set, usize::MAX).ok()?;
    let csp = rust::optimized(&set)?;
    Some(size::words(&set, &csp))
}
