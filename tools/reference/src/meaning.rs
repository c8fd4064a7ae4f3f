//! The meaning of an answer, by enumeration: the assignments that satisfy the set are those that pass.
use crate::answer::{decode, Answer, Clause, Comparison};
use crate::call::{compile, Outcome, ANSWER};
use crate::merge;
use crate::passes::passes;
use crate::refuse::accept;
use crate::set::{Bool, Int, Set, Statement, Table};

/// Sets with more assignments than this are not enumerated.
const ASSIGNMENTS: u64 = 4096;
/// Nor are sets whose assignments times the answer's words are more than this.
const EFFORT: u64 = 1 << 20;

#[derive(Clone, Debug)]
pub struct Assignment {
    pub bools: Vec<bool>,
    pub ints: Vec<i64>,
}

#[derive(Clone, Debug, PartialEq)]
pub enum Verdict {
    /// The number of assignments that satisfy and pass, and of all.
    Agrees(u64, u64),
    /// No assignment satisfies, as the call says.
    Contradiction(u64),
    Refused(u8),
    /// Too many assignments, too long an answer, or a search given up.
    TooLarge,
    Differs(String),
}

/// Compares the set's words with their answer's words over all assignments.
pub fn check(words: &[i32]) -> Verdict {
    check_with(words, false)
}

/// The same with merging on or off; on, of a set whose self-ties part the Rust from document 02, the model's answer.
pub fn check_with(words: &[i32], merge: bool) -> Verdict {
    let set = match accept(words, usize::MAX) {
        Ok(set) => set,
        Err(refusal) => return Verdict::Refused(refusal),
    };
    let Some(count) = assignments(&set) else {
        return Verdict::TooLarge;
    };
    let outcome =
        if merge { merge::expected(words, ANSWER as usize, usize::MAX) } else { compile(&set, ANSWER as usize, false) };
    match outcome {
        Outcome::Compiled(answer) => compare(&set, count, &answer, merge),
        Outcome::Contradiction => contradiction(&set, count),
        Outcome::Refused(refusal) => Verdict::Refused(refusal),
        Outcome::Panicked => Verdict::Differs("the Rust panicked".to_string()),
    }
}

/// Judges an answer from elsewhere to a set that refusals 1 to 11 let through.
pub fn judge(words: &[i32], answer: &[i32]) -> Verdict {
    judge_with(words, answer, false)
}

/// The same with merging on or off.
pub fn judge_with(words: &[i32], answer: &[i32], merge: bool) -> Verdict {
    match accept(words, usize::MAX) {
        Err(refusal) => Verdict::Refused(refusal),
        Ok(set) => match assignments(&set) {
            Some(count) => compare(&set, count, answer, merge),
            None => Verdict::TooLarge,
        },
    }
}

/// The number of assignments; nothing where it is over the limit.
fn assignments(set: &Set) -> Option<u64> {
    let bools = (0..set.bools).map(|_| 2);
    let counts = bools.chain(set.domains.iter().map(|domain| domain.count()));
    counts.into_iter().try_fold(1u64, |total, count| total.checked_mul(count).filter(|total| *total <= ASSIGNMENTS))
}

/// The assignment with this number: Booleans first, the lowest values first.
fn assignment(set: &Set, number: u64) -> Assignment {
    let mut rest = number;
    let mut digit = |count: u64| {
        let digit = rest % count;
        rest /= count;
        digit
    };
    let bools = (0..set.bools).map(|_| digit(2) == 1).collect();
    let ints = set.domains.iter().map(|domain| domain.nth(digit(domain.count()))).collect();
    Assignment { bools, ints }
}

fn contradiction(set: &Set, count: u64) -> Verdict {
    let satisfied = (0..count).map(|number| assignment(set, number)).find(|a| satisfies(set, a));
    match satisfied {
        Some(a) => Verdict::Differs(format!("contradiction, but satisfied by {a:?}")),
        None => Verdict::Contradiction(count),
    }
}

fn compare(set: &Set, count: u64, words: &[i32], merge: bool) -> Verdict {
    if count * words.len() as u64 > EFFORT {
        return Verdict::TooLarge;
    }
    let Some(answer) = decode(set.bools, set.domains.len(), words) else {
        return Verdict::Differs("the answer's words do not fit the layout".to_string());
    };
    if answer.bools < 0 || answer.bools as usize > words.len() {
        return Verdict::Differs("the count of emitted Booleans is out of range".to_string());
    }
    if let Some(fault) = fault(set, &answer, merge) {
        return Verdict::Differs(fault.to_string());
    }
    let mut passing = 0;
    for number in 0..count {
        let a = assignment(set, number);
        let satisfied = satisfies(set, &a);
        let Some(passed) = passes(&answer, &a) else {
            return Verdict::TooLarge;
        };
        if satisfied != passed {
            return Verdict::Differs(format!("satisfies: {satisfied}, passes: {passed}, for {a:?}"));
        }
        passing += passed as u64;
    }
    Verdict::Agrees(passing, count)
}

/// What the answer's layout promises besides its meaning, each emitted Boolean having a word of its own somewhere. With merging, Booleans may share a number and be its negation.
fn fault(set: &Set, answer: &Answer, merge: bool) -> Option<&'static str> {
    let emitted_bools = answer.bools;
    let emitted_ints = answer.domains.len() as i32;
    if answer.fixed.iter().any(|word| !(0..=2).contains(word)) {
        return Some("a fixed word is not 0, 1 or 2");
    }
    if answer.fixed.iter().zip(&answer.bool_map).any(|(fixed, map)| *fixed < 2 && *map != 0) {
        return Some("a fixed variable is emitted");
    }
    if !merge && !numbers(&answer.bool_map, emitted_bools) || !numbers(&answer.int_map, emitted_ints) {
        return Some("a map's numbers are not different emitted numbers");
    }
    if answer.bool_map.iter().any(|word| word.unsigned_abs() > emitted_bools as u32) {
        return Some("the Boolean map names what is not emitted");
    }
    if !records(set, answer) {
        return Some("an emitted integer's record is not its domain");
    }
    if !answer.clauses.iter().all(|clause| clause_fits(clause, emitted_bools, emitted_ints)) {
        return Some("a clause names what is not emitted, or in the wrong order");
    }
    None
}

fn numbers(map: &[i32], emitted: i32) -> bool {
    let mut used: Vec<i32> = map.iter().copied().filter(|word| *word != 0).collect();
    let count = used.len();
    used.sort_unstable();
    used.dedup();
    used.len() == count && used.iter().all(|word| (1..=emitted).contains(word))
}

fn records(set: &Set, answer: &Answer) -> bool {
    let emitted = |literal: i32| literal != 0 && literal.unsigned_abs() as i64 <= answer.bools as i64;
    let whole = |record: &[i32; 4]| match *record {
        [0, low, high, count] => count >= 1 && high as i64 - low as i64 + 1 == count as i64,
        [1, literal, no, yes] => emitted(literal) && no < yes,
        _ => false,
    };
    answer.domains.iter().enumerate().all(|(number, record)| {
        match answer.int_map.iter().position(|word| *word == number as i32 + 1) {
            Some(declared) => {
                let domain = &set.domains[declared];
                *record == [0, domain.lowest(), domain.highest(), domain.count() as i32]
            }
            None => whole(record),
        }
    })
}

fn clause_fits(clause: &Clause, bools: i32, ints: i32) -> bool {
    let literal = |l: &i32| *l != 0 && l.unsigned_abs() as i64 <= bools as i64;
    let comparison = |c: &Comparison| {
        let rising = c.terms.windows(2).all(|pair| pair[0].0 < pair[1].0);
        let terms = c.terms.iter().all(|(v, coefficient)| (0..ints).contains(v) && *coefficient != 0);
        (0..=5).contains(&c.op) && rising && terms
    };
    clause.literals.iter().all(literal) && clause.comparisons.iter().all(comparison)
}

/// Whether every statement of the set holds.
pub fn satisfies(set: &Set, a: &Assignment) -> bool {
    set.statements.iter().all(|statement| statement_holds(statement, a))
}

pub fn statement_holds(statement: &Statement, a: &Assignment) -> bool {
    match statement {
        Statement::Rule(rule) => holds(rule, a),
        Statement::Table(table) => permits(table, a),
        Statement::AllDifferent(exprs) => {
            let values: Vec<i128> = exprs.iter().map(|e| value(e, a)).collect();
            (0..values.len()).all(|j| (0..j).all(|i| values[i] != values[j]))
        }
    }
}

/// Whether an assignment passes an answer's words; nothing where they do not fit the layout or the search was given up.
pub fn passing(set: &Set, answer: &[i32], a: &Assignment) -> Option<bool> {
    passes(&decode(set.bools, set.domains.len(), answer)?, a)
}

fn holds(e: &Bool, a: &Assignment) -> bool {
    match e {
        Bool::Const(b) => *b,
        Bool::Var(v) => a.bools[*v],
        Bool::And(members) => members.iter().all(|member| holds(member, a)),
        Bool::Or(members) => members.iter().any(|member| holds(member, a)),
        Bool::Not(e) => !holds(e, a),
        Bool::Xor(l, r) => holds(l, a) != holds(r, a),
        Bool::Iff(l, r) => holds(l, a) == holds(r, a),
        Bool::Imp(l, r) => !holds(l, a) || holds(r, a),
        Bool::Compare(op, l, r) => compares(*op as i32, value(l, a), value(r, a)),
    }
}

pub fn compares(op: i32, left: i128, right: i128) -> bool {
    match op {
        0 => left == right,
        1 => left != right,
        2 => left <= right,
        3 => left < right,
        4 => left >= right,
        _ => left > right,
    }
}

pub fn value(e: &Int, a: &Assignment) -> i128 {
    match e {
        Int::Const(c) => *c as i128,
        Int::Var(v) => a.ints[*v] as i128,
        Int::Sum(terms) => terms.iter().map(|(coefficient, term)| *coefficient as i128 * value(term, a)).sum(),
        Int::If(c, t, f) => value(if holds(c, a) { t } else { f }, a),
    }
}

fn permits(table: &Table, a: &Assignment) -> bool {
    let values: Vec<i128> = table.columns.iter().map(|column| value(column, a)).collect();
    let permitted = |cell: &Option<i32>, value: &i128| cell.is_none_or(|cell| cell as i128 == *value);
    table.rows.iter().any(|row| row.iter().zip(&values).all(|(cell, value)| permitted(cell, value)))
}
