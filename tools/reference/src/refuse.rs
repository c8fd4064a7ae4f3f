//! Refusals 1, 2 and 9 to 11, by a plain reading of document 01, and of document 02 for AllDifferent (2.1) and If (2.5).
use crate::read::{read, Refusal};
use crate::set::{Bool, Domain, Int, Set, Statement, LIMIT};
use std::collections::BTreeSet;

const WORK: usize = 16384;
const SET: usize = 4096;
const COMPARISON_VARIABLES: usize = 64;
const COLUMN_VARIABLES: usize = 63;
const SPAN: i128 = 4096;

/// The set, where none of the refusals 1 to 11 holds; else the first of them.
pub fn accept(words: &[i32], work_len: usize) -> Result<Set, Refusal> {
    if work_len < WORK {
        return Err(1);
    }
    if words.len() > SET {
        return Err(2);
    }
    let set = read(words)?;
    let parts = parts(&set);
    parts.iter().try_for_each(|part| weights(&set.domains, part))?;
    parts.iter().try_for_each(variables)?;
    parts.iter().try_for_each(|part| span(&set.domains, part))?;
    Ok(set)
}

/// What the refusals 9 to 11 look at.
enum Part<'a> {
    Comparison(&'a Int, &'a Int),
    Column(&'a Int),
    /// The expressions of an AllDifferent: every two of them are compared.
    Different(&'a [Int]),
    /// A branch of an If: weighed with the whole, and held to as many variables as a column.
    Branch(&'a Int),
}

fn parts(set: &Set) -> Vec<Part<'_>> {
    let mut parts = vec![];
    for statement in &set.statements {
        match statement {
            Statement::Rule(rule) => comparisons(rule, &mut parts),
            Statement::Table(table) => {
                parts.extend(table.columns.iter().map(Part::Column));
                table.columns.iter().for_each(|column| inside(column, &mut parts));
            }
            Statement::AllDifferent(exprs) => {
                parts.push(Part::Different(exprs));
                exprs.iter().for_each(|e| inside(e, &mut parts));
            }
        }
    }
    parts
}

fn comparisons<'a>(e: &'a Bool, parts: &mut Vec<Part<'a>>) {
    match e {
        Bool::Const(_) | Bool::Var(_) => (),
        Bool::And(members) | Bool::Or(members) => members.iter().for_each(|member| comparisons(member, parts)),
        Bool::Not(e) => comparisons(e, parts),
        Bool::Xor(l, r) | Bool::Iff(l, r) | Bool::Imp(l, r) => {
            comparisons(l, parts);
            comparisons(r, parts);
        }
        Bool::Compare(_, l, r) => {
            parts.push(Part::Comparison(l, r));
            inside(l, parts);
            inside(r, parts);
        }
    }
}

/// The branches of the Ifs in an expression, and the comparisons in their conditions.
fn inside<'a>(e: &'a Int, parts: &mut Vec<Part<'a>>) {
    match e {
        Int::Const(_) | Int::Var(_) => (),
        Int::Sum(terms) => terms.iter().for_each(|(_, term)| inside(term, parts)),
        Int::If(c, t, f) => {
            comparisons(c, parts);
            for branch in [t, f] {
                parts.push(Part::Branch(branch));
                inside(branch, parts);
            }
        }
    }
}

/// Refusal 9: every integer expression and part, a comparison's two sides together, and every pair of an AllDifferent.
fn weights(domains: &[Domain], part: &Part) -> Result<(), Refusal> {
    match part {
        Part::Comparison(l, r) => light(weight(domains, l)? + weight(domains, r)?).map(|_| ()),
        Part::Column(e) | Part::Branch(e) => weight(domains, e).map(|_| ()),
        Part::Different(exprs) => {
            let weights = exprs.iter().map(|e| weight(domains, e)).collect::<Result<Vec<u128>, Refusal>>()?;
            pairs(&weights, |l, r| light(l + r).map(|_| ()))
        }
    }
}

/// A test of every two of them.
fn pairs<T>(items: &[T], test: impl Fn(&T, &T) -> Result<(), Refusal>) -> Result<(), Refusal> {
    items.iter().enumerate().try_for_each(|(i, l)| items[i + 1..].iter().try_for_each(|r| test(l, r)))
}

fn weight(domains: &[Domain], e: &Int) -> Result<u128, Refusal> {
    match e {
        Int::Const(c) => light(c.unsigned_abs() as u128),
        Int::Var(v) => {
            let largest = domains[*v].lowest().unsigned_abs().max(domains[*v].highest().unsigned_abs());
            light(largest.max(1) as u128)
        }
        Int::Sum(terms) => {
            let mut total = 0;
            for (coefficient, term) in terms {
                total += coefficient.unsigned_abs() as u128 * weight(domains, term)?;
            }
            light(total)
        }
        Int::If(_, t, f) => Ok(weight(domains, t)?.max(weight(domains, f)?).max(1)),
    }
}

fn light(weight: u128) -> Result<u128, Refusal> {
    if weight > LIMIT as u128 {
        return Err(9);
    }
    Ok(weight)
}

/// Refusal 10: the different variables written outside conditions, and each If written there, whatever becomes of them. An expression of
/// an AllDifferent has no limit by itself.
fn variables(part: &Part) -> Result<(), Refusal> {
    match part {
        Part::Comparison(l, r) => few(&[&written(l), &written(r)], COMPARISON_VARIABLES),
        Part::Column(e) | Part::Branch(e) => few(&[&written(e)], COLUMN_VARIABLES),
        Part::Different(exprs) => {
            let written: Vec<Written> = exprs.iter().map(written).collect();
            pairs(&written, |l, r| few(&[l, r], COMPARISON_VARIABLES))
        }
    }
}

/// What is written outside conditions: the different variables, and how many Ifs.
#[derive(Default)]
struct Written {
    variables: BTreeSet<usize>,
    ifs: usize,
}

/// At most that many different variables and Ifs in all of them.
fn few(written: &[&Written], most: usize) -> Result<(), Refusal> {
    let ifs: usize = written.iter().map(|part| part.ifs).sum();
    let all: usize = written.iter().map(|part| part.variables.len()).sum();
    let different = || written.iter().flat_map(|part| &part.variables).collect::<BTreeSet<_>>().len();
    if all + ifs > most && different() + ifs > most {
        return Err(10);
    }
    Ok(())
}

fn written(e: &Int) -> Written {
    let mut found = Written::default();
    write(e, &mut found);
    found
}

fn write(e: &Int, found: &mut Written) {
    match e {
        Int::Const(_) => (),
        Int::Var(v) => {
            found.variables.insert(*v);
        }
        Int::Sum(terms) => terms.iter().for_each(|(_, term)| write(term, found)),
        Int::If(_, t, f) => {
            found.ifs += 1;
            write(t, found);
            write(f, found);
        }
    }
}

/// Refusal 11: a column, by interval arithmetic over each written occurrence.
fn span(domains: &[Domain], part: &Part) -> Result<(), Refusal> {
    let Part::Column(column) = part else {
        return Ok(());
    };
    let (low, high) = interval(domains, column);
    if high - low + 1 > SPAN {
        return Err(11);
    }
    Ok(())
}

fn interval(domains: &[Domain], e: &Int) -> (i128, i128) {
    match e {
        Int::Const(c) => (*c as i128, *c as i128),
        Int::Var(v) => (domains[*v].lowest() as i128, domains[*v].highest() as i128),
        Int::Sum(terms) => terms.iter().fold((0, 0), |(low, high), (coefficient, term)| {
            let (l, h) = interval(domains, term);
            let (a, b) = (l * *coefficient as i128, h * *coefficient as i128);
            (low + a.min(b), high + a.max(b))
        }),
        Int::If(_, t, f) => {
            let ((a, b), (c, d)) = (interval(domains, t), interval(domains, f));
            (a.min(c), b.max(d))
        }
    }
}
