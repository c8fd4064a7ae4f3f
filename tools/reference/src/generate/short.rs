//! Short names for the parts of expressions.
use crate::set::{Bool, Int, Statement, Table};

pub const EQ: u8 = 0;
pub const NE: u8 = 1;

pub fn v(variable: usize) -> Bool {
    Bool::Var(variable)
}

pub fn not(e: Bool) -> Bool {
    Bool::Not(Box::new(e))
}

pub fn and(l: Bool, r: Bool) -> Bool {
    Bool::And(vec![l, r])
}

pub fn or(l: Bool, r: Bool) -> Bool {
    Bool::Or(vec![l, r])
}

pub fn xor(l: Bool, r: Bool) -> Bool {
    Bool::Xor(Box::new(l), Box::new(r))
}

pub fn iff(l: Bool, r: Bool) -> Bool {
    Bool::Iff(Box::new(l), Box::new(r))
}

pub fn imp(l: Bool, r: Bool) -> Bool {
    Bool::Imp(Box::new(l), Box::new(r))
}

pub fn eq(l: Int, r: Int) -> Bool {
    Bool::Compare(EQ, l, r)
}

pub fn ne(l: Int, r: Int) -> Bool {
    Bool::Compare(NE, l, r)
}

pub fn k(constant: i32) -> Int {
    Int::Const(constant)
}

pub fn x(variable: usize) -> Int {
    Int::Var(variable)
}

pub fn sum(terms: &[(i32, Int)]) -> Int {
    Int::Sum(terms.to_vec())
}

/// The variables from one number on, added up.
pub fn total(from: usize, count: usize) -> Int {
    Int::Sum((from..from + count).map(|variable| (1, x(variable))).collect())
}

/// If the condition holds the first, else the second.
pub fn choose(c: Bool, t: Int, f: Int) -> Int {
    Int::If(Box::new(c), Box::new(t), Box::new(f))
}

pub fn rule(e: Bool) -> Statement {
    Statement::Rule(e)
}

/// A table of one column with these cells.
pub fn column(e: Int, cells: &[i32]) -> Statement {
    Statement::Table(Table { columns: vec![e], rows: cells.iter().map(|cell| vec![Some(*cell)]).collect() })
}
