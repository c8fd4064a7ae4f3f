//! What `optimize(true, false)` leaves of a set: the fixed values and the remaining statements, as words.
use crate::arithmetic::CmpOp;
use crate::csp::{BoolExpr, BoolVar, BoolVarStatus, IntExpr, Stmt, CSP};
use crate::refuse::accept;
use crate::rust::{optimized, OPERATORS};
use crate::set::{statement_words, Bool, Int, Statement, Table};
use crate::util::ConvertMapIndex;

/// Refused by 1 to 11, inconsistent, or settled with these words: B fixed values, then the statements.
#[derive(Clone, Debug, PartialEq)]
pub enum Settled {
    Refused(u32),
    Inconsistent,
    Words(Vec<i32>),
}

pub fn settled(set: &[i32], work_len: usize) -> Settled {
    let set = match accept(set, work_len) {
        Err(refusal) => return Settled::Refused(refusal as u32),
        Ok(set) => set,
    };
    match optimized(&set) {
        None => Settled::Inconsistent,
        Some(csp) => Settled::Words(words(set.bools, &csp)),
    }
}

fn words(bools: usize, csp: &CSP) -> Vec<i32> {
    let mut out: Vec<i32> = (0..bools).map(|v| fixed(csp.get_bool_var_status(BoolVar::new(v)))).collect();
    left(csp).iter().for_each(|statement| statement_words(statement, &mut out));
    out
}

/// The remaining statements.
pub fn left(csp: &CSP) -> Vec<Statement> {
    csp.constraints.iter().map(statement).collect()
}

fn fixed(status: BoolVarStatus) -> i32 {
    match status {
        BoolVarStatus::Fixed(b) => b as i32,
        BoolVarStatus::Unfixed => 2,
        BoolVarStatus::Infeasible => panic!("an infeasible variable in a consistent problem"),
    }
}

fn statement(left: &Stmt) -> Statement {
    match left {
        Stmt::Expr(rule) => Statement::Rule(bool_expr(rule)),
        Stmt::ExtensionSupports(columns, rows) => {
            Statement::Table(Table { columns: columns.iter().map(int_expr).collect(), rows: rows.clone() })
        }
        Stmt::AllDifferent(exprs) => Statement::AllDifferent(exprs.iter().map(int_expr).collect()),
        _ => panic!("a statement that the documents leave out"),
    }
}

fn bool_expr(e: &BoolExpr) -> Bool {
    let boxed = |e: &BoolExpr| Box::new(bool_expr(e));
    let all = |members: &[Box<BoolExpr>]| members.iter().map(|e| bool_expr(e)).collect();
    match e {
        BoolExpr::Const(b) => Bool::Const(*b),
        BoolExpr::Var(v) => Bool::Var(v.to_index()),
        BoolExpr::And(members) => Bool::And(all(members)),
        BoolExpr::Or(members) => Bool::Or(all(members)),
        BoolExpr::Not(e) => Bool::Not(boxed(e)),
        BoolExpr::Xor(l, r) => Bool::Xor(boxed(l), boxed(r)),
        BoolExpr::Iff(l, r) => Bool::Iff(boxed(l), boxed(r)),
        BoolExpr::Imp(l, r) => Bool::Imp(boxed(l), boxed(r)),
        BoolExpr::Cmp(op, l, r) => Bool::Compare(operator(*op), int_expr(l), int_expr(r)),
        BoolExpr::NVar(_) => panic!("an emitted variable before normalize"),
    }
}

fn operator(op: CmpOp) -> u8 {
    OPERATORS.iter().position(|o| *o == op).unwrap_or(0) as u8
}

fn int_expr(e: &IntExpr) -> Int {
    match e {
        IntExpr::Const(c) => Int::Const(*c),
        IntExpr::Var(v) => Int::Var(v.to_index()),
        IntExpr::Linear(terms) => Int::Sum(terms.iter().map(|(e, c)| (*c, int_expr(e))).collect()),
        IntExpr::If(c, t, f) => Int::If(Box::new(bool_expr(c)), Box::new(int_expr(t)), Box::new(int_expr(f))),
        _ => panic!("an expression that the documents leave out"),
    }
}
