//! A set into the Rust's problem, `optimize(true, false)`, `normalize`, and its result as the answer's words.
use crate::arithmetic::CmpOp;
use crate::config::Config;
use crate::csp::{BoolExpr, BoolVar, BoolVarStatus, IntExpr, IntVar, Stmt, CSP};
use crate::norm_csp::{Constraint, IntVarRepresentation, LinearLit, NormCSP};
use crate::normalizer::{normalize, ConvertedBoolVar, NormalizeMap};
use crate::set::{Bool, Domain, Int, Set, Statement};
use crate::util::ConvertMapIndex;

pub const OPERATORS: [CmpOp; 6] = [CmpOp::Eq, CmpOp::Ne, CmpOp::Le, CmpOp::Lt, CmpOp::Ge, CmpOp::Gt];

/// Larger domains are not enumerated by the Rust here: it would need gigabytes.
const ENUMERATED: u64 = 100_000;

/// The problem after folding and propagation; nothing where the Rust finds it inconsistent.
pub fn optimized(set: &Set) -> Option<CSP> {
    let mut csp = CSP::new();
    for _ in 0..set.bools {
        csp.new_bool_var();
    }
    for declared in &set.domains {
        csp.new_int_var(domain(declared));
    }
    for declared in &set.statements {
        csp.add_constraint(statement(declared));
    }
    csp.optimize(true, false);
    if csp.is_inconsistent() {
        return None;
    }
    Some(csp)
}

/// The answer's words of an optimized problem, with `merge_equivalent_variables` on or off.
pub fn answer(set: &Set, mut csp: CSP, merge: bool) -> Vec<i32> {
    let mut norm = NormCSP::new();
    let mut map = NormalizeMap::new();
    let config = Config { merge_equivalent_variables: merge, ..Config::documents() };
    csp.constraints = std::mem::take(&mut csp.constraints).into_iter().flat_map(|stmt| spared(set, stmt)).collect();
    normalize(&mut csp, &mut norm, &mut map, &config);
    let mut out = vec![];
    maps(set, &csp, &map, &mut out);
    emitted(&norm, &mut out);
    out.push(norm.constraints.len() as i32);
    norm.constraints.iter().for_each(|c| clause(c, &mut out));
    out
}

/// The Rust enumerates the domains of an AllDifferent of variables before it compares counts. Where one has so many values, no set
/// has as many expressions: there are no clauses for values, and the rules of the pairs are handed over in its place.
fn spared(set: &Set, stmt: Stmt) -> Vec<Stmt> {
    let wide = |v: &IntVar| set.domains[v.to_index()].count() > ENUMERATED;
    let variable = |e: &IntExpr| if let IntExpr::Var(v) = e { Some(wide(v)) } else { None };
    let Stmt::AllDifferent(exprs) = &stmt else {
        return vec![stmt];
    };
    match exprs.iter().map(variable).collect::<Option<Vec<bool>>>() {
        Some(wide) if wide.contains(&true) => pair_rules(exprs),
        _ => vec![stmt],
    }
}

/// The rules that `normalize` makes of an AllDifferent, in its order.
fn pair_rules(exprs: &[IntExpr]) -> Vec<Stmt> {
    let differ = |l: &IntExpr, r: &IntExpr| Stmt::Expr(l.clone().ne(r.clone()));
    let behind = |(i, l)| exprs[i + 1..].iter().map(move |r| differ(l, r));
    exprs.iter().enumerate().flat_map(behind).collect()
}

fn domain(declared: &Domain) -> crate::domain::Domain {
    match declared {
        Domain::Range(low, high) => crate::domain::Domain::range(*low, *high),
        Domain::Values(values) => crate::domain::Domain::enumerative(values.clone()),
    }
}

fn statement(declared: &Statement) -> Stmt {
    match declared {
        Statement::Rule(rule) => Stmt::Expr(bool_expr(rule)),
        Statement::Table(table) => {
            Stmt::ExtensionSupports(table.columns.iter().map(int_expr).collect(), table.rows.clone())
        }
        Statement::AllDifferent(exprs) => Stmt::AllDifferent(exprs.iter().map(int_expr).collect()),
    }
}

fn bool_expr(e: &Bool) -> BoolExpr {
    let boxed = |e: &Bool| Box::new(bool_expr(e));
    match e {
        Bool::Const(b) => BoolExpr::Const(*b),
        Bool::Var(v) => BoolExpr::Var(BoolVar::new(*v)),
        Bool::And(members) => BoolExpr::And(members.iter().map(boxed).collect()),
        Bool::Or(members) => BoolExpr::Or(members.iter().map(boxed).collect()),
        Bool::Not(e) => BoolExpr::Not(boxed(e)),
        Bool::Xor(l, r) => BoolExpr::Xor(boxed(l), boxed(r)),
        Bool::Iff(l, r) => BoolExpr::Iff(boxed(l), boxed(r)),
        Bool::Imp(l, r) => BoolExpr::Imp(boxed(l), boxed(r)),
        Bool::Compare(op, l, r) => BoolExpr::Cmp(OPERATORS[*op as usize], Box::new(int_expr(l)), Box::new(int_expr(r))),
    }
}

fn int_expr(e: &Int) -> IntExpr {
    match e {
        Int::Const(c) => IntExpr::Const(*c),
        Int::Var(v) => IntExpr::Var(IntVar::new(*v)),
        Int::Sum(terms) => IntExpr::Linear(terms.iter().map(|(c, e)| (Box::new(int_expr(e)), *c)).collect()),
        Int::If(c, t, f) => IntExpr::If(Box::new(bool_expr(c)), Box::new(int_expr(t)), Box::new(int_expr(f))),
    }
}

fn maps(set: &Set, csp: &CSP, map: &NormalizeMap, out: &mut Vec<i32>) {
    for v in 0..set.bools {
        out.push(match csp.get_bool_var_status(BoolVar::new(v)) {
            BoolVarStatus::Fixed(b) => b as i32,
            BoolVarStatus::Unfixed => 2,
            BoolVarStatus::Infeasible => panic!("an infeasible variable in a consistent problem"),
        });
    }
    for v in 0..set.bools {
        out.push(match map.get_bool_var_raw(BoolVar::new(v)) {
            ConvertedBoolVar::Lit(lit) => literal(lit.var.id(), lit.negated),
            ConvertedBoolVar::Removed | ConvertedBoolVar::NotConverted => 0,
        });
    }
    for v in 0..set.domains.len() {
        out.push(map.get_int_var(IntVar::new(v)).map_or(0, |n| n.id() as i32 + 1));
    }
}

fn literal(number: usize, negated: bool) -> i32 {
    let plus_1 = number as i32 + 1;
    if negated {
        -plus_1
    } else {
        plus_1
    }
}

fn emitted(norm: &NormCSP, out: &mut Vec<i32>) {
    out.push(norm.bool_vars_iter().count() as i32);
    out.push(norm.vars.num_int_vars() as i32);
    for v in norm.int_vars_iter() {
        match norm.vars.int_var(v) {
            IntVarRepresentation::Domain(d) => {
                out.push(0);
                out.push(d.lower_bound_checked().get());
                out.push(d.upper_bound_checked().get());
                out.push(d.num_candidates() as i32);
            }
            IntVarRepresentation::Binary { cond, v_false, v_true } => {
                out.extend([1, literal(cond.var.id(), cond.negated), v_false.get(), v_true.get()])
            }
        }
    }
}

fn clause(c: &Constraint, out: &mut Vec<i32>) {
    out.push(c.bool_lit.len() as i32);
    out.extend(c.bool_lit.iter().map(|l| literal(l.var.id(), l.negated)));
    out.push(c.linear_lit.len() as i32);
    c.linear_lit.iter().for_each(|l| comparison(l, out));
}

fn comparison(l: &LinearLit, out: &mut Vec<i32>) {
    let op = OPERATORS.iter().position(|op| *op == l.op).unwrap_or(0);
    out.extend([op as i32, l.sum.constant.get(), l.sum.len() as i32]);
    for (variable, coefficient) in l.sum.iter() {
        out.extend([variable.id() as i32, coefficient.get()]);
    }
}
