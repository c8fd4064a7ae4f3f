//! Limits of whole expressions: weight, different variables, span, and their order (refusals 9 to 11).
use super::limits::{Expected, Expected::*, Limit};
use crate::set::{Bool, Domain, Int, Set, Statement, Table, LIMIT};

fn rule(name: &str, domains: Vec<Domain>, left: Int, right: Int, expected: Expected) -> Limit {
    let statements = vec![Statement::Rule(Bool::Compare(2, left, right))];
    Limit::new(name, Set { bools: 0, domains, statements }.words(), expected)
}

/// A table of one column without rows.
fn column(name: &str, domains: Vec<Domain>, column: Int, expected: Expected) -> Limit {
    Limit::new(name, Set { bools: 0, domains, statements: vec![table(column)] }.words(), expected)
}

fn table(column: Int) -> Statement {
    Statement::Table(Table { columns: vec![column], rows: vec![] })
}

/// Request 2.1: every two of them are a pair.
fn different(name: &str, domains: Vec<Domain>, exprs: Vec<Int>, expected: Expected) -> Limit {
    Limit::new(name, Set { bools: 0, domains, statements: vec![Statement::AllDifferent(exprs)] }.words(), expected)
}

fn sum(terms: &[(i32, Int)]) -> Int {
    Int::Sum(terms.to_vec())
}

pub fn weights() -> Vec<Limit> {
    let c = Int::Const;
    let x = || Int::Var(0);
    let wide = || vec![Domain::Range(0, LIMIT)];
    let low = || vec![Domain::Range(-LIMIT, 0)];
    let zero = || vec![Domain::Range(0, 0)];
    let half = (LIMIT - 1) / 2;
    let heavy = sum(&[(2, c(half + 1))]);
    let crowd = Int::Sum(vec![(LIMIT, c(LIMIT)); 40]);
    vec![
        rule("weights 1073741822 and 1", vec![], c(LIMIT - 1), c(1), Compiled),
        rule("weights 1073741822 and 2", vec![], c(LIMIT - 1), c(2), Refused(9)),
        rule("weights with both signs", vec![], c(-LIMIT), c(-1), Refused(9)),
        rule("a wide variable", wide(), x(), c(0), Compiled),
        rule("a wide variable and 1", wide(), x(), c(1), Refused(9)),
        rule("a wide negative variable", low(), x(), c(0), Compiled),
        rule("a wide negative variable and 1", low(), x(), c(-1), Refused(9)),
        rule("a variable of 0 weighs 1", zero(), x(), c(LIMIT - 1), Compiled),
        rule("a variable of 0 weighs 1, past", zero(), x(), c(LIMIT), Refused(9)),
        rule("a sum at the limit", vec![], sum(&[(2, c(half)), (-1, c(1))]), c(0), Compiled),
        rule("a sum past the limit", vec![], heavy.clone(), c(0), Refused(9)),
        rule("a coefficient 0", wide(), sum(&[(0, x())]), c(LIMIT), Compiled),
        rule("too heavy under a coefficient 0", vec![], sum(&[(0, heavy.clone())]), c(0), Refused(9)),
        rule("nested at the limit", vec![], sum(&[(-3, sum(&[(7, c(51130563))]))]), c(0), Compiled),
        rule("nested past the limit", vec![], sum(&[(-3, sum(&[(7, c(51130564))]))]), c(0), Refused(9)),
        rule("past 64 bits", vec![], crowd, c(0), Refused(9)),
        rule("no term", vec![], sum(&[]), c(LIMIT), Compiled),
        column("a heavy column", vec![], sum(&[(LIMIT, c(1))]), Compiled),
        column("a column past the limit", vec![], sum(&[(LIMIT, c(1)), (1, c(1))]), Refused(9)),
        column("a column, too heavy under 0", vec![], sum(&[(0, heavy)]), Refused(9)),
    ]
}

/// The sum of the variables from one number up to another.
fn vars(from: usize, to: usize, coefficient: i32) -> Int {
    Int::Sum((from..to).map(|v| (coefficient, Int::Var(v))).collect())
}

pub fn variables() -> Vec<Limit> {
    let bits = |count| vec![Domain::Range(0, 1); count];
    let ones = |count| vec![Domain::Range(1, 1); count];
    let zero = Int::Const(0);
    let twice = Int::Sum((0..130).map(|v| (1, Int::Var(v % 64))).collect());
    vec![
        rule("64 variables", bits(64), vars(0, 64, 1), zero.clone(), Compiled),
        rule("65 variables", bits(65), vars(0, 65, 1), zero.clone(), Refused(10)),
        rule("64 variables on two sides", bits(64), vars(0, 32, 1), vars(32, 64, -1), Compiled),
        rule("65 variables on two sides", bits(65), vars(0, 32, 1), vars(32, 65, -1), Refused(10)),
        rule("65 variables times 0", bits(65), vars(0, 65, 0), zero.clone(), Refused(10)),
        rule("65 variables of one value", ones(65), vars(0, 65, 1), zero.clone(), Refused(10)),
        rule("64 variables twice", bits(64), vars(0, 64, 1), vars(0, 64, 1), Compiled),
        rule("64 variables in 130 terms", bits(64), twice, zero, Compiled),
        column("63 variables in a column", bits(63), vars(0, 63, 1), Compiled),
        column("64 variables in a column", bits(64), vars(0, 64, 1), Refused(10)),
        column("64 variables of one value in a column", ones(64), vars(0, 64, 0), Refused(10)),
    ]
}

pub fn spans() -> Vec<Limit> {
    let to = |high| vec![Domain::Range(0, high)];
    let x = || Int::Var(0);
    let times = |coefficient| sum(&[(coefficient, x())]);
    let cancelled = || sum(&[(1, x()), (-1, x())]);
    let ends = |high| vec![Domain::Values(vec![-1, 3, high])];
    let row = |high: i32, cell: Option<i32>, expected| {
        let table = Table { columns: vec![x()], rows: vec![vec![cell]] };
        let set = Set { bools: 0, domains: to(high), statements: vec![Statement::Table(table)] };
        Limit::new(&format!("0 to {high} with a row {cell:?}"), set.words(), expected)
    };
    vec![
        column("span 4096", to(4095), x(), Compiled),
        column("span 4097", to(4096), x(), Refused(11)),
        column("4095 times", to(1), times(4095), Compiled),
        column("4096 times", to(1), times(4096), Refused(11)),
        column("-4095 times", to(1), times(-4095), Compiled),
        column("-4096 times", to(1), times(-4096), Refused(11)),
        column("x - x, span 4095", to(2047), cancelled(), Compiled),
        column("x - x, span 4097", to(2048), cancelled(), Refused(11)),
        column("enumerated, span 4096", ends(4094), x(), Compiled),
        column("enumerated, span 4097", ends(4095), x(), Refused(11)),
        column("a large constant", vec![], Int::Const(LIMIT), Compiled),
        column("0 times a wide one", to(LIMIT), times(0), Compiled),
        row(4095, Some(0), Compiled),
        row(4096, Some(0), Refused(11)),
        row(4095, None, Compiled),
        row(4096, None, Refused(11)),
        rule("a wide comparison", to(LIMIT / 2), x(), Int::Const(0), Compiled),
    ]
}

/// Weights of AllDifferent: every expression and part, and the total of every pair.
pub fn pair_weights() -> Vec<Limit> {
    let c = Int::Const;
    let x = || Int::Var(0);
    let wide = || vec![Domain::Range(0, LIMIT)];
    let heavy = || sum(&[(2, c(LIMIT))]);
    let half = (LIMIT - 1) / 2;
    vec![
        different("a pair at the limit", vec![], vec![c(LIMIT), c(0)], Compiled),
        different("a pair past the limit", vec![], vec![c(LIMIT), c(1)], Refused(9)),
        different("a pair past the limit, turned", vec![], vec![c(1), c(-LIMIT)], Refused(9)),
        different("one at the limit", vec![], vec![c(LIMIT)], Compiled),
        different("one past the limit", vec![], vec![heavy()], Refused(9)),
        different("one past the limit under 0", vec![], vec![sum(&[(0, heavy())])], Refused(9)),
        different("one past the limit behind others", vec![], vec![c(0), c(0), heavy()], Refused(9)),
        different("a wide variable alone", wide(), vec![x()], Compiled),
        different("a wide variable twice", wide(), vec![x(), x()], Refused(9)),
        different("a wide variable and 0", wide(), vec![x(), c(0)], Compiled),
        different("a wide variable and 1", wide(), vec![x(), c(1)], Refused(9)),
        different("three halves", vec![], vec![c(half), c(half), c(-half)], Compiled),
        different("the last pair past the limit", vec![], vec![c(0), c(half + 1), c(-half - 1)], Refused(9)),
        different("first and last past the limit", vec![], vec![c(half + 1), c(0), c(half + 1)], Refused(9)),
        different("a light one between", vec![], vec![c(half), c(0), c(half + 1)], Compiled),
        different("a span of 4097", vec![Domain::Range(0, 4096)], vec![x(), c(0)], Compiled),
        different("half a wide variable twice", vec![Domain::Range(0, LIMIT / 2)], vec![x(), x()], Compiled),
    ]
}

/// Different variables in every pair; and counts of expressions.
pub fn pair_variables() -> Vec<Limit> {
    let bits = |count| vec![Domain::Range(0, 1); count];
    let ones = |count| vec![Domain::Range(1, 1); count];
    let x = Int::Var;
    let many = |count| vec![x(0); count];
    vec![
        different("64 variables in a pair", bits(64), vec![vars(0, 32, 1), vars(32, 64, 1)], Compiled),
        different("65 variables in a pair", bits(65), vec![vars(0, 32, 1), vars(32, 65, 1)], Refused(10)),
        different("64 and one more", bits(65), vec![vars(0, 64, 1), x(64)], Refused(10)),
        different("64 and one of them", bits(65), vec![vars(0, 64, 1), x(63)], Compiled),
        different("65 in one alone", bits(65), vec![vars(0, 65, 1)], Compiled),
        different("65 in one and 0", bits(65), vec![vars(0, 65, 1), Int::Const(0)], Refused(10)),
        different("65 times 0", bits(65), vec![vars(0, 65, 0), Int::Const(0)], Refused(10)),
        different("65 of one value", ones(65), vec![vars(0, 33, 1), vars(33, 65, 1)], Refused(10)),
        different("the last pair has 65", bits(65), vec![x(0), vars(0, 64, 1), x(64)], Refused(10)),
        different("first and last have 65", bits(65), vec![vars(0, 64, 1), x(0), x(64)], Refused(10)),
        different("65 in three", bits(65), vec![vars(0, 32, 1), vars(32, 64, 1), x(64)], Compiled),
        different("64 in both, the same", bits(64), vec![vars(0, 64, 1), vars(0, 64, 2)], Compiled),
        different("no expression", vec![], vec![], Compiled),
        different("one expression", bits(1), vec![x(0)], Compiled),
        different("equal constants", vec![], vec![Int::Const(1), Int::Const(1)], Compiled),
        different("150 expressions", bits(1), many(150), Compiled),
        different("2044 expressions", bits(1), many(2044), Refused(12)),
        different("2045 expressions", bits(1), many(2045), Refused(2)),
    ]
}

/// 9 over the whole set, then 10, then 11, whatever the order of the statements.
pub fn orders() -> Vec<Limit> {
    let domains = || [vec![Domain::Range(0, 1); 64], vec![Domain::Range(0, 4096)]].concat();
    let nine = || table(sum(&[(LIMIT, Int::Const(1)), (1, Int::Const(1))]));
    let ten = || table(vars(0, 64, 1));
    let eleven = || table(Int::Var(64));
    let nine_paired = || Statement::AllDifferent(vec![Int::Const(LIMIT), Int::Const(1)]);
    let ten_paired = || Statement::AllDifferent(vec![vars(0, 64, 1), Int::Var(64)]);
    let never = || Statement::Rule(Bool::Const(false));
    let of = |name: &str, statements: Vec<Statement>, expected| {
        Limit::new(name, Set { bools: 0, domains: domains(), statements }.words(), expected)
    };
    vec![
        of("11, then 10", vec![eleven(), ten()], Refused(10)),
        of("10, then 9", vec![ten(), nine()], Refused(9)),
        of("11, then 9", vec![eleven(), nine()], Refused(9)),
        of("11, 10, then 9", vec![eleven(), ten(), nine()], Refused(9)),
        of("a pair's 10, then 9", vec![ten_paired(), nine()], Refused(9)),
        of("10, then a pair's 9", vec![ten(), nine_paired()], Refused(9)),
        of("11, then a pair's 10", vec![eleven(), ten_paired()], Refused(10)),
        of("a pair's 10, then a pair's 9", vec![ten_paired(), nine_paired()], Refused(9)),
        of("false, then a pair's 10", vec![never(), ten_paired()], Refused(10)),
        of("false, then 11", vec![never(), eleven()], Refused(11)),
        of("false", vec![never()], Contradiction),
    ]
}
