//! The limits of request 2.5 (If), at the limit and one past it, with the outcome written by hand from documents 01 and 02.
use super::deep::{constants, crossed_iffs};
use super::filled;
use super::limits::{Expected, Expected::*, Limit};
use super::short::*;
use crate::set::{Bool, Domain, Int, Set, Statement, LIMIT};

pub fn all() -> Vec<Limit> {
    let whole = [variables(), column_variables(), pairs(), weights(), pair_weights(), spans(), folded(), orders()];
    [depths(), codes(), among_many(), endless()].into_iter().chain(whole).flatten().collect()
}

fn of(name: &str, domains: Vec<Domain>, statement: Statement, expected: Expected) -> Limit {
    Limit::new(name, Set { bools: 2, domains, statements: vec![statement] }.words(), expected)
}

/// 70 variables of two values.
fn bits() -> Vec<Domain> {
    vec![Domain::Range(0, 1); 70]
}

fn in_rule(name: &str, l: Int, r: Int, expected: Expected) -> Limit {
    of(name, bits(), rule(eq(l, r)), expected)
}

fn in_column(name: &str, e: Int, expected: Expected) -> Limit {
    of(name, bits(), column(e, &[]), expected)
}

fn in_pairs(name: &str, exprs: Vec<Int>, expected: Expected) -> Limit {
    of(name, bits(), Statement::AllDifferent(exprs), expected)
}

/// An If of two constants on the first Boolean.
fn constant() -> Int {
    choose(v(0), k(1), k(2))
}

fn open() -> Int {
    choose(v(0), x(0), k(2))
}

/// So many of an expression, added up.
fn times(e: Int, count: usize) -> Int {
    Int::Sum(vec![(1, e); count])
}

/// An If of constants on a comparison that has so many variables.
fn on_comparison(count: usize) -> Int {
    choose(eq(total(0, 64), if count > 64 { x(64) } else { k(0) }), k(1), k(0))
}

fn variables() -> Vec<Limit> {
    let beside = |count: usize| {
        let variables = (0..count).map(|variable| (1, x(variable)));
        Int::Sum(variables.chain([(1, constant())]).collect())
    };
    let inner = choose(v(0), choose(v(1), k(1), k(2)), k(3));
    vec![
        in_rule("63 variables and an If", beside(63), k(0), Compiled),
        in_rule("64 variables and an If", beside(64), k(0), Refused(10)),
        in_rule("64 equal Ifs", times(constant(), 64), k(0), Compiled),
        in_rule("65 equal Ifs", times(constant(), 65), k(0), Refused(10)),
        in_rule("63 equal open Ifs and their variable", times(open(), 63), k(0), Compiled),
        in_rule("65 equal open Ifs", times(open(), 64), open(), Refused(10)),
        in_rule("64 equal open Ifs and their variable", times(open(), 64), k(0), Refused(10)),
        in_rule("62 variables and an If over another", total(0, 62), choose(v(0), x(62), k(0)), Compiled),
        in_rule("63 variables and an If over another", total(0, 63), choose(v(0), x(63), k(0)), Refused(10)),
        in_rule("a variable in a branch and outside", total(0, 63), choose(v(0), x(62), k(0)), Compiled),
        in_rule("a variable in both branches", total(0, 62), choose(v(0), x(62), x(62)), Compiled),
        in_rule("two variables in branches", total(0, 62), choose(v(0), x(62), x(63)), Refused(10)),
        in_rule("an If in a branch counts", total(0, 62), inner.clone(), Compiled),
        in_rule("an If in a branch counts, past", total(0, 63), inner, Refused(10)),
        in_rule("a condition does not count", total(0, 63), choose(eq(total(63, 5), k(0)), k(1), k(0)), Compiled),
        in_rule("nor does an If in it", total(0, 63), choose(eq(constant(), k(0)), k(1), k(0)), Compiled),
        in_rule("a condition's comparison has 64", x(0), on_comparison(64), Compiled),
        in_rule("a condition's comparison has 65", x(0), on_comparison(65), Refused(10)),
        in_rule("a branch of 63", choose(v(0), total(0, 63), k(0)), k(0), Compiled),
        in_rule("a branch of 64", choose(v(0), total(0, 64), k(0)), k(0), Refused(10)),
        in_rule("a branch of 64 on the other side", k(0), choose(v(0), k(0), total(0, 64)), Refused(10)),
        in_rule("a branch of 64 times 0", sum(&[(0, choose(v(0), total(0, 64), k(0)))]), k(0), Refused(10)),
    ]
}

fn column_variables() -> Vec<Limit> {
    vec![
        in_column("a column's If over 62", choose(v(0), total(0, 62), k(0)), Compiled),
        in_column("a column's If over 63", choose(v(0), total(0, 63), k(0)), Refused(10)),
        in_column("63 Ifs in a column", times(constant(), 63), Compiled),
        in_column("64 Ifs in a column", times(constant(), 64), Refused(10)),
        in_column("a column's condition has 64", on_comparison(64), Compiled),
        in_column("a column's condition has 65", on_comparison(65), Refused(10)),
        in_column("a column of 62 and an If", sum(&[(1, total(0, 62)), (1, on_comparison(64))]), Compiled),
        in_column("a column of 63 and an If", sum(&[(1, total(0, 63)), (1, constant())]), Refused(10)),
    ]
}

/// Each two of an AllDifferent; one alone has no limit, but its Ifs' branches and conditions do.
fn pairs() -> Vec<Limit> {
    let branch = |count: usize| choose(v(0), total(0, count), k(0));
    vec![
        in_pairs("63 variables and an If in a pair", vec![total(0, 63), constant()], Compiled),
        in_pairs("64 variables and an If in a pair", vec![total(0, 64), constant()], Refused(10)),
        in_pairs("the last pair has 65", vec![k(0), constant(), total(0, 64)], Refused(10)),
        in_pairs("32 and 32 equal Ifs", vec![times(constant(), 32), times(constant(), 32)], Compiled),
        in_pairs("32 and 33 equal Ifs", vec![times(constant(), 32), times(constant(), 33)], Refused(10)),
        in_pairs("66 Ifs in one alone", vec![times(constant(), 66)], Compiled),
        in_pairs("a branch of 63 in one alone", vec![sum(&[(1, branch(63)), (1, total(60, 10))])], Compiled),
        in_pairs("a branch of 64 in one alone", vec![branch(64)], Refused(10)),
        in_pairs("a branch of 63 Ifs in one alone", vec![choose(v(1), times(constant(), 63), k(0))], Compiled),
        in_pairs("a branch of 64 Ifs in one alone", vec![choose(v(1), k(0), times(constant(), 64))], Refused(10)),
        in_pairs("a condition of 64 in one alone", vec![on_comparison(64)], Compiled),
        in_pairs("a condition of 65 in one alone", vec![on_comparison(65)], Refused(10)),
    ]
}

fn weights() -> Vec<Limit> {
    let zeros = || choose(v(0), k(0), k(0));
    let most = |e: Int| sum(&[(LIMIT, e)]);
    let on_heavy = || choose(eq(k(LIMIT), k(1)), k(1), k(0));
    let half = LIMIT / 2;
    let twice = || sum(&[(2, k(LIMIT))]);
    let largest = [rule(eq(choose(v(0), x(0), k(0)), k(0)))];
    let largest = filled(1, &[Domain::Range(-LIMIT, LIMIT)], largest.into_iter());
    vec![
        in_rule("an If of zeros weighs 1", most(zeros()), k(0), Compiled),
        in_rule("an If of zeros weighs 1, past", most(zeros()), k(1), Refused(9)),
        in_rule("an If of an empty sum weighs 1, past", most(choose(v(0), sum(&[]), k(0))), k(1), Refused(9)),
        in_rule("the heavier branch", sum(&[(2, choose(v(0), k(5), k(half)))]), k(1), Compiled),
        in_rule("the heavier branch, past", sum(&[(2, choose(v(0), k(half + 1), k(5)))]), k(0), Refused(9)),
        in_rule("the second is heavier, past", sum(&[(2, choose(v(0), k(5), k(-half - 1)))]), k(0), Refused(9)),
        in_rule("branches are not added", choose(v(0), k(LIMIT), k(-LIMIT)), k(0), Compiled),
        in_rule("a heavy If and 1", choose(v(0), k(LIMIT), k(-LIMIT)), k(1), Refused(9)),
        in_rule("a heavy condition", on_heavy(), k(0), Refused(9)),
        in_rule("a condition as heavy as may be", choose(eq(k(LIMIT), k(0)), k(LIMIT), k(0)), k(0), Compiled),
        in_rule("a heavy part of a branch times 0", sum(&[(0, choose(v(0), twice(), k(0)))]), k(0), Refused(9)),
        in_rule("a heavy branch that folds away", choose(Bool::Const(true), k(0), twice()), k(0), Refused(9)),
        in_column("a heavy condition in a column", on_heavy(), Refused(9)),
        in_column("a heavy branch in a column, times 0", sum(&[(0, choose(v(0), k(LIMIT), k(0)))]), Compiled),
        Limit::new("the largest domain", largest.words(), Compiled),
        in_rule("a wide If in a rule", choose(v(0), x(0), k(LIMIT - 1)), k(0), Compiled),
    ]
}

fn pair_weights() -> Vec<Limit> {
    let heavy = || choose(v(0), k(LIMIT), k(0));
    vec![
        in_pairs("a heavy If alone", vec![heavy()], Compiled),
        in_pairs("a heavy If and 0", vec![heavy(), k(0)], Compiled),
        in_pairs("a heavy If and 1", vec![heavy(), k(1)], Refused(9)),
        in_pairs("a heavy If and one of zeros", vec![heavy(), choose(v(1), k(0), k(0))], Refused(9)),
        in_pairs("a heavy condition in one alone", vec![choose(eq(k(LIMIT), k(1)), k(0), k(0))], Refused(9)),
        in_pairs("a heavy branch in one alone", vec![choose(v(0), sum(&[(2, k(LIMIT))]), k(0))], Refused(9)),
    ]
}

fn spans() -> Vec<Limit> {
    let two = |high| vec![Domain::Range(0, 2000), Domain::Range(2100, high)];
    let wide = || vec![Domain::Range(0, 5000)];
    let far = || choose(v(0), x(0), k(9000));
    let twice = |high| sum(&[(1, choose(v(0), k(0), k(high))), (-1, choose(v(1), k(0), k(high)))]);
    vec![
        in_column("an If's span 4096", choose(v(0), k(0), k(4095)), Compiled),
        in_column("an If's span 4097", choose(v(0), k(4096), k(0)), Refused(11)),
        of("two branches, span 4096", two(4095), column(choose(v(0), x(0), x(1)), &[]), Compiled),
        of("two branches, span 4097", two(4096), column(choose(v(0), x(1), x(0)), &[]), Refused(11)),
        in_column("two Ifs, span 4095", twice(2047), Compiled),
        in_column("two Ifs, span 4097", twice(2048), Refused(11)),
        in_column("-4095 times an If", sum(&[(-4095, choose(v(0), k(0), k(1)))]), Compiled),
        in_column("-4096 times an If", sum(&[(-4096, choose(v(0), k(0), k(1)))]), Refused(11)),
        of("a span in a condition", wide(), column(choose(eq(far(), k(1)), k(0), k(1)), &[]), Compiled),
        of("0 times a wide If", wide(), column(sum(&[(0, far())]), &[]), Compiled),
        of("a wide If", wide(), column(far(), &[]), Refused(11)),
        in_column("a wide branch that folds away", choose(Bool::Const(true), k(0), k(4096)), Refused(11)),
        of("a wide If in a pair", wide(), Statement::AllDifferent(vec![far(), k(1)]), Compiled),
    ]
}

/// So many Nots above it.
fn nots(e: Bool, count: usize) -> Bool {
    (0..count).fold(e, |e, _| not(e))
}

/// Ifs in the branches of Ifs: the innermost branch stands so many levels below the outermost If.
fn branched(levels: usize) -> Int {
    (0..levels).fold(k(0), |e, level| if level % 2 == 0 { choose(v(0), e, k(1)) } else { choose(v(0), k(1), e) })
}

fn depths() -> Vec<Limit> {
    let compared = || eq(choose(v(0), k(0), k(1)), k(0));
    vec![
        of("an If in a rule, depth 64", bits(), rule(nots(compared(), 61)), Accepted),
        of("an If in a rule, depth 65", bits(), rule(nots(compared(), 62)), Refused(8)),
        of("a column's condition, depth 64", vec![], column(choose(nots(v(0), 62), k(0), k(1)), &[]), Compiled),
        of("a column's condition, depth 65", vec![], column(choose(nots(v(0), 63), k(0), k(1)), &[]), Refused(8)),
        of("a column's branches, depth 64", vec![], column(branched(63), &[]), Compiled),
        of("a column's branches, depth 65", vec![], column(branched(64), &[]), Refused(8)),
        of("a rule's branches, depth 64", vec![], rule(eq(branched(62), k(0))), Compiled),
        of("a rule's branches, depth 65", vec![], rule(eq(branched(63), k(0))), Refused(8)),
        of("a differing If, depth 64", vec![], Statement::AllDifferent(vec![branched(63), k(0)]), Compiled),
        of("a differing If, depth 65", vec![], Statement::AllDifferent(vec![branched(64), k(0)]), Refused(8)),
    ]
}

/// Words where an integer stands; what follows them is the right side 0.
fn codes() -> Vec<Limit> {
    let whole = [2, 1, 0, 0, 3, 1, 1, 18, 0, 23, 11, 0, 20, 1, 21, 0, 20, 0];
    let at = |name: &str, words: &[i32], expected| Limit::new(name, [&whole[..9], words, &[20, 0]].concat(), expected);
    let deep = |words: &[i32]| [&[2, 0, 1, 1][..], &[14; 62], &[18, 0], words].concat();
    let mut all = vec![
        at("an If", &[23, 11, 0, 20, 1, 21, 0], Compiled),
        at("code 24", &[24, 11, 0, 20, 0, 20, 1], Refused(5)),
        at("a Boolean as the first branch", &[23, 11, 0, 11, 1, 20, 1], Refused(5)),
        at("a Boolean as the second branch", &[23, 11, 0, 20, 1, 11, 1], Refused(5)),
        at("an integer as a condition", &[23, 20, 1, 20, 1, 20, 1], Refused(5)),
        at("an If as a condition", &[23, 23, 11, 0, 20, 1, 20, 1, 20, 1, 20, 1], Refused(5)),
        at("no Boolean 2 in a condition", &[23, 11, 2, 20, 1, 20, 0], Refused(6)),
        at("no Boolean -1 in a condition", &[23, 11, -1, 20, 1, 20, 0], Refused(6)),
        at("no integer 1 in a branch", &[23, 11, 0, 20, 1, 21, 1], Refused(6)),
        at("a constant past the limit in a branch", &[23, 11, 0, 20, LIMIT + 1, 20, 0], Refused(4)),
        at("operator 6 in a condition", &[23, 18, 6, 20, 0, 20, 0, 20, 1, 20, 0], Refused(4)),
        at("4097 members in a condition", &[23, 12, 4097, 20, 1, 20, 0], Refused(4)),
        at("6 before 4", &[23, 11, 2, 20, LIMIT + 1, 20, 0], Refused(6)),
        at("a branch missing", &[23, 11, 0, 20, 1], Refused(3)),
        Limit::new("an If as a rule", vec![2, 0, 1, 1, 23, 11, 0, 20, 0, 20, 1], Refused(5)),
        Limit::new("an If as a member", vec![2, 0, 1, 1, 12, 1, 23, 11, 0, 20, 0, 20, 1], Refused(5)),
        Limit::new("an If as a statement", vec![2, 0, 1, 23, 11, 0, 20, 0, 20, 1], Refused(5)),
        Limit::new("a condition too deep", deep(&[23, 11, 0, 20, 0, 20, 0, 20, 0]), Refused(8)),
        Limit::new("5 before 8 in a condition", deep(&[23, 20, 0, 20, 0, 20, 0, 20, 0]), Refused(5)),
        Limit::new("6 is read behind 8", deep(&[23, 11, 9, 20, 0, 20, 0, 20, 0]), Refused(8)),
    ];
    for length in 0..whole.len() {
        all.push(Limit::new(&format!("an If cut to {length} words"), whole[..length].to_vec(), Refused(3)));
    }
    all.push(Limit::new("a word behind an If", [&whole[..], &[0]].concat(), Refused(3)));
    all
}

/// The same among many variables: a rule of these words.
fn among_many() -> Vec<Limit> {
    let words = |rule: &[i32]| {
        let mut words = filled(2, &bits(), [].into_iter()).words();
        words.pop();
        [&words[..], &[1, 1], rule].concat()
    };
    vec![
        Limit::new("code 24 of 23", words(&[18, 0, 24, 11, 0, 20, 0, 20, 1, 20, 0]), Refused(5)),
        Limit::new("an If as a Boolean", words(&[23, 11, 0, 20, 0, 20, 1]), Refused(5)),
        Limit::new("a Boolean as a branch", words(&[18, 0, 23, 11, 0, 11, 1, 20, 1, 20, 0]), Refused(5)),
        Limit::new("a constant as a condition", words(&[18, 0, 23, 20, 1, 20, 1, 20, 1, 20, 0]), Refused(5)),
        Limit::new("a comparison without its right side", words(&[18, 0, 23, 11, 0, 20, 1]), Refused(3)),
        Limit::new("an undeclared Boolean", words(&[18, 0, 23, 11, 2, 20, 1, 20, 0, 20, 0]), Refused(6)),
    ]
}

/// Conditions that fold to a constant, at once or after some passes.
fn folded() -> Vec<Limit> {
    let domains = || vec![Domain::Range(0, 3)];
    let set = |name: &str, bools: usize, statements: Vec<Statement>, expected| {
        Limit::new(name, Set { bools, domains: domains(), statements }.words(), expected)
    };
    let either = |variable: usize| choose(v(variable), x(0), k(7));
    let late = vec![rule(eq(either(1), k(1))), rule(imp(v(0), v(1))), rule(v(0)), rule(or(not(v(1)), v(2)))];
    let against = || eq(choose(Bool::Const(true), k(0), k(1)), k(1));
    vec![
        set("a condition folds to true", 2, vec![rule(v(0)), rule(eq(either(0), k(1)))], Compiled),
        set("a condition folds to false, in a column", 2, vec![rule(not(v(0))), column(either(0), &[7])], Compiled),
        set("a folded If is a column's variable", 2, vec![rule(v(0)), column(either(0), &[1, 2])], Compiled),
        set("a variable fixed late in a condition", 3, late, Compiled),
        set("a false comparison of an If is no contradiction", 2, vec![rule(against())], Compiled),
        set("an If fixes nothing", 2, vec![rule(ne(choose(v(0), k(0), k(1)), k(0))), rule(v(0))], Compiled),
    ]
}

/// 9 over the whole set, conditions and branches included, then 10, then 11.
fn orders() -> Vec<Limit> {
    let nine = || choose(eq(k(LIMIT), k(1)), k(0), k(1));
    let ten = || choose(v(0), total(0, 64), k(0));
    let eleven = || choose(v(0), k(4096), k(0));
    let never = || rule(Bool::Const(false));
    let of = |name: &str, statements: Vec<Statement>, expected| {
        Limit::new(name, Set { bools: 2, domains: bits(), statements }.words(), expected)
    };
    vec![
        of("11, then a branch's 10", vec![column(eleven(), &[]), Statement::AllDifferent(vec![ten()])], Refused(10)),
        of("a branch's 10, then a condition's 9", vec![column(ten(), &[]), rule(eq(nine(), k(0)))], Refused(9)),
        of("11, then a condition's 9", vec![column(eleven(), &[]), column(nine(), &[])], Refused(9)),
        of("10 in a condition of 11", vec![column(choose(eq(ten(), k(0)), k(4096), k(0)), &[])], Refused(10)),
        of("9 in a condition of 10", vec![rule(eq(choose(eq(nine(), k(0)), total(0, 64), k(0)), k(0)))], Refused(9)),
        of("false, then 11", vec![never(), column(eleven(), &[])], Refused(11)),
        of("false, then an If", vec![never(), column(constant(), &[])], Contradiction),
    ]
}

/// Far too long for any answer, whatever the output.
fn endless() -> Vec<Limit> {
    let nest = |times| rule(constants(and(v(0), v(1)), times));
    vec![
        of("13 nested Ifs of constants", vec![], nest(13), Compiled),
        of("30 nested Ifs of constants", vec![], nest(30), Refused(12)),
        of("12 nested Iff in a column", vec![], column(choose(crossed_iffs(12), k(0), k(1)), &[0]), Compiled),
        of("60 nested Iff in a column", vec![], column(choose(crossed_iffs(60), k(0), k(1)), &[0]), Refused(12)),
        of("60 nested Iff in a rule", vec![], rule(eq(choose(crossed_iffs(59), k(0), k(1)), k(0))), Compiled),
    ]
}
