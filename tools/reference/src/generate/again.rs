//! Ifs that are equal or nearly so, in rules, columns and pairs; branches that cancel to a constant; as many Ifs as a comparison takes.
use super::ifs::Maker;
use super::rng::Rng;
use super::short::*;
use super::{filled, Scale};
use crate::set::{Bool, Domain, Int, Set, Statement, LIMIT};

/// A few Ifs, each written in several statements, as it is or with something changed.
pub fn equal(rng: &mut Rng, scale: Scale) -> Set {
    let mut maker = Maker::new(rng, Scale::Small);
    maker.bools = maker.bools.max(2);
    let ifs: Vec<Int> = (0..maker.rng.size(1, 2)).map(|_| one(&mut maker)).collect();
    let count = if scale == Scale::Small { maker.rng.size(2, 4) } else { maker.rng.size(4, 12) };
    let statements = (0..count).map(|_| written(&mut maker, &ifs)).collect();
    maker.set(statements)
}

/// One with a condition of one of the forms that decide whether it is found again.
fn one(maker: &mut Maker) -> Int {
    let (a, b) = (v(maker.rng.below(maker.bools)), v(maker.rng.below(maker.bools)));
    let inner = choose(a.clone(), maker.int(0), maker.int(0));
    let condition = match maker.rng.below(9) {
        0 | 1 => a,
        2 => or(a, b),
        3 => xor(a, b),
        4 => iff(a, not(b)),
        5 => or(iff(a.clone(), b), a),
        6 => eq(inner.clone(), k(1)),
        7 => ne(choose(xor(a, b), maker.int(0), k(1)), k(0)),
        _ => not(a),
    };
    match maker.rng.below(4) {
        0 => choose(condition, inner, maker.int(0)),
        1 => choose(condition, maker.int(1), k(maker.rng.range(-1, 2))),
        _ => choose(condition, maker.int(0), maker.int(0)),
    }
}

/// One of them in a rule, a column or a pair.
fn written(maker: &mut Maker, ifs: &[Int]) -> Statement {
    let (e, other) = (changed(maker, ifs), changed(maker, ifs));
    match maker.rng.below(10) {
        0 => rule(eq(e, other)),
        1 => rule(ne(sum(&[(1, e), (maker.rng.pick(&[1, -1, 2]), other)]), maker.int(0))),
        2 => rule(xor(eq(e, k(1)), v(0))),
        3 => rule(or(ne(e.clone(), k(0)), iff(eq(other, k(1)), ne(e, k(2))))),
        4 => Statement::AllDifferent(vec![e, other, maker.int(0)]),
        5 => Statement::AllDifferent(vec![e.clone(), maker.int(0), e]),
        6 => maker.rows(vec![e, other]),
        7 => maker.rows(vec![choose(eq(e, k(1)), other, k(0))]),
        8 => maker.rows(vec![sum(&[(1, e), (-1, other)])]),
        _ => rule(Bool::Compare(maker.rng.below(6) as u8, e, maker.int(1))),
    }
}

/// The If itself, the If by something that folds to it, or one that differs from it in one place.
fn changed(maker: &mut Maker, ifs: &[Int]) -> Int {
    let e = maker.rng.pick(ifs);
    let Int::If(c, t, f) = &e else {
        return e;
    };
    let (c, t, f) = ((**c).clone(), (**t).clone(), (**f).clone());
    match maker.rng.below(16) {
        0 => sum(&[(1, e)]),
        1 => choose(Bool::And(vec![c, Bool::Const(true)]), t, f),
        2 => choose(c, sum(&[(1, t)]), f),
        3 => choose(Bool::Const(true), e, k(7)),
        4 => choose(c, f, t),
        5 => choose(not(c), t, f),
        6 => choose(c, t, sum(&[(1, f), (0, k(1))])),
        7 => choose(not(not(c)), t, f),
        _ => e,
    }
}

/// Branches whose terms cancel, or only seem to.
pub fn cancelling(rng: &mut Rng) -> Set {
    let mut maker = Maker::new(rng, Scale::Small);
    maker.bools = maker.bools.max(1);
    if maker.domains.is_empty() {
        maker.domains.push(Domain::Range(0, 2));
    }
    let statements = (0..maker.rng.size(1, 3)).map(|_| cancelled(&mut maker)).collect();
    maker.set(statements)
}

fn cancelled(maker: &mut Maker) -> Statement {
    let size = maker.rng.pick(&[1, 1, 2]);
    let condition = maker.bool(size, 1);
    let e = choose(condition, nothing(maker), nothing(maker));
    match maker.rng.below(5) {
        0 => maker.rows(vec![e]),
        1 => Statement::AllDifferent(vec![e, maker.int(1), maker.int(0)]),
        2 => rule(xor(eq(e.clone(), k(1)), eq(e, maker.int(0)))),
        _ => rule(Bool::Compare(maker.rng.below(6) as u8, e, maker.int(1))),
    }
}

/// A sum without terms once they are put together, or nearly so.
fn nothing(maker: &mut Maker) -> Int {
    let (y, z, c) = (x(maker.rng.below(maker.domains.len())), maker.an_if(2), k(maker.rng.range(-2, 3)));
    match maker.rng.below(9) {
        0 => sum(&[(1, y.clone()), (-1, y), (1, c)]),
        1 => sum(&[(0, y), (1, c)]),
        2 => sum(&[(0, z)]),
        3 => sum(&[(1, z.clone()), (-1, z), (1, c)]),
        4 => sum(&[(2, sum(&[(1, y.clone()), (1, c)])), (-2, y)]),
        5 => sum(&[(3, y.clone()), (-2, y)]),
        6 => sum(&[(1, z.clone()), (1, y.clone()), (-1, y), (-1, z)]),
        7 => sum(&[]),
        _ => c,
    }
}

/// Up to 64 Ifs in one comparison or pair, up to 63 in one column; now and then one more.
pub fn many(rng: &mut Rng) -> Set {
    let domains = vec![Domain::Range(0, 2), Domain::Values(vec![-1, 4])];
    let count = if rng.chance(50) { rng.size(56, 66) } else { rng.size(1, 62) };
    let kind = rng.below(4);
    let crosses = kind != 3 && rng.chance(40);
    let mut each = || {
        let condition = match rng.below(if crosses { 4 } else { 2 }) {
            0 => v(rng.below(4)),
            1 => or(v(rng.below(4)), v(rng.below(4))),
            2 => xor(v(rng.below(4)), v(rng.below(4))),
            _ => iff(v(0), xor(v(rng.below(4)), v(2))),
        };
        let branch = if rng.chance(40) { x(rng.below(2)) } else { k(rng.range(0, 9)) };
        (rng.pick(&[1, -1, 2, 0]), choose(condition, branch, k(rng.range(-3, 3))))
    };
    let mut terms: Vec<(i32, Int)> = (0..count).map(|_| each()).collect();
    let rest = terms.split_off(terms.len() / 2);
    let statement = match kind {
        0 => rule(eq(Int::Sum(terms), Int::Sum(rest))),
        1 => rule(xor(ne(Int::Sum(terms), Int::Sum(rest)), v(0))),
        2 => Statement::AllDifferent(vec![Int::Sum(terms), Int::Sum(rest), x(0)]),
        _ => column(Int::Sum([terms, rest].concat()), &[0, 1, 2]),
    };
    filled(4, &domains, [statement].into_iter())
}

/// Weights at the limit, one under and one over it, in branches, in conditions and around Ifs.
pub fn heavy(rng: &mut Rng) -> Set {
    let wide = rng.pick(&[1, 1, 3, 3, 1000, LIMIT / 2, LIMIT]);
    let domains = vec![Domain::Range(0, wide), Domain::Range(-wide, -1), Domain::Values(vec![-wide, 0, wide])];
    let variable = rng.below(3);
    let coefficient = (LIMIT / wide) * rng.pick(&[1, -1]);
    let rest = LIMIT - (LIMIT / wide) * wide + rng.pick(&[0, 0, 0, -1, 1]);
    let scaled = sum(&[(coefficient, x(variable)), (rng.pick(&[1, -1]), k(rest.clamp(0, LIMIT)))]);
    let branch = rng.pick(&[scaled.clone(), scaled, k(LIMIT), k(1 - LIMIT)]);
    let other = rng.pick(&[k(0), k(LIMIT), k(-LIMIT), k(5), x(variable)]);
    let condition = rng.pick(&[v(0), or(v(0), v(1)), eq(branch.clone(), k(0)), eq(x(variable), k(LIMIT - wide))]);
    let e = if rng.chance(50) { choose(condition, branch, other) } else { choose(condition, other, branch) };
    let e = if rng.chance(25) { choose(v(1), k(1), e) } else { e };
    let e = if rng.chance(25) { sum(&[(rng.pick(&[0, 1, -1, 2]), e)]) } else { e };
    let against = rng.pick(&[k(0), k(0), k(0), k(1), sum(&[]), sum(&[]), choose(v(1), k(0), k(0))]);
    let statement = match rng.below(5) {
        0 => column(sum(&[(rng.pick(&[0, 0, 1]), e)]), &[0]),
        1 => Statement::AllDifferent(vec![e, against]),
        2 => Statement::AllDifferent(vec![e]),
        _ => rule(Bool::Compare(rng.below(6) as u8, e, against)),
    };
    filled(2, &domains, [statement].into_iter())
}
