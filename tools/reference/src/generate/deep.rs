//! Ifs within Ifs: answers that double at each level, with outputs of exactly their length, one word less and one more; and nests whose
//! answers are only counted.
use super::rng::Rng;
use super::short::*;
use super::{Case, SLICE};
use crate::call::counted;
use crate::set::{Bool, Domain, Int, Set, Statement};

/// Every tenth nest is far too deep for any answer.
pub fn nested(seed: u64, index: u64) -> Case {
    let (base, variant) = (index / 4, index % 4);
    let mut rng = Rng::of(seed, "nest", base);
    let statements = if base % 10 == 9 { vec![endless(&mut rng, base / 10)] } else { vec![nest(&mut rng, base % 10)] };
    let set = Set { bools: 8, domains: vec![Domain::Range(0, 3)], statements }.words();
    let length = counted(&set).map_or(0, |length| length.min(1 << 24) as usize);
    let out_len = [length, length.saturating_sub(1), length + 1, SLICE][variant as usize];
    Case { set, out_len, work_len: SLICE }
}

/// A condition to begin with: one to four leaves.
fn start(rng: &mut Rng) -> Bool {
    match rng.below(6) {
        0 => v(rng.below(8)),
        1 => not(v(rng.below(8))),
        2 => and(v(0), v(1)),
        3 => or(v(rng.below(8)), v(rng.below(8))),
        4 => iff(v(2), v(3)),
        _ => or(v(0), iff(v(1), xor(v(2), v(3)))),
    }
}

/// A comparison of an If of constants on the condition, so often: each brings two visits of what is below.
pub fn constants(condition: Bool, times: usize) -> Bool {
    (0..times).fold(condition, |c, _| eq(choose(c, k(1), k(0)), k(0)))
}

/// The same with a variable in a branch: each is made once.
fn opens(condition: Bool, times: usize) -> Bool {
    (0..times).fold(condition, |c, _| eq(choose(c, x(0), k(0)), k(0)))
}

/// Iff nested to a depth over the first two variables.
pub fn crossed_iffs(times: usize) -> Bool {
    (0..times).fold(v(0), |c, _| iff(c, v(1)))
}

/// Iff and Xor nested to a depth: in a column each brings two visits of what is below.
fn crossed(rng: &mut Rng, times: usize) -> Bool {
    (0..times).fold(v(0), |c, i| if rng.chance(70) { iff(c, v(1 + i % 7)) } else { xor(v(1 + i % 7), c) })
}

/// Open Ifs in each other's branches.
fn branches(rng: &mut Rng, times: usize) -> Int {
    let mut over = |e: Int, i: usize| {
        let other = k(i as i32);
        let (t, f) = if rng.chance(50) { (e, other) } else { (other, e) };
        choose(v(i % 8), t, f)
    };
    (0..times).fold(x(0), |e, i| over(e, i))
}

fn nest(rng: &mut Rng, kind: u64) -> Statement {
    let times = rng.size(5, 14);
    let (more, further) = (rng.size(5, 30), rng.size(5, 30));
    match kind {
        0 => rule(constants(start(rng), times)),
        1 => column(choose(crossed(rng, times), k(0), k(1)), &[0]),
        2 => rule(opens(start(rng), more)),
        3 => rule(eq(branches(rng, more), branches(rng, further))),
        4 => column(choose(constants(start(rng), times.min(11)), x(0), k(1)), &[0, 1]),
        5 => column(choose(crossed(rng, times), x(0), k(1)), &[0]),
        6 => rule(xor(constants(start(rng), times.min(12)), v(7))),
        7 => rule(eq(choose(constants(start(rng), times.min(12)), x(0), k(5)), k(1))),
        8 => Statement::AllDifferent(vec![choose(constants(start(rng), times.min(9)), x(0), k(3)), k(1), x(0)]),
        _ => rule(ne(sum(&[(2, choose(constants(start(rng), times.min(10)), k(4), k(1))), (-1, x(0))]), k(1))),
    }
}

/// 2 to the 30th Ifs, 2 to the 60th clauses.
fn endless(rng: &mut Rng, kind: u64) -> Statement {
    match kind % 4 {
        0 => rule(constants(and(v(0), v(1)), 30)),
        1 => column(choose(crossed(rng, 60), k(0), k(1)), &[0]),
        2 => rule(eq(choose(constants(start(rng), rng.size(25, 28)), x(0), k(3)), k(1))),
        _ => Statement::AllDifferent(vec![choose(constants(start(rng), rng.size(25, 28)), k(0), k(3)), x(0)]),
    }
}
