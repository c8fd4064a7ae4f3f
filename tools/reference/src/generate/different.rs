//! AllDifferent: variables that use up their values, and what is only nearly so; sums, constants, repeated and one-value variables.
use super::expressions::{int, World};
use super::rng::Rng;
use super::Scale;
use crate::set::{Domain, Int, Statement};

pub fn different(rng: &mut Rng, world: &World, scale: Scale) -> Statement {
    let most = match scale {
        Scale::Small => 5,
        Scale::Medium => 12,
        Scale::Large => 40,
    };
    let exprs = if rng.chance(60) { used_up(rng, world, most) } else { None };
    Statement::AllDifferent(exprs.unwrap_or_else(|| anything(rng, world, most)))
}

/// As many variables of one domain as it has values, now and then some of them twice; in half of them one thing is then changed.
fn used_up(rng: &mut Rng, world: &World, most: usize) -> Option<Vec<Int>> {
    let first = rng.below(world.domains.len());
    let like = world.domains.get(first)?;
    let mut same: Vec<usize> = (0..world.domains.len()).filter(|v| equal(&world.domains[*v], like)).collect();
    let count = like.count() as usize;
    if count > most || (count > same.len() && rng.chance(80)) {
        return None;
    }
    rng.shuffle(&mut same);
    let mut exprs: Vec<Int> = (0..count).map(|k| Int::Var(same[k % same.len()])).collect();
    changed(rng, world, &mut exprs);
    Some(exprs)
}

fn equal(a: &Domain, b: &Domain) -> bool {
    a.count() == b.count() && a.lowest() == b.lowest() && (0..a.count().min(100)).all(|k| a.nth(k) == b.nth(k))
}

/// One variable less, one more, another one, or the same by a sum that folds to it, by one that does not, or by a constant.
fn changed(rng: &mut Rng, world: &World, exprs: &mut Vec<Int>) {
    let at = rng.below(exprs.len());
    let other = Int::Var(rng.below(world.domains.len()));
    match rng.below(14) {
        0 => {
            exprs.remove(at);
        }
        1 => exprs.insert(at, other),
        2 => exprs[at] = other,
        3 => exprs[at] = Int::Sum(vec![(1, exprs[at].clone())]),
        4 => exprs[at] = Int::Sum(vec![(rng.pick(&[-1, 2, 0]), exprs[at].clone())]),
        5 => exprs[at] = Int::Sum(vec![(1, exprs[at].clone()), (0, other)]),
        6 => exprs[at] = Int::Const(rng.range(-4, 4)),
        _ => (),
    }
}

fn anything(rng: &mut Rng, world: &World, most: usize) -> Vec<Int> {
    let count = if rng.chance(15) { rng.below(2) } else { rng.below(most + 1) };
    let mut order: Vec<usize> = (0..world.domains.len()).collect();
    rng.shuffle(&mut order);
    let count = if rng.chance(70) { count.min(order.len()) } else { count };
    (0..count).map(|k| expression(rng, world, order.get(k).copied())).collect()
}

/// About the variable, or about any other where there is none.
fn expression(rng: &mut Rng, world: &World, about: Option<usize>) -> Int {
    if world.domains.is_empty() {
        return if rng.chance(80) { Int::Const(rng.range(-2, 2)) } else { Int::Sum(vec![]) };
    }
    let variable = Int::Var(about.unwrap_or(rng.below(world.domains.len())));
    match rng.below(12) {
        0 => Int::Const(rng.range(-4, 4)),
        1 => Int::Sum(vec![(1, variable)]),
        2 => Int::Sum(vec![(rng.pick(&[-2, -1, 0, 2]), variable), (1, Int::Const(rng.range(-3, 3)))]),
        3 => {
            let size = rng.size(1, 3);
            int(rng, world, size, 2)
        }
        _ => variable,
    }
}

/// Most domains made the first one's, in its kind or the other, mostly with no more values than there are variables; now and then
/// all so wide that no one enumerates them.
pub fn alike(rng: &mut Rng, domains: &mut [Domain]) {
    if domains.is_empty() {
        return;
    }
    if rng.chance(3) {
        let high = rng.pick(&[99_999, 100_000, 500_000_000]);
        domains.fill(Domain::Range(0, high));
        return;
    }
    if rng.chance(70) {
        domains[0] = fewer(&domains[0], domains.len());
    }
    let first = domains[0].clone();
    for domain in &mut domains[1..] {
        if rng.chance(75) {
            *domain = if rng.chance(50) { first.clone() } else { otherwise(&first) };
        }
    }
}

/// At most that many of the values.
fn fewer(domain: &Domain, most: usize) -> Domain {
    match domain {
        Domain::Range(low, high) => Domain::Range(*low, (*high).min(low + most as i32 - 1)),
        Domain::Values(values) => Domain::Values(values.iter().copied().take(most).collect()),
    }
}

/// The same values in the other kind, where it can say them.
fn otherwise(domain: &Domain) -> Domain {
    match domain {
        Domain::Range(low, high) => Domain::Values((*low..=*high).collect()),
        Domain::Values(values) => {
            let range = Domain::Range(domain.lowest(), domain.highest());
            if range.count() == domain.count() {
                range
            } else {
                Domain::Values(values.clone())
            }
        }
    }
}
