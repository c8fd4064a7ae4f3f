//! Propagation chains: each pass fixes one link more, and some end in a contradiction.
use super::expressions::{tree, World};
use super::rng::Rng;
use super::{fill, Scale};
use crate::set::{Bool, Set, Statement};

/// A chain over all variables, in some order of rules, with other rules strewn in.
pub fn chain(rng: &mut Rng, scale: Scale) -> Set {
    let length = match scale {
        Scale::Small => rng.size(1, 9),
        Scale::Medium => rng.size(8, 60),
        Scale::Large => rng.size(60, 512),
    };
    let mut world = World::of("rules", rng, Scale::Small);
    world.bools = length;
    let (mut rules, last) = fixing(rng, length);
    if rng.chance(35) {
        rules.push(against(rng, last));
    }
    for _ in 0..rng.below(3) {
        let size = rng.size(1, 6);
        rules.push(tree(rng, &world, size, 1));
    }
    arrange(rng, &mut rules);
    fill(&world, rules.into_iter().map(Statement::Rule))
}

/// Rules that fix so many variables one after the other, in some order of them; and the last one's literal.
pub fn fixing(rng: &mut Rng, length: usize) -> (Vec<Bool>, Bool) {
    let mut order: Vec<usize> = (0..length).collect();
    rng.shuffle(&mut order);
    let values: Vec<bool> = (0..length).map(|_| rng.chance(50)).collect();
    let last = order[length - 1];
    (links(rng, &order, &values), literal(last, values[last]))
}

/// The first rule fixes the first variable, each other one the next.
fn links(rng: &mut Rng, order: &[usize], values: &[bool]) -> Vec<Bool> {
    let mut rules = vec![literal(order[0], values[order[0]])];
    for pair in order.windows(2) {
        let known = literal(pair[0], values[pair[0]]);
        let next = literal(pair[1], values[pair[1]]);
        let other = literal(order[rng.below(order.len())], rng.chance(50));
        rules.push(link(rng, known, next, other));
    }
    rules
}

pub fn arrange(rng: &mut Rng, rules: &mut [Bool]) {
    match rng.below(3) {
        0 => rules.reverse(),
        1 => rng.shuffle(rules),
        _ => (),
    }
}

fn literal(variable: usize, value: bool) -> Bool {
    if value {
        Bool::Var(variable)
    } else {
        not(Bool::Var(variable))
    }
}

fn not(e: Bool) -> Bool {
    Bool::Not(Box::new(e))
}

/// A rule that comes down to `next` once `known` is true.
fn link(rng: &mut Rng, known: Bool, next: Bool, other: Bool) -> Bool {
    let imp = |l, r| Bool::Imp(Box::new(l), Box::new(r));
    let iff = |l, r| Bool::Iff(Box::new(l), Box::new(r));
    let xor = |l, r| Bool::Xor(Box::new(l), Box::new(r));
    match rng.below(12) {
        0 => imp(known, next),
        1 => Bool::Or(vec![not(known), next]),
        2 => Bool::Or(vec![next, not(known.clone()), not(known)]),
        3 => iff(known, next),
        4 => xor(known, not(next)),
        5 => xor(not(known), next),
        6 => not(Bool::And(vec![known, not(next)])),
        7 => Bool::And(vec![Bool::Const(true), Bool::Or(vec![not(known), next])]),
        8 => Bool::Or(vec![Bool::And(vec![not(known), other]), next]),
        9 => imp(Bool::Or(vec![known, other]), Bool::And(vec![next])),
        10 => not(imp(iff(known.clone(), known), not(next))),
        _ => iff(not(known), imp(next, Bool::Const(false))),
    }
}

/// A rule that contradicts a literal, at once or after another pass.
fn against(rng: &mut Rng, l: Bool) -> Bool {
    match rng.below(4) {
        0 => not(l),
        1 => Bool::Imp(Box::new(l), Box::new(Bool::Const(false))),
        2 => Bool::Xor(Box::new(l.clone()), Box::new(l)),
        _ => Bool::And(vec![not(l), Bool::Const(true)]),
    }
}
