//! Ties: rules that are, or fold to, Iff or Xor of two variables, rules that only look so, and others among them.
use super::expressions::{rule, tree, World};
use super::rng::Rng;
use super::{fill, tables, Scale};
use crate::set::{Bool, Set, Statement};

pub fn ties(rng: &mut Rng, scale: Scale) -> Set {
    let mut world = World::of("mixed", rng, Scale::Small);
    let (bools, count, others) = match scale {
        Scale::Small => (rng.size(1, 7), rng.size(1, 6), rng.pick(&[0, 10, 40])),
        Scale::Medium => (rng.size(4, 40), rng.size(5, 50), rng.pick(&[0, 2, 10])),
        Scale::Large => (rng.size(40, 512), rng.size(40, 600), rng.pick(&[0, 0, 1])),
    };
    world.bools = bools;
    let mut statements = match rng.below(4) {
        0 => chain(rng, bools),
        1 => joined(rng, bools),
        _ => vec![],
    };
    statements.extend((0..count).map(|_| if rng.chance(others) { other(rng, &world) } else { tie(rng, bools) }));
    match rng.below(3) {
        0 => rng.shuffle(&mut statements),
        1 => statements.reverse(),
        _ => (),
    }
    fill(&world, statements.into_iter())
}

/// Every variable tied to the next, in some order of them.
fn chain(rng: &mut Rng, bools: usize) -> Vec<Statement> {
    let order = order(rng, bools);
    order.windows(2).map(|pair| tied(rng, pair[0], pair[1])).collect()
}

/// Pairs of tied variables, and then ties between the pairs.
fn joined(rng: &mut Rng, bools: usize) -> Vec<Statement> {
    let order = order(rng, bools);
    let mut ties: Vec<Statement> =
        order.chunks(2).filter(|pair| pair.len() == 2).map(|pair| tied(rng, pair[0], pair[1])).collect();
    ties.extend(order.windows(2).skip(1).step_by(2).map(|pair| tied(rng, pair[0], pair[1])));
    ties
}

fn order(rng: &mut Rng, bools: usize) -> Vec<usize> {
    let mut order: Vec<usize> = (0..bools).collect();
    rng.shuffle(&mut order);
    order
}

fn tie(rng: &mut Rng, bools: usize) -> Statement {
    let x = rng.below(bools);
    let y = rng.below(bools);
    match rng.below(8) {
        0 | 1 => Statement::Rule(alike(rng, x, y)),
        _ if x == y && rng.chance(80) => Statement::Rule(Bool::Imp(Box::new(Bool::Var(x)), Box::new(Bool::Var(y)))),
        _ => tied(rng, x, y),
    }
}

/// A rule or a table of another family, or a rule that fixes a variable, so that its ties fold away.
fn other(rng: &mut Rng, world: &World) -> Statement {
    match rng.below(10) {
        0 => Statement::Rule(Bool::Var(rng.below(world.bools))),
        1 => Statement::Rule(not(Bool::Var(rng.below(world.bools)))),
        2..=4 => tables::table(rng, world, Scale::Small),
        5..=6 => rule(rng, world, Scale::Small),
        _ => {
            let size = rng.size(2, 6);
            Statement::Rule(tree(rng, world, size, 1))
        }
    }
}

/// A tie of two variables, in their order or the other, as it stands or so that folding makes it one.
fn tied(rng: &mut Rng, x: usize, y: usize) -> Statement {
    let (x, y) = if rng.chance(50) { (x, y) } else { (y, x) };
    let (x, y) = if rng.chance(8) { (wrapped(rng, Bool::Var(x)), Bool::Var(y)) } else { (Bool::Var(x), Bool::Var(y)) };
    let tie = if rng.chance(50) { iff(x, y) } else { xor(x, y) };
    Statement::Rule(if rng.chance(25) { wrapped(rng, tie) } else { tie })
}

/// Something that folds to the expression.
fn wrapped(rng: &mut Rng, e: Bool) -> Bool {
    let yes = Bool::Const(true);
    let no = Bool::Const(false);
    match rng.below(9) {
        0 => Bool::And(vec![e]),
        1 => Bool::Or(vec![e]),
        2 => Bool::And(vec![yes, e]),
        3 => Bool::Or(vec![e, no]),
        4 => iff(e, yes),
        5 => iff(yes, e),
        6 => xor(e, no),
        7 => Bool::Imp(Box::new(yes), Box::new(e)),
        _ => Bool::And(vec![Bool::Or(vec![e, no])]),
    }
}

/// What says as much as a tie, or is like one, but is none.
fn alike(rng: &mut Rng, x: usize, y: usize) -> Bool {
    let (l, r) = (Bool::Var(x), Bool::Var(y));
    match rng.below(9) {
        0 => not(iff(l, r)),
        1 => not(xor(l, r)),
        2 => iff(not(l), r),
        3 => xor(l, not(r)),
        4 => not(not(iff(l, r))),
        5 => iff(xor(l, r), Bool::Const(false)),
        6 => Bool::And(vec![iff(l.clone(), r.clone()), xor(r, l)]),
        7 => Bool::Or(vec![iff(l.clone(), r), l]),
        _ => Bool::Imp(Box::new(xor(l.clone(), r)), Box::new(l)),
    }
}

fn not(e: Bool) -> Bool {
    Bool::Not(Box::new(e))
}

fn iff(l: Bool, r: Bool) -> Bool {
    Bool::Iff(Box::new(l), Box::new(r))
}

fn xor(l: Bool, r: Bool) -> Bool {
    Bool::Xor(Box::new(l), Box::new(r))
}
