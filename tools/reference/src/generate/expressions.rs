//! Declarations, Boolean trees with every operator, comparisons with nested sums of both signs.
use super::rng::Rng;
use super::{different, Scale};
use crate::set::{Bool, Domain, Int, Statement, LIMIT};

/// What a set declares, and how often a leaf of its rules is a comparison.
pub struct World {
    pub bools: usize,
    pub domains: Vec<Domain>,
    comparisons: usize,
}

/// Deepest level at which a tree still branches; leaves and sides stand below.
const BRANCHES: usize = 58;

impl World {
    pub fn of(family: &str, rng: &mut Rng, scale: Scale) -> World {
        let (bools, ints, comparisons) = match family {
            "rules" => (rng.size(1, 8), 0, 0),
            "comparisons" => (rng.size(0, 3), rng.size(1, 4), 70),
            "tables" => (rng.size(0, 2), rng.size(1, 4), 50),
            "different" => (0, rng.size(1, 6), 50),
            "kinds" => (rng.size(0, 3), rng.size(1, 4), 50),
            _ => (rng.size(0, 4), rng.size(0, 3), 35),
        };
        let more = match scale {
            Scale::Small => 1,
            Scale::Medium => rng.size(1, 4),
            Scale::Large => rng.size(1, 40),
        };
        let values = if scale == Scale::Small { 4 } else { 12 };
        let mut domains: Vec<Domain> = (0..(ints * more).min(200)).map(|_| domain(rng, values)).collect();
        if family == "different" || family == "kinds" {
            different::alike(rng, &mut domains);
        }
        World { bools: (bools * more).min(500), domains, comparisons }
    }
}

/// A domain of at most that many values: a range or enumerated, near 0 or far off.
fn domain(rng: &mut Rng, values: usize) -> Domain {
    let count = rng.size(1, values) as i32;
    let low = rng.range(-4, 3);
    match rng.below(40) {
        0..=2 => Domain::Range(low, low),
        3..=4 => Domain::Values(vec![low]),
        5 => Domain::Range(LIMIT - count, LIMIT - 1),
        6 => Domain::Values(vec![-1_000_000 - count, low, 900_000]),
        7..=19 => enumerated(rng, low, count),
        _ => Domain::Range(low, low + count - 1),
    }
}

fn enumerated(rng: &mut Rng, low: i32, count: i32) -> Domain {
    let mut values = vec![low];
    for _ in 1..count {
        let last = values[values.len() - 1];
        values.push(last + rng.range(1, 3));
    }
    Domain::Values(values)
}

/// A rule: a tree, or a deep row of Xor and Iff.
pub fn rule(rng: &mut Rng, world: &World, scale: Scale) -> Statement {
    let size = match scale {
        Scale::Small => rng.size(1, 14),
        Scale::Medium => rng.size(3, 80),
        Scale::Large => rng.size(10, 900),
    };
    Statement::Rule(match rng.below(5) {
        0 => crossed(rng, world, size.min(BRANCHES)),
        _ => tree(rng, world, size, 1),
    })
}

/// Xor and Iff nested to a depth, with smaller trees beside.
fn crossed(rng: &mut Rng, world: &World, depth: usize) -> Bool {
    let mut e = leaf(rng, world);
    for _ in 1..depth {
        let size = rng.pick(&[1, 1, 1, 3]);
        let side = Box::new(tree(rng, world, size, BRANCHES));
        let below = Box::new(e);
        e = match rng.below(9) {
            0..=1 => Bool::Xor(side, below),
            2..=3 => Bool::Xor(below, side),
            4..=5 => Bool::Iff(side, below),
            6 => Bool::Iff(below, side),
            7 => Bool::Not(below),
            _ => Bool::Or(vec![*below, *side]),
        };
    }
    e
}

/// A tree of about that many leaves.
pub fn tree(rng: &mut Rng, world: &World, size: usize, level: usize) -> Bool {
    if size <= 1 || level >= BRANCHES {
        return if rng.chance(20) { Bool::Not(Box::new(leaf(rng, world))) } else { leaf(rng, world) };
    }
    match rng.below(12) {
        0..=2 => Bool::And(members(rng, world, size, level)),
        3..=5 => Bool::Or(members(rng, world, size, level)),
        6 => Bool::Not(Box::new(tree(rng, world, size, level + 1))),
        kind => {
            let left = rng.size(1, size - 1);
            let l = Box::new(tree(rng, world, left, level + 1));
            let r = Box::new(tree(rng, world, size - left, level + 1));
            match kind {
                7..=8 => Bool::Xor(l, r),
                9..=10 => Bool::Iff(l, r),
                _ => Bool::Imp(l, r),
            }
        }
    }
}

fn members(rng: &mut Rng, world: &World, size: usize, level: usize) -> Vec<Bool> {
    if rng.chance(4) {
        return vec![];
    }
    let mut left = size;
    let mut members = vec![];
    while left > 0 {
        let part = rng.size(1, left);
        members.push(tree(rng, world, part, level + 1));
        left -= part;
    }
    rng.shuffle(&mut members);
    members
}

pub fn leaf(rng: &mut Rng, world: &World) -> Bool {
    if rng.chance(world.comparisons) {
        return comparison(rng, world);
    }
    if world.bools == 0 || rng.chance(4) {
        return Bool::Const(rng.chance(50));
    }
    Bool::Var(rng.below(world.bools))
}

fn comparison(rng: &mut Rng, world: &World) -> Bool {
    let op = rng.below(6) as u8;
    if !world.domains.is_empty() && rng.chance(8) {
        let (l, r) = heavy(rng, world);
        return Bool::Compare(op, l, r);
    }
    let sizes = (rng.size(1, 5), rng.size(1, 3));
    let l = int(rng, world, sizes.0, 3);
    let r = int(rng, world, sizes.1, 2);
    if rng.chance(50) {
        Bool::Compare(op, l, r)
    } else {
        Bool::Compare(op, r, l)
    }
}

/// Two sides whose weights come to the limit together.
fn heavy(rng: &mut Rng, world: &World) -> (Int, Int) {
    let mut left = LIMIT;
    let mut terms = vec![];
    for _ in 0..rng.size(1, 4) {
        let v = rng.below(world.domains.len());
        let domain = &world.domains[v];
        let weight = domain.lowest().abs().max(domain.highest().abs()).max(1);
        let coefficient = rng.range(0, left) / weight;
        left -= coefficient * weight;
        let sign = rng.pick(&[-1, 1]);
        terms.push((sign, Int::Sum(vec![(coefficient, Int::Var(v))])));
    }
    (Int::Sum(terms), Int::Const(left * rng.pick(&[-1, 1])))
}

/// An integer expression of about that many leaves; `depth`: levels of sums that may still follow.
pub fn int(rng: &mut Rng, world: &World, size: usize, depth: usize) -> Int {
    if depth == 0 || (size <= 1 && rng.chance(70)) {
        return int_leaf(rng, world);
    }
    if rng.chance(4) {
        return Int::Sum(vec![]);
    }
    let mut left = size;
    let mut terms = vec![];
    while left > 0 {
        let part = rng.size(1, left);
        terms.push((coefficient(rng), int(rng, world, part, depth - 1)));
        left -= part;
    }
    Int::Sum(terms)
}

fn int_leaf(rng: &mut Rng, world: &World) -> Int {
    if world.domains.is_empty() || rng.chance(20) {
        return Int::Const(if rng.chance(2) { rng.range(-900_000_000, 900_000_000) } else { rng.range(-5, 5) });
    }
    Int::Var(rng.below(world.domains.len()))
}

fn coefficient(rng: &mut Rng) -> i32 {
    match rng.below(20) {
        0 => rng.range(-40, 40),
        1..=6 => 1,
        7..=9 => -1,
        _ => rng.range(-3, 3),
    }
}
