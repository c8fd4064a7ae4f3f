//! Ifs whose conditions have variables that are fixed late, pass by pass, or tied to others.
use super::ifs::{Kinds, Maker};
use super::rng::Rng;
use super::{chains, ties, Scale};
use crate::set::{Set, Statement};

/// A chain of rules that fixes variables, with statements of Ifs over them strewn in.
pub fn chain(rng: &mut Rng, scale: Scale) -> Set {
    let bools = if scale == Scale::Small { rng.size(1, 6) } else { rng.size(6, 60) };
    let (mut rules, _) = chains::fixing(rng, bools);
    chains::arrange(rng, &mut rules);
    let statements = rules.into_iter().map(Statement::Rule).collect();
    strewn(rng, Set { bools, domains: vec![], statements }, (30, 15))
}

/// Ties among variables, with statements of Ifs over them strewn in.
pub fn tied(rng: &mut Rng, scale: Scale) -> Set {
    let scale = if scale == Scale::Large { Scale::Medium } else { scale };
    let ties = ties::ties(rng, scale);
    strewn(rng, ties, (25, 15))
}

/// The Ifs' conditions take the set's Booleans, some more, and its integers.
fn strewn(rng: &mut Rng, set: Set, kinds: Kinds) -> Set {
    let mut maker = Maker::new(rng, Scale::Small);
    maker.bools = set.bools + maker.rng.size(0, 3);
    if !set.domains.is_empty() {
        maker.domains = set.domains;
    }
    let mut statements: Vec<Statement> = set.statements;
    for _ in 0..maker.rng.size(1, 3) {
        let depth = maker.rng.size(1, 3);
        let made = maker.statement(kinds, depth);
        let at = maker.rng.below(statements.len() + 1);
        statements.insert(at, made);
    }
    maker.set(statements)
}
