//! Deterministic sets: seed, family and index decide a case, so that one case can be made again alone.
mod again;
mod chains;
mod damage;
mod deep;
mod different;
mod expressions;
mod heavy;
pub mod iflimits;
mod ifs;
mod late;
mod lengths;
pub mod limits;
pub mod pairs;
mod places;
mod rng;
mod short;
mod tables;
mod text;
mod ties;

use crate::set::{Domain, Set, Statement};
use expressions::World;
use rng::Rng;

pub use text::text;

/// One call: the set's words, and the lengths of the output and the work slice.
#[derive(Clone, Debug, PartialEq)]
pub struct Case {
    pub set: Vec<i32>,
    pub out_len: usize,
    pub work_len: usize,
}

/// The families of sets. A further one, `longest`, is asked for by name: it needs a gigabyte a case.
pub const FAMILIES: [&str; 11] =
    ["rules", "chains", "comparisons", "tables", "mixed", "different", "kinds", "damaged", "limits", "lengths", "ties"];
/// The families of sets with Ifs (request 2.5).
pub const IFS: [&str; 13] = [
    "ifs",
    "ifcolumns",
    "ifmixed",
    "ifdifferent",
    "ifequal",
    "ifcancel",
    "ifmany",
    "ifheavy",
    "ifchains",
    "ifties",
    "ifdeep",
    "iflimits",
    "ifdamaged",
];
/// The families of good sets that others are made from: damaged, cut to lengths, written as texts.
pub const GOOD: [&str; 7] = ["rules", "chains", "comparisons", "tables", "mixed", "different", "kinds"];

const SLICE: usize = 16384;
const SET: usize = 4096;

/// How large a set is to be: most are small enough to be enumerated.
#[derive(Clone, Copy, PartialEq)]
pub enum Scale {
    Small,
    Medium,
    Large,
}

impl Scale {
    fn of(index: u64) -> Scale {
        match index % 16 {
            14 => Scale::Medium,
            15 => Scale::Large,
            _ => Scale::Small,
        }
    }
}

/// A case of a family; nothing where there is no such family.
pub fn case(family: &str, seed: u64, index: u64) -> Option<Case> {
    let mut rng = Rng::of(seed, family, index);
    let case = match family {
        "damaged" => damage::damaged(seed, index, &GOOD),
        "ifdamaged" => damage::damaged(seed, index, &IFS[..10]),
        "ifdeep" => deep::nested(seed, index),
        "iflimits" => limits::limit(&mut rng, iflimits::all(), index),
        "limits" => limits::limit(&mut rng, limits::all(), index),
        "lengths" => lengths::near(seed, index),
        "longest" => lengths::longest(index),
        _ => good(family, &mut rng, Scale::of(index))?,
    };
    Some(case)
}

fn good(family: &str, rng: &mut Rng, scale: Scale) -> Option<Case> {
    let set = set(family, rng, scale)?;
    let out_len = if scale == Scale::Small { SLICE } else { 1 << 20 };
    Some(Case { set: set.words(), out_len, work_len: SLICE })
}

/// A good set of one of those families, of `ties` or of a family with Ifs.
pub fn set(family: &str, rng: &mut Rng, scale: Scale) -> Option<Set> {
    let make: fn(&mut Rng, &World, Scale) -> Statement = match family {
        "rules" | "comparisons" => expressions::rule,
        "tables" => tables::table,
        "mixed" => mixed,
        "different" => different::different,
        "kinds" => kinds,
        "chains" => return Some(chains::chain(rng, scale)),
        "ties" => return Some(ties::ties(rng, scale)),
        "ifs" => return Some(ifs::set(rng, (0, 0), scale)),
        "ifcolumns" => return Some(ifs::set(rng, (100, 0), scale)),
        "ifmixed" => return Some(ifs::set(rng, (35, 15), scale)),
        "ifdifferent" => return Some(ifs::set(rng, (10, 70), scale)),
        "ifequal" => return Some(again::equal(rng, scale)),
        "ifcancel" => return Some(again::cancelling(rng)),
        "ifmany" => return Some(again::many(rng)),
        "ifheavy" => return Some(again::heavy(rng)),
        "ifchains" => return Some(late::chain(rng, scale)),
        "ifties" => return Some(late::tied(rng, scale)),
        _ => return None,
    };
    let world = World::of(family, rng, scale);
    let count = match scale {
        Scale::Small => rng.size(1, 3),
        Scale::Medium => rng.size(2, 12),
        Scale::Large => rng.size(4, 200),
    };
    Some(fill(&world, (0..count).map(|_| make(rng, &world, scale))))
}

fn mixed(rng: &mut Rng, world: &World, scale: Scale) -> Statement {
    if rng.chance(40) {
        tables::table(rng, world, scale)
    } else {
        expressions::rule(rng, world, scale)
    }
}

/// Statements of every kind.
fn kinds(rng: &mut Rng, world: &World, scale: Scale) -> Statement {
    if rng.chance(40) {
        different::different(rng, world, scale)
    } else {
        mixed(rng, world, scale)
    }
}

/// The set of the statements, as far as they fit into 4096 words.
fn fill(world: &World, statements: impl Iterator<Item = Statement>) -> Set {
    filled(world.bools, &world.domains, statements)
}

fn filled(bools: usize, domains: &[Domain], statements: impl Iterator<Item = Statement>) -> Set {
    let mut set = Set { bools, domains: domains.to_vec(), statements: vec![] };
    for statement in statements {
        set.statements.push(statement);
        if set.words().len() > SET {
            set.statements.pop();
            break;
        }
    }
    set
}
