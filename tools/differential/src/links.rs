//! The family `links`: a chain of rules that fixes one variable a pass, up to 301 passes.
use reference::generate::{self, Case};

/// A variable's literal.
fn literal(variable: i32, value: bool) -> Vec<i32> {
    if value {
        vec![11, variable]
    } else {
        vec![14, 11, variable]
    }
}

/// A rule that comes down to `next` in the pass after `known` has become true, and fixes nothing before.
fn link(form: u64, known: (i32, bool), next: (i32, bool)) -> Vec<i32> {
    let (known, not_known) = (literal(known.0, known.1), literal(known.0, !known.1));
    let (next, not_next) = (literal(next.0, next.1), literal(next.0, !next.1));
    match form {
        0 => [vec![1, 17], known, next].concat(),
        1 => [vec![1, 13, 2], not_known, next].concat(),
        2 => [vec![1, 16], known, next].concat(),
        3 => [vec![1, 15], known, not_next].concat(),
        _ => [vec![1, 14, 12, 2], known, not_next].concat(),
    }
}

/// A rule for each of up to 300 variables, the last one's first: a pass for each, and one that changes nothing or finds a contradiction.
fn links(seed: u64, index: u64) -> Case {
    let mut state = (seed << 32 ^ index).wrapping_mul(0x9E37_79B9_7F4A_7C15) | 1;
    let mut draw = |n: u64| {
        state ^= state << 13;
        state ^= state >> 7;
        state ^= state << 17;
        state % n
    };
    let count = 1 + draw(300) as i32;
    let values: Vec<(i32, bool)> = (0..count).map(|v| (v, draw(2) == 0)).collect();
    let mut rules: Vec<Vec<i32>> = values.windows(2).map(|pair| link(draw(5), pair[0], pair[1])).collect();
    rules.insert(0, [vec![1], literal(0, values[0].1)].concat());
    rules.reverse();
    if draw(4) == 0 {
        rules.push(vec![1, 15, 11, count - 1, 11, count - 1]);
    }
    let set = [vec![count, 0, rules.len() as i32], rules.concat()].concat();
    Case { set, out_len: 8192, work_len: 16384 }
}

/// A case of the family `links`, or of one of the reference's.
pub fn case(family: &str, seed: u64, index: u64) -> Option<Case> {
    match family {
        "links" => Some(links(seed, index)),
        _ => generate::case(family, seed, index),
    }
}
