//! Damaged copies of good sets: each word changed, dropped, doubled, or the last one kept.
use super::rng::Rng;
use super::{set, Case, Scale, SLICE};
use crate::set::{LIMIT, STAR};

/// Copies of one set before the next is taken: enough for every word of a set of 64 words.
const COPIES: u64 = 256;

/// A damaged copy of a set of one of the families.
pub fn damaged(seed: u64, index: u64, families: &[&str]) -> Case {
    let (base, copy) = (index / COPIES, index % COPIES);
    let mut rng = Rng::of(seed, "base", base);
    let family = rng.pick(families);
    let scale = if base % 8 == 7 { Scale::Medium } else { Scale::Small };
    let words = set(family, &mut rng, scale).map_or(vec![], |set| set.words());
    let mut rng = Rng::of(seed, "damage", index);
    Case { set: damage(&mut rng, words, copy), out_len: SLICE, work_len: SLICE }
}

/// One damage: the copy's number gives its place and its kind.
pub fn damage(rng: &mut Rng, mut words: Vec<i32>, copy: u64) -> Vec<i32> {
    let start = if words.len() > 64 { rng.below(words.len()) } else { 0 };
    let at = (start + copy as usize / 4) % words.len().max(1);
    if words.is_empty() {
        return words;
    }
    match copy % 4 {
        0 => words[at] = other(rng, words[at]),
        1 => {
            words.remove(at);
        }
        2 => words.insert(at, words[at]),
        _ => words.truncate(at),
    }
    words
}

/// Another word: near, mirrored, a code, or beside a limit.
fn other(rng: &mut Rng, word: i32) -> i32 {
    match rng.below(6) {
        0 => word.wrapping_add(1),
        1 => word.wrapping_sub(1),
        2 => word.wrapping_neg(),
        3 => rng.range(-2, 24),
        4 => rng.pick(&[LIMIT, LIMIT + 1, -LIMIT, -LIMIT - 1, i32::MAX, STAR, STAR + 1]),
        _ => rng.pick(&[63, 64, 65, 255, 256, 257, 511, 512, 513, 4095, 4096, 4097, 65536]),
    }
}
