//! The port's join against the reference's, word for word, and the Rust on the joined sets.
//! `joins SEED COUNT [FAMILY..]`: COUNT pairs made from each family's sets (or the named ones'), each with several lengths of the buffer and work slices,
//! and every joined statement by its number. Status 1 on the first difference.

use differential::{compile, exit_on_error, run_families, with_ifs};
use reference::generate::pairs::{pair, Pair};
use reference::generate::FAMILIES;
use reference::join::{join, statements, Place};
use reference::{call, Outcome};
use std::collections::BTreeMap;

extern "C" {
    fn join_sets(
        first: *const i32,
        first_len: usize,
        second: *const i32,
        second_len: usize,
        buffer: *mut i32,
        buffer_len: usize,
        work: *mut i32,
        work_len: usize,
    ) -> i64;
    fn find_statement(
        first: *const i32,
        first_len: usize,
        second: *const i32,
        second_len: usize,
        place: *mut i32,
        place_len: usize,
        work: *mut i32,
        work_len: usize,
        number: usize,
    ) -> i64;
}

const WORK: usize = 16384;

/// What the port answers, and the buffer; the slices are lent full of noise, and the work slice must come back zero.
fn port_join(first: &[i32], second: &[i32], buffer_len: usize, work_len: usize) -> Result<(i64, Vec<i32>), String> {
    let (mut buffer, mut work) = (vec![-5; buffer_len], vec![-7; work_len]);
    let n = unsafe {
        join_sets(
            first.as_ptr(),
            first.len(),
            second.as_ptr(),
            second.len(),
            buffer.as_mut_ptr(),
            buffer.len(),
            work.as_mut_ptr(),
            work.len(),
        )
    };
    if work.iter().any(|&w| w != 0) {
        return Err("the work slice is not zero".into());
    }
    Ok((n, buffer))
}

fn compare_join(first: &[i32], second: &[i32], buffer_len: usize, work_len: usize) -> Result<String, String> {
    let want = join(first, second, buffer_len, work_len);
    let (number, words): (i64, &[i32]) = match &want {
        Ok(words) => (words.len() as i64, words),
        Err(k) => (-(*k as i64), &[]),
    };
    let (got, buffer) = port_join(first, second, buffer_len, work_len)?;
    if got != number {
        return Err(format!("buffer {buffer_len}, work {work_len}: answer {got}, the reference gives {number}"));
    }
    if buffer[..words.len()] != *words || buffer[words.len()..].iter().any(|&w| w != 0) {
        return Err(format!("buffer {buffer_len}: other words than the reference's, or the rest is not zero"));
    }
    Ok(want.map_or_else(|k| format!("refused {k}"), |_| "joined".into()))
}

/// The statement by its number: set, start and length, with a place slice of any length.
fn compare_statement(
    p: &Pair,
    want: Option<&Place>,
    place_len: usize,
    work_len: usize,
    number: usize,
) -> Result<(), String> {
    let (mut place, mut work) = (vec![-5; place_len], vec![-7; work_len]);
    let set = unsafe {
        find_statement(
            p.first.as_ptr(),
            p.first.len(),
            p.second.as_ptr(),
            p.second.len(),
            place.as_mut_ptr(),
            place.len(),
            work.as_mut_ptr(),
            work.len(),
            number,
        )
    };
    let mut expected = want.map_or(vec![0; 3], |w| vec![w.set as i32, w.start as i32, w.words.len() as i32]);
    let wanted_set = expected[0] as i64;
    expected.resize(place_len, 0);
    if set != wanted_set || place != expected || work.iter().any(|&w| w != 0) {
        return Err(format!("statement {number}: set {set}, {place:?}, the reference gives {expected:?}"));
    }
    if let Some(w) = want {
        let words = if w.set == 1 { &p.first } else { &p.second };
        if words[w.start..w.start + w.words.len()] != w.words {
            return Err(format!("statement {number}: other words"));
        }
    }
    Ok(())
}

fn compare_statements(p: &Pair, work_len: usize, index: u64) -> Result<u64, String> {
    let all = statements(&p.first, &p.second, work_len);
    let step = 1 + all.len() / 8;
    let mut numbers: Vec<usize> = (0..=all.len() + 1).step_by(step).collect();
    numbers.extend([all.len(), all.len() + 1, usize::MAX]);
    for &number in &numbers {
        let want = number.checked_sub(1).and_then(|k| all.get(k));
        let place_len = if index % 16 == 0 { number % 6 } else { 3 };
        compare_statement(p, want, place_len, work_len, number)?;
    }
    Ok(numbers.len() as u64)
}

/// The port's compile of the joined words against the Rust's.
fn compare_call(words: &[i32], out_len: usize) -> Result<String, String> {
    let want = call(words, out_len, WORK);
    let (number, expected): (i64, &[i32]) = match &want {
        Outcome::Compiled(words) => (words.len() as i64, words),
        Outcome::Contradiction => (-100, &[]),
        Outcome::Refused(k) => (-(*k as i64), &[]),
        Outcome::Panicked => return Err("the Rust panicked".into()),
    };
    let (mut out, mut work) = (vec![-5; out_len], vec![-7; WORK]);
    let got = compile(words, &mut out, &mut work);
    if got != number || out[..expected.len()] != *expected {
        return Err(format!("the joined set compiles to {got}, the Rust gives {number}"));
    }
    Ok(match want {
        Outcome::Compiled(_) => "compiled".into(),
        Outcome::Contradiction => "contradiction".into(),
        Outcome::Refused(k) => format!("call refused {k}"),
        Outcome::Panicked => String::new(),
    })
}

fn check(p: &Pair, index: u64, tallies: &mut BTreeMap<String, u64>) -> Result<(), String> {
    let kind = compare_join(&p.first, &p.second, 4096, WORK)?;
    *tallies.entry(kind).or_insert(0) += 1;
    for buffer_len in [0, 1, 4097] {
        compare_join(&p.first, &p.second, buffer_len, WORK)?;
    }
    if let Ok(words) = join(&p.first, &p.second, 4096, WORK) {
        if p.whole.as_ref().is_some_and(|whole| *whole != words) {
            return Err("parted and joined, the set is another".into());
        }
        for buffer_len in [words.len(), words.len() - 1, words.len() + 1] {
            compare_join(&p.first, &p.second, buffer_len, WORK + 3)?;
        }
        let kind = compare_call(&words, p.out_len)?;
        *tallies.entry(kind).or_insert(0) += 1;
    }
    *tallies.entry("lookups".into()).or_insert(0) += compare_statements(p, WORK, index)?;
    if index % 16 == 0 {
        compare_join(&p.first, &p.second, 4096, WORK - 1)?;
        compare_join(&p.first, &p.second, 0, 0)?;
        compare_statements(p, WORK - 1, index)?;
    }
    Ok(())
}

fn run(seed: u64, count: u64, families: &[&str]) -> Result<(), String> {
    for family in families {
        let mut tallies = BTreeMap::new();
        for index in 0..count {
            let p = pair(family, seed, index).ok_or("no pair")?;
            check(&p, index, &mut tallies).map_err(|e| {
                format!("{family} seed {seed} index {index}: {e}\nfirst {:?}\nsecond {:?}", p.first, p.second)
            })?;
        }
        println!("{family} seed {seed}: {count} pairs {tallies:?}, no difference");
    }
    Ok(())
}

fn main() {
    exit_on_error(run_families("joins", &with_ifs(&FAMILIES[..10]), run));
}
