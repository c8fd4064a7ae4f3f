//! The port's call with merging (request 2.7) against the Rust's answers, word for word.
//! `merges SEED COUNT [FAMILY..]`: COUNT sets of each family (or of the named ones), each with several lengths of the output and work slices, and
//! with other bits beside the choice. Sets with a variable tied to itself before it has a number are held to the reference's model
//! instead, and to enumeration. `merges speed`: sets of 512 tied variables, merged against unmerged. Status 1 on the first difference.

use differential::links::case;
use differential::slices::{kind, lengths, Slices};
use differential::{compile, compile_with, exit_on_error, run_families, with_ifs};
use reference::call::timed;
use reference::generate::{Case, FAMILIES};
use reference::meaning::{judge_with, Verdict};
use reference::merge::{expected, ties, Ties};
use reference::{refuse, Outcome};
use std::collections::BTreeMap;
use std::hint::black_box;
use std::time::Instant;

/// The bit that chooses merging.
const MERGE: u32 = 1;

fn merged(set: &[i32], out: &mut [i32], work: &mut [i32]) -> i64 {
    compile_with(set, out, work, MERGE)
}

/// Other bits do not count: with merging beside them the merged outcome, without it whatever `compile_set` gives.
fn other_bits(slices: &mut Slices, case: &Case, index: u64, whole: &Outcome) -> Result<u64, String> {
    let (set, out_len, work_len) = (&case.set, case.out_len, case.work_len);
    let noise = (index as u32).wrapping_mul(0x9E37_79B9) & !MERGE;
    slices.compare(|s, o, w| compile_with(s, o, w, noise | MERGE), set, out_len, work_len, whole)?;
    let plain = slices.call(compile, set, out_len, work_len);
    let words = slices.out.clone();
    for choices in [0, noise, !MERGE] {
        let got = slices.call(|s, o, w| compile_with(s, o, w, choices), set, out_len, work_len);
        if got != plain || slices.out != words || slices.work.iter().any(|&w| w != 0) {
            return Err(format!("choices {choices}: {got}, and compile_set gives {plain}, or other words"));
        }
    }
    Ok(5)
}

/// The port's answer to a set that the Rust is not compared on, judged over all assignments where they are few.
fn judged(set: &[i32], words: &[i32]) -> Result<&'static str, String> {
    match judge_with(set, words, true) {
        Verdict::Differs(how) => Err(format!("meaning: {how}")),
        Verdict::Agrees(_, _) => Ok("enumerated"),
        _ => Ok("too large to enumerate"),
    }
}

/// What is counted of a set that compiled.
fn notes(set: &[i32], words: &[i32], ties: &Ties) -> Result<Vec<&'static str>, String> {
    let bools = set[0] as usize;
    let mut notes = vec![];
    if ties.apart() {
        notes.extend(["not compared with the Rust", judged(set, words)?]);
    }
    let negative = words[bools..2 * bools].iter().any(|word| *word < 0);
    for (is, note) in [
        (ties.self_iffs > 0, "self-tie by Iff"),
        (ties.self_xors > 0, "self-tie by Xor"),
        (ties.classes > 0, "with ties"),
        (ties.joins > 0, "with tied classes"),
        (negative, "with negative numbers"),
    ] {
        notes.extend(is.then_some(note));
    }
    Ok(notes)
}

type Tallies = BTreeMap<String, u64>;

fn check(slices: &mut Slices, case: &Case, index: u64, tallies: &mut Tallies) -> Result<(), String> {
    let want = |out_len, work_len| expected(&case.set, out_len, work_len);
    let (whole, mut calls) = lengths(slices, merged, want, case, index)?;
    if index % 4 == 0 {
        calls += other_bits(slices, case, index, &whole)?;
    }
    let mut count = |what: &str, n: u64| *tallies.entry(what.to_string()).or_insert(0) += n;
    count("calls", calls);
    count(&kind(&whole), 1);
    if let (Outcome::Compiled(words), Some(ties)) = (&whole, ties(&case.set)) {
        notes(&case.set, words, &ties)?.iter().for_each(|note| count(note, 1));
    }
    Ok(())
}

fn run(seed: u64, count: u64, families: &[&str]) -> Result<(), String> {
    let mut slices = Slices::new();
    let mut all = Tallies::new();
    for family in families {
        let mut tallies = Tallies::new();
        for index in 0..count {
            let case = case(family, seed, index).ok_or("no case")?;
            check(&mut slices, &case, index, &mut tallies)
                .map_err(|e| format!("{family} seed {seed} index {index}: {e}\nset {:?}", case.set))?;
        }
        println!("{family} seed {seed}: {count} sets {tallies:?}, no difference");
        tallies.into_iter().for_each(|(what, n)| *all.entry(what).or_insert(0) += n);
    }
    println!("all: {} sets {all:?}, no difference", count * families.len() as u64);
    Ok(())
}

/// A rule that ties two variables: 15 for Xor, 16 for Iff.
fn tie(code: i32, x: i32, y: i32) -> Vec<i32> {
    vec![1, code, 11, x, 11, y]
}

/// Sets of 512 variables with these ties, filled up to 4096 words with disjunctions of three literals.
fn filled(ties: Vec<Vec<i32>>) -> Vec<i32> {
    let mut rules = ties;
    let mut words: usize = 3 + rules.iter().map(Vec::len).sum::<usize>();
    let mut v = 7;
    while words + 10 <= 4096 {
        let mut next = || {
            v = (v * 133 + 17) % 512;
            v
        };
        rules.push(vec![1, 13, 3, 11, next(), 14, 11, next(), 11, next()]);
        words += 10;
    }
    [vec![512, 0, rules.len() as i32], rules.concat()].concat()
}

fn tied_sets() -> Vec<(&'static str, Vec<i32>)> {
    let chain = |code: fn(i32) -> i32| (0..511).map(|v| tie(code(v), v, v + 1)).collect::<Vec<_>>();
    let mut backwards = chain(|_| 16);
    backwards.reverse();
    let pairs: Vec<_> = (0..256).map(|v| tie(16, 2 * v, 2 * v + 1)).collect();
    let joins = (0..255).map(|v| tie(15, 2 * v + 1, 2 * v + 2));
    vec![
        ("a chain of 511 ties", filled(chain(|_| 16))),
        ("a chain, every other one negated", filled(chain(|v| 15 + v % 2))),
        ("a chain from its end", filled(backwards)),
        ("all tied to the first", filled((1..512).map(|v| tie(16, 0, v)).collect())),
        ("256 pairs", filled(pairs.clone())),
        ("256 pairs, tied again", filled(pairs.into_iter().chain(joins).collect())),
        ("no tie", filled(vec![])),
    ]
}

const ROUNDS: u32 = 300;

/// The least times of some rounds, each round doing both, in microseconds.
fn least(mut first: impl FnMut(), mut second: impl FnMut()) -> (f64, f64) {
    let time = |work: &mut dyn FnMut()| {
        let start = Instant::now();
        work();
        start.elapsed().as_nanos() as f64 / 1e3
    };
    let both = (0..ROUNDS).map(|_| (time(&mut first), time(&mut second)));
    both.fold((f64::INFINITY, f64::INFINITY), |(a, b), (c, d)| (a.min(c), b.min(d)))
}

fn speed() -> Result<(), String> {
    for (name, set) in tied_sets() {
        let Outcome::Compiled(words) = expected(&set, 1 << 20, 16384) else {
            return Err(format!("{name}: not compiled"));
        };
        Slices::new().compare(merged, &set, words.len(), 16384, &Outcome::Compiled(words.clone()))?;
        let read = refuse::accept(&set, 16384).map_err(|k| format!("refused {k}"))?;
        let (mut a, mut b) = ((vec![0; words.len()], vec![0; 16384]), (vec![0; words.len()], vec![0; 16384]));
        let port = |slices: &mut (Vec<i32>, Vec<i32>), choices| {
            black_box(compile_with(black_box(&set), &mut slices.0, &mut slices.1, choices));
        };
        let (plain, tied) = least(|| port(&mut a, 0), || port(&mut b, MERGE));
        let rust = |merge| {
            black_box(timed(black_box(&read), merge));
        };
        let (rust_plain, rust_tied) = least(|| rust(false), || rust(true));
        println!(
            "{name:34} {:4} words  plain {plain:7.1} us  merged {tied:7.1} us  ratio {:5.3}  emitted {:3} and {:3}  Rust {rust_plain:7.1} and {rust_tied:7.1} us",
            set.len(), tied / plain, compiled_bools(&a.0), compiled_bools(&b.0)
        );
    }
    Ok(())
}

/// The count of emitted Booleans in an answer to one of the sets above: it follows the two maps of 512 words.
fn compiled_bools(words: &[i32]) -> i32 {
    words[1024]
}

fn main() {
    let speeds = std::env::args().nth(1).is_some_and(|word| word == "speed");
    exit_on_error(if speeds { speed() } else { run_families("merges speed | merges", &with_ifs(&FAMILIES), run) });
}
