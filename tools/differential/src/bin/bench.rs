//! The port's call against the Rust, in time, each set compared word for word before it is timed.
//! `bench SEED COUNT [FAMILY..]`: COUNT sets of each family, refused ones left out; `bench extremes`: the sets of `extremes`.
//! The port's time is a whole call: clearing both slices, reading, refusals, answer, clearing the work slice.
//! The Rust's is building its problem from a set that was read, `optimize`, `normalize`, and writing the answer's words.

use differential::extremes::extremes;
use differential::links::case;
use differential::slices::{kind, Slices};
use differential::{compile, exit_on_error, run_families};
use reference::call::{timed, ANSWER};
use reference::generate::Case;
use reference::{call, refuse, Outcome};
use std::hint::black_box;
use std::time::Instant;

const FAMILIES: [&str; 9] =
    ["rules", "chains", "links", "comparisons", "tables", "mixed", "different", "kinds", "ifmixed"];
/// Rounds of a set of a family, and of one of `extremes`, which takes longer.
const ROUNDS: u32 = 25;
const FEW_ROUNDS: u32 = 5;
const WORK: usize = 16384;

/// The least time of some rounds, in nanoseconds.
fn least(rounds: u32, mut work: impl FnMut()) -> f64 {
    let round = |work: &mut dyn FnMut()| {
        let start = Instant::now();
        work();
        start.elapsed().as_nanos() as f64
    };
    (0..rounds).map(|_| round(&mut work)).fold(f64::INFINITY, f64::min)
}

/// Times of the Rust and of the port on one set with an output slice of the answer's length; nothing for a set that is refused.
fn times(case: &Case, slices: &mut Slices) -> Result<Option<(f64, f64)>, String> {
    let want = call(&case.set, 1 << 22, WORK);
    let length = match &want {
        Outcome::Compiled(words) => words.len(),
        Outcome::Contradiction => 0,
        _ => return Ok(None),
    };
    slices.compare(compile, &case.set, length, WORK, &want)?;
    let read = refuse::accept(&case.set, WORK).map_err(|k| format!("refused {k}"))?;
    let Slices { out, work } = slices;
    let rust = least(ROUNDS, || {
        black_box(timed(black_box(&read), false));
    });
    let port = least(ROUNDS, || {
        black_box(compile(black_box(&case.set), out, work));
    });
    Ok(Some((rust, port)))
}

fn at(sorted: &[f64], part: f64) -> f64 {
    sorted[((sorted.len() - 1) as f64 * part) as usize]
}

/// Sets by size: up to 64 words, up to 512, larger.
fn size(words: usize) -> usize {
    match words {
        0..=64 => 0,
        65..=512 => 1,
        _ => 2,
    }
}

fn line(family: &str, sizes: &str, times: &[(f64, f64)]) {
    let mut ratios: Vec<f64> = times.iter().map(|(rust, port)| rust / port).collect();
    if ratios.is_empty() {
        return;
    }
    ratios.sort_by(f64::total_cmp);
    let (rust, port) = times.iter().fold((0.0, 0.0), |(r, p), (rust, port)| (r + rust, p + port));
    println!(
        "{family:12} {sizes:12} {:6} sets  Rust {:9.2} us  port {:9.2} us  ratio of sums {:6.2}  median {:6.2}  tenth {:6.2}  nine tenths {:6.2}",
        times.len(), rust / 1e3 / times.len() as f64, port / 1e3 / times.len() as f64, rust / port, at(&ratios, 0.5), at(&ratios, 0.1), at(&ratios, 0.9)
    );
}

fn run(seed: u64, count: u64, families: &[&str]) -> Result<(), String> {
    let mut slices = Slices::new();
    for &family in families {
        let mut groups: [Vec<(f64, f64)>; 3] = Default::default();
        for index in 0..count {
            let case = case(family, seed, index).ok_or("no case")?;
            let both = times(&case, &mut slices).map_err(|e| format!("{family} seed {seed} index {index}: {e}"))?;
            if let Some(both) = both {
                groups[size(case.set.len())].push(both);
            }
        }
        for (group, sizes) in groups.iter().zip(["to 64 words", "to 512", "over 512"]) {
            line(family, sizes, group);
        }
        line(family, "all", &groups.concat());
    }
    Ok(())
}

/// The time of the Rust in milliseconds; it is not run where the answer is too long.
fn rust_time(set: &[i32], want: &Outcome) -> Option<f64> {
    let read = refuse::accept(set, WORK).ok()?;
    matches!(want, Outcome::Compiled(_)).then(|| {
        least(FEW_ROUNDS, || {
            black_box(timed(black_box(&read), false));
        }) / 1e6
    })
}

/// The port's time in milliseconds with an output of so many words.
fn port_time(set: &[i32], length: usize) -> f64 {
    let (mut out, mut work) = (vec![0; length], vec![0; WORK]);
    least(FEW_ROUNDS, || {
        black_box(compile(black_box(set), &mut out, &mut work));
    }) / 1e6
}

/// With an output of the longest answer's words, so that nothing but the answer's own length is refused 12; then also with the listing's.
fn extreme() -> Result<(), String> {
    let most = ANSWER as usize;
    let mut slices = Slices::new();
    for (name, set) in extremes() {
        let want = call(&set, most, WORK);
        slices.compare(compile, &set, most, WORK, &want).map_err(|e| format!("{name}: {e}"))?;
        let length = if let Outcome::Compiled(words) = &want { words.len() } else { most };
        let port = port_time(&set, length);
        let beside = match rust_time(&set, &want) {
            Some(rust) => format!("Rust {rust:7.1} ms, ratio {:5.2}", rust / port),
            None => format!("with 16384 words {:7.3} ms, the Rust is not run", port_time(&set, 16384)),
        };
        println!(
            "{name:40} {:4} words  {}, output {length:8} words  port {port:9.3} ms  {beside}",
            set.len(),
            kind(&want)
        );
    }
    Ok(())
}

fn main() {
    let extremes = std::env::args().nth(1).is_some_and(|word| word == "extremes");
    exit_on_error(if extremes { extreme() } else { run_families("bench extremes | bench", &FAMILIES, run) });
}
