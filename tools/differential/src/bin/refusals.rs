//! Refusals 1 to 11 of the port against the reference: every limit case, and damaged sets, without and with Ifs.
//! `refusals SEED COUNT`; `refusals SEED COUNT FAMILY..`: COUNT sets of each named family; `refusals speed`: the time on the sets of
//! `extremes`. Status 1 on the first difference.

use differential::extremes::extremes;
use differential::{exit_on_error, run_families};
use reference::generate::{self, iflimits, limits, GOOD, IFS};
use std::collections::BTreeMap;
use std::hint::black_box;
use std::time::Instant;

extern "C" {
    fn refuse_set(set: *const i32, set_len: usize, work: *mut i32, work_len: usize) -> usize;
}

/// The port's refusal, or 0. The work slice is lent full of noise and must come back zero.
fn port(set: &[i32], work_len: usize) -> Result<usize, String> {
    let mut work = vec![-7; work_len];
    let k = unsafe { refuse_set(set.as_ptr(), set.len(), work.as_mut_ptr(), work.len()) };
    match work.iter().position(|&w| w != 0) {
        Some(i) => Err(format!("work word {i} is {}", work[i])),
        None => Ok(k),
    }
}

/// The reference's refusal among 1 to 11, or 0.
fn expected(set: &[i32], work_len: usize) -> usize {
    match reference::refuse::accept(set, work_len) {
        Ok(_) => 0,
        Err(k) => k as usize,
    }
}

fn compare(set: &[i32], work_len: usize) -> Result<usize, String> {
    let want = expected(set, work_len);
    let got = port(set, work_len)?;
    if want == got {
        Ok(got)
    } else {
        Err(format!("refusal {got}, the reference gives {want}"))
    }
}

fn refusals(seed: u64, count: u64) -> Result<(), String> {
    let mut seen = [0u64; 12];
    let mut check = |set: &[i32], work_len: usize| -> Result<(), String> {
        let k = compare(set, work_len).map_err(|e| format!("{e}\nwork {work_len}, set {set:?}"))?;
        seen[k] += 1;
        Ok(())
    };
    let limits = [limits::all(), iflimits::all()].concat();
    for limit in &limits {
        check(&limit.case.set, 16384)?;
        check(&limit.case.set, 16383)?;
    }
    let whole: Vec<&str> = GOOD.into_iter().chain(["limits", "lengths"]).chain(IFS).collect();
    for index in 0..count {
        for family in ["damaged", "ifdamaged"] {
            let case = generate::case(family, seed, index).ok_or("no case")?;
            check(&case.set, case.work_len)?;
        }
        let family = whole[(index / 10 % whole.len() as u64) as usize];
        if index % 10 == 0 {
            let case = generate::case(family, seed, index).ok_or("no case")?;
            check(&case.set, case.work_len)?;
        }
    }
    println!(
        "{} limit cases, {} damaged sets, {} undamaged: no difference",
        limits.len(),
        2 * count,
        count.div_ceil(10)
    );
    for (k, n) in seen.iter().enumerate() {
        println!("refusal {k}: {n}");
    }
    Ok(())
}

/// The sets of some families.
fn named(seed: u64, count: u64, families: &[&str]) -> Result<(), String> {
    for family in families {
        let mut seen = BTreeMap::new();
        for index in 0..count {
            let case = generate::case(family, seed, index).ok_or("no case")?;
            let k = compare(&case.set, case.work_len)
                .map_err(|e| format!("{family} seed {seed} index {index}: {e}\nset {:?}", case.set))?;
            *seen.entry(k).or_insert(0u64) += 1;
        }
        println!("{family} seed {seed}: {count} sets {seen:?}, no difference");
    }
    Ok(())
}

/// The least time of some rounds: reading and refusals 3 to 11, and clearing the work slice.
fn speed() -> Result<(), String> {
    for (name, set) in extremes() {
        compare(&set, 16384).map_err(|e| format!("{name}: {e}"))?;
        let mut work = vec![0; 16384];
        let mut once = || {
            let start = Instant::now();
            black_box(unsafe { refuse_set(black_box(set.as_ptr()), set.len(), work.as_mut_ptr(), work.len()) });
            start.elapsed().as_secs_f64() * 1e3
        };
        let least = (0..20).map(|_| once()).fold(f64::INFINITY, f64::min);
        println!("{name:40} {:4} words  {least:9.3} ms", set.len());
    }
    Ok(())
}

fn main() {
    let speeds = std::env::args().nth(1).is_some_and(|word| word == "speed");
    let run = |seed: u64, count: u64, families: &[&str]| match families {
        [] => refusals(seed, count),
        families => named(seed, count, families),
    };
    exit_on_error(if speeds { speed() } else { run_families("refusals speed | refusals", &[], run) });
}
