//! The fixed values and the remaining statements of the port against the Rust's after `optimize(true, false)`.
//! `settled SEED COUNT [FAMILY..]`: COUNT sets of each family (or of the named ones), each with three lengths of the output; status 1 on the first difference.
//! The family `links` is asked for by name.

use differential::links::case;
use differential::{exit_on_error, run_families, settle, with_ifs};
use reference::generate::FAMILIES;
use reference::settled::{settled, Settled};

const ROOMY: usize = 8192;

/// The port's number and output. All slices are lent full of noise; the work slice must come back zero.
fn port(set: &[i32], out_len: usize, work_len: usize) -> Result<(usize, Vec<i32>), String> {
    let mut out = vec![-5; out_len];
    let mut work = vec![-7; work_len];
    let n = settle(set, &mut out, &mut work);
    match work.iter().position(|&w| w != 0) {
        Some(i) => Err(format!("work word {i} is {}", work[i])),
        None => Ok((n, out)),
    }
}

/// One call. Where the output has no room for all the words, none is written.
fn compare(set: &[i32], out_len: usize, work_len: usize, want: usize, words: &[i32]) -> Result<(), String> {
    let (n, out) = port(set, out_len, work_len)?;
    if n != want {
        return Err(format!("answer {n}, the reference gives {want}"));
    }
    let mut expected = if words.len() <= out_len { words.to_vec() } else { vec![] };
    expected.resize(out_len, 0);
    match (0..out_len).find(|&i| out[i] != expected[i]) {
        Some(i) => Err(format!("word {i} of {out_len} is {}, the reference gives {}", out[i], expected[i])),
        None => Ok(()),
    }
}

/// With room to spare, with just enough, and with one word less than that.
fn compare_all(set: &[i32], work_len: usize) -> Result<&'static str, String> {
    let (want, words, kind) = match settled(set, work_len) {
        Settled::Refused(k) => (k as usize, vec![], "refused"),
        Settled::Inconsistent => (100, vec![], "inconsistent"),
        Settled::Words(words) => (1000 + words.len(), words, "settled"),
    };
    let enough = words.len();
    for out_len in [ROOMY, enough, enough.saturating_sub(1)] {
        compare(set, out_len, work_len, want, &words)?;
    }
    Ok(kind)
}

fn run(seed: u64, count: u64, families: &[&str]) -> Result<(), String> {
    for &family in families {
        let mut tallies = std::collections::BTreeMap::new();
        for index in 0..count {
            let case = case(family, seed, index).ok_or("no case")?;
            let kind = compare_all(&case.set, case.work_len)
                .map_err(|e| format!("{family} seed {seed} index {index}: {e}\nset {:?}", case.set))?;
            *tallies.entry(kind).or_insert(0u64) += 1;
        }
        println!("{family} seed {seed}: {count} sets {tallies:?}, no difference");
    }
    Ok(())
}

fn main() {
    exit_on_error(run_families("settled", &with_ifs(&FAMILIES[..9]), run));
}
