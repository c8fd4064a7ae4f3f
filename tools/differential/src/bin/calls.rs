//! The port's call against the Rust's answers, word for word.
//! `calls SEED COUNT [FAMILY..]`: COUNT sets of each family (or of the named ones), each with several lengths of the output and work slices;
//! `calls stack`: the deepest and the widest sets on a thread of 512 KiB; `calls stack ifs`: those of Ifs alone. Status 1 on the
//! first difference.

use differential::links::case;
use differential::slices::{kind, lengths, Slices};
use differential::{compile, exit_on_error, run_families, with_ifs};
use reference::call;
use reference::generate::FAMILIES;
use std::collections::BTreeMap;

fn run(seed: u64, count: u64, families: &[&str]) -> Result<(), String> {
    let mut slices = Slices::new();
    for family in families {
        let mut tallies = BTreeMap::new();
        let mut calls = 0;
        for index in 0..count {
            let case = case(family, seed, index).ok_or("no case")?;
            let want = |out_len, work_len| call(&case.set, out_len, work_len);
            let (whole, n) = lengths(&mut slices, compile, want, &case, index)
                .map_err(|e| format!("{family} seed {seed} index {index}: {e}\nset {:?}", case.set))?;
            *tallies.entry(kind(&whole)).or_insert(0u64) += 1;
            calls += n;
        }
        println!("{family} seed {seed}: {count} sets, {calls} calls {tallies:?}, no difference");
    }
    Ok(())
}

/// Not above Not .., 64 levels; nested Iff and sums; an Or of 2000 members; differing sums of 64 levels, and 2044 times a variable;
/// tables of many columns (the answer of 1000 is too long).
fn extremes() -> Vec<(&'static str, Vec<i32>)> {
    let mut not = vec![1, 0, 1, 1];
    not.extend([14; 63]);
    not.extend([11, 0]);
    let mut iff = vec![2, 0, 1, 1];
    (0..63).for_each(|_| iff.extend([16, 11, 0]));
    iff.extend([11, 1]);
    let mut or = vec![512, 0, 1, 1, 13, 2000];
    (0..2000).for_each(|v| or.extend([11, v % 512]));
    let mut sum = vec![0, 1, 0, 0, 9, 1, 1, 18, 2];
    (0..62).for_each(|_| sum.extend([22, 1, 1]));
    sum.extend([21, 0, 20, 3]);
    let mut differing = vec![0, 1, 0, 0, 9, 1, 3, 2];
    (0..2).for_each(|_| {
        (0..63).for_each(|_| differing.extend([22, 1, 1]));
        differing.extend([21, 0]);
    });
    let often = [vec![0, 1, 0, 0, 9, 1, 3, 2044], [21, 0].repeat(2044)].concat();
    let table = |n: i32| {
        let mut table = vec![0, 1, 0, 0, 9, 1, 2, n, 1];
        (0..n).for_each(|_| table.extend([21, 0]));
        (0..n).for_each(|_| table.push(5));
        table
    };
    vec![
        ("Not", not),
        ("Iff", iff),
        ("Or", or),
        ("sum", sum),
        ("differing sums", differing),
        ("differing variables", often),
        ("table of 100", table(100)),
        ("table of 1000", table(1000)),
    ]
}

/// Ifs in conditions of Ifs, 31 levels of open ones and 12 of constants; in branches of Ifs, 62 levels, in a rule and a column; 60
/// splits in a condition; 64 Ifs in a comparison.
fn if_extremes() -> Vec<(&'static str, Vec<i32>)> {
    let rule = |e: Vec<i32>| [vec![2, 1, 0, 0, 3, 1, 1], e].concat();
    let nested = |levels: usize, t: [i32; 2]| {
        [[18, 0, 23].repeat(levels), vec![11, 0], [&t[..], &[20, 0, 20, 0]].concat().repeat(levels)].concat()
    };
    let branches = [[23, 11, 0, 21, 0].repeat(62), vec![20, 1]].concat();
    let splits = [vec![23], [15, 11, 0].repeat(60), vec![11, 1, 21, 0, 20, 7]].concat();
    let wide = [vec![22, 63], [1, 23, 12, 2, 11, 0, 11, 1, 21, 0, 20, 2].repeat(63)].concat();
    vec![
        ("open Ifs in conditions", rule(nested(31, [21, 0]))),
        ("Ifs of constants in conditions", rule(nested(12, [20, 1]))),
        ("Ifs in branches", rule([vec![18, 0], branches.clone(), vec![20, 1]].concat())),
        ("Ifs in a column's branches", [vec![2, 1, 0, 0, 3, 1, 2, 1, 0], branches].concat()),
        ("splits in a condition", rule([vec![18, 0], splits.clone(), vec![20, 1]].concat())),
        ("splits in a pair", [vec![2, 1, 0, 0, 3, 1, 3, 2], splits, vec![20, 1]].concat()),
        ("Ifs side by side", rule([vec![18, 0], wide, vec![20, 1]].concat())),
    ]
}

fn stack(sets: Vec<(&'static str, Vec<i32>)>) -> Result<(), String> {
    for (name, set) in sets {
        let want = call(&set, 1 << 22, 16384);
        let small = std::thread::Builder::new().stack_size(512 * 1024);
        let thread =
            small.spawn(move || Slices::new().compare(compile, &set, 1 << 22, 16384, &want).map(|_| kind(&want)));
        let said = thread.map_err(|e| e.to_string())?.join().map_err(|_| "the thread ended".to_string())??;
        println!("{name}: {said} within 512 KiB of stack");
    }
    Ok(())
}

fn main() {
    let arguments: Vec<String> = std::env::args().skip(1).collect();
    exit_on_error(match &arguments.iter().map(String::as_str).collect::<Vec<&str>>()[..] {
        ["stack"] => stack([extremes(), if_extremes()].concat()),
        ["stack", "ifs"] => stack(if_extremes()),
        _ => run_families("calls stack [ifs] | calls", &with_ifs(&FAMILIES), run),
    });
}
