//! What the programs share: the port's entries, the command line, lent slices, sets of many passes and sets that cost most.
pub mod extremes;
pub mod links;
pub mod slices;

use reference::generate::IFS;

/// An entry of the port that takes a set, an output slice and a work slice, all lent, and answers with a number.
macro_rules! entry {
    ($(#[$doc:meta])* $name:ident, $exported:ident, $answer:ty) => {
        $(#[$doc])*
        #[inline]
        pub fn $name(set: &[i32], out: &mut [i32], work: &mut [i32]) -> $answer {
            extern "C" {
                fn $exported(s: *const i32, n: usize, o: *mut i32, m: usize, w: *mut i32, k: usize) -> $answer;
            }
            unsafe { $exported(set.as_ptr(), set.len(), out.as_mut_ptr(), out.len(), work.as_mut_ptr(), work.len()) }
        }
    };
}

entry!(
    /// The call, in the static library of `station`.
    compile, compile_set, i64
);
entry!(
    /// What folding and propagation leave, in the static library of `remaining`.
    settle, settle_set, usize
);

/// The call with choices (bit 1: merging), in the static library of `station`.
#[inline]
pub fn compile_with(set: &[i32], out: &mut [i32], work: &mut [i32], choices: u32) -> i64 {
    extern "C" {
        fn compile_set_with(s: *const i32, n: usize, o: *mut i32, m: usize, w: *mut i32, k: usize, c: u32) -> i64;
    }
    unsafe {
        compile_set_with(set.as_ptr(), set.len(), out.as_mut_ptr(), out.len(), work.as_mut_ptr(), work.len(), choices)
    }
}

/// The check of a roster, in the static library of `station`.
#[inline]
pub fn roster(set: &[i32], values: &[i32], work: &mut [i32]) -> i64 {
    extern "C" {
        fn check_roster(s: *const i32, n: usize, v: *const i32, m: usize, w: *mut i32, k: usize) -> i64;
    }
    unsafe { check_roster(set.as_ptr(), set.len(), values.as_ptr(), values.len(), work.as_mut_ptr(), work.len()) }
}

/// A program's own families: some of the reference's, and those with Ifs.
pub fn with_ifs(families: &[&'static str]) -> Vec<&'static str> {
    [families, &IFS].concat()
}

/// The families that a name stands for: `allifs` for those with Ifs.
fn families_of(name: &str) -> Vec<&str> {
    match name {
        "allifs" => IFS.to_vec(),
        name => vec![name],
    }
}

/// Runs `SEED COUNT [FAMILY..]` of the command line: COUNT sets of every family, or of the named ones.
pub fn run_families(
    program: &str,
    families: &[&str],
    run: impl Fn(u64, u64, &[&str]) -> Result<(), String>,
) -> Result<(), String> {
    let arguments: Vec<String> = std::env::args().skip(1).collect();
    let number = |text: &str| text.parse::<u64>().map_err(|e| e.to_string());
    match &arguments[..] {
        [seed, count] => run(number(seed)?, number(count)?, families),
        [seed, count, named @ ..] => {
            let named: Vec<&str> = named.iter().flat_map(|name| families_of(name)).collect();
            run(number(seed)?, number(count)?, &named)
        }
        _ => Err(format!("usage: {program} SEED COUNT [FAMILY..]")),
    }
}

/// Status 1 with what went wrong.
pub fn exit_on_error(result: Result<(), String>) {
    if let Err(e) = result {
        eprintln!("{e}");
        std::process::exit(1);
    }
}
