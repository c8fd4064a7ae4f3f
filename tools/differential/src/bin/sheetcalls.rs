//! The port's call with a sheet against the Rust's answers and the reference's sheets, word for word and byte for byte.
//! `sheetcalls SEED COUNT [FAMILY..]`: COUNT sets of each family (or of the named ones), each with sheet slices of exactly the sheet's length,
//! one less, none and some more, and outputs of exactly the answer's length and one less. Status 1 on the first difference.

use differential::links::case;
use differential::{exit_on_error, run_families, with_ifs};
use reference::answer::decode;
use reference::generate::FAMILIES;
use reference::sheet::sheet;
use reference::{call, Outcome};

#[allow(clippy::too_many_arguments)]
fn port(set: &[i32], out: &mut [i32], work: &mut [i32], sheet: &mut [u8], bytes: &mut [usize]) -> i64 {
    extern "C" {
        fn compile_sheet(
            s: *const i32,
            n: usize,
            o: *mut i32,
            m: usize,
            w: *mut i32,
            k: usize,
            p: *mut u8,
            q: usize,
            b: *mut usize,
            l: usize,
        ) -> i64;
    }
    unsafe {
        compile_sheet(
            set.as_ptr(),
            set.len(),
            out.as_mut_ptr(),
            out.len(),
            work.as_mut_ptr(),
            work.len(),
            sheet.as_mut_ptr(),
            sheet.len(),
            bytes.as_mut_ptr(),
            bytes.len(),
        )
    }
}

/// One call, the slices lent full of noise; what the number, every word and every byte have to be.
fn compare(set: &[i32], out_len: usize, sheet_len: usize, want: &Outcome, text: &str) -> Result<(), String> {
    let fits = text.len() <= sheet_len;
    let (number, words, text): (i64, &[i32], &str) = match want {
        Outcome::Compiled(words) if fits => (words.len() as i64, words, text),
        Outcome::Compiled(_) => (-13, &[], ""),
        Outcome::Contradiction => (-100, &[], ""),
        Outcome::Refused(k) => (-(*k as i64), &[], ""),
        Outcome::Panicked => return Err("the Rust panicked".into()),
    };
    let (mut out, mut work, mut bytes) = (vec![-5; out_len], vec![-7; 16384], [9, 9]);
    let mut paper = vec![b'#'; sheet_len];
    let got = port(set, &mut out, &mut work, &mut paper, &mut bytes);
    let right = got == number
        && out[..words.len()] == *words
        && paper[..text.len()] == *text.as_bytes()
        && out[words.len()..].iter().chain(&work).all(|&w| w == 0)
        && paper[text.len()..].iter().all(|&b| b == 0)
        && bytes == [text.len(), 9];
    if right {
        Ok(())
    } else {
        Err(format!("output {out_len}, sheet {sheet_len}: {got}, {bytes:?}; wanted {number}, {} bytes", text.len()))
    }
}

fn check(set: &[i32], out_len: usize) -> Result<u64, String> {
    let whole = call(set, out_len, 16384);
    let Outcome::Compiled(words) = &whole else {
        return compare(set, out_len, 81, &whole, "").map(|_| 1);
    };
    let n = words.len();
    let text = sheet(&decode(set[0] as usize, set[1] as usize, words).ok_or("not decoded")?.clauses);
    for length in [text.len(), text.len().saturating_sub(1), 0, text.len() + 100] {
        compare(set, n, length, &whole, &text)?;
    }
    compare(set, n - 1, 0, &Outcome::Refused(12), "").map(|_| 5)
}

fn run(seed: u64, count: u64, families: &[&str]) -> Result<(), String> {
    for family in families {
        let mut calls = 0;
        for index in 0..count {
            let case = case(family, seed, index).ok_or("no case")?;
            calls += check(&case.set, case.out_len)
                .map_err(|e| format!("{family} seed {seed} index {index}: {e}\nset {:?}", case.set))?;
        }
        println!("{family} seed {seed}: {count} sets, {calls} calls with a sheet, no difference");
    }
    Ok(())
}

fn main() {
    exit_on_error(run_families("sheetcalls", &with_ifs(&FAMILIES), run));
}
