//! One call of an entry that takes a set, an output and a work slice: the slices lent full of noise, and every word held to an outcome.
use reference::Outcome;

pub struct Slices {
    pub out: Vec<i32>,
    pub work: Vec<i32>,
}

impl Slices {
    pub fn new() -> Slices {
        Slices { out: vec![], work: vec![] }
    }

    pub fn call(&mut self, port: impl Port, set: &[i32], out_len: usize, work_len: usize) -> i64 {
        self.out.clear();
        self.out.resize(out_len, -5);
        self.work.clear();
        self.work.resize(work_len, -7);
        port(set, &mut self.out, &mut self.work)
    }

    /// Whether the call gives the outcome, with the rest of the output and all of the work slice zero.
    pub fn compare(
        &mut self,
        port: impl Port,
        set: &[i32],
        out_len: usize,
        work_len: usize,
        want: &Outcome,
    ) -> Result<(), String> {
        let (number, words): (i64, &[i32]) = match want {
            Outcome::Compiled(words) => (words.len() as i64, words),
            Outcome::Contradiction => (-100, &[]),
            Outcome::Refused(k) => (-(*k as i64), &[]),
            Outcome::Panicked => return Err("the Rust panicked".into()),
        };
        let got = self.call(port, set, out_len, work_len);
        if got != number {
            return Err(format!("output {out_len}, work {work_len}: answer {got}, the reference gives {number}"));
        }
        if self.out[..words.len()] != *words {
            return Err(format!("output {out_len}: other words than the reference's"));
        }
        match (self.out[words.len()..].iter().any(|&w| w != 0), self.work.iter().any(|&w| w != 0)) {
            (true, _) => Err(format!("output {out_len}: the rest is not zero")),
            (_, true) => Err(format!("work {work_len}: not zero")),
            _ => Ok(()),
        }
    }
}

impl Default for Slices {
    fn default() -> Slices {
        Slices::new()
    }
}

/// An entry of the port.
pub trait Port: Fn(&[i32], &mut [i32], &mut [i32]) -> i64 {}

impl<F: Fn(&[i32], &mut [i32], &mut [i32]) -> i64> Port for F {}

/// What becomes of a set, for counting.
pub fn kind(outcome: &Outcome) -> String {
    match outcome {
        Outcome::Compiled(_) => "compiled".into(),
        Outcome::Contradiction => "contradiction".into(),
        Outcome::Refused(k) => format!("refused {k}"),
        Outcome::Panicked => "panicked".into(),
    }
}

/// One set by the entry and by the reference, with its own lengths, with outputs of exactly, one under and one over the answer's
/// length and of none, and now and then with short work slices. The outcome with its own lengths, and how many calls.
pub fn lengths(
    slices: &mut Slices,
    port: impl Port + Copy,
    want: impl Fn(usize, usize) -> Outcome,
    case: &reference::generate::Case,
    index: u64,
) -> Result<(Outcome, u64), String> {
    let set = &case.set;
    let whole = want(case.out_len, case.work_len);
    slices.compare(port, set, case.out_len, case.work_len, &whole)?;
    let mut calls = 1;
    let mut also = |slices: &mut Slices, out_len: usize, work_len: usize, want: &Outcome| {
        calls += 1;
        slices.compare(port, set, out_len, work_len, want)
    };
    if let Outcome::Compiled(words) = &whole {
        let n = words.len();
        also(slices, n, case.work_len, &whole)?;
        also(slices, n + 1, case.work_len + 3, &whole)?;
        also(slices, n - 1, case.work_len, &Outcome::Refused(12))?;
        also(slices, 0, case.work_len, &Outcome::Refused(12))?;
    }
    if index % 16 == 0 {
        also(slices, case.out_len, 16383, &want(case.out_len, 16383))?;
        also(slices, 0, 0, &want(0, 0))?;
        also(slices, 3, 16384, &want(3, 16384))?;
    }
    Ok((whole, calls))
}
