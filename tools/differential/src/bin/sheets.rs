//! The port's sheets against the reference's, byte for byte, on generated clauses.
//! `sheets SEED COUNT`: COUNT lists of clauses, each with a slice of exactly the sheet's length, one less, none and some more;
//! `sheets speed`: answers of 16 million words, against filling as many bytes. Status 1 on the first difference.

use reference::answer::{encode_clauses, Clause, Comparison};
use reference::sheet::sheet;
use std::time::Instant;

fn port(words: &[i32], out: &mut [u8]) -> usize {
    extern "C" {
        fn sheet_of_words(w: *const i32, n: usize, o: *mut u8, m: usize) -> usize;
    }
    unsafe { sheet_of_words(words.as_ptr(), words.len(), out.as_mut_ptr(), out.len()) }
}

struct Random(u64);

impl Random {
    fn below(&mut self, n: u64) -> u64 {
        self.0 ^= self.0 << 13;
        self.0 ^= self.0 >> 7;
        self.0 ^= self.0 << 17;
        self.0.wrapping_mul(0x2545f4914f6cdd1d) % n
    }

    fn pick(&mut self, from: &[u64]) -> u64 {
        from[self.below(from.len() as u64) as usize]
    }

    /// A number of at most so many digits, negative if asked for.
    fn number(&mut self, digits: u32, signed: bool) -> i32 {
        let n = self.below(10u64.pow(digits).min(1 << 31)) as i64;
        (if signed && self.below(2) == 0 { -n } else { n }) as i32
    }

    fn comparison(&mut self) -> Comparison {
        let digits = 1 + self.below(10) as u32;
        let count = self.pick(&[0, 1, 2, 3, 4, 5, 6, 9, 20, 64]);
        let terms = (0..count).map(|_| (self.number(digits.min(8), false), self.number(digits, true))).collect();
        Comparison { op: self.below(6) as i32, constant: self.number(digits, true), terms }
    }

    /// A comparison whose text has exactly so many characters.
    fn exactly(&mut self, length: usize) -> Comparison {
        loop {
            let mut c = Comparison { op: 1, constant: self.number(4, true), terms: vec![] };
            while text(&c).len() + 4 <= length {
                let digits = 1 + self.below(4) as u32;
                c.terms.push((self.number(digits, false), self.number(digits, true)));
            }
            if text(&c).len() == length {
                return c;
            }
        }
    }

    fn clause(&mut self) -> Clause {
        let digits = 1 + self.below(9) as u32;
        let count = self.pick(&[0, 0, 1, 2, 7, 30]);
        let literals = (0..count).map(|_| self.number(digits, true)).collect();
        let count = self.pick(&[0, 0, 1, 2, 5]);
        let mut comparisons: Vec<Comparison> = (0..count).map(|_| self.comparison()).collect();
        if self.below(2) == 0 {
            let length = self.pick(&[68, 69, 70, 71, 72, 140, 141]) as usize;
            let place = self.below(comparisons.len() as u64 + 1) as usize;
            let edge = self.exactly(length);
            comparisons.insert(place, edge);
        }
        Clause { literals, comparisons }
    }
}

fn text(c: &Comparison) -> String {
    let terms: Vec<String> = c.terms.iter().map(|(v, a)| format!("{v},{a}")).collect();
    format!("{}:{}:{}", c.op, c.constant, terms.join(","))
}

fn compare(clauses: &[Clause]) -> Result<usize, String> {
    let (words, want) = (encode_clauses(clauses), sheet(clauses));
    if 2 * (want.len() / 81) > words.len() - 1 || want.split_terminator('\n').any(|line| line.len() != 80) {
        return Err(format!("{} bytes of {} clause words", want.len(), words.len() - 1));
    }
    for length in [want.len(), want.len().saturating_sub(1), 0, want.len() + 100] {
        let mut out = vec![b'#'; length];
        let got = port(&words, &mut out);
        let kept = want.len().min(length);
        if got != want.len() || out[..kept] != want.as_bytes()[..kept] || out[kept..].iter().any(|b| *b != b'#') {
            return Err(format!(
                "{words:?}\nslice {length}: {got} bytes\n{}\nwanted {}\n{want}",
                String::from_utf8_lossy(&out),
                want.len()
            ));
        }
    }
    Ok(want.len() / 81)
}

fn speed() {
    let literals: Vec<Clause> = (0..16777216 / 12)
        .map(|i| Clause { literals: (0..10).map(|j| i * 5 + j + 1).collect(), comparisons: vec![] })
        .collect();
    let empty: Vec<Clause> = (0..8388607).map(|_| Clause { literals: vec![], comparisons: vec![] }).collect();
    let long: Vec<Clause> = (0..16777216 / 133)
        .map(|i| Clause {
            literals: vec![],
            comparisons: vec![Comparison {
                op: 2,
                constant: -i,
                terms: (0..64).map(|v| (v, 1 - 2 * (v % 2))).collect(),
            }],
        })
        .collect();
    for (name, clauses) in [("literals", literals), ("empty", empty), ("long comparisons", long)] {
        let words = encode_clauses(&clauses);
        let words = &words[..words.len().min(16777216)];
        let mut out = vec![];
        let n = port(words, &mut out);
        out.resize(n, 1);
        let start = Instant::now();
        port(words, &mut out);
        let sheet = start.elapsed().as_secs_f64();
        let start = Instant::now();
        out.fill(7);
        let fill = start.elapsed().as_secs_f64();
        println!("{name}: {} words, {n} bytes, {sheet:.3} s, filling {fill:.3} s ({})", words.len(), out[n / 2]);
    }
}

fn main() {
    let arguments: Vec<String> = std::env::args().skip(1).collect();
    if arguments == ["speed"] {
        return speed();
    }
    let [seed, count] = &arguments[..] else {
        eprintln!("usage: sheets SEED COUNT | sheets speed");
        std::process::exit(2);
    };
    let mut random = Random(seed.parse::<u64>().unwrap() * 2 + 1);
    let (mut lines, count) = (0, count.parse::<u64>().unwrap());
    for _ in 0..count {
        let clauses: Vec<Clause> = (0..random.below(5)).map(|_| random.clause()).collect();
        match compare(&clauses) {
            Ok(n) => lines += n,
            Err(e) => {
                eprintln!("{e}");
                std::process::exit(1);
            }
        }
    }
    println!("{count} sheets, {lines} lines, each with four slices: no difference");
}
