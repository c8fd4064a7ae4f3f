//! Request 2.7 by a plain reading: its pass over the folded rules, and the answer as the Rust's plain one with other literals.
//! It tells the sets with a variable tied to itself before it has a number, on which the Rust does not do what document 02 says.
use crate::answer::{decode, encode, Answer};
use crate::call::{call, call_with, Outcome};
use crate::refuse::accept;
use crate::rust::optimized;
use crate::set::{Bool, Statement};
use crate::settled::left;

/// A class of tied variables by its number, and whether a variable is its negation.
pub type Literal = (usize, bool);

/// What the pass finds.
#[derive(Clone, Debug, Default, PartialEq)]
pub struct Ties {
    pub literals: Vec<Option<Literal>>,
    pub classes: usize,
    /// Ties of two variables that both had a number: the clauses alone carry them.
    pub joins: usize,
    /// Self-ties of a variable that had no number, by Iff and by Xor.
    pub self_iffs: usize,
    pub self_xors: usize,
}

impl Ties {
    /// Whether the Rust's answer is not document 02's, and the set is not compared.
    pub fn apart(&self) -> bool {
        self.self_iffs + self.self_xors > 0
    }

    /// The ties of folded statements, taken in their order.
    fn of(bools: usize, statements: &[Statement]) -> Ties {
        let mut ties = Ties { literals: vec![None; bools], ..Ties::default() };
        for statement in statements {
            match statement {
                Statement::Rule(Bool::Iff(l, r)) => ties.tie(l, r, false),
                Statement::Rule(Bool::Xor(l, r)) => ties.tie(l, r, true),
                _ => (),
            }
        }
        ties
    }

    fn tie(&mut self, l: &Bool, r: &Bool, negated: bool) {
        let (Bool::Var(x), Bool::Var(y)) = (l, r) else {
            return;
        };
        match (self.literals[*x], self.literals[*y]) {
            (None, None) if x == y && negated => self.self_xors += 1,
            (None, None) if x == y => self.self_iffs += 1,
            (None, None) => {
                self.literals[*x] = Some((self.classes, false));
                self.literals[*y] = Some((self.classes, negated));
                self.classes += 1;
            }
            (Some((n, sign)), None) => self.literals[*y] = Some((n, sign ^ negated)),
            (None, Some((n, sign))) => self.literals[*x] = Some((n, sign ^ negated)),
            (Some(_), Some(_)) => self.joins += 1,
        }
    }
}

/// The ties of a set; nothing where it is refused by 1 to 11 or contradictory.
pub fn ties(words: &[i32]) -> Option<Ties> {
    let set = accept(words, usize::MAX).ok()?;
    Some(Ties::of(set.bools, &left(&optimized(&set)?)))
}

/// The plain answer with the classes numbered first, then all others in their order, and every literal by these numbers.
fn renumbered(plain: &Answer, ties: &Ties) -> Answer {
    let mut of_number: Vec<Option<Literal>> = vec![None; plain.bools as usize];
    for (word, literal) in plain.bool_map.iter().zip(&ties.literals).filter(|(word, _)| **word > 0) {
        of_number[*word as usize - 1] = *literal;
    }
    let mut next = ties.classes;
    let literals: Vec<Literal> = of_number
        .into_iter()
        .map(|tied| {
            tied.unwrap_or_else(|| {
                next += 1;
                (next - 1, false)
            })
        })
        .collect();
    let renamed = |word: &mut i32| {
        if *word != 0 {
            let (number, negated) = literals[word.unsigned_abs() as usize - 1];
            *word = (number as i32 + 1) * if negated { -word.signum() } else { word.signum() };
        }
    };
    let mut answer = plain.clone();
    answer.bools = next as i32;
    answer.bool_map.iter_mut().for_each(renamed);
    answer.clauses.iter_mut().flat_map(|clause| &mut clause.literals).for_each(renamed);
    answer.domains.iter_mut().filter(|record| record[0] == 1).for_each(|record| renamed(&mut record[1]));
    answer
}

/// What document 02 says of the call with merging, self-ties passed over: the Rust's plain outcome, renumbered.
pub fn model(words: &[i32], out_len: usize, work_len: usize) -> Outcome {
    match call(words, out_len, work_len) {
        Outcome::Compiled(plain) => {
            let ties = ties(words).unwrap_or_default();
            let read = decode(words[0] as usize, words[1] as usize, &plain);
            read.map_or(Outcome::Panicked, |answer| Outcome::Compiled(encode(&renumbered(&answer, &ties))))
        }
        outcome => outcome,
    }
}

/// What the call with merging is held to: the Rust with merging, and the model where the Rust is not compared.
pub fn expected(words: &[i32], out_len: usize, work_len: usize) -> Outcome {
    match ties(words) {
        Some(ties) if ties.apart() => model(words, out_len, work_len),
        _ => call_with(words, out_len, work_len, true),
    }
}
