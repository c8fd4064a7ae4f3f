//! Passing, from the answer's words alone: a search for values of the new variables.
use crate::answer::{Answer, Clause, Comparison};
use crate::meaning::{compares, Assignment};
use std::collections::{BTreeMap, BTreeSet};

/// Branches after which a search is given up.
const BRANCHES: u64 = 100_000;

/// Whether the assignment agrees with the fixed values and the signed map, and some values of the new variables make every clause
/// true; nothing where the search was given up.
pub fn passes(answer: &Answer, a: &Assignment) -> Option<bool> {
    let agrees = |(fixed, value): (&i32, &bool)| *fixed == 2 || (*fixed == 1) == *value;
    if !answer.fixed.iter().zip(&a.bools).all(agrees) {
        return Some(false);
    }
    let mut search = Search {
        answer,
        bools: vec![None; answer.bools as usize],
        ints: vec![None; answer.domains.len()],
        trail: vec![],
        branches: 0,
    };
    for (word, value) in answer.bool_map.iter().zip(&a.bools).filter(|(word, _)| **word != 0) {
        let emitted = &mut search.bools[word.unsigned_abs() as usize - 1];
        let value = *value == (*word > 0);
        if emitted.is_some_and(|other| other != value) {
            return Some(false);
        }
        *emitted = Some(value);
    }
    for (number, value) in answer.int_map.iter().zip(&a.ints).filter(|(number, _)| **number > 0) {
        search.ints[*number as usize - 1] = Some(*value as i128);
    }
    let found = search.all(answer.clauses.iter().collect());
    if search.branches > BRANCHES {
        return None;
    }
    Some(found)
}

/// A new variable without a value.
#[derive(Clone, Copy, PartialEq, Eq, PartialOrd, Ord)]
enum Unknown {
    Bool(usize),
    Int(usize),
}

/// A member of a clause whose truth is not known.
enum Open<'a> {
    Literal(i32),
    Comparison(&'a Comparison),
}

struct Search<'a> {
    answer: &'a Answer,
    bools: Vec<Option<bool>>,
    ints: Vec<Option<i128>>,
    /// What was set, in order, to be taken back.
    trail: Vec<Unknown>,
    branches: u64,
}

impl<'a> Search<'a> {
    /// Whether the clauses can all be true. On failure the values may be left set: the caller takes them back.
    fn all(&mut self, mut clauses: Vec<&'a Clause>) -> bool {
        loop {
            let before = self.trail.len();
            if !self.propagate(&clauses) {
                return false;
            }
            if self.trail.len() == before {
                break;
            }
        }
        clauses.retain(|clause| self.open(clause).is_some());
        let parts = self.parts(clauses);
        parts.into_iter().all(|(unknown, part)| self.branch(unknown, part))
    }

    /// Tries every value of one unknown of the clauses.
    fn branch(&mut self, unknown: Unknown, part: Vec<&'a Clause>) -> bool {
        let (low, high) = match unknown {
            Unknown::Bool(_) => (0, 1),
            Unknown::Int(v) => (self.answer.domains[v][1] as i128, self.answer.domains[v][2] as i128),
        };
        let mark = self.trail.len();
        for value in low..=high {
            self.branches += 1;
            if self.branches > BRANCHES {
                return false;
            }
            self.set(unknown, value);
            if self.all(part.clone()) {
                return true;
            }
            self.take_back(mark);
        }
        false
    }

    fn set(&mut self, unknown: Unknown, value: i128) {
        match unknown {
            Unknown::Bool(v) => self.bools[v] = Some(value == 1),
            Unknown::Int(v) => self.ints[v] = Some(value),
        }
        self.trail.push(unknown);
    }

    fn take_back(&mut self, mark: usize) {
        for unknown in self.trail.drain(mark..) {
            match unknown {
                Unknown::Bool(v) => self.bools[v] = None,
                Unknown::Int(v) => self.ints[v] = None,
            }
        }
    }

    /// Sets what single open members force; whether no clause is false.
    fn propagate(&mut self, clauses: &[&'a Clause]) -> bool {
        clauses.iter().all(|clause| match self.open(clause).as_deref() {
            None => true,
            Some([]) => false,
            Some([Open::Literal(l)]) => {
                self.set(Unknown::Bool(l.unsigned_abs() as usize - 1), (*l > 0) as i128);
                true
            }
            Some([Open::Comparison(c)]) => self.solve(c),
            Some(_) => true,
        })
    }

    /// An equation in one unknown gives its value; whether there is one.
    fn solve(&mut self, c: &Comparison) -> bool {
        let unknown = self.unknown_of(c);
        if c.op != 0 || unknown.len() != 1 {
            return true;
        }
        let (v, coefficient) = unknown[0];
        if self.answer.domains[v][0] == 1 {
            return true;
        }
        let rest = -self.known(c);
        let value = rest / coefficient;
        let [_, low, high, _] = self.answer.domains[v].map(i128::from);
        if value * coefficient != rest || value < low || high < value {
            return false;
        }
        self.set(Unknown::Int(v), value);
        true
    }

    /// The members still open; nothing where the clause is true.
    fn open(&self, clause: &'a Clause) -> Option<Vec<Open<'a>>> {
        let mut open = vec![];
        for l in &clause.literals {
            match self.bools[l.unsigned_abs() as usize - 1].map(|value| value == (*l > 0)) {
                Some(true) => return None,
                Some(false) => (),
                None => open.push(Open::Literal(*l)),
            }
        }
        for c in &clause.comparisons {
            if !self.unknown_of(c).is_empty() {
                open.push(Open::Comparison(c));
            } else if compares(c.op, self.known(c), 0) {
                return None;
            }
        }
        Some(open)
    }

    /// The unknown variables of a comparison with their coefficients.
    fn unknown_of(&self, c: &Comparison) -> Vec<(usize, i128)> {
        let terms = c.terms.iter().map(|(v, a)| (*v as usize, *a as i128));
        terms.filter(|(v, _)| self.value(*v).is_none()).collect()
    }

    /// The value of an emitted integer: a binary one's follows its literal.
    fn value(&self, v: usize) -> Option<i128> {
        match self.answer.domains[v] {
            [1, literal, no, yes] => {
                let holds = self.bools[literal.unsigned_abs() as usize - 1]? == (literal > 0);
                Some(if holds { yes } else { no } as i128)
            }
            _ => self.ints[v],
        }
    }

    fn unknown(&self, v: usize) -> Unknown {
        match self.answer.domains[v] {
            [1, literal, _, _] => Unknown::Bool(literal.unsigned_abs() as usize - 1),
            _ => Unknown::Int(v),
        }
    }

    /// The sum of what is known.
    fn known(&self, c: &Comparison) -> i128 {
        let term = |(v, a): &(i32, i32)| self.value(*v as usize).unwrap_or(0) * *a as i128;
        c.constant as i128 + c.terms.iter().map(term).sum::<i128>()
    }

    fn unknowns(&self, clause: &'a Clause) -> BTreeSet<Unknown> {
        let mut unknowns = BTreeSet::new();
        for member in self.open(clause).unwrap_or_default() {
            match member {
                Open::Literal(l) => {
                    unknowns.insert(Unknown::Bool(l.unsigned_abs() as usize - 1));
                }
                Open::Comparison(c) => unknowns.extend(self.unknown_of(c).iter().map(|(v, _)| self.unknown(*v))),
            }
        }
        unknowns
    }

    /// The clauses parted into groups that share no unknown, each with one of its unknowns.
    fn parts(&self, clauses: Vec<&'a Clause>) -> Vec<(Unknown, Vec<&'a Clause>)> {
        let mut groups: BTreeMap<usize, (BTreeSet<Unknown>, Vec<&'a Clause>)> = BTreeMap::new();
        let mut group_of: BTreeMap<Unknown, usize> = BTreeMap::new();
        for (number, clause) in clauses.into_iter().enumerate() {
            let mut unknowns = self.unknowns(clause);
            let mut members = vec![clause];
            let touched: BTreeSet<usize> = unknowns.iter().filter_map(|u| group_of.get(u).copied()).collect();
            for (more, others) in touched.iter().filter_map(|group| groups.remove(group)) {
                unknowns.extend(more);
                members.extend(others);
            }
            group_of.extend(unknowns.iter().map(|unknown| (*unknown, number)));
            groups.insert(number, (unknowns, members));
        }
        let first = |(unknowns, part): (BTreeSet<Unknown>, _)| Some((unknowns.first().copied()?, part));
        groups.into_values().filter_map(first).collect()
    }
}
