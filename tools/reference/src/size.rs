//! The answer's length in words, counted on the folded problem without building any clause, in time that does not grow with it.
use crate::csp::{BoolExpr, IntExpr, Stmt, CSP};
use crate::set::{Domain, Set};
use crate::tally::{compared, conjunction, disjunction, either, table_words, Tally, EQUALITY, LITERAL, SPLIT};
use crate::util::ConvertMapIndex;
use std::collections::{BTreeMap, BTreeSet, HashMap};

/// The words of an emitted integer's record.
const RECORD: u128 = 4;

/// Where an expression stands.
#[derive(Clone, Copy, PartialEq)]
enum Place {
    /// In a rule: a Xor or Iff stays.
    Rule,
    /// In a rule, below a Xor or Iff or in an If's condition: a Xor or Iff is split.
    Under,
    /// In a column: nothing is split.
    Column,
}

impl Place {
    /// Below a Xor, an Iff or a comparison.
    fn below(self) -> Place {
        if self == Place::Column {
            self
        } else {
            Place::Under
        }
    }
}

/// An emitted integer of a sum; new ones by the order of counting.
#[derive(Clone, Copy, PartialEq, Eq, PartialOrd, Ord)]
enum Emitted {
    Declared(usize),
    New(usize),
}

/// With its lowest and highest value.
type Bounded = (Emitted, i128, i128);

/// The length of the answer that `rust::answer` gives for the same problem.
pub fn words(set: &Set, csp: &CSP) -> u64 {
    let mut counter = Counter {
        set,
        met: BTreeSet::new(),
        new: 0,
        opened: 0,
        known: HashMap::new(),
        placed: HashMap::new(),
        visits: HashMap::new(),
    };
    let clauses: u128 = csp.constraints.iter().map(|stmt| counter.statement(stmt)).sum();
    let maps = 2 * set.bools as u128 + set.domains.len() as u128;
    let declared = RECORD * counter.met.len() as u128;
    u64::try_from(maps + 3 + declared + clauses + counter.opened).unwrap_or(u64::MAX)
}

struct Counter<'a> {
    set: &'a Set,
    /// Declared integers met so far.
    met: BTreeSet<usize>,
    /// New integers counted so far.
    new: usize,
    /// The words of the Ifs that are made at their first visit alone: their clauses and records.
    opened: u128,
    /// Those found again wherever the same expression stands: in columns all, in rules those without Xor and Iff.
    known: HashMap<IntExpr, Bounded>,
    /// The others, found again at their own place, within one normalising.
    placed: HashMap<*const IntExpr, Bounded>,
    /// What a visit comes to, plain and negated, within one normalising.
    visits: HashMap<(*const BoolExpr, bool), Tally>,
}

impl Counter<'_> {
    fn statement(&mut self, stmt: &Stmt) -> u128 {
        match stmt {
            Stmt::Expr(e) => self.rule(e),
            Stmt::ExtensionSupports(columns, rows) => self.table(columns, rows),
            Stmt::AllDifferent(exprs) => self.different(exprs),
            _ => 0,
        }
    }

    fn rule(&mut self, e: &BoolExpr) -> u128 {
        self.begin();
        let extras = self.extras(e, false);
        let tally = self.tally(e, false, Place::Rule);
        extras + tally.words + tally.beside
    }

    /// Another normalising: what is split in it gets numbers of its own.
    fn begin(&mut self) {
        self.placed.clear();
        self.visits.clear();
    }

    /// The clauses of the rules that splitting adds; `under`: below a Xor or Iff.
    fn extras(&mut self, e: &BoolExpr, under: bool) -> u128 {
        match e {
            BoolExpr::And(members) | BoolExpr::Or(members) => members.iter().map(|m| self.extras(m, under)).sum(),
            BoolExpr::Not(e) => self.extras(e, under),
            BoolExpr::Imp(l, r) => self.extras(l, under) + self.extras(r, under),
            BoolExpr::Xor(l, r) | BoolExpr::Iff(l, r) => {
                let below = self.extras(l, true) + self.extras(r, true);
                if under {
                    below + self.tied(l) + self.tied(r)
                } else {
                    below
                }
            }
            BoolExpr::Cmp(_, l, r) => self.int_extras(l) + self.int_extras(r),
            _ => 0,
        }
    }

    fn int_extras(&mut self, e: &IntExpr) -> u128 {
        match e {
            IntExpr::Linear(terms) => terms.iter().map(|(term, _)| self.int_extras(term)).sum(),
            IntExpr::If(c, t, f) => self.extras(c, true) + self.int_extras(t) + self.int_extras(f),
            _ => 0,
        }
    }

    /// An Iff of a side and its new variable.
    fn tied(&mut self, side: &BoolExpr) -> u128 {
        let tally = self.equivalent(side, Place::Under);
        tally.words + tally.beside
    }

    /// An Iff of an expression and a literal.
    fn equivalent(&mut self, e: &BoolExpr, place: Place) -> Tally {
        let (plain, negated) = (self.visit(e, false, place), self.visit(e, true, place));
        conjunction(&[disjunction(&[plain, LITERAL]), disjunction(&[negated, LITERAL])])
    }

    /// The same as `tally`, worked out once for each expression of a normalising.
    fn visit(&mut self, e: &BoolExpr, neg: bool, place: Place) -> Tally {
        let key = (e as *const BoolExpr, neg);
        if let Some(tally) = self.visits.get(&key) {
            return *tally;
        }
        let tally = self.tally(e, neg, place);
        self.visits.insert(key, tally);
        tally
    }

    fn tally(&mut self, e: &BoolExpr, neg: bool, place: Place) -> Tally {
        match e {
            BoolExpr::Const(b) if *b != neg => Tally::default(),
            BoolExpr::Const(_) => disjunction(&[]),
            BoolExpr::Var(_) | BoolExpr::NVar(_) => LITERAL,
            BoolExpr::Not(e) => self.tally(e, !neg, place),
            BoolExpr::And(members) => self.joined(members, neg, neg, place),
            BoolExpr::Or(members) => self.joined(members, neg, !neg, place),
            BoolExpr::Imp(l, r) => {
                let sides = [self.tally(l, !neg, place), self.tally(r, neg, place)];
                either(&sides, !neg)
            }
            BoolExpr::Xor(_, _) | BoolExpr::Iff(_, _) if place == Place::Under => SPLIT,
            BoolExpr::Xor(l, r) => self.crossed(l, r, neg, place.below()),
            BoolExpr::Iff(l, r) => self.crossed(l, r, !neg, place.below()),
            BoolExpr::Cmp(_, l, r) => self.comparison(l, r, place.below()),
        }
    }

    fn joined(&mut self, members: &[Box<BoolExpr>], neg: bool, disjoined: bool, place: Place) -> Tally {
        let tallies: Vec<Tally> = members.iter().map(|m| self.tally(m, neg, place)).collect();
        either(&tallies, disjoined)
    }

    /// A Xor; with `flip` an Iff.
    fn crossed(&mut self, l: &BoolExpr, r: &BoolExpr, flip: bool, place: Place) -> Tally {
        let first = disjunction(&[self.visit(l, false, place), self.visit(r, flip, place)]);
        let second = disjunction(&[self.visit(l, true, place), self.visit(r, !flip, place)]);
        conjunction(&[first, second])
    }

    fn comparison(&mut self, l: &IntExpr, r: &IntExpr, place: Place) -> Tally {
        let mut sum = Sum::default();
        self.add(l, 1, &mut sum, place);
        self.add(r, -1, &mut sum, place);
        compared(sum.words(), sum.beside)
    }

    fn sum(&mut self, e: &IntExpr, place: Place) -> Sum {
        let mut sum = Sum::default();
        self.add(e, 1, &mut sum, place);
        sum
    }

    fn add(&mut self, e: &IntExpr, coefficient: i128, sum: &mut Sum, place: Place) {
        match e {
            IntExpr::Const(c) => sum.constant += coefficient * *c as i128,
            IntExpr::Var(v) => {
                self.met.insert(v.to_index());
                let domain = &self.set.domains[v.to_index()];
                let bounded = (Emitted::Declared(v.to_index()), domain.lowest() as i128, domain.highest() as i128);
                sum.add(bounded, coefficient);
            }
            IntExpr::Linear(terms) => terms.iter().for_each(|(e, c)| self.add(e, coefficient * *c as i128, sum, place)),
            IntExpr::If(c, t, f) => {
                let (bounded, beside) = self.chosen(e, c, t, f, place);
                sum.beside += beside;
                sum.add(bounded, coefficient);
            }
            _ => (),
        }
    }

    /// An If's integer, and the words that this visit of it brings beside.
    fn chosen(&mut self, e: &IntExpr, c: &BoolExpr, t: &IntExpr, f: &IntExpr, place: Place) -> (Bounded, u128) {
        let own = place != Place::Column && crosses_int(e);
        let found = if own { self.placed.get(&(e as *const IntExpr)) } else { self.known.get(e) };
        if let Some(bounded) = found {
            return (*bounded, 0);
        }
        let (t, f) = (self.sum(t, place), self.sum(f, place));
        let ((a, b), (x, y)) = (t.bounds(), f.bounds());
        self.new += 1;
        let bounded = (Emitted::New(self.new), a.min(x), b.max(y));
        let branches = t.beside + f.beside;
        if t.constant() && f.constant() {
            return (bounded, branches + RECORD + self.literal(c, place));
        }
        let sides = [(false, t.words()), (true, f.words())].map(|(neg, words)| {
            // the sum less the new integer
            conjunction(&[self.visit(c, neg, place), compared(words + 2, 0)])
        });
        let own_clauses = disjunction(&sides);
        self.opened += branches + RECORD + own_clauses.words + own_clauses.beside;
        if own {
            self.placed.insert(e, bounded);
        } else {
            self.known.insert(e.clone(), bounded);
        }
        (bounded, 0)
    }

    /// The words that a condition brings as a literal: a declared variable has one, anything else is tied to a new one.
    fn literal(&mut self, c: &BoolExpr, place: Place) -> u128 {
        if let BoolExpr::Var(_) = c {
            return 0;
        }
        let tally = self.equivalent(c, place);
        tally.words + tally.beside
    }

    /// A clause for each pair; then, where all are variables with equal domains of as many values, a clause for each value.
    fn different(&mut self, exprs: &[IntExpr]) -> u128 {
        let mut words = 0;
        for (i, l) in exprs.iter().enumerate() {
            words += exprs[i + 1..].iter().map(|r| self.pair(l, r)).sum::<u128>();
        }
        let n = exprs.len() as u128;
        words + if self.used_up(exprs) { n * (2 + EQUALITY * n) } else { 0 }
    }

    /// Each pair is normalised by itself.
    fn pair(&mut self, l: &IntExpr, r: &IntExpr) -> u128 {
        self.begin();
        let extras = self.int_extras(l) + self.int_extras(r);
        let tally = self.comparison(l, r, Place::Under);
        extras + tally.words + tally.beside
    }

    fn used_up(&self, exprs: &[IntExpr]) -> bool {
        let n = exprs.len() as u64;
        let domain = |e: &IntExpr| match e {
            IntExpr::Var(v) => Some(&self.set.domains[v.to_index()]),
            _ => None,
        };
        let Some(domains) = exprs.iter().map(domain).collect::<Option<Vec<&Domain>>>() else {
            return false;
        };
        domains.iter().all(|d| d.count() == n) && domains.iter().all(|d| (0..n).all(|k| d.nth(k) == domains[0].nth(k)))
    }

    fn table(&mut self, columns: &[IntExpr], rows: &[Vec<Option<i32>>]) -> u128 {
        let mut ties = 0;
        let mut domains = vec![];
        for column in columns {
            if let IntExpr::Var(v) = column {
                self.met.insert(v.to_index());
                domains.push(self.set.domains[v.to_index()].clone());
            } else {
                self.begin();
                let sum = self.sum(column, Place::Column);
                let (low, high) = sum.bounds();
                ties += sum.beside + RECORD + compared(sum.words() + 2, 0).words;
                domains.push(Domain::Range(low as i32, high as i32));
            }
        }
        ties + table_words(&domains, rows)
    }
}

/// Whether a Xor or Iff stands anywhere in it, conditions included.
fn crosses(e: &BoolExpr) -> bool {
    match e {
        BoolExpr::Const(_) | BoolExpr::Var(_) | BoolExpr::NVar(_) => false,
        BoolExpr::And(members) | BoolExpr::Or(members) => members.iter().any(|m| crosses(m)),
        BoolExpr::Not(e) => crosses(e),
        BoolExpr::Imp(l, r) => crosses(l) || crosses(r),
        BoolExpr::Xor(_, _) | BoolExpr::Iff(_, _) => true,
        BoolExpr::Cmp(_, l, r) => crosses_int(l) || crosses_int(r),
    }
}

fn crosses_int(e: &IntExpr) -> bool {
    match e {
        IntExpr::Linear(terms) => terms.iter().any(|(term, _)| crosses_int(term)),
        IntExpr::If(c, t, f) => crosses(c) || crosses_int(t) || crosses_int(f),
        _ => false,
    }
}

#[derive(Default)]
struct Sum {
    constant: i128,
    /// The coefficient, the lowest and the highest value of each emitted integer.
    terms: BTreeMap<Emitted, (i128, i128, i128)>,
    /// The words of the Ifs that were made on the way.
    beside: u128,
}

impl Sum {
    fn add(&mut self, (emitted, low, high): Bounded, coefficient: i128) {
        self.terms.entry(emitted).or_insert((0, low, high)).0 += coefficient;
    }

    fn words(&self) -> u128 {
        3 + 2 * self.terms.values().filter(|(c, _, _)| *c != 0).count() as u128
    }

    /// Whether no term is left.
    fn constant(&self) -> bool {
        self.terms.values().all(|(c, _, _)| *c == 0)
    }

    /// Lowest to highest, each variable's terms put together.
    fn bounds(&self) -> (i128, i128) {
        let ends = self.terms.values().map(|(c, low, high)| ((c * low).min(c * high), (c * low).max(c * high)));
        ends.fold((self.constant, self.constant), |(low, high), (a, b)| (low + a, high + b))
    }
}
