//! Sets with Ifs of every kind: in branches, in conditions, equal ones, constant branches, in columns, in pairs, under Xor and Iff.
use super::rng::Rng;
use super::short::choose;
use super::{filled, Scale};
use crate::meaning::{value, Assignment};
use crate::set::{Bool, Domain, Int, Set, Statement, Table, LIMIT};

/// How often a statement is a table, and how often an AllDifferent, in percent.
pub type Kinds = (usize, usize);

/// What the statements of a set are made with.
pub struct Maker<'a> {
    pub rng: &'a mut Rng,
    pub bools: usize,
    pub domains: Vec<Domain>,
    /// Ifs made before, to be written again.
    made: Vec<Int>,
}

pub fn set(rng: &mut Rng, kinds: Kinds, scale: Scale) -> Set {
    let mut maker = Maker::new(rng, scale);
    let (count, depth) = match scale {
        Scale::Small => (maker.rng.size(1, 3), 3),
        Scale::Medium => (maker.rng.size(2, 6), 5),
        Scale::Large => (maker.rng.size(4, 60), 4),
    };
    let statements: Vec<Statement> = (0..count).map(|_| maker.statement(kinds, depth)).collect();
    maker.set(statements)
}

fn domain(rng: &mut Rng) -> Domain {
    let low = rng.range(-2, 2);
    match rng.below(6) {
        0 => Domain::Range(low, low),
        1 => Domain::Values(vec![low, low + 2]),
        2 => Domain::Values(vec![low - 1, low, low + 3]),
        _ => Domain::Range(low, low + rng.range(1, 3)),
    }
}

impl<'a> Maker<'a> {
    pub fn new(rng: &'a mut Rng, scale: Scale) -> Maker<'a> {
        let more = if scale == Scale::Large { rng.size(1, 12) } else { 1 };
        let bools = rng.size(0, 4) * more;
        let domains = (0..rng.size(0, 3) * more).map(|_| domain(rng)).collect();
        Maker { rng, bools, domains, made: vec![] }
    }

    pub fn set(self, statements: Vec<Statement>) -> Set {
        filled(self.bools, &self.domains, statements.into_iter())
    }

    pub fn statement(&mut self, (tables, differents): Kinds, depth: usize) -> Statement {
        match self.rng.below(100) {
            kind if kind < tables => self.table(depth),
            kind if kind < tables + differents => self.different(depth),
            _ => {
                let size = self.rng.size(1, depth + 1);
                Statement::Rule(self.bool(size, depth))
            }
        }
    }

    fn table(&mut self, depth: usize) -> Statement {
        let columns: Vec<Int> = (0..self.rng.size(1, 3)).map(|_| self.int(depth)).collect();
        self.rows(columns)
    }

    /// A table over these columns, most rows the columns' values under some assignment.
    pub fn rows(&mut self, columns: Vec<Int>) -> Statement {
        let stars = if self.rng.chance(30) { 30 } else { 0 };
        let count = self.rng.size(0, 4);
        let rows = (0..count).map(|_| self.row(&columns, stars)).collect();
        Statement::Table(Table { columns, rows })
    }

    fn row(&mut self, columns: &[Int], stars: usize) -> Vec<Option<i32>> {
        let a = self.assignment();
        let cell = |rng: &mut Rng, e: &Int| if rng.chance(80) { value(e, &a) as i32 } else { rng.range(-3, 5) };
        let cells = columns.iter().map(|e| cell(self.rng, e).clamp(-LIMIT, LIMIT)).collect::<Vec<i32>>();
        cells.into_iter().map(|cell| if self.rng.chance(stars) { None } else { Some(cell) }).collect()
    }

    fn assignment(&mut self) -> Assignment {
        let bools = (0..self.bools).map(|_| self.rng.chance(50)).collect();
        let ints = self.domains.iter().map(|d| d.nth(self.rng.below(d.count() as usize) as u64)).collect();
        Assignment { bools, ints }
    }

    fn different(&mut self, depth: usize) -> Statement {
        let count = if self.rng.chance(10) { self.rng.below(2) } else { self.rng.size(2, 4) };
        Statement::AllDifferent((0..count).map(|_| self.int(depth)).collect())
    }

    pub fn bool(&mut self, size: usize, depth: usize) -> Bool {
        if size <= 1 {
            return self.leaf(depth);
        }
        let left = self.rng.size(1, size - 1);
        let kind = self.rng.below(9);
        if kind == 0 {
            return Bool::Not(Box::new(self.bool(size - 1, depth)));
        }
        let (l, r) = (self.bool(left, depth), self.bool(size - left, depth));
        match kind {
            1 => Bool::And(vec![l, r]),
            2 => Bool::Or(vec![l, r]),
            3 => Bool::Or(vec![l, r, self.bool(1, depth)]),
            4 => Bool::Imp(Box::new(l), Box::new(r)),
            5..=6 => Bool::Xor(Box::new(l), Box::new(r)),
            _ => Bool::Iff(Box::new(l), Box::new(r)),
        }
    }

    fn leaf(&mut self, depth: usize) -> Bool {
        if self.bools > 0 && (depth == 0 || self.rng.chance(45)) {
            let v = Bool::Var(self.rng.below(self.bools));
            return if self.rng.chance(15) { Bool::Not(Box::new(v)) } else { v };
        }
        if self.rng.chance(4) {
            return Bool::Const(self.rng.chance(50));
        }
        let op = self.rng.below(6) as u8;
        let below = depth.saturating_sub(1);
        Bool::Compare(op, self.int(below), self.int(below))
    }

    pub fn int(&mut self, depth: usize) -> Int {
        if depth > 0 && self.rng.chance(45) {
            return self.an_if(depth);
        }
        if depth > 0 && self.rng.chance(30) {
            let count = self.rng.size(0, 3);
            return Int::Sum((0..count).map(|_| (self.rng.pick(&[1, 1, -1, 2, 0, -3]), self.int(depth - 1))).collect());
        }
        if !self.domains.is_empty() && self.rng.chance(60) {
            return Int::Var(self.rng.below(self.domains.len()));
        }
        Int::Const(self.rng.range(-2, 4))
    }

    /// A new one, or one made before.
    pub fn an_if(&mut self, depth: usize) -> Int {
        if !self.made.is_empty() && self.rng.chance(30) {
            return self.rng.pick(&self.made);
        }
        let size = self.rng.pick(&[1, 1, 1, 2, 3]);
        let condition = self.bool(size, depth.saturating_sub(1));
        let (t, f) = (self.branch(depth), self.branch(depth));
        let made = choose(condition, t, f);
        self.made.push(made.clone());
        made
    }

    fn branch(&mut self, depth: usize) -> Int {
        if self.rng.chance(40) {
            return Int::Const(self.rng.range(-2, 4));
        }
        self.int(depth.saturating_sub(1))
    }
}
