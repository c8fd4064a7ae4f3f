//! A set as a tree, and the words of a tree.

/// The least and the largest value, coefficient or constant is this, negated and plain.
pub const LIMIT: i32 = 1073741823;
/// The cell that permits every value.
pub const STAR: i32 = i32::MIN;

#[derive(Clone, Debug, PartialEq)]
pub enum Bool {
    Const(bool),
    Var(usize),
    And(Vec<Bool>),
    Or(Vec<Bool>),
    Not(Box<Bool>),
    Xor(Box<Bool>, Box<Bool>),
    Iff(Box<Bool>, Box<Bool>),
    Imp(Box<Bool>, Box<Bool>),
    /// The operator's number, left side, right side.
    Compare(u8, Int, Int),
}

#[derive(Clone, Debug, PartialEq)]
pub enum Int {
    Const(i32),
    Var(usize),
    /// Coefficient and expression of each term.
    Sum(Vec<(i32, Int)>),
    /// Condition, the value if it holds, the value if not.
    If(Box<Bool>, Box<Int>, Box<Int>),
}

#[derive(Clone, Debug, PartialEq)]
pub enum Domain {
    Range(i32, i32),
    Values(Vec<i32>),
}

#[derive(Clone, Debug, PartialEq)]
pub struct Table {
    pub columns: Vec<Int>,
    /// None is the star.
    pub rows: Vec<Vec<Option<i32>>>,
}

#[derive(Clone, Debug, PartialEq)]
pub enum Statement {
    Rule(Bool),
    Table(Table),
    /// Request 2.1: the values of the expressions differ pairwise.
    AllDifferent(Vec<Int>),
}

#[derive(Clone, Debug, PartialEq)]
pub struct Set {
    pub bools: usize,
    pub domains: Vec<Domain>,
    pub statements: Vec<Statement>,
}

impl Domain {
    pub fn lowest(&self) -> i32 {
        match self {
            Domain::Range(low, _) => *low,
            Domain::Values(values) => values.first().copied().unwrap_or(1),
        }
    }

    pub fn highest(&self) -> i32 {
        match self {
            Domain::Range(_, high) => *high,
            Domain::Values(values) => values.last().copied().unwrap_or(0),
        }
    }

    /// The number of values.
    pub fn count(&self) -> u64 {
        match self {
            Domain::Range(low, high) => (*high as i64 - *low as i64 + 1).max(0) as u64,
            Domain::Values(values) => values.len() as u64,
        }
    }

    pub fn holds(&self, value: i64) -> bool {
        match self {
            Domain::Range(low, high) => *low as i64 <= value && value <= *high as i64,
            Domain::Values(values) => values.iter().any(|v| *v as i64 == value),
        }
    }

    /// The value at a place, counted from the lowest.
    pub fn nth(&self, place: u64) -> i64 {
        match self {
            Domain::Range(low, _) => *low as i64 + place as i64,
            Domain::Values(values) => values[place as usize] as i64,
        }
    }
}

impl Set {
    pub fn words(&self) -> Vec<i32> {
        let mut out = vec![self.bools as i32, self.domains.len() as i32];
        for domain in &self.domains {
            domain_words(domain, &mut out);
        }
        out.push(self.statements.len() as i32);
        for statement in &self.statements {
            statement_words(statement, &mut out);
        }
        out
    }
}

fn domain_words(domain: &Domain, out: &mut Vec<i32>) {
    match domain {
        Domain::Range(low, high) => out.extend([0, *low, *high]),
        Domain::Values(values) => {
            out.extend([1, values.len() as i32]);
            out.extend(values);
        }
    }
}

pub fn statement_words(statement: &Statement, out: &mut Vec<i32>) {
    match statement {
        Statement::Rule(rule) => {
            out.push(1);
            bool_words(rule, out);
        }
        Statement::Table(table) => {
            out.extend([2, table.columns.len() as i32, table.rows.len() as i32]);
            table.columns.iter().for_each(|column| int_words(column, out));
            for row in &table.rows {
                out.extend(row.iter().map(|cell| cell.unwrap_or(STAR)));
            }
        }
        Statement::AllDifferent(exprs) => {
            out.extend([3, exprs.len() as i32]);
            exprs.iter().for_each(|e| int_words(e, out));
        }
    }
}

pub fn bool_words(e: &Bool, out: &mut Vec<i32>) {
    match e {
        Bool::Const(b) => out.extend([10, *b as i32]),
        Bool::Var(v) => out.extend([11, *v as i32]),
        Bool::And(members) => members_words(12, members, out),
        Bool::Or(members) => members_words(13, members, out),
        Bool::Not(e) => {
            out.push(14);
            bool_words(e, out);
        }
        Bool::Xor(l, r) => sides_words(15, l, r, out),
        Bool::Iff(l, r) => sides_words(16, l, r, out),
        Bool::Imp(l, r) => sides_words(17, l, r, out),
        Bool::Compare(op, l, r) => {
            out.extend([18, *op as i32]);
            int_words(l, out);
            int_words(r, out);
        }
    }
}

fn members_words(code: i32, members: &[Bool], out: &mut Vec<i32>) {
    out.extend([code, members.len() as i32]);
    members.iter().for_each(|member| bool_words(member, out));
}

fn sides_words(code: i32, left: &Bool, right: &Bool, out: &mut Vec<i32>) {
    out.push(code);
    bool_words(left, out);
    bool_words(right, out);
}

pub fn int_words(e: &Int, out: &mut Vec<i32>) {
    match e {
        Int::Const(c) => out.extend([20, *c]),
        Int::Var(v) => out.extend([21, *v as i32]),
        Int::Sum(terms) => {
            out.extend([22, terms.len() as i32]);
            for (coefficient, term) in terms {
                out.push(*coefficient);
                int_words(term, out);
            }
        }
        Int::If(c, t, f) => {
            out.push(23);
            bool_words(c, out);
            int_words(t, out);
            int_words(f, out);
        }
    }
}
