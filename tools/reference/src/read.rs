//! Refusals 3 to 8: one reading from left to right, the first offending word decides.
use crate::set::{Bool, Domain, Int, Set, Statement, Table, LIMIT, STAR};

/// A refusal's number.
pub type Refusal = u8;
type Read<T> = Result<T, Refusal>;

const COUNT: i32 = 4096;
const BOOLS: i32 = 512;
const INTS: i32 = 256;
const DEPTH: usize = 64;

struct Reader<'a> {
    words: &'a [i32],
    at: usize,
    bools: usize,
    ints: usize,
}

/// The set that the words say, or the refusal (3 to 8).
pub fn read(words: &[i32]) -> Read<Set> {
    let mut reader = Reader { words, at: 0, bools: 0, ints: 0 };
    let set = reader.set()?;
    if reader.at < words.len() {
        return Err(3);
    }
    Ok(set)
}

impl Reader<'_> {
    fn word(&mut self) -> Read<i32> {
        let word = *self.words.get(self.at).ok_or(3)?;
        self.at += 1;
        Ok(word)
    }

    fn within(&mut self, low: i32, high: i32) -> Read<i32> {
        let word = self.word()?;
        if low <= word && word <= high {
            Ok(word)
        } else {
            Err(4)
        }
    }

    fn count(&mut self, high: i32) -> Read<usize> {
        Ok(self.within(0, high)? as usize)
    }

    fn value(&mut self) -> Read<i32> {
        self.within(-LIMIT, LIMIT)
    }

    fn index(&mut self, declared: usize) -> Read<usize> {
        let word = self.word()?;
        if 0 <= word && (word as usize) < declared {
            Ok(word as usize)
        } else {
            Err(6)
        }
    }

    fn set(&mut self) -> Read<Set> {
        self.bools = self.count(BOOLS)?;
        self.ints = self.count(INTS)?;
        let mut domains = vec![];
        for _ in 0..self.ints {
            domains.push(self.domain()?);
        }
        let mut statements = vec![];
        for _ in 0..self.count(COUNT)? {
            statements.push(self.statement()?);
        }
        Ok(Set { bools: self.bools, domains, statements })
    }

    fn domain(&mut self) -> Read<Domain> {
        match self.word()? {
            0 => self.range(),
            1 => self.enumerated(),
            _ => Err(5),
        }
    }

    fn range(&mut self) -> Read<Domain> {
        let low = self.value()?;
        let high = self.value()?;
        if low > high {
            return Err(7);
        }
        Ok(Domain::Range(low, high))
    }

    fn enumerated(&mut self) -> Read<Domain> {
        let count = self.word()?;
        if count < 1 {
            return Err(7);
        }
        if count > COUNT {
            return Err(4);
        }
        let mut values: Vec<i32> = vec![];
        for _ in 0..count {
            let value = self.value()?;
            if values.last().is_some_and(|last| value <= *last) {
                return Err(7);
            }
            values.push(value);
        }
        Ok(Domain::Values(values))
    }

    fn statement(&mut self) -> Read<Statement> {
        match self.word()? {
            1 => Ok(Statement::Rule(self.bool(1)?)),
            2 => Ok(Statement::Table(self.table()?)),
            3 => Ok(Statement::AllDifferent(self.different()?)),
            _ => Err(5),
        }
    }

    fn table(&mut self) -> Read<Table> {
        let columns_count = self.count(COUNT)?;
        let rows_count = self.count(COUNT)?;
        let mut columns = vec![];
        for _ in 0..columns_count {
            columns.push(self.int(1)?);
        }
        let mut rows = vec![];
        for _ in 0..rows_count {
            let mut row = vec![];
            for _ in 0..columns_count {
                row.push(self.cell()?);
            }
            rows.push(row);
        }
        Ok(Table { columns, rows })
    }

    /// Each expression begins at level 1, as a column does.
    fn different(&mut self) -> Read<Vec<Int>> {
        let mut exprs = vec![];
        for _ in 0..self.count(COUNT)? {
            exprs.push(self.int(1)?);
        }
        Ok(exprs)
    }

    fn cell(&mut self) -> Read<Option<i32>> {
        match self.word()? {
            STAR => Ok(None),
            cell if (-LIMIT..=LIMIT).contains(&cell) => Ok(Some(cell)),
            _ => Err(4),
        }
    }

    /// The code word: 5 if it is not of this kind, else 8 if it stands too deep.
    fn code(&mut self, low: i32, high: i32, level: usize) -> Read<i32> {
        let code = self.word()?;
        if code < low || high < code {
            return Err(5);
        }
        if level > DEPTH {
            return Err(8);
        }
        Ok(code)
    }

    fn bool(&mut self, level: usize) -> Read<Bool> {
        match self.code(10, 18, level)? {
            10 => Ok(Bool::Const(self.within(0, 1)? == 1)),
            11 => Ok(Bool::Var(self.index(self.bools)?)),
            12 => Ok(Bool::And(self.members(level)?)),
            13 => Ok(Bool::Or(self.members(level)?)),
            14 => Ok(Bool::Not(self.side(level)?)),
            15 => Ok(Bool::Xor(self.side(level)?, self.side(level)?)),
            16 => Ok(Bool::Iff(self.side(level)?, self.side(level)?)),
            17 => Ok(Bool::Imp(self.side(level)?, self.side(level)?)),
            _ => {
                let op = self.within(0, 5)? as u8;
                Ok(Bool::Compare(op, self.int(level + 1)?, self.int(level + 1)?))
            }
        }
    }

    fn side(&mut self, level: usize) -> Read<Box<Bool>> {
        Ok(Box::new(self.bool(level + 1)?))
    }

    fn members(&mut self, level: usize) -> Read<Vec<Bool>> {
        let mut members = vec![];
        for _ in 0..self.count(COUNT)? {
            members.push(self.bool(level + 1)?);
        }
        Ok(members)
    }

    fn int(&mut self, level: usize) -> Read<Int> {
        match self.code(20, 23, level)? {
            20 => Ok(Int::Const(self.value()?)),
            21 => Ok(Int::Var(self.index(self.ints)?)),
            23 => {
                let c = self.side(level)?;
                Ok(Int::If(c, Box::new(self.int(level + 1)?), Box::new(self.int(level + 1)?)))
            }
            _ => {
                let mut terms = vec![];
                for _ in 0..self.count(COUNT)? {
                    let coefficient = self.value()?;
                    terms.push((coefficient, self.int(level + 1)?));
                }
                Ok(Int::Sum(terms))
            }
        }
    }
}
