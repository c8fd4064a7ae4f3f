//! An answer's words, read back.

#[derive(Clone, Debug, PartialEq)]
pub struct Comparison {
    pub op: i32,
    pub constant: i32,
    /// Emitted number and coefficient.
    pub terms: Vec<(i32, i32)>,
}

#[derive(Clone, Debug, PartialEq)]
pub struct Clause {
    /// Number plus 1, negative if negated.
    pub literals: Vec<i32>,
    pub comparisons: Vec<Comparison>,
}

#[derive(Clone, Debug, PartialEq)]
pub struct Answer {
    pub fixed: Vec<i32>,
    pub bool_map: Vec<i32>,
    pub int_map: Vec<i32>,
    /// The count of emitted Booleans.
    pub bools: i32,
    /// Kind 0 with lowest, highest and number of values, or 1 with a literal, the value if false, the value if true.
    pub domains: Vec<[i32; 4]>,
    pub clauses: Vec<Clause>,
}

struct Words<'a>(std::slice::Iter<'a, i32>);

/// The answer to a set of that many variables; nothing where the words do not fit the layout.
pub fn decode(bools: usize, ints: usize, words: &[i32]) -> Option<Answer> {
    let mut w = Words(words.iter());
    let fixed = w.many(bools)?;
    let bool_map = w.many(bools)?;
    let int_map = w.many(ints)?;
    let emitted_bools = w.word()?;
    let domains = w.counted(|w| Some([w.word()?, w.word()?, w.word()?, w.word()?]))?;
    let clauses = w.counted(Words::clause)?;
    if w.word().is_some() {
        return None;
    }
    Some(Answer { fixed, bool_map, int_map, bools: emitted_bools, domains, clauses })
}

/// The words of an answer.
pub fn encode(answer: &Answer) -> Vec<i32> {
    let mut out = [&answer.fixed[..], &answer.bool_map, &answer.int_map].concat();
    out.extend([answer.bools, answer.domains.len() as i32]);
    out.extend(answer.domains.iter().flatten());
    out.extend(encode_clauses(&answer.clauses));
    out
}

/// The count of the clauses and their words.
pub fn encode_clauses(clauses: &[Clause]) -> Vec<i32> {
    let mut out = vec![clauses.len() as i32];
    for clause in clauses {
        out.push(clause.literals.len() as i32);
        out.extend(&clause.literals);
        out.push(clause.comparisons.len() as i32);
        for c in &clause.comparisons {
            out.extend([c.op, c.constant, c.terms.len() as i32]);
            out.extend(c.terms.iter().flat_map(|(v, coefficient)| [*v, *coefficient]));
        }
    }
    out
}

impl Words<'_> {
    fn word(&mut self) -> Option<i32> {
        self.0.next().copied()
    }

    fn many(&mut self, count: usize) -> Option<Vec<i32>> {
        (0..count).map(|_| self.word()).collect()
    }

    fn counted<T>(&mut self, item: impl Fn(&mut Self) -> Option<T>) -> Option<Vec<T>> {
        let count = self.word()?;
        if count < 0 {
            return None;
        }
        (0..count).map(|_| item(self)).collect()
    }

    fn clause(&mut self) -> Option<Clause> {
        let literals = self.counted(Words::word)?;
        let comparisons = self.counted(Words::comparison)?;
        Some(Clause { literals, comparisons })
    }

    fn comparison(&mut self) -> Option<Comparison> {
        let op = self.word()?;
        let constant = self.word()?;
        let terms = self.counted(|w| Some((w.word()?, w.word()?)))?;
        Some(Comparison { op, constant, terms })
    }
}
