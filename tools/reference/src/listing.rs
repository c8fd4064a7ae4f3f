//! The listing program: text to words, and an outcome to text.
use crate::answer::{decode, Clause, Comparison};
use crate::call::{call, Outcome};
use std::fmt::Write;

/// The lengths of the slices that the program lends.
pub const SLICE: usize = 16384;
const TEXT: usize = 65536;

/// What the program prints for a text.
pub fn listing(text: &[u8]) -> String {
    match words(text) {
        None => "answer=unread\n".to_string(),
        Some(set) => print(&set, &call(&set, SLICE, SLICE)),
    }
}

/// The set's words in order; nothing where the text has another form.
pub fn words(text: &[u8]) -> Option<Vec<i32>> {
    if text.len() > TEXT {
        return None;
    }
    let mut lines = lines(text)?.into_iter().peekable();
    let mut set = vec![];
    set.push(one(lines.next()?.strip_prefix(b"bools=")?)?);
    set.push(one(lines.next()?.strip_prefix(b"ints=")?)?);
    while let Some(rest) = lines.peek().and_then(|line| line.strip_prefix(b"int=")) {
        set.extend(numbers(rest)?);
        lines.next();
    }
    set.push(one(lines.next()?.strip_prefix(b"statements=")?)?);
    for line in lines {
        set.extend(numbers(line.strip_prefix(b"statement=")?)?);
    }
    Some(set)
}

/// The lines without their line feeds; the last one must have its own.
fn lines(text: &[u8]) -> Option<Vec<&[u8]>> {
    let body = text.strip_suffix(b"\n")?;
    Some(body.split(|byte| *byte == b'\n').collect())
}

fn one(text: &[u8]) -> Option<i32> {
    let numbers = numbers(text)?;
    if numbers.len() == 1 {
        numbers.first().copied()
    } else {
        None
    }
}

fn numbers(text: &[u8]) -> Option<Vec<i32>> {
    text.split(|byte| *byte == b',').map(number).collect()
}

/// Digits without leading zeros, after a minus if negative, within i32.
fn number(text: &[u8]) -> Option<i32> {
    let (negative, digits) = match text.strip_prefix(b"-") {
        Some(digits) => (true, digits),
        None => (false, text),
    };
    let plain = !digits.is_empty() && digits.len() <= 10 && digits.iter().all(u8::is_ascii_digit);
    if !plain || (digits[0] == b'0' && (negative || digits.len() > 1)) {
        return None;
    }
    let value = digits.iter().fold(0i64, |value, digit| value * 10 + (digit - b'0') as i64);
    i32::try_from(if negative { -value } else { value }).ok()
}

/// The lines of an outcome; the set's first two words tell where the answer's maps end.
pub fn print(set: &[i32], outcome: &Outcome) -> String {
    match outcome {
        Outcome::Compiled(answer) => compiled(set, answer),
        Outcome::Contradiction => "answer=contradiction\n".to_string(),
        Outcome::Refused(number) => format!("answer=refused,{number}\n"),
        Outcome::Panicked => "answer=panicked\n".to_string(),
    }
}

fn compiled(set: &[i32], words: &[i32]) -> String {
    let count = |at: usize| set.get(at).map_or(0, |word| *word as usize);
    let Some(answer) = decode(count(0), count(1), words) else {
        return "answer=malformed\n".to_string();
    };
    let mut text = String::from("answer=compiled\n");
    let _ = writeln!(text, "fixed={}", commas(&answer.fixed));
    let _ = writeln!(text, "bools={}", commas(&answer.bool_map));
    let _ = writeln!(text, "ints={}", commas(&answer.int_map));
    let _ = writeln!(text, "emitted={},{}", answer.bools, answer.domains.len());
    for domain in &answer.domains {
        let _ = writeln!(text, "domain={}", commas(domain));
    }
    for clause in &answer.clauses {
        let _ = writeln!(text, "{}", clause_line(clause));
    }
    let total: usize = answer.clauses.iter().map(|clause| clause.literals.len() + clause.comparisons.len()).sum();
    let _ = writeln!(text, "clauses={}\ntotal={total}", answer.clauses.len());
    text
}

fn clause_line(clause: &Clause) -> String {
    let comparisons: String = clause.comparisons.iter().map(comparison).collect();
    format!("clause={}{comparisons}", commas(&clause.literals))
}

fn comparison(c: &Comparison) -> String {
    let pairs: Vec<i32> = c.terms.iter().flat_map(|(variable, coefficient)| [*variable, *coefficient]).collect();
    format!(";{}:{}:{}", c.op, c.constant, commas(&pairs))
}

fn commas(words: &[i32]) -> String {
    words.iter().map(|word| word.to_string()).collect::<Vec<_>>().join(",")
}
