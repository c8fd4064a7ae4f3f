//! The clause sheet, written from the request's sentences over strings; it shares nothing with the port.
use crate::answer::{decode, Clause, Comparison};
use crate::call::{call, Outcome};
use crate::listing::{listing, words, SLICE};

const WIDTH: usize = 80;
const MARGIN: usize = 10;

/// What the program prints for a text: the sheet, or the listing's one line.
pub fn sheet_listing(text: &[u8]) -> String {
    let set = words(text).unwrap_or_default();
    match call(&set, SLICE, SLICE) {
        Outcome::Compiled(answer) if !set.is_empty() => sheet(&decode(set[0] as usize, set[1] as usize, &answer).unwrap().clauses),
        _ => listing(text),
    }
}

/// The sheet's bytes: lines of exactly 80 characters and a line feed.
pub fn sheet(clauses: &[Clause]) -> String {
    let mut text = String::new();
    for (i, clause) in clauses.iter().enumerate() {
        for line in lines(i + 1, clause) {
            text.push_str(&format!("{line:<WIDTH$}\n"));
        }
    }
    text
}

/// A clause's lines, not yet filled.
fn lines(number: usize, clause: &Clause) -> Vec<String> {
    let mut lines = vec![format!("{number:>8}  ")];
    let literals = clause.literals.iter().map(|n| n.to_string());
    let comparisons = clause.comparisons.iter().map(comparison);
    for (i, item) in literals.chain(comparisons).enumerate() {
        let line = lines.last_mut().unwrap();
        let gap = if i == 0 { "" } else { " " };
        if line.len() + gap.len() + item.len() <= WIDTH {
            line.push_str(gap);
            line.push_str(&item);
        } else if item.len() <= WIDTH - MARGIN {
            lines.push(" ".repeat(MARGIN) + &item);
        } else {
            if i > 0 {
                lines.push(" ".repeat(MARGIN));
            }
            broken(&mut lines, &item);
        }
    }
    lines
}

/// A comparison that is too long for a line of its own, from the last line on: cut after the last pair and comma that fit.
fn broken(lines: &mut Vec<String>, item: &str) {
    let mut rest = item;
    while rest.len() > WIDTH - MARGIN {
        let terms = rest.rfind(':').map_or(0, |colon| colon + 1);
        let commas: Vec<usize> = rest.bytes().enumerate().filter(|(i, b)| *i >= terms && *b == b',').map(|(i, _)| i).collect();
        let cut = commas.iter().skip(1).step_by(2).take_while(|c| **c < WIDTH - MARGIN).last().unwrap() + 1;
        lines.last_mut().unwrap().push_str(&rest[..cut]);
        lines.push(" ".repeat(MARGIN));
        rest = &rest[cut..];
    }
    lines.last_mut().unwrap().push_str(rest);
}

/// The listing's text without its semicolon.
fn comparison(c: &Comparison) -> String {
    let terms: Vec<String> = c.terms.iter().map(|(v, a)| format!("{v},{a}")).collect();
    format!("{}:{}:{}", c.op, c.constant, terms.join(","))
}
