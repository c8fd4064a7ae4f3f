//! Recorded answers: one line a case.
use crate::call::{call, Outcome};
use crate::generate::{case, text, Case};
use crate::listing::listing;
use crate::merge::expected;

/// `set=.. out=.. work=.. result=..`: words parted by commas, lengths, and the outcome with its words or number.
pub fn line(case: &Case, outcome: &Outcome) -> String {
    format!("{} result={}", inputs(case), result(outcome))
}

/// The part of the line that says the call.
pub fn inputs(case: &Case) -> String {
    format!("set={} out={} work={}", commas(&case.set), case.out_len, case.work_len)
}

/// `compiled,` and the answer's words, `contradiction`, or `refused,` and the number.
pub fn result(outcome: &Outcome) -> String {
    match outcome {
        Outcome::Compiled(words) => format!("compiled,{}", commas(words)),
        Outcome::Contradiction => "contradiction".to_string(),
        Outcome::Refused(number) => format!("refused,{number}"),
        Outcome::Panicked => "panicked".to_string(),
    }
}

/// The recorded line of a case; for the families of texts, the text and its listing with escaped line feeds.
pub fn record(family: &str, seed: u64, index: u64) -> Option<String> {
    if let Some(text) = text(family, seed, index) {
        let printed = listing(&text);
        return Some(format!("text={} listing={}", text.escape_ascii(), printed.escape_debug()));
    }
    let case = case(family, seed, index)?;
    let outcome = call(&case.set, case.out_len, case.work_len);
    Some(line(&case, &outcome))
}

/// The recorded line of a case with merging chosen (request 2.7), marked as such.
pub fn record_merged(family: &str, seed: u64, index: u64) -> Option<String> {
    let case = case(family, seed, index)?;
    let outcome = expected(&case.set, case.out_len, case.work_len);
    Some(format!("choices=1 {}", line(&case, &outcome)))
}

pub fn commas(words: &[i32]) -> String {
    words.iter().map(i32::to_string).collect::<Vec<_>>().join(",")
}
