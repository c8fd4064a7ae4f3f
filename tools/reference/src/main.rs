//! Commands over the reference; README.md lists them.
use reference::call::counted;
use reference::generate::{case, iflimits, limits, FAMILIES, IFS};
use reference::meaning::{check, check_with, Verdict};
use reference::merge::{model, ties};
use reference::record::{commas, inputs, record, record_merged, result};
use reference::settled::{settled, Settled};
use reference::{call, call_with, cases, listing::listing, sheet::sheet_listing, Outcome};
use std::collections::BTreeMap;
use std::io::{Read, Write};
use std::process::ExitCode;

const P1: &str = "bools=3\nints=0\nstatements=1\nstatement=1,16,11,0,12,2,11,1,11,2\n";
const SLICE: usize = 16384;

fn main() -> ExitCode {
    let arguments: Vec<String> = std::env::args().skip(1).collect();
    let arguments: Vec<&str> = arguments.iter().map(String::as_str).collect();
    let done = match arguments[..] {
        ["p1"] => show(&listing(P1.as_bytes())),
        ["listing"] => show(&listing(&input())),
        ["sheet"] => show(&sheet_listing(&input())),
        ["words"] => words(SLICE, false),
        ["words", length] => length.parse().is_ok_and(|length| words(length, false)),
        ["merged"] => words(SLICE, true),
        ["settled"] => given().is_some_and(|set| show(&format!("{}\n", beside(&set, 1 << 24)))),
        ["settled", seed, family, count] => each(seed, family, count, settled_case),
        ["cases"] => report(&cases::differences()),
        ["generate", seed, family, count] => each(seed, family, count, generated),
        ["record", seed, family, count] => each(seed, family, count, record),
        ["record", seed, family, count, "merged"] => each(seed, family, count, record_merged),
        ["meaning", seed, family, count] => meaning(seed, family, count),
        ["merging", seed, family, count] => merging(seed, family, count),
        ["sizes", seed, family, count] => sizes(seed, family, count),
        ["refusals", seed, count] => refusals(seed, count),
        _ => usage(),
    };
    if done {
        ExitCode::SUCCESS
    } else {
        ExitCode::FAILURE
    }
}

fn usage() -> bool {
    eprintln!(
        "p1 | listing | sheet | words [OUT] | merged | settled [SEED FAMILY COUNT] | cases | generate SEED FAMILY COUNT | record SEED FAMILY COUNT [merged]"
    );
    eprintln!("meaning SEED FAMILY COUNT | merging SEED FAMILY COUNT | sizes SEED FAMILY COUNT | refusals SEED COUNT");
    eprintln!("families: {}, longest, text and iftext (generate and record only)", FAMILIES.join(", "));
    eprintln!("families with Ifs: {}", IFS.join(", "));
    eprintln!("meaning, merging and sizes also take all, the first but longest, and allifs, those with Ifs");
    false
}

/// Prints, and says whether that went well.
fn show(text: &str) -> bool {
    std::io::stdout().write_all(text.as_bytes()).is_ok()
}

fn input() -> Vec<u8> {
    let mut text = vec![];
    let _ = std::io::stdin().read_to_end(&mut text);
    text
}

/// The words on standard input.
fn given() -> Option<Vec<i32>> {
    let text = String::from_utf8_lossy(&input()).replace(',', " ");
    let words = text.split_whitespace().map(str::parse).collect::<Result<Vec<i32>, _>>();
    words.map_err(|_| eprintln!("words are numbers parted by blanks or commas")).ok()
}

fn words(out_len: usize, merge: bool) -> bool {
    given().is_some_and(|set| show(&format!("{}\n", result(&call_with(&set, out_len, SLICE, merge)))))
}

/// The set, what the passes leave of it, and the answer: for models of what comes between them.
fn beside(set: &[i32], out_len: usize) -> String {
    let left = match settled(set, SLICE) {
        Settled::Words(words) => commas(&words),
        other => format!("{other:?}").to_lowercase(),
    };
    format!("set={} settled={left} result={}", commas(set), result(&call(set, out_len, SLICE)))
}

fn settled_case(family: &str, seed: u64, index: u64) -> Option<String> {
    case(family, seed, index).map(|case| beside(&case.set, case.out_len))
}

fn report(differences: &[String]) -> bool {
    differences.iter().for_each(|difference| println!("{difference}"));
    println!("{} differences", differences.len());
    differences.is_empty()
}

fn generated(family: &str, seed: u64, index: u64) -> Option<String> {
    if let Some(text) = reference::generate::text(family, seed, index) {
        return Some(text.escape_ascii().to_string());
    }
    case(family, seed, index).map(|case| inputs(&case))
}

type Line = fn(&str, u64, u64) -> Option<String>;

/// One line for each index of a family.
fn each(seed: &str, family: &str, count: &str, line: Line) -> bool {
    let (Ok(seed), Ok(count)) = (seed.parse(), count.parse()) else {
        return usage();
    };
    (0..count).all(|index| match line(family, seed, index) {
        Some(line) => show(&format!("{line}\n")),
        None => usage(),
    })
}

/// Tallies what a test says of each case; a text that begins with "differs" ends the family.
fn tally(seed: &str, family: &str, count: &str, test: fn(&[i32]) -> String) -> bool {
    let (Ok(seed), Ok(count)) = (seed.parse::<u64>(), count.parse::<u64>()) else {
        return usage();
    };
    let families = match family {
        "all" => FAMILIES.to_vec(),
        "allifs" => IFS.to_vec(),
        family => vec![family],
    };
    families.iter().all(|family| {
        let mut tallies: BTreeMap<String, u64> = BTreeMap::new();
        for index in 0..count {
            let Some(case) = case(family, seed, index) else {
                return usage();
            };
            let said = test(&case.set);
            if said.starts_with("differs") {
                println!("{family} seed {seed} index {index}: {said}\nset {}", commas(&case.set));
                return false;
            }
            *tallies.entry(said).or_insert(0) += 1;
        }
        println!("{family} seed {seed}: {count} sets {tallies:?}");
        true
    })
}

fn meaning(seed: &str, family: &str, count: &str) -> bool {
    tally(seed, family, count, |set| verdict(check(set)))
}

fn verdict(found: Verdict) -> String {
    match found {
        Verdict::Agrees(0, _) => "agrees, none pass".to_string(),
        Verdict::Agrees(passing, all) if passing == all => "agrees, all pass".to_string(),
        Verdict::Agrees(_, _) => "agrees, some pass".to_string(),
        Verdict::Contradiction(_) => "contradiction".to_string(),
        Verdict::Refused(number) => format!("refused {number}"),
        Verdict::TooLarge => "too large".to_string(),
        Verdict::Differs(how) => format!("differs: {how}"),
    }
}

/// The Rust with merging against the model, word for word where they are not known to part; and the meaning of the answer.
fn merging(seed: &str, family: &str, count: &str) -> bool {
    std::panic::set_hook(Box::new(|_| ()));
    tally(seed, family, count, |set| match check_with(set, true) {
        Verdict::Differs(how) => format!("differs: {how}"),
        Verdict::Agrees(_, _) => format!("{}, meaning agrees", merged(set)),
        _ => merged(set),
    })
}

fn merged(set: &[i32]) -> String {
    let model = model(set, 1 << 20, SLICE);
    let rust = call_with(set, 1 << 20, SLICE, true);
    let (Some(ties), Outcome::Compiled(words)) = (ties(set), &model) else {
        return if model == rust { result(&model) } else { format!("differs: {model:?}, {rust:?}") };
    };
    let negative = words[set[0] as usize..2 * set[0] as usize].iter().any(|word| *word < 0);
    match (ties.apart(), model == rust) {
        (true, _) if rust == Outcome::Panicked => "self-tie, the Rust's assertion fails".to_string(),
        (true, false) => "self-tie, the Rust maps otherwise".to_string(),
        (true, true) => "self-tie, equal".to_string(),
        (false, false) => format!("differs: {model:?}, {rust:?}"),
        (false, true) if ties.classes == 0 => "equal, no ties".to_string(),
        (false, true) => format!("equal, ties{}", if negative { ", negated" } else { "" }),
    }
}

/// Whether the counted length is the answer's.
fn sizes(seed: &str, family: &str, count: &str) -> bool {
    tally(seed, family, count, |set| match (call(set, usize::MAX, SLICE), counted(set)) {
        (Outcome::Compiled(answer), Some(count)) if answer.len() as u64 == count => "equal".to_string(),
        (Outcome::Compiled(answer), count) => {
            format!("differs: {} words, counted {count:?}", answer.len())
        }
        (Outcome::Panicked, _) => "differs: the Rust panicked".to_string(),
        _ => "no answer".to_string(),
    })
}

/// The limits against their expectations, and the outcomes of damaged sets.
fn refusals(seed: &str, count: &str) -> bool {
    let limits = [limits::all(), iflimits::all()].concat();
    let differences: Vec<String> = limits.iter().filter_map(|limit| limit.difference()).collect();
    println!("{} limits, {} of them of Ifs", limits.len(), iflimits::all().len());
    report(&differences)
        && tally(seed, "damaged", count, |set| match call(set, SLICE, SLICE) {
            Outcome::Compiled(_) => "compiled".to_string(),
            Outcome::Panicked => "differs: the Rust panicked".to_string(),
            outcome => result(&outcome),
        })
}
