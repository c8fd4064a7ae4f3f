//! The port's check of rosters against the reference, statement by statement.
//! `rosters SEED COUNT [FAMILY..]`: COUNT sets of each family, each with many rosters: enumerated ones of small sets, random and nearly
//! satisfying ones, wrong lengths and wrong values; where the compile is not refused, yes against passing its answer.
//! `rosters speed`: the time of a check by its words.
//! `rosters texts SEED COUNT`: the program crates/roster/out/roster on COUNT texts of each family, a third of them spoilt. Status 1 on the first difference.

use differential::{exit_on_error, roster, run_families, with_ifs};
use reference::generate::{case, Case, FAMILIES};
use reference::listing::words;
use reference::meaning::{passing, statement_holds};
use reference::roster::{assignment, check, check_set, Checked};
use reference::set::Set;
use reference::{call, refuse, Outcome};
use std::collections::BTreeMap;
use std::hint::black_box;
use std::io::Write;
use std::process::{Command, Stdio};
use std::time::Instant;

const WORK: usize = 16384;
/// An answer longer than this is not searched for passing.
const SEARCHED: usize = 2000;

struct Numbers(u64);

impl Numbers {
    fn below(&mut self, count: u64) -> u64 {
        self.0 = self.0.wrapping_mul(6364136223846793005).wrapping_add(1442695040888963407);
        (self.0 >> 33) % count.max(1)
    }
}

fn number(checked: Checked) -> i64 {
    match checked {
        Checked::Yes => 0,
        Checked::Broken(k) => k as i64,
        Checked::Refused(k) => -(k as i64),
    }
}

/// The lent work slice, full of noise before every check; how often each answer was given.
struct Run {
    work: Vec<i32>,
    answers: BTreeMap<&'static str, u64>,
}

impl Run {
    fn compare(&mut self, set: &[i32], values: &[i32], work_len: usize, want: Checked) -> Result<(), String> {
        let before = (set.to_vec(), values.to_vec());
        self.work.clear();
        self.work.resize(work_len, -7);
        let got = roster(set, values, &mut self.work);
        let kind = match want {
            Checked::Yes => "yes",
            Checked::Broken(_) => "broken",
            Checked::Refused(14) => "refused 14",
            Checked::Refused(15) => "refused 15",
            Checked::Refused(_) => "refused 1 to 11",
        };
        *self.answers.entry(kind).or_insert(0) += 1;
        if got != number(want) {
            return Err(format!(
                "work {work_len}: answer {got}, the reference gives {}; values {values:?}",
                number(want)
            ));
        }
        if self.work.iter().any(|word| *word != 0) {
            return Err(format!("the work slice is not zero; values {values:?}"));
        }
        if before.0 != set || before.1 != values {
            return Err("the set or the values were written to".into());
        }
        Ok(())
    }
}

/// The roster with this number, the lowest values first.
fn numbered(set: &Set, number: u64) -> Vec<i32> {
    let mut rest = number;
    let mut digit = |count: u64| {
        let digit = rest % count;
        rest /= count;
        digit
    };
    let mut values: Vec<i32> = (0..set.bools).map(|_| digit(2) as i32).collect();
    values.extend(set.domains.iter().map(|domain| domain.nth(digit(domain.count())) as i32));
    values
}

fn random_value(set: &Set, v: usize, numbers: &mut Numbers) -> i32 {
    match v.checked_sub(set.bools) {
        None => numbers.below(2) as i32,
        Some(i) => {
            let domain = &set.domains[i];
            match numbers.below(4) {
                0 => domain.lowest(),
                1 => domain.highest(),
                _ => domain.nth(numbers.below(domain.count().min(1 << 30))) as i32,
            }
        }
    }
}

fn random(set: &Set, numbers: &mut Numbers) -> Vec<i32> {
    (0..set.bools + set.domains.len()).map(|v| random_value(set, v, numbers)).collect()
}

fn kept(set: &Set, values: &[i32]) -> usize {
    let a = assignment(set, values);
    set.statements.iter().filter(|statement| statement_holds(statement, &a)).count()
}

/// Single changes that break no more statements than before.
fn nearly(set: &Set, numbers: &mut Numbers, steps: usize) -> Vec<Vec<i32>> {
    let mut values = random(set, numbers);
    let mut good = kept(set, &values);
    let mut found = vec![];
    for _ in 0..steps {
        if values.is_empty() || good == set.statements.len() {
            break;
        }
        let v = numbers.below(values.len() as u64) as usize;
        let old = values[v];
        values[v] = random_value(set, v, numbers);
        let now = kept(set, &values);
        if now < good {
            values[v] = old;
        } else {
            if now > good {
                found.push(values.clone());
            }
            good = now;
        }
    }
    found.push(values);
    found
}

/// Values that are no roster: one too few, one too many, none, and single words outside their domains.
fn wrong(set: &Set, numbers: &mut Numbers) -> Vec<Vec<i32>> {
    let good = random(set, numbers);
    let mut all = vec![vec![], [&good[..], &[0]].concat(), [&good[..], &[7, -7]].concat()];
    if good.is_empty() {
        return all;
    }
    all.push(good[..good.len() - 1].to_vec());
    for _ in 0..6 {
        let mut values = good.clone();
        let v = numbers.below(values.len() as u64) as usize;
        values[v] = match v.checked_sub(set.bools) {
            None => [2, -1, 3, i32::MIN, i32::MAX, 256][numbers.below(6) as usize],
            Some(i) => {
                let (low, high) = (set.domains[i].lowest(), set.domains[i].highest());
                let inner = (low as i64 + numbers.below((high as i64 - low as i64 + 1) as u64) as i64) as i32;
                [low.saturating_sub(1), high.saturating_add(1), inner, i32::MIN, i32::MAX, -inner]
                    [numbers.below(6) as usize]
            }
        };
        all.push(values);
    }
    let mut long = all[4].clone();
    long.push(0);
    all.push(long);
    all
}

fn one(run: &mut Run, case: &Case, index: u64, numbers: &mut Numbers) -> Result<(), String> {
    let words = &case.set;
    let set = match refuse::accept(words, case.work_len) {
        Ok(set) => set,
        Err(_) => {
            for values in [&[][..], &[0, 1], &[5, 5, 5]] {
                run.compare(words, values, case.work_len, check(words, values, case.work_len))?;
            }
            return Ok(());
        }
    };
    let count = (0..set.bools)
        .map(|_| 2)
        .chain(set.domains.iter().map(|domain| domain.count()))
        .try_fold(1u64, |total, count| total.checked_mul(count));
    let mut rosters = match count {
        Some(count) if count <= 64 => (0..count).map(|n| numbered(&set, n)).collect(),
        _ => (0..12).map(|_| random(&set, numbers)).collect::<Vec<_>>(),
    };
    rosters.extend(nearly(&set, numbers, if words.len() < 400 { 60 } else { 300 }));
    let answer = call(words, SEARCHED, WORK);
    for (place, values) in rosters.iter().enumerate() {
        let want = check_set(&set, values);
        run.compare(words, values, case.work_len, want)?;
        let passes = match &answer {
            Outcome::Compiled(answer) if place < 24 => passing(&set, answer, &assignment(&set, values)),
            Outcome::Contradiction => Some(false),
            _ => None,
        };
        if passes.is_some_and(|passes| passes != (want == Checked::Yes)) {
            return Err(format!("passing is not yes: {values:?}"));
        }
        *run.answers.entry("compared with passing").or_insert(0) += passes.is_some() as u64;
    }
    for values in wrong(&set, numbers) {
        run.compare(words, &values, case.work_len, check_set(&set, &values))?;
    }
    if index % 16 == 0 {
        for work_len in [0, 16383, 16384, 20000] {
            run.compare(words, &rosters[0], work_len, check(words, &rosters[0], work_len))?;
        }
    }
    Ok(())
}

fn run(seed: u64, count: u64, families: &[&str]) -> Result<(), String> {
    let mut total = 0;
    for family in families {
        let mut run = Run { work: vec![], answers: BTreeMap::new() };
        for index in 0..count {
            let mut numbers = Numbers(seed ^ (index << 20));
            let case = case(family, seed, index).ok_or("no case")?;
            one(&mut run, &case, index, &mut numbers)
                .map_err(|e| format!("{family} seed {seed} index {index}: {e}\nset {:?}", case.set))?;
        }
        let checks: u64 =
            run.answers.iter().filter(|(kind, _)| **kind != "compared with passing").map(|(_, n)| n).sum();
        total += checks;
        println!("{family} seed {seed}: {count} sets, {checks} checks {:?}, no difference", run.answers);
    }
    println!("{total} checks");
    Ok(())
}

/// The least time of many single checks, for a second at most, in nanoseconds.
fn time(name: &str, set: &[i32], values: &[i32]) {
    let mut work = vec![0; WORK];
    let want = number(check(set, values, WORK));
    let once = |work: &mut Vec<i32>| {
        let start = Instant::now();
        let got = black_box(roster(black_box(set), black_box(values), work));
        let time = start.elapsed().as_nanos() as f64;
        assert_eq!(got, want);
        time
    };
    let start = Instant::now();
    let rounds = (0..20000).take_while(|round| *round < 20 || start.elapsed().as_secs_f64() < 1.0);
    let least = rounds.map(|_| once(&mut work)).fold(f64::INFINITY, f64::min);
    println!(
        "{name:44} {:5} words  answer {want:5}  {least:9.0} ns  {:6.2} ns a word",
        set.len(),
        least / set.len() as f64
    );
}

/// What the check costs besides evaluating: clearing the work slice, reading and refusals 1 to 11, each by itself in `refusals`.
fn speed() -> Result<(), String> {
    let rules = |first: &[i32]| {
        let mut set = vec![512, 0, 400];
        set.extend(first);
        (1..400).for_each(|v| set.extend([1, 13, 3, 11, v, 11, v - 1, 11, v + 1]));
        set
    };
    let ones = vec![1; 512];
    time("P6: nothing declared, nothing stated", &[0, 0, 0], &[]);
    time("400 rules, all hold", &rules(&[1, 13, 3, 11, 0, 11, 1, 11, 2]), &ones);
    time("400 rules, the first broken", &rules(&[1, 14, 13, 2, 11, 0, 11, 1]), &ones);
    let or = |first: [i32; 2]| {
        let mut set = vec![512, 0, 1, 1, 13, 2040];
        (0..2040).for_each(|v| set.extend([11, v % 512]));
        set[6..8].copy_from_slice(&first);
        set
    };
    let mut zeros = vec![0; 512];
    time("an Or of 2040, none holds", &or([11, 0]), &zeros);
    zeros[0] = 1;
    let mut late = or([11, 1]);
    late.iter_mut().skip(6).for_each(|word| {
        if *word == 0 {
            *word = 1
        }
    });
    let end = late.len() - 1;
    late[end] = 0;
    time("the same, the last holds", &late, &zeros);
    time("the same, the first holds", &or([11, 0]), &zeros);
    integers();
    Ok(())
}

/// Comparisons, a table and AllDifferents.
fn integers() {
    let mut sums = vec![0, 64];
    (0..64).for_each(|_| sums.extend([0, 0, 9]));
    sums.push(14);
    for _ in 0..14 {
        sums.extend([1, 18, 2, 22, 64]);
        (0..64).for_each(|v| sums.extend([2, 21, v]));
        sums.extend([20, 100000]);
    }
    time("14 comparisons of 64 terms", &sums, &[5; 64]);
    let mut table = vec![0, 4, 0, 0, 99, 0, 0, 99, 0, 0, 99, 0, 0, 99, 1, 2, 4, 1000, 21, 0, 21, 1, 21, 2, 21, 3];
    (0..1000).for_each(|row| table.extend([row % 100, 1, 2, if row == 999 { 3 } else { 4 }]));
    time("a table of 1000 rows, the last holds", &table, &[99, 1, 2, 3]);
    let different = |second: i32| {
        let mut set = vec![0, 0, 1, 3, 2044];
        (0..2044).for_each(|k| set.extend([20, if k == 1 { second } else { k }]));
        set
    };
    time("2044 differing constants", &different(1), &[]);
    time("the same, the first two equal", &different(0), &[]);
    time("the same, the second and the last equal", &different(2043), &[]);
}

/// A text of the set's words and the values, its lines divided as their counts say where they can be.
fn text_of(words: &[i32], values: &[i32]) -> String {
    let line = |key: &str, words: &[i32]| format!("{key}={}\n", reference::record::commas(words));
    let mut text = String::new();
    let take = |from: usize, to: usize| &words[from.min(words.len())..to.min(words.len())];
    text += &line("bools", take(0, 1));
    text += &line("ints", take(1, 2));
    let domains = refuse::accept(words, WORK).map_or(0, |set| {
        set.domains
            .iter()
            .map(|domain| match domain {
                reference::set::Domain::Range(..) => 3,
                reference::set::Domain::Values(values) => 2 + values.len(),
            })
            .sum()
    });
    if domains > 0 {
        text += &line("int", take(2, 2 + domains));
    }
    text += &line("statements", take(2 + domains, 3 + domains));
    if words.len() > 3 + domains {
        text += &line("statement", &words[3 + domains..]);
    }
    text + &line("values", values)
}

/// The line that the program is to print: the reference's words of the text in front of the last line, and its check.
fn told(text: &str) -> String {
    let unread = "roster=unread\n".to_string();
    let Some(body) = text.strip_suffix('\n').filter(|_| text.len() <= 65536) else {
        return unread;
    };
    let start = body.rfind('\n').map_or(0, |place| place + 1);
    let (Some(words), Some(list)) = (words(body[..start].as_bytes()), body[start..].strip_prefix("values=")) else {
        return unread;
    };
    let number = |part: &str| part.parse::<i32>().ok().filter(|n| n.to_string() == part);
    let values: Option<Vec<i32>> = if list.is_empty() { Some(vec![]) } else { list.split(',').map(number).collect() };
    match values.map(|values| check(&words, &values, WORK)) {
        None => unread,
        Some(Checked::Yes) => "roster=yes\n".to_string(),
        Some(Checked::Broken(k)) => format!("roster=broken,{k}\n"),
        Some(Checked::Refused(k)) => format!("roster=refused,{k}\n"),
    }
}

fn spoilt(text: &str, numbers: &mut Numbers) -> String {
    let at = numbers.below(text.len() as u64) as usize;
    let (front, back) = text.split_at(at);
    match numbers.below(6) {
        0 => text[..text.len() - 1].to_string(),
        1 => format!("{front}{}", &back[1..]),
        2 => format!("{front},{back}"),
        3 => format!("{front}0{back}"),
        4 => format!("{front}\n{back}"),
        _ => format!("{text}{}", ["values=0\n", "\n", "x"][numbers.below(3) as usize]),
    }
}

fn texts(seed: u64, count: u64) -> Result<(), String> {
    let program = concat!(env!("CARGO_MANIFEST_DIR"), "/../../crates/roster/out/roster");
    let mut answers: BTreeMap<String, u64> = BTreeMap::new();
    for family in with_ifs(&FAMILIES[..9]) {
        for index in 0..count {
            let mut numbers = Numbers(seed ^ (index << 20));
            let words = case(family, seed, index).ok_or("no case")?.set;
            let values = match refuse::accept(&words, WORK) {
                Ok(set) => nearly(&set, &mut numbers, 40).pop().unwrap_or_default(),
                Err(_) => vec![1, 0],
            };
            let whole = text_of(&words, &values);
            let text = if index % 3 == 2 { spoilt(&whole, &mut numbers) } else { whole };
            let mut child = Command::new(program)
                .stdin(Stdio::piped())
                .stdout(Stdio::piped())
                .spawn()
                .map_err(|e| e.to_string())?;
            child.stdin.take().ok_or("no input")?.write_all(text.as_bytes()).map_err(|e| e.to_string())?;
            let got = String::from_utf8_lossy(&child.wait_with_output().map_err(|e| e.to_string())?.stdout).to_string();
            let want = told(&text);
            if got != want {
                return Err(format!("{family} seed {seed} index {index}: printed {got:?}, not {want:?}\n{text}"));
            }
            *answers.entry(want.split(',').next().unwrap_or("").trim().to_string()).or_insert(0) += 1;
        }
    }
    println!("{answers:?}, no difference");
    Ok(())
}

fn main() {
    let arguments: Vec<String> = std::env::args().collect();
    if let [_, mode, seed, count] = &arguments[..] {
        if mode == "texts" {
            return exit_on_error(texts(seed.parse().unwrap_or(1), count.parse().unwrap_or(100)));
        }
    }
    let speeds = std::env::args().nth(1).is_some_and(|word| word == "speed");
    exit_on_error(if speeds {
        speed()
    } else {
        run_families("rosters speed | rosters", &with_ifs(&FAMILIES[..9]), run)
    });
}
