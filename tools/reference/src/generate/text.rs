//! Texts for the listing program, well-formed and malformed.
use super::rng::Rng;
use super::{set, Scale, GOOD, IFS};

const TEXT: usize = 65536;

/// A text of the family `text`, or `iftext` for sets with Ifs: the index decides its kind, so that every kind comes up.
pub fn text(family: &str, seed: u64, index: u64) -> Option<Vec<u8>> {
    let families: &[&str] = match family {
        "text" => &GOOD,
        "iftext" => &IFS[..10],
        _ => return None,
    };
    let mut rng = Rng::of(seed, family, index);
    let good = good_text(seed, index / 16, families);
    Some(match index % 16 {
        0 => good,
        1 => resplit(&mut rng, &good),
        2 => long(TEXT),
        3 => long(TEXT + 1),
        4..=6 => replaced(&mut rng, &good),
        7..=8 => line_changed(&mut rng, &good),
        9 => good[..rng.below(good.len())].to_vec(),
        10 => good[..good.len().saturating_sub(1)].to_vec(),
        _ => byte_changed(&mut rng, good),
    })
}

/// A good set in the listing's own form.
fn good_text(seed: u64, index: u64, families: &[&str]) -> Vec<u8> {
    let mut rng = Rng::of(seed, "good text", index);
    let family = rng.pick(families);
    let made = set(family, &mut rng, Scale::Small);
    made.map_or(String::new(), |set| lines(&set)).into_bytes()
}

fn lines(set: &crate::set::Set) -> String {
    use crate::set::Set;
    let mut text = format!("bools={}\nints={}\n", set.bools, set.domains.len());
    for domain in &set.domains {
        let alone = Set { bools: 0, domains: vec![domain.clone()], statements: vec![] }.words();
        text += &line("int", &alone[2..alone.len() - 1]);
    }
    text += &format!("statements={}\n", set.statements.len());
    for statement in &set.statements {
        let alone = Set { bools: 0, domains: vec![], statements: vec![statement.clone()] }.words();
        text += &line("statement", &alone[3..]);
    }
    text
}

fn line(key: &str, words: &[i32]) -> String {
    let words: Vec<String> = words.iter().map(i32::to_string).collect();
    format!("{key}={}\n", words.join(","))
}

/// The same words, the statement lines divided elsewhere.
fn resplit(rng: &mut Rng, good: &[u8]) -> Vec<u8> {
    let text = String::from_utf8_lossy(good).replace("\nstatement=", ",");
    let Some((head, tail)) = text.split_once("statements=") else {
        return good.to_vec();
    };
    let mut words = tail.trim_end().split(',');
    let mut out = format!("{head}statements={}\n", words.next().unwrap_or("0"));
    let mut fresh = true;
    for word in words {
        out += if fresh { "statement=" } else { "," };
        out += word;
        fresh = rng.chance(20);
        out += if fresh { "\n" } else { "" };
    }
    if !fresh {
        out.push('\n');
    }
    out.into_bytes()
}

/// A well-formed text of that many bytes; it has too many words for a set.
fn long(length: usize) -> Vec<u8> {
    let mut text = b"bools=0\nints=0\nstatements=1\nstatement=1".to_vec();
    while text.len() + 3 <= length {
        text.extend(b",1");
    }
    if text.len() + 2 == length {
        text.extend(b"0");
    }
    text.push(b'\n');
    text
}

/// A piece of text, and what stands for it.
const FORMS: [(&str, &str); 32] = [
    ("=", "=-0,"),
    ("=", "=00,"),
    ("=", "=+1,"),
    ("=", "= "),
    ("=", "=,"),
    ("=", "=2147483647,"),
    ("=", "=2147483648,"),
    ("=", "=-2147483648,"),
    ("=", "=-2147483649,"),
    ("=", "=99999999999999999999,"),
    ("=", "=-"),
    ("=", "=--1,"),
    ("=", "=0x1,"),
    ("=", "=007,"),
    ("=", "=1.0,"),
    ("=", ""),
    ("=", "=="),
    ("=", ":"),
    (",", ""),
    (",", ",,"),
    (",", ", "),
    (",", ";"),
    ("\n", "\r\n"),
    ("\n", "\n\n"),
    ("\n", " \n"),
    ("\n", ",\n"),
    ("\n", ""),
    ("s=", "="),
    ("bools", "Bools"),
    ("ints=", "int="),
    ("statements=", "statement="),
    ("int", "\tint"),
];

/// One piece replaced by a form that is not allowed, or only just is.
fn replaced(rng: &mut Rng, good: &[u8]) -> Vec<u8> {
    let text = String::from_utf8_lossy(good);
    let (from, to) = rng.pick(&FORMS);
    let places: Vec<usize> = text.match_indices(from).map(|(at, _)| at).collect();
    if places.is_empty() {
        return good.to_vec();
    }
    let at = rng.pick(&places);
    [&good[..at], to.as_bytes(), &good[at + from.len()..]].concat()
}

/// Lines dropped, doubled, swapped, or made up.
fn line_changed(rng: &mut Rng, good: &[u8]) -> Vec<u8> {
    let mut lines: Vec<&[u8]> = good.split_inclusive(|byte| *byte == b'\n').collect();
    let (at, other) = (rng.below(lines.len()), rng.below(lines.len()));
    match rng.below(5) {
        0 => {
            lines.remove(at);
        }
        1 => lines.insert(at, lines[at]),
        2 => lines.swap(at, other),
        3 => {
            lines.insert(at, rng.pick(&[b"int=0,0,1\n".as_slice(), b"statement=1,10,1\n", b"\n", b"#\n", b"bools=1\n"]))
        }
        _ => {
            lines[at] =
                rng.pick(&[b"int=\n".as_slice(), b"statement=\n", b"bools=\n", b"ints=1,2\n", b"statements=1,1\n"])
        }
    }
    lines.concat()
}

fn byte_changed(rng: &mut Rng, mut text: Vec<u8>) -> Vec<u8> {
    let at = rng.below(text.len());
    match rng.below(4) {
        0 => text[at] = rng.below(256) as u8,
        1 => text[at] = rng.pick(b"0123456789-,=\n\r \0"),
        2 => {
            text.remove(at);
        }
        _ => text.insert(at, text[at]),
    }
    text
}
