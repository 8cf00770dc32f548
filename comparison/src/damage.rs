//! Damaged copies of texts, and raw bytes.

use crate::random::Random;

/// The words and brackets of a text, each with the blanks before it; bytes that are no word stand alone.
pub fn tokens(text: &[u8]) -> Vec<&[u8]> {
    let mut result = Vec::new();
    let mut start = 0;
    while start < text.len() {
        let mut end = start;
        while end < text.len() && text[end].is_ascii_whitespace() {
            end += 1;
        }
        let word = end;
        while end < text.len() && text[end].is_ascii_graphic() && !b"()".contains(&text[end]) {
            end += 1;
        }
        if end == word && end < text.len() {
            end += 1;
        }
        result.push(&text[start..end]);
        start = end;
    }
    result
}

const WORDS: [&str; 55] = [
    "pol", "(pol", "(pol p", "~x", "~s0", "~", "~cl", "d", "s", "2 d", "3 *", "(", ")", "(", ")", "()", "cl", "assume", "step",
    "and", ":rule", ":premises", ":args", "cp_addition", "cp_part", "cp_foo", "+", "-", "*", ">=", ">", "<=", "<", "=", "==",
    "x", "y", "s0", "s1", "0", "1", "-1", "-0", "007", "99999999", "100000000", "-99999999", "-100000000", "1x", "--1", "+1",
    ":foo", ";x", "abcdefghijklmnopqrstuvwxyz_012345", "abcdefghijklmnopqrstuvwxyz_0123456",
];

/// A copy with one change of its tokens or bytes, or a few.
pub fn damaged(text: &[u8], random: &mut Random) -> Vec<u8> {
    let mut copy = text.to_vec();
    for _ in 0..*random.one(&[1, 1, 1, 1, 2, 3]) {
        copy = if random.chance(55) { damaged_tokens(&copy, random) } else { damaged_bytes(copy, random) };
    }
    copy
}

fn damaged_tokens(text: &[u8], random: &mut Random) -> Vec<u8> {
    let mut parts: Vec<Vec<u8>> = tokens(text).into_iter().map(<[u8]>::to_vec).collect();
    if parts.is_empty() {
        parts.push(Vec::new());
    }
    let (place, other) = (random.below(parts.len()), random.below(parts.len()));
    match random.below(7) {
        0 => drop(parts.remove(place)),
        1 => parts.insert(place, parts[place].clone()),
        2 => parts.swap(place, other),
        3 => parts[place] = parts[other].clone(),
        4 => parts.insert(place, spaced(random)),
        5 => parts[place] = spaced(random),
        _ => parts.truncate(place),
    }
    parts.concat()
}

fn spaced(random: &mut Random) -> Vec<u8> {
    [b" ", random.one(&WORDS).as_bytes()].concat()
}

pub fn damaged_bytes(mut text: Vec<u8>, random: &mut Random) -> Vec<u8> {
    if text.is_empty() {
        return vec![any_byte(random)];
    }
    let (place, other) = (random.below(text.len()), random.below(text.len()));
    match random.below(8) {
        0 => drop(text.remove(place)),
        1 => text.insert(place, text[place]),
        2 => text.swap(place, other),
        3 | 4 => text[place] = any_byte(random),
        5 => text.insert(place, any_byte(random)),
        6 => text.truncate(place),
        _ => text[place] ^= 1 << random.below(8),
    }
    text
}

/// A byte, often one that the grammar knows.
fn any_byte(random: &mut Random) -> u8 {
    match random.below(4) {
        0 => random.below(256) as u8,
        1 => *random.one(b"\x00\x08\x09\x0a\x0b\x0c\x0d\x1f\x20\x7e\x7f\x80\xff"),
        _ => *random.one(b"()+-*<>=:_@.;'\"~01289acdlsxyzAZ \n\t"),
    }
}

/// Raw bytes: of all values, of the grammar's own, or words without order.
pub fn raw(random: &mut Random) -> Vec<u8> {
    let length = *random.one(&[0, 1, 2, 3, 5, 8, 20, 60]);
    match random.below(3) {
        0 => (0..length).map(|_| random.next() as u8).collect(),
        1 => (0..length).map(|_| any_byte(random)).collect(),
        _ => (0..length).flat_map(|_| spaced(random)).collect(),
    }
}
