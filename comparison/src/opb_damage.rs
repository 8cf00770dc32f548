//! Damaged copies of OPB texts, and raw ones.

use crate::damage::damaged_bytes;
use crate::random::Random;

const WORDS: [&str; 60] = [
    ";", ";", ";", ";;", "(", ")", ">=", ">=", "=", "min:", "max:", "min:1", "x1", "x2", "~x1", "~x2", "x01", "x", "~", "~~x1",
    "~1", "X1", "y", "x1a", "x1;", "1;", ";x1", "0", "1", "-1", "+1", "+0", "-0", "007", "+007", "x007", "99999999", "100000000",
    "+99999999", "-99999999", "-100000000", "1x", "+1x", "--1", "+-1", "+", "-", "*", "* c", "\n* c\n", "\n*\0\n", "\n*", ">",
    "<=", "==", ">=1", "min", "|x1|", "x1234567890123456789012345678901", "~x12345678901234567890123456789012",
];

/// Ids that a proof text behind an OPB text may cite, or may not.
const IDS: [&str; 12] = ["c0", "c01", "c1", "c2", "c3", "c4", "c9", "c10", "c512", "c513", "c", "C1"];

/// The words, brackets and `;` of an OPB text, each with the blanks before it; a line that starts with `*` and a bad byte stand alone.
pub fn tokens(text: &[u8]) -> Vec<Vec<u8>> {
    let mut result = Vec::new();
    let mut start = 0;
    while start < text.len() {
        let blanks = text[start..].iter().take_while(|byte| b" \t\n\r".contains(byte)).count();
        let word = start + blanks;
        let rest = &text[word..];
        let length = if rest.starts_with(b"*") && (word == 0 || text[word - 1] == b'\n') {
            rest.iter().take_while(|byte| **byte != b'\n').count()
        } else {
            let in_word = |byte: &&u8| byte.is_ascii_graphic() && !b"();".contains(byte);
            rest.iter().take_while(in_word).count().max(1).min(rest.len())
        };
        result.push(text[start..word + length].to_vec());
        start = word + length;
    }
    result
}

/// A copy with one change of its tokens or bytes, or a few.
pub fn damaged(text: &[u8], random: &mut Random) -> Vec<u8> {
    let mut copy = text.to_vec();
    for _ in 0..*random.one(&[1, 1, 1, 1, 2, 3]) {
        copy = match random.below(20) {
            0..=11 => damaged_tokens(&copy, random),
            12..=15 => damaged_bytes(copy, random),
            _ => put(copy, any_byte(random), random),
        };
    }
    copy
}

fn damaged_tokens(text: &[u8], random: &mut Random) -> Vec<u8> {
    let mut parts = tokens(text);
    if parts.is_empty() {
        parts.push(Vec::new());
    }
    let (place, other) = (random.below(parts.len()), random.below(parts.len()));
    match random.below(8) {
        0 => drop(parts.remove(place)),
        1 => parts.insert(place, parts[place].clone()),
        2 => parts.swap(place, other),
        3 => parts[place] = parts[other].clone(),
        4 => parts.insert(place, spaced(random)),
        5 => parts[place] = spaced(random),
        6 => parts[place] = parts[place].trim_ascii_start().to_vec(),
        _ => parts.truncate(place),
    }
    parts.concat()
}

fn spaced(random: &mut Random) -> Vec<u8> {
    [b" ", random.one(&WORDS).as_bytes()].concat()
}

/// A byte, often one that the format knows.
fn any_byte(random: &mut Random) -> u8 {
    match random.below(6) {
        0 => random.below(256) as u8,
        1 => *random.one(b"\x00\x08\x09\x0a\x0b\x0c\x0d\x1f\x20\x7e\x7f\x80\xff"),
        _ => *random.one(b";;*~x+->=0123789 \n\n\r\t():|"),
    }
}

fn put(mut text: Vec<u8>, byte: u8, random: &mut Random) -> Vec<u8> {
    let place = random.below(text.len() + 1);
    match text.get_mut(place) {
        Some(old) if random.chance(50) => *old = byte,
        _ => text.insert(place, byte),
    }
    text
}

/// Raw bytes: of all values, of the format's own, or words without order.
pub fn raw(random: &mut Random) -> Vec<u8> {
    let length = *random.one(&[0, 1, 2, 3, 4, 5, 6, 8, 20]);
    match random.below(4) {
        0 => (0..length).map(|_| random.next() as u8).collect(),
        1 => (0..length).map(|_| any_byte(random)).collect(),
        2 => (0..length).flat_map(|_| spaced(random)).collect(),
        _ => nearly(length, random),
    }
}

/// Words in the format's order, but for a few: so that what comes late in a constraint is reached too.
fn nearly(length: usize, random: &mut Random) -> Vec<u8> {
    let mut text = Vec::new();
    for _ in 0..1 + length / 4 {
        for (word, often) in [("2", 60), ("x1", 60), ("1", 30), ("~x2", 30), (">=", 92), ("1", 92), (";", 92)] {
            match random.below(100) {
                0..=4 => text.extend(spaced(random)),
                chance if chance < often => text.extend([b" ", word.as_bytes()].concat()),
                _ => (),
            }
        }
    }
    text
}

/// A copy of a proof text with another id in the place of one that may be a constraint's.
pub fn other_id(text: &[u8], random: &mut Random) -> Vec<u8> {
    let mut parts: Vec<Vec<u8>> = crate::damage::tokens(text).into_iter().map(<[u8]>::to_vec).collect();
    let is_id = |part: &Vec<u8>| matches!(part.trim_ascii(), [b'c', b'0'..=b'9', ..]);
    let ids: Vec<usize> = (0..parts.len()).filter(|place| is_id(&parts[*place])).collect();
    if !ids.is_empty() {
        parts[*random.one(&ids)] = [b" ", random.one(&IDS).as_bytes()].concat();
    }
    parts.concat()
}

#[cfg(test)]
mod tests {
    use super::tokens;

    #[test]
    fn tokens_make_up_the_text() {
        let text = b"* a ; b\n1 x1>=  2;;\x00( * c\n*\n";
        let parts = tokens(text);
        assert_eq!(parts.concat(), text);
        assert_eq!(parts.len(), 12);
        assert_eq!(parts[0], b"* a ; b");
    }
}
