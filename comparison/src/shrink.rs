//! Makes a text smaller while it still fails, or a pair of texts.

use crate::damage::tokens;
use crate::opb_damage;
use crate::pair::Pair;
use std::time::{Duration, Instant};

/// How long it may take.
const MOST_TIME: Duration = Duration::from_secs(20);
/// Single bytes are dropped only from texts up to this size.
const SMALL: usize = 3_000;
/// Two terms at once are dropped only from texts with at most so many words and groups.
const FEW: usize = 120;

struct Shrinker<'f> {
    text: Vec<u8>,
    fails: &'f mut dyn FnMut(&[u8]) -> bool,
    start: Instant,
}

/// A smaller text that fails as well.
pub fn shrunk(text: &[u8], fails: &mut dyn FnMut(&[u8]) -> bool) -> Vec<u8> {
    let mut shrinker = Shrinker { text: text.to_vec(), fails, start: Instant::now() };
    loop {
        let before = shrinker.text.clone();
        shrinker.drop_pieces(commands);
        shrinker.simplify_blanks();
        shrinker.assume_steps();
        shrinker.simplify_groups();
        shrinker.drop_pieces(owned_tokens);
        shrinker.drop_pairs();
        shrinker.simplify_words();
        if shrinker.text.len() <= SMALL {
            shrinker.drop_pieces(|text| text.iter().map(|byte| vec![*byte]).collect());
        }
        if shrinker.text == before || shrinker.is_over() {
            // easier to read, where it still fails
            shrinker.start = Instant::now();
            shrinker.simplify_blanks();
            return shrinker.text;
        }
    }
}

/// A smaller OPB text that fails as well.
fn shrunk_opb(text: &[u8], fails: &mut dyn FnMut(&[u8]) -> bool) -> Vec<u8> {
    let mut shrinker = Shrinker { text: text.to_vec(), fails, start: Instant::now() };
    loop {
        let before = shrinker.text.clone();
        shrinker.drop_pieces(|text| behind_each(text, b';'));
        shrinker.drop_pieces(|text| behind_each(text, b'\n'));
        shrinker.drop_pieces(opb_damage::tokens);
        shrinker.simplify_opb_words();
        if shrinker.text.len() <= SMALL {
            shrinker.drop_pieces(|text| text.iter().map(|byte| vec![*byte]).collect());
        }
        if shrinker.text == before || shrinker.is_over() {
            return shrinker.text;
        }
    }
}

/// A smaller pair that fails as well; without an OPB text where that is enough.
pub fn shrunk_pair(pair: &Pair, fails: &mut dyn FnMut(&Pair) -> bool) -> Pair {
    let mut smallest = pair.clone();
    let alone = Pair::alone(pair.text.clone());
    if smallest.opb.is_some() && fails(&alone) {
        smallest = alone;
    }
    loop {
        let before = smallest.clone();
        if let Some(opb) = &before.opb {
            let text = &before.text;
            smallest.opb = Some(shrunk_opb(opb, &mut |opb| fails(&Pair::behind(opb.to_vec(), text.clone()))));
        }
        let opb = smallest.opb.clone();
        smallest.text = shrunk(&before.text, &mut |text| fails(&Pair { opb: opb.clone(), text: text.to_vec() }));
        if smallest == before || smallest.opb.is_none() {
            return smallest;
        }
    }
}

/// The text cut behind each of these bytes.
fn behind_each(text: &[u8], end: u8) -> Vec<Vec<u8>> {
    text.split_inclusive(|byte| *byte == end).map(<[u8]>::to_vec).collect()
}

/// The text cut behind each bracket that closes a command.
fn commands(text: &[u8]) -> Vec<Vec<u8>> {
    let (mut pieces, mut piece, mut depth) = (Vec::new(), Vec::new(), 0i64);
    for &byte in text {
        piece.push(byte);
        depth += i64::from(byte == b'(') - i64::from(byte == b')');
        if byte == b')' && depth <= 0 {
            pieces.push(std::mem::take(&mut piece));
            depth = 0;
        }
    }
    pieces.push(piece);
    pieces
}

/// Where the group that opens at a place ends, and where its parts begin and end.
fn group(text: &[u8], open: usize) -> Option<(usize, Vec<(usize, usize)>)> {
    let (mut depth, mut parts, mut start) = (0, Vec::new(), None);
    for (place, &byte) in text.iter().enumerate().skip(open) {
        depth += i64::from(byte == b'(');
        let inside = depth > 1 || depth == 1 && byte.is_ascii_graphic() && !b"()".contains(&byte);
        match (inside, start) {
            (true, None) => start = Some(place),
            (false, Some(from)) => {
                parts.push((from, place));
                start = None;
            }
            _ => (),
        }
        depth -= i64::from(byte == b')');
        if let (Some(from), b')', 1) = (start, byte, depth) {
            parts.push((from, place + 1));
            start = None;
        }
        if depth == 0 {
            return Some((place + 1, parts));
        }
    }
    None
}

/// Where each word and each group begins and ends.
fn spans(text: &[u8]) -> Vec<(usize, usize)> {
    let mut place = 0;
    let mut spans = Vec::new();
    for token in tokens(text) {
        let start = place + token.len() - token.trim_ascii_start().len();
        place += token.len();
        match text.get(start) {
            Some(b'(') => spans.extend(group(text, start).map(|(end, _)| (start, end))),
            Some(b')') | None => (),
            Some(_) => spans.push((start, place)),
        }
    }
    spans
}

impl Shrinker<'_> {
    fn is_over(&self) -> bool {
        self.start.elapsed() > MOST_TIME
    }

    /// Take the text over where it fails.
    fn take(&mut self, text: Vec<u8>) -> bool {
        let taken = !self.is_over() && text != self.text && (self.fails)(&text);
        if taken {
            self.text = text;
        }
        taken
    }

    /// Drop pieces, many at once first and then fewer.
    fn drop_pieces(&mut self, cut: impl Fn(&[u8]) -> Vec<Vec<u8>>) {
        let mut pieces = cut(&self.text);
        let mut size = pieces.len();
        while size > 0 && !self.is_over() {
            let mut start = 0;
            while start < pieces.len() && !self.is_over() {
                let end = (start + size).min(pieces.len());
                let rest = [&pieces[..start], &pieces[end..]].concat();
                if self.take(rest.concat()) {
                    pieces = rest;
                } else {
                    start = end;
                }
            }
            size /= 2;
        }
    }

    /// Plain blanks everywhere, and a line for each command.
    fn simplify_blanks(&mut self) {
        let plain = |text: &[u8]| -> Vec<u8> {
            let words: Vec<&[u8]> = tokens(text).into_iter().map(<[u8]>::trim_ascii).collect();
            words.join(&b' ')
        };
        let pieces: Vec<Vec<u8>> = commands(&self.text).iter().map(|piece| plain(piece)).collect();
        let mut text = pieces.join(&b'\n').trim_ascii_end().to_vec();
        for (spaced, tight) in [("( ", "("), (" )", ")")] {
            text = String::from_utf8_lossy(&text).replace(spaced, tight).into_bytes();
        }
        self.take(text);
    }

    /// Assume what a step concludes.
    fn assume_steps(&mut self) {
        let mut open = 0;
        while open < self.text.len() && !self.is_over() {
            if let Some((end, assumption)) = self.assumption_of(open) {
                let text = [&self.text[..open], &assumption, &self.text[end..]].concat();
                self.take(text);
            }
            open += 1;
        }
    }

    /// The assumption of the conclusion of the step that opens at a place, and where the step ends.
    fn assumption_of(&self, open: usize) -> Option<(usize, Vec<u8>)> {
        if self.text[open] != b'(' {
            return None;
        }
        let (end, parts) = group(&self.text, open)?;
        let [(word, word_end), (id, id_end), (clause, _), ..] = parts[..] else { return None };
        let (_, terms) = group(&self.text, clause)?;
        let [_, (term, term_end)] = terms[..] else { return None };
        let is_step = &self.text[word..word_end] == b"step" && self.text[clause] == b'(';
        is_step.then(|| (end, [b"(assume ", &self.text[id..id_end], b" ", &self.text[term..term_end], b")"].concat()))
    }

    /// Put something smaller in the place of each group: nothing, one of its parts, a name, a numeral.
    fn simplify_groups(&mut self) {
        let mut open = 0;
        while open < self.text.len() && !self.is_over() {
            if self.text[open] != b'(' || !self.simplify_group(open) {
                open += 1;
            }
        }
    }

    fn simplify_group(&mut self, open: usize) -> bool {
        let Some((end, parts)) = group(&self.text, open) else { return false };
        let inner: Vec<Vec<u8>> = parts.iter().map(|(from, to)| self.text[*from..*to].to_vec()).collect();
        let fixed = [b"".to_vec(), b"0".to_vec(), b"x".to_vec()];
        fixed.into_iter().chain(inner).any(|smaller| self.replace(open, end, &smaller))
    }

    fn replace(&mut self, start: usize, end: usize, by: &[u8]) -> bool {
        let text = [&self.text[..start], by, &self.text[end..]].concat();
        text.len() < self.text.len() && self.take(text)
    }

    /// Drop two words or groups at once: what stands on both sides of a relation, for instance.
    fn drop_pairs(&mut self) {
        let mut spans = spans(&self.text);
        let mut first = 0;
        while spans.len() <= FEW && first < spans.len() && !self.is_over() {
            let (start, end) = spans[first];
            let others = spans[first + 1..].iter().filter(|(from, _)| *from >= end);
            let taken = others.into_iter().any(|(from, to)| {
                let text = [&self.text[..start], &self.text[end..*from], &self.text[*to..]].concat();
                self.take(text)
            });
            match taken {
                true => spans = self::spans(&self.text),
                false => first += 1,
            }
        }
    }

    /// Write simpler words: small numerals, the name x, short ids.
    fn simplify_words(&mut self) {
        for simpler in ["0", "1", "2", "-1", "x", "y", "a", "b"] {
            let mut parts = owned_tokens(&self.text);
            let mut place = 0;
            while place < parts.len() && !self.is_over() {
                if is_simpler(simpler.as_bytes(), &parts[place]) && self.replace_word(&parts, place, simpler) {
                    parts = owned_tokens(&self.text);
                }
                place += 1;
            }
        }
    }

    /// Write simpler words of an OPB text: small numbers, short variables.
    fn simplify_opb_words(&mut self) {
        for simpler in ["0", "1", "-1", "x1", "~x1", "x2"] {
            let mut place = 0;
            while !self.is_over() {
                let mut parts = opb_damage::tokens(&self.text);
                let Some(part) = parts.get_mut(place) else { break };
                let word = part.trim_ascii();
                let blanks = part.len() - part.trim_ascii_start().len();
                if (word.len(), word) > (simpler.len(), simpler.as_bytes()) {
                    *part = [&part[..blanks], simpler.as_bytes()].concat();
                    self.take(parts.concat());
                }
                place += 1;
            }
        }
    }

    /// All places of the word at once, else this one.
    fn replace_word(&mut self, parts: &[Vec<u8>], place: usize, simpler: &str) -> bool {
        let word = parts[place].trim_ascii();
        let put = |part: &Vec<u8>| [&part[..part.len() - part.trim_ascii_start().len()], simpler.as_bytes()].concat();
        let everywhere = parts.iter().map(|part| if part.trim_ascii() == word { put(part) } else { part.clone() });
        if self.take(everywhere.collect::<Vec<_>>().concat()) {
            return true;
        }
        let mut here = parts.to_vec();
        here[place] = put(&parts[place]);
        self.take(here.concat())
    }
}

fn owned_tokens(text: &[u8]) -> Vec<Vec<u8>> {
    tokens(text).into_iter().map(<[u8]>::to_vec).collect()
}

/// Whether a numeral stands for a longer or larger one, or a name for a longer one.
fn is_simpler(simpler: &[u8], part: &[u8]) -> bool {
    let word = part.trim_ascii();
    let numeral = |word: &[u8]| std::str::from_utf8(word).ok().and_then(|word| word.parse::<i64>().ok());
    let named = |word: &[u8]| word.first().is_some_and(|byte| byte.is_ascii_alphabetic() || b"_@".contains(byte));
    match (numeral(simpler), numeral(word)) {
        (Some(small), Some(number)) => (small.abs(), small < 0) < (number.abs(), number < 0),
        (None, None) => named(word) && (simpler.len(), simpler) < (word.len(), word),
        _ => false,
    }
}

#[cfg(test)]
mod tests {
    use super::{shrunk, shrunk_pair};
    use crate::pair::Pair;

    fn holds(text: &[u8], word: &str) -> bool {
        String::from_utf8_lossy(text).contains(word)
    }

    #[test]
    fn what_does_not_matter_is_dropped() {
        let text = b"(assume a (>= (+ x y) 7))\n(step b (cl (>= 0\t55)) :rule cp_part :premises (a))\n(assume c x)";
        assert_eq!(shrunk(text, &mut |text| holds(text, "55")), b"55");
        assert_eq!(shrunk(text, &mut |_| true), b"");
    }

    #[test]
    fn both_texts_of_a_pair_are_shrunk() {
        let opb = b"* a header\n+12 x13 -2 ~x2 >= 1 ;\n3 x3 = 3 ;\n1 x1 >= 77 ;".to_vec();
        let pair = Pair::behind(opb, b"(assume a (>= (+ x y) 7))\n(assume c x)".to_vec());
        let small = shrunk_pair(&pair, &mut |pair| holds(pair.constraints(), "77") && holds(&pair.text, "7"));
        assert_eq!(small, Pair::behind(b"77".to_vec(), b"7".to_vec()));
        assert_eq!(shrunk_pair(&pair, &mut |pair| holds(&pair.text, "7")), Pair::alone(b"7".to_vec()));
    }

    #[test]
    fn a_step_is_assumed() {
        let text = b"(step longer (cl (>= (* 1 name) 12345)) :rule cp_part :premises (a) :args (0))";
        let is_command = |text: &[u8]| text.starts_with(b"(step ") || text.starts_with(b"(assume ");
        let small = shrunk(text, &mut |text| is_command(text) && text.ends_with(b")") && holds(text, "12"));
        assert_eq!(small, b"(assume 12)");
    }

    #[test]
    fn both_sides_are_dropped_together() {
        let text = b"(= (>= (+ x y z) 0) (>= (+ x y z) 0))";
        let balanced = |text: &[u8]| {
            let text = String::from_utf8_lossy(text).replace([' ', '\n'], "");
            text.strip_prefix("(=(>=")
                .is_some_and(|rest| rest.split_once(")(>=").is_some_and(|(left, right)| right == format!("{left}))")))
        };
        let small = shrunk(text, &mut |text| balanced(text));
        assert_eq!(small, b"(= (>=) (>=))");
    }
}
