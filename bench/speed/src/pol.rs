//! A plain stack machine for pol lines (document 02, No. 2), as one writes it in Rust: a small reader of assumptions that are inequalities and of
//! pol lines, a hash map from names to numbers, entries as vectors in the order of their literals, and the report. It reads texts of these commands
//! alone, and only where they are written well: for any other text there is none. Names are not put in order, since no report shows it. Nothing here
//! is proved.

use std::collections::HashMap;
use std::fmt::Write;

const MAX_NUMBER: i64 = 99_999_999;
const MAX_LINES: usize = 64;
const MAX_PLACES: usize = 32;
const MAX_LITERALS: usize = 64;
const MAX_SUMMANDS: usize = 512;

/// The answers of a pol line.
const STACK: u8 = 52;
const BEYOND: u8 = 53;
const SIGN: u8 = 54;

/// A sum over literals, each once and rising, and a constant. A literal is twice its variable's number, and one more where it is negated.
#[derive(Clone, Default)]
struct Entry {
    sum: Vec<(u32, i64)>,
    constant: i64,
}

impl Entry {
    /// Both sums, with opposite literals cancelled.
    fn plus(&self, other: &Entry) -> Entry {
        let (mut left, mut right) = (self.sum.iter().copied().peekable(), other.sum.iter().copied().peekable());
        let mut made =
            Entry { sum: Vec::with_capacity(self.sum.len() + other.sum.len()), constant: self.constant + other.constant };
        while let Some(literal) = [left.peek(), right.peek()].into_iter().flatten().map(|(literal, _)| *literal).min() {
            let of_left = left.next_if(|(own, _)| *own == literal).map_or(0, |(_, coefficient)| coefficient);
            let of_right = right.next_if(|(own, _)| *own == literal).map_or(0, |(_, coefficient)| coefficient);
            made.append(literal, of_left + of_right);
        }
        made
    }

    /// One literal more, cancelled with its opposite where that is the last.
    fn append(&mut self, literal: u32, coefficient: i64) {
        let mut kept = coefficient;
        if let Some((last, opposite)) = self.sum.last_mut()
            && *last ^ 1 == literal
        {
            let slack = coefficient.min(*opposite);
            *opposite -= slack;
            kept -= slack;
            self.constant -= slack;
        }
        self.sum.push((literal, kept));
    }

    /// Each number changed.
    fn each(mut self, change: impl Fn(i64) -> i64) -> Entry {
        self.sum.iter_mut().for_each(|(_, coefficient)| *coefficient = change(*coefficient));
        self.constant = change(self.constant);
        self
    }

    fn is_within(&self) -> bool {
        let within = |number: i64| number.abs() <= MAX_NUMBER;
        self.sum.len() <= MAX_LITERALS && within(self.constant) && self.sum.iter().all(|(_, coefficient)| within(*coefficient))
    }

    /// The greatest value of the sum over all 0-1 assignments: for each variable the larger of its plain and its negated total.
    fn greatest(&self) -> i64 {
        let of_variable = |literals: &[(u32, i64)]| match *literals {
            [(_, plain), (_, negated)] => plain.max(negated),
            _ => literals[0].1.max(0),
        };
        self.sum.chunk_by(|(left, _), (right, _)| left / 2 == right / 2).map(of_variable).sum()
    }

    fn is_nonnegative(&self) -> bool {
        self.constant >= 0 && self.sum.iter().all(|(_, coefficient)| *coefficient >= 0)
    }
}

/// A text from some byte on, with the commands that were read.
struct Machine<'t> {
    text: &'t [u8],
    next: usize,
    numbers: HashMap<&'t [u8], u32>,
    names: Vec<&'t [u8]>,
    /// What each command says, none where it is refused, and whether it holds.
    commands: Vec<(&'t [u8], Option<Entry>)>,
    ids: HashMap<&'t [u8], usize>,
    lines: usize,
    refused: usize,
    report: String,
}

impl<'t> Machine<'t> {
    /// The next word or bracket; empty at the end.
    fn token(&mut self) -> &'t [u8] {
        let rest = &self.text[self.next..];
        let blanks = rest.iter().take_while(|byte| byte.is_ascii_whitespace()).count();
        let rest = &rest[blanks..];
        let length = rest.iter().take_while(|byte| byte.is_ascii_graphic() && !matches!(byte, b'(' | b')')).count();
        let length = if length == 0 { rest.len().min(1) } else { length };
        self.next += blanks + length;
        &rest[..length]
    }

    fn expect(&mut self, word: &[u8]) -> Option<()> {
        (self.token() == word).then_some(())
    }

    /// The number of a variable.
    fn number(&mut self, name: &'t [u8]) -> u32 {
        let names = &mut self.names;
        *self.numbers.entry(name).or_insert_with(|| {
            names.push(name);
            names.len() as u32 - 1
        })
    }

    /// `(* k v)` or `(* k (- 1 v))` behind its bracket.
    fn product(&mut self) -> Option<(u32, i64)> {
        self.expect(b"*")?;
        let coefficient = numeral(self.token())?;
        let literal = match self.token() {
            b"(" => {
                self.expect(b"-")?;
                self.expect(b"1")?;
                let name = name(self.token())?;
                self.expect(b")")?;
                2 * self.number(name) + 1
            }
            word => 2 * self.number(name(word)?),
        };
        self.expect(b")")?;
        Some((literal, coefficient))
    }

    /// `(>= sum constant)`.
    fn inequality(&mut self) -> Option<Entry> {
        self.expect(b"(")?;
        self.expect(b">=")?;
        let mut products = Vec::new();
        match self.token() {
            b"0" => (),
            b"(" => match self.text[self.next] {
                b'+' => {
                    self.expect(b"+")?;
                    while self.token() == b"(" {
                        products.push(self.product()?);
                    }
                }
                _ => products.push(self.product()?),
            },
            _ => return None,
        }
        let constant = numeral(self.token())?;
        self.expect(b")")?;
        if products.len() > MAX_SUMMANDS {
            return None;
        }
        products.sort_by_key(|(literal, _)| *literal);
        let mut sum: Vec<(u32, i64)> = Vec::with_capacity(products.len());
        for (literal, coefficient) in products {
            match sum.last_mut() {
                Some((last, total)) if *last == literal => *total += coefficient,
                _ => sum.push((literal, coefficient)),
            }
        }
        Some(Entry { sum, constant })
    }

    /// The words of a pol line up to its bracket: what they leave, or the first answer.
    fn line(&mut self) -> Option<Result<Entry, u8>> {
        let mut stack = Vec::with_capacity(MAX_PLACES);
        let (mut result, mut words) = (Ok(()), 0);
        loop {
            let word = self.token();
            match word {
                b")" if words > 0 => break,
                b"" | b"(" | b")" => return None,
                _ => words += 1,
            }
            let factor = numeral(word);
            let operation = if factor.is_some() { self.token() } else { word };
            let made = self.word(factor, operation, &mut stack, result.is_ok())?;
            if result.is_ok() {
                result = made.map(|entry| stack.push(entry));
            }
        }
        Some(result.and_then(|()| if stack.len() == 1 { Ok(stack.remove(0)) } else { Err(STACK) }))
    }

    /// What one word puts on the stack; behind a word that failed words are only read.
    fn word(&mut self, factor: Option<i64>, word: &'t [u8], stack: &mut Vec<Entry>, runs: bool) -> Option<Result<Entry, u8>> {
        let made = match (factor, word) {
            (Some(_), b"*" | b"d") | (None, b"+" | b"s") if !runs => Err(STACK),
            (Some(factor), b"*") => stack
                .pop()
                .ok_or(STACK)
                .and_then(|top| if factor < 0 { Err(SIGN) } else { Ok(top.each(|number| factor * number)) }),
            (Some(divisor), b"d") => stack
                .pop()
                .ok_or(STACK)
                .and_then(|top| if divisor <= 0 { Err(SIGN) } else { Ok(top.each(|number| (number + divisor - 1) / divisor)) }),
            (None, b"s") => stack.pop().ok_or(STACK).and_then(|top| {
                let constant = top.constant;
                if top.is_nonnegative() { Ok(top.each(|number| number.min(constant))) } else { Err(SIGN) }
            }),
            (None, b"+") => match (stack.pop(), stack.pop()) {
                (Some(right), Some(left)) => Ok(left.plus(&right)),
                _ => Err(STACK),
            },
            (Some(_), _) | (None, b"d") => return None,
            (None, [b'~', negated @ ..]) => Ok(self.axiom(name(negated)?, 1)),
            (None, pushed) => match self.ids.get(name(pushed)?) {
                Some(place) => self.commands[*place].1.clone().ok_or(SIGN),
                None => Ok(self.axiom(pushed, 0)),
            },
        };
        let pushes = factor.is_none() && !matches!(word, b"+" | b"s");
        let made = if runs && pushes && stack.len() == MAX_PLACES { Err(STACK) } else { made };
        Some(made.and_then(|entry| if entry.is_within() { Ok(entry) } else { Err(BEYOND) }))
    }

    fn axiom(&mut self, name: &'t [u8], negated: u32) -> Entry {
        Entry { sum: vec![(2 * self.number(name) + negated, 1)], constant: 0 }
    }

    /// Zeros left out.
    fn finished(mut entry: Entry) -> Entry {
        entry.sum.retain(|(_, coefficient)| *coefficient != 0);
        entry
    }

    /// A command behind its bracket.
    fn command(&mut self) -> Option<()> {
        let word = self.token();
        let id = name(self.token())?;
        if self.ids.contains_key(id) {
            return None;
        }
        let (rule, said) = match word {
            b"assume" => {
                let entry = self.inequality()?;
                self.expect(b")")?;
                ("assume", Ok(entry))
            }
            b"pol" if self.lines < MAX_LINES => {
                self.lines += 1;
                ("pol", self.line()?.map(Self::finished))
            }
            _ => return None,
        };
        let answer = said.as_ref().err().copied().unwrap_or(0);
        let marks = if answer == 0 { "plain=yes holds=yes" } else { "plain=no holds=no" };
        self.refused += usize::from(answer != 0);
        let written = std::str::from_utf8(id).ok()?;
        writeln!(self.report, "id={written} rule={rule} answer={answer} {marks}").expect("a string takes every line");
        self.ids.insert(id, self.commands.len());
        self.commands.push((id, said.ok()));
        Some(())
    }
}

/// The number of a numeral.
fn numeral(word: &[u8]) -> Option<i64> {
    let digits = word.strip_prefix(b"-").unwrap_or(word);
    let is_numeral = (1..=8).contains(&digits.len()) && digits.iter().all(u8::is_ascii_digit);
    let size = is_numeral.then(|| digits.iter().fold(0, |value, digit| 10 * value + i64::from(digit - b'0')))?;
    Some(if digits.len() < word.len() { -size } else { size })
}

/// A name, and no word of the grammar.
fn name(word: &[u8]) -> Option<&[u8]> {
    let begins = |byte: &u8| byte.is_ascii_alphabetic() || matches!(byte, b'_' | b'@');
    let is_name =
        word.first().is_some_and(begins) && word.iter().all(|byte| begins(byte) || byte.is_ascii_digit() || *byte == b'.');
    (is_name && word.len() <= 32 && !matches!(word, b"cl" | b"assume" | b"step" | b"and")).then_some(word)
}

/// The report of a text of assumptions and pol lines, in which a constant zero sum is `0`; none for any other text.
pub fn report(text: &[u8]) -> Option<String> {
    let mut machine = Machine {
        text,
        next: 0,
        numbers: HashMap::new(),
        names: Vec::new(),
        commands: Vec::new(),
        ids: HashMap::new(),
        lines: 0,
        refused: 0,
        report: String::new(),
    };
    loop {
        match machine.token() {
            b"" => break,
            b"(" => machine.command()?,
            _ => return None,
        }
    }
    let unreachable = |(_, said): &(&[u8], Option<Entry>)| said.as_ref().is_some_and(|entry| entry.greatest() < entry.constant);
    let refuted = if machine.commands.iter().any(unreachable) { "yes" } else { "no" };
    let (commands, refused) = (machine.commands.len(), machine.refused);
    writeln!(machine.report, "commands={commands} refused={refused} refuted={refuted}").expect("a string takes every line");
    Some(machine.report)
}

#[cfg(test)]
mod tests {
    use super::report;
    use std::fs;

    /// The machine's report of every stored text that it reads is the stored one, and it reads many.
    #[test]
    fn vectors_have_the_reports_that_are_stored() {
        let folder = concat!(env!("CARGO_MANIFEST_DIR"), "/../../tests/vectors/reports");
        let mut compared = 0;
        for path in fs::read_dir(folder).unwrap().map(|entry| entry.unwrap().path()) {
            let name = path.file_name().unwrap().to_string_lossy().into_owned();
            if !name.ends_with(".in") || !["pol_", "greatest_"].iter().any(|start| name.starts_with(start)) {
                continue;
            }
            let due = String::from_utf8(fs::read(path.with_extension("out")).unwrap()).unwrap();
            if let (Some(found), false) = (report(&fs::read(&path).unwrap()), due.starts_with("refused=")) {
                assert_eq!(found, due, "{}", path.display());
                compared += 1;
            }
        }
        assert!(compared >= 140, "only {compared} texts");
    }

    /// The texts that are timed have the oracle's report.
    #[test]
    fn timed_texts_have_the_oracles_report() {
        if !oracle::ORIGINAL {
            return;
        }
        for text in crate::texts::pol_texts() {
            assert_eq!(report(&text.bytes).expect("it is read").into_bytes(), oracle::report(&text.bytes), "{}", text.name);
        }
    }
}
