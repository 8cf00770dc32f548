//! A plain reader of OPB texts (document 02, No. 1), as one writes it in Rust: recursive descent over the words, constraints as vectors of
//! summands, a hash map from names to numbers, assumptions as terms, with the same limits and refusals; and the report of a model without a
//! proof, which a constraint refutes whose sum cannot reach its constant (No. 6). Nothing here is proved.

use std::collections::HashMap;
use std::fmt::Write;

const MAX_TEXT: usize = 32_768;
const MAX_NUMBER: i32 = 99_999_999;
const MAX_NAME: usize = 32;
const MAX_NODES: usize = 4_096;
const MAX_ASSUMPTIONS: usize = 512;
const MAX_SUMMANDS: usize = 512;

const TEXT_TOO_LONG: u8 = 2;
const BAD_BYTE: u8 = 3;
const BAD_NUMBER: u8 = 4;
const WORD_OF_NO_KIND: u8 = 5;
const OVER_LIMIT: u8 = 7;
const OBJECTIVE: u8 = 50;
const FORMAT_BROKEN: u8 = 51;

/// The number of a refusal and its byte.
#[derive(Clone, Copy, Debug, PartialEq, Eq)]
pub struct Refusal {
    pub number: u8,
    pub byte: usize,
}

#[derive(Clone, Copy, Debug, PartialEq, Eq)]
pub enum Operator {
    Plus,
    Minus,
    Times,
    AtLeast,
}

/// A variable is the number of its name in the model's names.
#[derive(Debug)]
pub enum Term {
    Numeral(i32),
    Variable(usize),
    Application(Operator, Vec<Term>),
}

#[derive(Debug)]
pub struct Assumption {
    pub id: String,
    pub term: Term,
}

#[derive(Debug, Default)]
pub struct Model<'t> {
    pub assumptions: Vec<Assumption>,
    pub names: Vec<&'t [u8]>,
}

#[derive(Clone, Copy, PartialEq, Eq)]
enum Relation {
    AtLeast,
    Equal,
}

#[derive(Clone, Copy, PartialEq, Eq)]
enum Word<'t> {
    End,
    Semicolon,
    Relation(Relation),
    Number(i32),
    Literal { name: &'t [u8], negated: bool },
}

struct Summand {
    coefficient: i32,
    variable: usize,
    negated: bool,
}

struct Constraint {
    summands: Vec<Summand>,
    relation: Relation,
    constant: i32,
}

fn is_blank(byte: u8) -> bool {
    matches!(byte, b' ' | b'\t' | b'\n' | b'\r')
}

/// Blanks, brackets, `;` and bad bytes end words.
fn is_in_word(byte: u8) -> bool {
    byte.is_ascii_graphic() && !matches!(byte, b'(' | b')' | b';')
}

/// Digits, no leading zero but `0` itself, never `-0`, not beyond the largest.
fn number(negative: bool, digits: &[u8]) -> Option<i32> {
    if digits[0] == b'0' && (negative || digits.len() > 1) {
        return None;
    }
    let mut value = 0;
    for &byte in digits {
        if !byte.is_ascii_digit() {
            return None;
        }
        value = value * 10 + i32::from(byte - b'0');
        if value > MAX_NUMBER {
            return None;
        }
    }
    Some(if negative { -value } else { value })
}

/// `x` and digits.
fn is_variable(name: &[u8]) -> bool {
    name.len() <= MAX_NAME && name.len() > 1 && name[0] == b'x' && name[1..].iter().all(u8::is_ascii_digit)
}

/// What a word is, or the number that it is refused by.
fn word(word: &[u8]) -> Result<Word<'_>, u8> {
    let (negative, digits) = match word {
        [b'+', digits @ ..] => (false, digits),
        [b'-', digits @ ..] => (true, digits),
        digits => (false, digits),
    };
    if digits.first().is_some_and(u8::is_ascii_digit) {
        return number(negative, digits).map(Word::Number).ok_or(BAD_NUMBER);
    }
    match word {
        b">=" => Ok(Word::Relation(Relation::AtLeast)),
        b"=" => Ok(Word::Relation(Relation::Equal)),
        b"min:" | b"max:" => Err(OBJECTIVE),
        [b'~', name @ ..] if is_variable(name) => Ok(Word::Literal { name, negated: true }),
        name if is_variable(name) => Ok(Word::Literal { name, negated: false }),
        _ => Err(WORD_OF_NO_KIND),
    }
}

/// A text, the byte that is next, the start of the word before it, and what was read up to there.
struct Reader<'t> {
    text: &'t [u8],
    next: usize,
    start: usize,
    nodes: usize,
    numbers: HashMap<&'t [u8], usize>,
    model: Model<'t>,
}

impl<'t> Reader<'t> {
    fn refusal<T>(&self, number: u8) -> Result<T, Refusal> {
        Err(Refusal { number, byte: self.start })
    }

    fn pass_blanks(&mut self) {
        self.next += self.text[self.next..].iter().take_while(|&&byte| is_blank(byte)).count();
    }

    /// Past blanks and comments: lines that start with `*`, up to LF or the end.
    fn pass_comments(&mut self) -> Result<(), Refusal> {
        self.pass_blanks();
        while self.text.get(self.next) == Some(&b'*') && (self.next == 0 || self.text[self.next - 1] == b'\n') {
            for &byte in self.text[self.next..].iter().take_while(|&&byte| byte != b'\n') {
                if !byte.is_ascii_graphic() && !is_blank(byte) {
                    return Err(Refusal { number: BAD_BYTE, byte: self.next });
                }
                self.next += 1;
            }
            self.pass_blanks();
        }
        Ok(())
    }

    /// Takes the next word.
    fn word(&mut self) -> Result<Word<'t>, Refusal> {
        self.pass_blanks();
        self.start = self.next;
        let rest = &self.text[self.start..];
        let Some(&first) = rest.first() else {
            return Ok(Word::End);
        };
        self.next += 1;
        match first {
            b';' => Ok(Word::Semicolon),
            b'(' | b')' => self.refusal(FORMAT_BROKEN),
            _ if is_in_word(first) => {
                let length = rest.iter().take_while(|&&byte| is_in_word(byte)).count();
                self.next = self.start + length;
                word(&rest[..length]).or_else(|number| self.refusal(number))
            }
            _ => self.refusal(BAD_BYTE),
        }
    }

    fn text(mut self) -> Result<Model<'t>, Refusal> {
        loop {
            self.pass_comments()?;
            if self.next == self.text.len() {
                return Ok(self.model);
            }
            let first = self.next;
            let constraint = self.constraint()?;
            self.assume(&constraint, first)?;
        }
    }

    /// `(number literal)* relation number ;`
    fn constraint(&mut self) -> Result<Constraint, Refusal> {
        let mut summands = Vec::new();
        let relation = loop {
            match self.word()? {
                Word::Number(coefficient) => {
                    let Word::Literal { name, negated } = self.word()? else {
                        return self.refusal(FORMAT_BROKEN);
                    };
                    summands.push(Summand { coefficient, variable: self.number_of(name), negated });
                }
                Word::Relation(relation) => break relation,
                _ => return self.refusal(FORMAT_BROKEN),
            }
        };
        let Word::Number(constant) = self.word()? else {
            return self.refusal(FORMAT_BROKEN);
        };
        match self.word()? {
            Word::Semicolon => Ok(Constraint { summands, relation, constant }),
            _ => self.refusal(FORMAT_BROKEN),
        }
    }

    /// Makes the assumptions of a constraint, all of them within the limits: else 7 where it starts.
    fn assume(&mut self, constraint: &Constraint, first: usize) -> Result<(), Refusal> {
        let signs: &[i32] = match constraint.relation {
            Relation::AtLeast => &[1],
            Relation::Equal => &[1, -1],
        };
        self.nodes += signs.len() * nodes(&constraint.summands);
        if self.nodes > MAX_NODES || self.model.assumptions.len() + signs.len() > MAX_ASSUMPTIONS {
            return Err(Refusal { number: OVER_LIMIT, byte: first });
        }
        for &sign in signs {
            let id = format!("c{}", self.model.assumptions.len() + 1);
            self.model.assumptions.push(Assumption { id, term: inequality(constraint, sign) });
        }
        Ok(())
    }

    fn number_of(&mut self, name: &'t [u8]) -> usize {
        let names = &mut self.model.names;
        *self.numbers.entry(name).or_insert_with(|| {
            names.push(name);
            names.len() - 1
        })
    }
}

/// How many nodes an assumption over these summands has.
fn nodes(summands: &[Summand]) -> usize {
    let all: usize = summands.iter().map(|summand| if summand.negated { 5 } else { 3 }).sum();
    match summands.len() {
        0 => 3,
        1 => 2 + all,
        _ => 3 + all,
    }
}

/// `(>= sum constant)`, with all signs turned where the sign is -1.
fn inequality(constraint: &Constraint, sign: i32) -> Term {
    let mut products: Vec<Term> = constraint.summands.iter().map(|summand| product(summand, sign)).collect();
    let sum = match products.len() {
        0 => Term::Numeral(0),
        1 => products.remove(0),
        _ => Term::Application(Operator::Plus, products),
    };
    Term::Application(Operator::AtLeast, vec![sum, Term::Numeral(sign * constraint.constant)])
}

/// `(* k v)`, or `(* k (- 1 v))` where it is negated.
fn product(summand: &Summand, sign: i32) -> Term {
    let variable = Term::Variable(summand.variable);
    let literal = match summand.negated {
        true => Term::Application(Operator::Minus, vec![Term::Numeral(1), variable]),
        false => variable,
    };
    Term::Application(Operator::Times, vec![Term::Numeral(sign * summand.coefficient), literal])
}

/// The assumptions of an OPB text, or its refusal.
pub fn read(text: &[u8]) -> Result<Model<'_>, Refusal> {
    if text.len() > MAX_TEXT {
        return Err(Refusal { number: TEXT_TOO_LONG, byte: MAX_TEXT });
    }
    Reader { text, next: 0, start: 0, nodes: 0, numbers: HashMap::new(), model: Model::default() }.text()
}

/// Variable, whether it is negated, and coefficient of a summand.
fn literal(product: &Term) -> Option<(usize, bool, i64)> {
    let Term::Application(Operator::Times, factors) = product else { return None };
    match &factors[..] {
        [Term::Numeral(coefficient), Term::Variable(variable)] => Some((*variable, false, (*coefficient).into())),
        [Term::Numeral(coefficient), Term::Application(Operator::Minus, terms)] => match terms[..] {
            [_, Term::Variable(variable)] => Some((variable, true, (*coefficient).into())),
            _ => None,
        },
        _ => None,
    }
}

/// The greatest value of a sum over all 0-1 assignments: for each variable the larger of its plain and its negated total.
fn greatest(summands: &[Term]) -> i64 {
    let mut literals: Vec<_> = summands.iter().filter_map(literal).collect();
    literals.sort_unstable_by_key(|(variable, _, _)| *variable);
    let of_variable = |literals: &[(usize, bool, i64)]| {
        let total = |due: bool| literals.iter().filter(|(_, negated, _)| *negated == due).map(|(_, _, k)| k).sum::<i64>();
        total(false).max(total(true))
    };
    literals.chunk_by(|left, right| left.0 == right.0).map(of_variable).sum()
}

/// Whether an assumption's sum, of at most 512 summands, has a greatest value below its constant.
fn unreachable(term: &Term) -> bool {
    let Term::Application(Operator::AtLeast, sides) = term else { return false };
    let [sum, Term::Numeral(constant)] = &sides[..] else { return false };
    let summands = match sum {
        Term::Application(Operator::Plus, summands) => &summands[..],
        Term::Numeral(_) => &[],
        product => std::slice::from_ref(product),
    };
    summands.len() <= MAX_SUMMANDS && greatest(summands) < i64::from(*constant)
}

/// The report of an OPB text without a proof: its assumptions are all statements and hold.
pub fn report(text: &[u8]) -> String {
    let model = match read(text) {
        Ok(model) => model,
        Err(Refusal { number, byte }) => return format!("refused={number} byte={byte}\n"),
    };
    let mut report = String::new();
    for assumption in &model.assumptions {
        writeln!(report, "id={} rule=assume answer=0 plain=yes holds=yes", assumption.id).expect("a string takes every line");
    }
    let refuted = model.assumptions.iter().any(|assumption| unreachable(&assumption.term));
    let refuted = if refuted { "yes" } else { "no" };
    writeln!(report, "commands={} refused=0 refuted={refuted}", model.assumptions.len()).expect("a string takes every line");
    report
}

#[cfg(test)]
mod tests {
    use super::{Model, Operator, Term, read, report};
    use std::fs;

    /// A term as the oracle writes it.
    fn written(model: &Model, term: &Term) -> String {
        match term {
            Term::Numeral(value) => value.to_string(),
            Term::Variable(number) => String::from_utf8(model.names[*number].to_vec()).unwrap(),
            Term::Application(operator, terms) => {
                let operator = match operator {
                    Operator::Plus => "+",
                    Operator::Minus => "-",
                    Operator::Times => "*",
                    Operator::AtLeast => ">=",
                };
                let terms: Vec<String> = terms.iter().map(|term| written(model, term)).collect();
                format!("({operator} {})", terms.join(" "))
            }
        }
    }

    /// Holds a text's report, and its assumptions where it is read, to the oracle's.
    fn compare(opb: &[u8]) {
        let shown = String::from_utf8_lossy(&opb[..opb.len().min(300)]).into_owned();
        assert_eq!(report(opb).into_bytes(), oracle::report_both(opb, b""), "{shown}");
        if let (Ok(model), Ok(account)) = (read(opb), oracle::account_both(opb, b"")) {
            let ours: Vec<_> = model.assumptions.iter().map(|made| (made.id.clone(), written(&model, &made.term))).collect();
            let theirs: Vec<_> = account.commands.iter().map(|made| (made.id.clone(), made.clause[0].to_string())).collect();
            assert_eq!(ours, theirs, "{shown}");
        }
    }

    /// The OPB texts of tests/vectors/opb, each with the report of both texts.
    fn vectors() -> Vec<(Vec<u8>, Vec<u8>)> {
        let folder = concat!(env!("CARGO_MANIFEST_DIR"), "/../../tests/vectors/opb");
        let paths = fs::read_dir(folder).unwrap().map(|entry| entry.unwrap().path());
        let vectors: Vec<_> = paths
            .filter(|path| path.extension().is_some_and(|ending| ending == "opb"))
            .map(|path| (fs::read(&path).unwrap(), fs::read(path.with_extension("out")).unwrap()))
            .collect();
        assert!(vectors.len() >= 300, "only {} vectors", vectors.len());
        vectors
    }

    #[test]
    fn vectors_are_read_as_the_oracle_reads_them() {
        for (opb, due) in vectors() {
            compare(&opb);
            let found = report(&opb).into_bytes();
            if found.starts_with(b"refused=") {
                assert_eq!(found, due);
            } else if !due.starts_with(b"refused=") {
                let lines = read(&opb).unwrap().assumptions.len();
                let first = |text: &[u8]| text.split(|&byte| byte == b'\n').take(lines).map(<[u8]>::to_vec).collect::<Vec<_>>();
                assert_eq!(first(&found), first(&due));
            }
        }
    }

    #[test]
    fn damaged_texts_are_read_as_the_oracle_reads_them() {
        let vectors = vectors();
        let mut state: u64 = 1;
        let mut below = |bound: usize| {
            state = state.wrapping_mul(6_364_136_223_846_793_005).wrapping_add(1_442_695_040_888_963_407);
            (state >> 33) as usize % bound.max(1)
        };
        let bytes = b" \n\n;;~~+-*>==0123456789xx()m:\r\t\0\xff";
        for _ in 0..20_000 {
            let mut opb = vectors[below(vectors.len())].0.clone();
            if opb.len() > 2_000 {
                continue;
            }
            for _ in 0..=below(3) {
                let (at, byte) = (below(opb.len() + 1), bytes[below(bytes.len())]);
                match below(3) {
                    0 => opb.insert(at, byte),
                    1 if at < opb.len() => opb[at] = byte,
                    _ if at < opb.len() => drop(opb.remove(at)),
                    _ => opb.push(byte),
                }
            }
            compare(&opb);
        }
    }
}
