//! How the constraints of an OPB text are written: one on a line as solvers do, with odd blanks, or with none that is not needed.

use crate::random::Random;

/// A constraint while a text is being made: coefficients with their variables and whether these are negated.
#[derive(Clone, Debug, PartialEq)]
pub struct Constraint {
    pub summands: Vec<(i64, &'static str, bool)>,
    pub equal: bool,
    pub constant: i64,
}

/// How blanks are chosen.
#[derive(Clone, Copy, PartialEq)]
enum Layout {
    Usual,
    Odd,
    Tight,
    CarriageReturns,
}

struct Writer<'r> {
    random: &'r mut Random,
    layout: Layout,
    /// How many of a hundred numbers that are not negative have a `+`.
    signs: usize,
    /// How many of a hundred lines between constraints are comments.
    comments: usize,
    text: Vec<u8>,
}

/// The text of the constraints.
pub fn written(constraints: &[Constraint], random: &mut Random) -> Vec<u8> {
    let layout = *random.one(&[
        Layout::Usual,
        Layout::Usual,
        Layout::Usual,
        Layout::Usual,
        Layout::CarriageReturns,
        Layout::Odd,
        Layout::Odd,
        Layout::Tight,
    ]);
    let signs = *random.one(&[0, 100, 50]);
    let comments = *random.one(&[0, 0, 20, 60]);
    let mut writer = Writer { random, layout, signs, comments, text: Vec::with_capacity(48 * constraints.len()) };
    if writer.random.chance(40) {
        let header = format!("* #variable= 9 #constraint= {}", constraints.len());
        writer.text.extend_from_slice(header.as_bytes());
        writer.end_line();
    }
    for constraint in constraints {
        writer.between();
        writer.constraint(constraint);
    }
    writer.end();
    writer.text
}

impl Writer<'_> {
    fn end_line(&mut self) {
        if self.layout == Layout::CarriageReturns {
            self.text.push(b'\r');
        }
        self.text.push(b'\n');
    }

    fn starts_line(&self) -> bool {
        self.text.is_empty() || self.text.ends_with(b"\n")
    }

    /// What stands between constraints: comments at the start of a line, blanks.
    fn between(&mut self) {
        if self.layout == Layout::Odd {
            self.odd_blanks(0);
        }
        while self.starts_line() && self.random.chance(self.comments) {
            self.comment();
            self.end_line();
        }
    }

    /// A comment has any printable bytes, words of the format among them.
    fn comment(&mut self) {
        self.text.push(b'*');
        for _ in 0..self.random.below(4) {
            let word = self.random.one(&[" c", " ;", " 1 x1 >= 1 ;", " min:", " (", " 007", "*", "\t", "\r", " ~", ""]);
            self.text.extend_from_slice(word.as_bytes());
        }
    }

    fn odd_blanks(&mut self, least: usize) {
        for _ in 0..least + self.random.below(3) {
            self.text.push(*self.random.one(b"  \t\n\r"));
        }
    }

    /// A word of a constraint, apart from what stands before it in this constraint.
    fn word(&mut self, word: &str, first: bool) {
        match self.layout {
            _ if first => (),
            Layout::Odd => self.odd_blanks(1),
            _ => self.text.push(b' '),
        }
        self.text.extend_from_slice(word.as_bytes());
    }

    fn number(&mut self, number: i64) -> String {
        if number >= 0 && self.random.chance(self.signs) {
            format!("+{number}")
        } else {
            number.to_string()
        }
    }

    fn constraint(&mut self, constraint: &Constraint) {
        let mut first = true;
        for (coefficient, variable, negated) in &constraint.summands {
            let number = self.number(*coefficient);
            self.word(&number, first);
            self.word(&format!("{}{variable}", if *negated { "~" } else { "" }), false);
            first = false;
        }
        self.word(if constraint.equal { "=" } else { ">=" }, first);
        let constant = self.number(constraint.constant);
        self.word(&constant, false);
        match self.layout {
            Layout::Odd => self.odd_blanks(0),
            Layout::Tight => (),
            _ => self.text.push(b' '),
        }
        self.text.push(b';');
        if matches!(self.layout, Layout::Usual | Layout::CarriageReturns) {
            self.end_line();
        }
    }

    /// The last line may be a comment, and need not end.
    fn end(&mut self) {
        if self.starts_line() && self.random.chance(self.comments / 2) {
            self.comment();
        } else if self.random.chance(15) {
            self.text = self.text.trim_ascii_end().to_vec();
        }
    }
}
