//! Commands while they are being made, and how they are written: with the blanks of a person, with odd ones, or with none.

use crate::random::Random;
use crate::rules::Rule;
use crate::term::{Apply, Name, Number, Term};

/// A word of a pol line, or a few: a pushed command by its number, or as it is written.
#[derive(Clone)]
pub enum PolWord {
    Line(usize),
    Word(String),
}

/// A command; premises are numbers of commands.
#[derive(Clone)]
pub struct Command {
    pub id: String,
    pub rule: Rule,
    pub clause: Vec<Term>,
    pub premises: Vec<usize>,
    pub arguments: Vec<Term>,
    /// The words of a pol line, whose clause is what is foreseen of it.
    pub words: Vec<PolWord>,
    /// Whether it was changed after it had been made to be accepted.
    pub missed: bool,
    /// Whether it stands in the OPB text, as a constraint.
    pub given: bool,
}

/// How blanks are chosen.
#[derive(Clone, Copy, PartialEq)]
enum Layout {
    Usual,
    Odd,
    Tight,
}

struct Writer<'r> {
    random: &'r mut Random,
    layout: Layout,
    text: Vec<u8>,
}

/// The text of the commands, without those that stand in the OPB text.
pub fn written(commands: &[Command], random: &mut Random) -> Vec<u8> {
    let layout = match random.below(12) {
        0 => Layout::Odd,
        1 => Layout::Tight,
        _ => Layout::Usual,
    };
    let mut writer = Writer { random, layout, text: Vec::with_capacity(96 * commands.len()) };
    for command in commands.iter().filter(|command| !command.given) {
        writer.command(command, commands);
    }
    writer.text
}

impl Writer<'_> {
    /// A blank where a person would put one; two words need it.
    fn blank(&mut self, needed: bool) {
        match self.layout {
            Layout::Usual => self.text.push(b' '),
            Layout::Tight if needed => self.text.push(b' '),
            Layout::Tight => (),
            Layout::Odd => self.odd_blanks(needed),
        }
    }

    fn odd_blanks(&mut self, needed: bool) {
        let first = usize::from(needed);
        for _ in 0..first + self.random.below(3) {
            self.text.push(*self.random.one(b" \t\n\r"));
        }
    }

    fn open(&mut self) {
        if self.layout == Layout::Odd {
            self.odd_blanks(false);
        }
        self.text.push(b'(');
        if self.layout == Layout::Odd {
            self.odd_blanks(false);
        }
    }

    fn close(&mut self) {
        if self.layout == Layout::Odd {
            self.odd_blanks(false);
        }
        self.text.push(b')');
    }

    /// A word, with a blank before it where something other than an opening bracket stands there.
    fn word(&mut self, word: &str) {
        self.separate(true);
        self.text.extend_from_slice(word.as_bytes());
    }

    fn separate(&mut self, before_word: bool) {
        match self.text.last() {
            None | Some(b'(' | b' ' | b'\n' | b'\t' | b'\r') => (),
            Some(b')') => self.blank(false),
            Some(_) => self.blank(before_word),
        }
    }

    fn term(&mut self, term: &Term) {
        match term {
            Number(number) => self.word(&number.to_string()),
            Name(name) => self.word(name),
            Apply(operator, arguments) => {
                self.separate(false);
                self.open();
                self.word(operator.word());
                arguments.iter().for_each(|argument| self.term(argument));
                self.close();
            }
        }
    }

    /// Words and terms in brackets.
    fn group(&mut self, words: &[&str], terms: &[Term]) {
        self.separate(false);
        self.open();
        words.iter().for_each(|word| self.word(word));
        terms.iter().for_each(|term| self.term(term));
        self.close();
    }

    fn command(&mut self, command: &Command, commands: &[Command]) {
        self.open();
        match command.rule {
            Rule::Assume => {
                self.word("assume");
                self.word(&command.id);
                command.clause.iter().for_each(|term| self.term(term));
            }
            Rule::Pol => self.pol(command, commands),
            _ => self.step(command, commands),
        }
        self.close();
        if self.layout == Layout::Usual {
            self.text.push(b'\n');
        }
    }

    fn pol(&mut self, command: &Command, commands: &[Command]) {
        self.word("pol");
        self.word(&command.id);
        for word in &command.words {
            match word {
                PolWord::Line(number) => self.word(&commands[*number].id),
                PolWord::Word(words) => words.split(' ').for_each(|word| self.word(word)),
            }
        }
    }

    fn step(&mut self, command: &Command, commands: &[Command]) {
        self.word("step");
        self.word(&command.id);
        self.group(&["cl"], &command.clause);
        self.word(":rule");
        self.word(command.rule.name());
        if !command.premises.is_empty() {
            let ids: Vec<&str> = command.premises.iter().map(|&number| commands[number].id.as_str()).collect();
            self.word(":premises");
            self.group(&ids, &[]);
        }
        if !command.arguments.is_empty() {
            self.word(":args");
            self.group(&[], &command.arguments);
        }
    }
}
