//! A plain reader of document 01's grammar (section 1), as one writes it in Rust: recursive descent over the bytes, terms
//! as an enum, hash maps for ids and names, with the same limits and refusals. Nothing here is proved.
use std::collections::HashMap;

const MAX_TEXT: usize = 32768;
const MAX_NUMERAL: u64 = 99999999;
const MAX_NAME: usize = 32;
const MAX_NODES: usize = 4096;
const MAX_DEPTH: usize = 64;
const MAX_COMMANDS: usize = 512;

const TEXT_TOO_LONG: u8 = 2;
const BAD_BYTE: u8 = 3;
const BAD_NUMERAL: u8 = 4;
const WORD_OF_NO_KIND: u8 = 5;
const GRAMMAR_BROKEN: u8 = 6;
const OVER_LIMIT: u8 = 7;
const BAD_REFERENCE: u8 = 8;

/// The number of a refusal and its byte.
#[derive(Clone, Copy, Debug, PartialEq, Eq)]
pub struct Refusal {
    pub number: u8,
    pub byte: usize,
}

#[derive(Clone, Copy, Debug, PartialEq, Eq)]
pub enum Operator {
    Plus,
    Minus,
    Times,
    AtLeast,
    More,
    AtMost,
    Less,
    Equals,
    And,
}

#[derive(Clone, Copy, Debug, PartialEq, Eq)]
pub enum Rule {
    Addition,
    Multiplication,
    Division,
    Saturation,
    Literal,
    Normalize,
    Transfer,
    Part,
}

/// A variable is the number of its name in the file's names.
#[derive(Debug)]
pub enum Term {
    Numeral(i32),
    Variable(usize),
    Application(Operator, Vec<Term>),
}

/// An assumption has no rule, and one term for its clause. Premises are numbers of commands.
#[derive(Debug)]
pub struct Command<'t> {
    pub id: &'t [u8],
    pub rule: Option<Rule>,
    pub clause: Vec<Term>,
    pub premises: Vec<usize>,
    pub arguments: Vec<Term>,
}

#[derive(Debug)]
pub struct File<'t> {
    pub commands: Vec<Command<'t>>,
    pub names: Vec<&'t [u8]>,
    pub nodes: usize,
}

#[derive(Clone, Copy, PartialEq, Eq)]
enum Token<'t> {
    End,
    Open,
    Close,
    Cl,
    Assume,
    Step,
    RuleKey,
    PremisesKey,
    ArgsKey,
    Operator(Operator),
    Numeral(i32),
    Name(&'t [u8]),
}

fn is_blank(byte: u8) -> bool {
    matches!(byte, b' ' | b'\t' | b'\n' | b'\r')
}

/// Blanks, brackets and bad bytes end words.
fn is_in_word(byte: u8) -> bool {
    byte.is_ascii_graphic() && byte != b'(' && byte != b')'
}

fn is_name(word: &[u8]) -> bool {
    let starts = |byte: u8| byte.is_ascii_alphabetic() || byte == b'_' || byte == b'@';
    starts(word[0]) && word.iter().all(|&byte| starts(byte) || byte.is_ascii_digit() || byte == b'.')
}

/// Digits, no leading zero but `0` itself, never `-0`, not beyond the largest.
fn numeral(negative: bool, digits: &[u8]) -> Option<i32> {
    if digits[0] == b'0' && (negative || digits.len() > 1) {
        return None;
    }
    let mut value = 0;
    for &byte in digits {
        if !byte.is_ascii_digit() {
            return None;
        }
        value = value * 10 + u64::from(byte - b'0');
        if value > MAX_NUMERAL {
            return None;
        }
    }
    Some(if negative { -(value as i32) } else { value as i32 })
}

/// What a word is, or the number that it is refused by.
fn word(word: &[u8]) -> Result<Token<'_>, u8> {
    match word {
        [b'0'..=b'9', ..] => return numeral(false, word).map(Token::Numeral).ok_or(BAD_NUMERAL),
        [b'-', rest @ ..] if rest.first().is_some_and(u8::is_ascii_digit) => {
            return numeral(true, rest).map(Token::Numeral).ok_or(BAD_NUMERAL);
        }
        _ => {}
    }
    Ok(match word {
        b"+" => Token::Operator(Operator::Plus),
        b"-" => Token::Operator(Operator::Minus),
        b"*" => Token::Operator(Operator::Times),
        b">=" => Token::Operator(Operator::AtLeast),
        b">" => Token::Operator(Operator::More),
        b"<=" => Token::Operator(Operator::AtMost),
        b"<" => Token::Operator(Operator::Less),
        b"=" => Token::Operator(Operator::Equals),
        b"and" => Token::Operator(Operator::And),
        b"cl" => Token::Cl,
        b"assume" => Token::Assume,
        b"step" => Token::Step,
        b":rule" => Token::RuleKey,
        b":premises" => Token::PremisesKey,
        b":args" => Token::ArgsKey,
        _ if is_name(word) && word.len() <= MAX_NAME => Token::Name(word),
        _ => return Err(WORD_OF_NO_KIND),
    })
}

fn rule(name: &[u8]) -> Option<Rule> {
    Some(match name {
        b"cp_addition" => Rule::Addition,
        b"cp_multiplication" => Rule::Multiplication,
        b"cp_division" => Rule::Division,
        b"cp_saturation" => Rule::Saturation,
        b"cp_literal" => Rule::Literal,
        b"cp_normalize" => Rule::Normalize,
        b"cp_transfer" => Rule::Transfer,
        b"cp_part" => Rule::Part,
        _ => return None,
    })
}

/// The next token is looked at before it is taken, so that the leftmost offence is met first.
struct Reader<'t> {
    text: &'t [u8],
    start: usize,
    end: usize,
    token: Result<Token<'t>, u8>,
    nodes: usize,
    ids: HashMap<&'t [u8], usize>,
    numbers: HashMap<&'t [u8], usize>,
    names: Vec<&'t [u8]>,
}

impl<'t> Reader<'t> {
    fn new(text: &'t [u8]) -> Self {
        let (ids, numbers) = (HashMap::new(), HashMap::new());
        let mut reader = Reader { text, start: 0, end: 0, token: Ok(Token::End), nodes: 0, ids, numbers, names: Vec::new() };
        reader.advance();
        reader
    }

    /// Looks at the token behind the one at hand.
    fn advance(&mut self) {
        let text = self.text;
        let blanks = text[self.end..].iter().take_while(|&&byte| is_blank(byte)).count();
        let start = self.end + blanks;
        self.start = start;
        self.end = (start + 1).min(text.len());
        self.token = match text.get(start) {
            None => Ok(Token::End),
            Some(b'(') => Ok(Token::Open),
            Some(b')') => Ok(Token::Close),
            Some(&byte) if is_in_word(byte) => {
                self.end = start + text[start..].iter().take_while(|&&byte| is_in_word(byte)).count();
                word(&text[start..self.end])
            }
            Some(_) => Err(BAD_BYTE),
        };
    }

    fn refusal<T>(&self, number: u8) -> Result<T, Refusal> {
        Err(Refusal { number, byte: self.start })
    }

    fn peek(&self) -> Result<Token<'t>, Refusal> {
        self.token.or_else(|number| self.refusal(number))
    }

    fn expect(&mut self, token: Token<'t>) -> Result<(), Refusal> {
        if self.peek()? != token {
            return self.refusal(GRAMMAR_BROKEN);
        }
        self.advance();
        Ok(())
    }

    fn name(&self) -> Result<&'t [u8], Refusal> {
        match self.peek()? {
            Token::Name(name) => Ok(name),
            _ => self.refusal(GRAMMAR_BROKEN),
        }
    }

    fn count_node(&mut self) -> Result<(), Refusal> {
        if self.nodes == MAX_NODES {
            return self.refusal(OVER_LIMIT);
        }
        self.nodes += 1;
        Ok(())
    }

    fn file(mut self) -> Result<File<'t>, Refusal> {
        let mut commands = Vec::new();
        while self.peek()? != Token::End {
            if self.peek()? != Token::Open {
                return self.refusal(GRAMMAR_BROKEN);
            }
            if commands.len() == MAX_COMMANDS {
                return self.refusal(OVER_LIMIT);
            }
            self.advance();
            let command = self.command()?;
            self.ids.insert(command.id, commands.len());
            commands.push(command);
        }
        Ok(File { commands, names: self.names, nodes: self.nodes })
    }

    /// Behind the bracket of a command.
    fn command(&mut self) -> Result<Command<'t>, Refusal> {
        match self.peek()? {
            Token::Assume => {
                self.advance();
                let id = self.new_id()?;
                let clause = vec![self.term(1)?];
                self.expect(Token::Close)?;
                Ok(Command { id, rule: None, clause, premises: Vec::new(), arguments: Vec::new() })
            }
            Token::Step => {
                self.advance();
                self.step()
            }
            _ => self.refusal(GRAMMAR_BROKEN),
        }
    }

    fn step(&mut self) -> Result<Command<'t>, Refusal> {
        let id = self.new_id()?;
        self.expect(Token::Open)?;
        self.expect(Token::Cl)?;
        let clause = self.terms(Vec::new(), 1)?;
        self.expect(Token::RuleKey)?;
        let rule = self.rule()?;
        let mut premises = Vec::new();
        if self.peek()? == Token::PremisesKey {
            self.advance();
            premises = self.premises()?;
        }
        let mut arguments = Vec::new();
        if self.peek()? == Token::ArgsKey {
            self.advance();
            self.expect(Token::Open)?;
            arguments = vec![self.term(1)?];
            arguments = self.terms(arguments, 1)?;
        }
        self.expect(Token::Close)?;
        Ok(Command { id, rule: Some(rule), clause, premises, arguments })
    }

    fn new_id(&mut self) -> Result<&'t [u8], Refusal> {
        let id = self.name()?;
        if self.ids.contains_key(id) {
            return self.refusal(BAD_REFERENCE);
        }
        self.advance();
        Ok(id)
    }

    fn rule(&mut self) -> Result<Rule, Refusal> {
        match rule(self.name()?) {
            Some(rule) => {
                self.advance();
                Ok(rule)
            }
            None => self.refusal(BAD_REFERENCE),
        }
    }

    fn premises(&mut self) -> Result<Vec<usize>, Refusal> {
        self.expect(Token::Open)?;
        let mut premises = Vec::new();
        loop {
            let name = self.name()?;
            self.count_node()?;
            match self.ids.get(name) {
                Some(&number) => premises.push(number),
                None => return self.refusal(BAD_REFERENCE),
            }
            self.advance();
            if self.token == Ok(Token::Close) {
                self.advance();
                return Ok(premises);
            }
        }
    }

    /// More terms up to the closing bracket.
    fn terms(&mut self, mut terms: Vec<Term>, level: usize) -> Result<Vec<Term>, Refusal> {
        while self.peek()? != Token::Close {
            terms.push(self.term(level)?);
        }
        self.advance();
        Ok(terms)
    }

    fn term(&mut self, level: usize) -> Result<Term, Refusal> {
        let token = self.peek()?;
        if !matches!(token, Token::Numeral(_) | Token::Name(_) | Token::Open) {
            return self.refusal(GRAMMAR_BROKEN);
        }
        if level > MAX_DEPTH {
            return self.refusal(OVER_LIMIT);
        }
        self.count_node()?;
        self.advance();
        match token {
            Token::Numeral(number) => Ok(Term::Numeral(number)),
            Token::Name(name) => Ok(Term::Variable(self.number_of(name))),
            _ => {
                let Token::Operator(operator) = self.peek()? else {
                    return self.refusal(GRAMMAR_BROKEN);
                };
                self.advance();
                let operands = vec![self.term(level + 1)?];
                Ok(Term::Application(operator, self.terms(operands, level + 1)?))
            }
        }
    }

    fn number_of(&mut self, name: &'t [u8]) -> usize {
        let names = &mut self.names;
        *self.numbers.entry(name).or_insert_with(|| {
            names.push(name);
            names.len() - 1
        })
    }
}

/// The commands of a text, or its refusal.
pub fn read(text: &[u8]) -> Result<File<'_>, Refusal> {
    if text.len() > MAX_TEXT {
        return Err(Refusal { number: TEXT_TOO_LONG, byte: MAX_TEXT });
    }
    Reader::new(text).file()
}
