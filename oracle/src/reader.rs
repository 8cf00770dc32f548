//! The reader of document 01, section 1, with the pol lines of document 02, No. 2: a text's commands, or the leftmost offence.
//!
//! It takes one token at a time and judges each before it looks at the next, so the first offence that it meets is the leftmost. At one
//! token the order is by number: the word itself (3, 4, 5), the grammar (6), the limits (7), ids and rules (8).

use crate::ast::{Constant, Operator, Pool, Rc, Term};
use std::collections::HashMap;

/// The most bytes of a text.
pub(crate) const MOST_BYTES: usize = 32_768;
/// The most nodes: numerals, variables, applications and cited premises.
pub(crate) const MOST_NODES: usize = 4_096;
/// The deepest level of a term.
const MOST_DEPTH: usize = 64;
/// The most commands.
pub(crate) const MOST_COMMANDS: usize = 512;
/// The longest name.
pub(crate) const MOST_NAME: usize = 32;
/// The most pol lines of a text.
const MOST_POL_LINES: usize = 64;
/// The most digits of a numeral: 99999999 is the largest.
const MOST_DIGITS: usize = 8;

/// Why a text is not read.
#[derive(Debug, Clone, Copy, PartialEq, Eq)]
pub struct Refusal {
    /// Document 01's number, 2 to 8, or document 02's.
    pub number: u8,
    /// Where the offence begins, in its own text.
    pub byte: usize,
}

/// What a command is an instance of.
#[derive(Debug, Clone, Copy, PartialEq, Eq)]
pub enum Rule {
    /// `assume`
    Assume,
    /// `cp_addition`
    Addition,
    /// `cp_multiplication`
    Multiplication,
    /// `cp_division`
    Division,
    /// `cp_saturation`
    Saturation,
    /// `cp_literal`
    Literal,
    /// `cp_normalize`
    Normalize,
    /// `cp_transfer`
    Transfer,
    /// `cp_part`
    Part,
    /// `pol`, which is a command of its own and no rule of steps
    Pol,
}

impl Rule {
    /// The rules of steps.
    pub const OF_STEPS: [Rule; 8] = [
        Rule::Addition,
        Rule::Multiplication,
        Rule::Division,
        Rule::Saturation,
        Rule::Literal,
        Rule::Normalize,
        Rule::Transfer,
        Rule::Part,
    ];

    /// The rule's name in texts and reports.
    pub fn name(self) -> &'static str {
        match self {
            Rule::Assume => "assume",
            Rule::Addition => "cp_addition",
            Rule::Multiplication => "cp_multiplication",
            Rule::Division => "cp_division",
            Rule::Saturation => "cp_saturation",
            Rule::Literal => "cp_literal",
            Rule::Normalize => "cp_normalize",
            Rule::Transfer => "cp_transfer",
            Rule::Part => "cp_part",
            Rule::Pol => "pol",
        }
    }

    /// The rule of steps that has a name.
    fn of_step(name: &str) -> Option<Rule> {
        Self::OF_STEPS.into_iter().find(|rule| rule.name() == name)
    }
}

/// A word of a pol line, a numeral together with its `*` or `d`.
#[derive(Debug, Clone, PartialEq, Eq)]
pub enum Word {
    /// The inequality of a command above, by its place in the text.
    Line(usize),
    /// The axiom of a literal: the variable's name, and whether it is `~x`.
    Axiom(String, bool),
    /// `+`
    Add,
    /// A numeral and `*`.
    Multiply(i32),
    /// A numeral and `d`.
    Divide(i32),
    /// `s`
    Saturate,
}

/// A command. An assumption's term counts as its clause.
#[derive(Debug, Clone)]
pub struct Command {
    /// Its id.
    pub id: String,
    /// Its rule.
    pub rule: Rule,
    /// Its clause. A pol line has none when it is read: [`crate::account`] puts there what the line derives.
    pub clause: Vec<Rc<Term>>,
    /// The commands above that it cites, by their place in the text; of a pol line those that it pushes.
    pub premises: Vec<usize>,
    /// Its arguments.
    pub args: Vec<Rc<Term>>,
    /// The words of a pol line.
    pub words: Vec<Word>,
}

/// Reads a text into commands whose terms are in the pool.
pub fn read(pool: &mut Pool, text: &[u8]) -> Result<Vec<Command>, Refusal> {
    read_behind(pool, &[], 0, text)
}

/// Reads a text behind commands with so many nodes into these and its own. It may cite them, and they count in its limits.
pub(crate) fn read_behind(pool: &mut Pool, before: &[Command], nodes: usize, text: &[u8]) -> Result<Vec<Command>, Refusal> {
    if text.len() > MOST_BYTES {
        return Err(Refusal { number: 2, byte: MOST_BYTES });
    }
    let ids = before.iter().enumerate().map(|(place, command)| (command.id.as_str(), place)).collect();
    Reader { tokens: Tokens { text, next: 0 }, pool, nodes, ids, pol_lines: 0, variables: HashMap::new() }.file(before.to_vec())
}

/// A token and where it begins.
#[derive(Clone, Copy)]
struct Token<'t> {
    kind: Kind<'t>,
    byte: usize,
}

/// A token that is no offence by itself.
#[derive(Clone, Copy, PartialEq)]
enum Kind<'t> {
    Open,
    Close,
    Numeral(i32),
    Operator(Operator),
    Cl,
    Assume,
    Step,
    Rule,
    Premises,
    Args,
    Name(&'t str),
    /// `~x`, which only the words of a pol line may be.
    Negated(&'t str),
    End,
}

impl Token<'_> {
    /// The refusal of this token.
    fn refused<T>(self, number: u8) -> Result<T, Refusal> {
        Err(Refusal { number, byte: self.byte })
    }
}

/// A text from some byte on.
struct Tokens<'t> {
    text: &'t [u8],
    next: usize,
}

impl<'t> Tokens<'t> {
    /// Takes the next token, or refuses it by itself: 3, 4 or 5.
    fn take(&mut self) -> Result<Token<'t>, Refusal> {
        let token = self.take_in_pol()?;
        if matches!(token.kind, Kind::Negated(_)) { token.refused(5) } else { Ok(token) }
    }

    /// The same in a pol line behind its id, where `~x` is a word.
    fn take_in_pol(&mut self) -> Result<Token<'t>, Refusal> {
        let rest = &self.text[self.next..];
        let blanks = rest.iter().take_while(|byte| is_blank(**byte)).count();
        let rest = &rest[blanks..];
        let byte = self.next + blanks;
        let (length, kind) = match rest.first() {
            None => (0, Ok(Kind::End)),
            Some(b'(') => (1, Ok(Kind::Open)),
            Some(b')') => (1, Ok(Kind::Close)),
            Some(first) if !is_in_word(*first) => (1, Err(3)),
            Some(_) => {
                let length = rest.iter().take_while(|byte| is_in_word(**byte)).count();
                (length, word(&rest[..length]))
            }
        };
        self.next = byte + length;
        match kind {
            Ok(kind) => Ok(Token { kind, byte }),
            Err(number) => Err(Refusal { number, byte }),
        }
    }
}

/// Space, tab, line feed, carriage return.
fn is_blank(byte: u8) -> bool {
    matches!(byte, b' ' | b'\t' | b'\n' | b'\r')
}

/// Printable, and neither blank nor bracket.
fn is_in_word(byte: u8) -> bool {
    byte.is_ascii_graphic() && !matches!(byte, b'(' | b')')
}

/// The kind of a word, or 4 or 5.
fn word(word: &[u8]) -> Result<Kind<'_>, u8> {
    if is_like_numeral(word) {
        return numeral(word).map(Kind::Numeral).ok_or(4);
    }
    Ok(match word {
        b"+" => Kind::Operator(Operator::Add),
        b"-" => Kind::Operator(Operator::Sub),
        b"*" => Kind::Operator(Operator::Mult),
        b">=" => Kind::Operator(Operator::GreaterEq),
        b">" => Kind::Operator(Operator::GreaterThan),
        b"<=" => Kind::Operator(Operator::LessEq),
        b"<" => Kind::Operator(Operator::LessThan),
        b"=" => Kind::Operator(Operator::Equals),
        b"and" => Kind::Operator(Operator::And),
        b"cl" => Kind::Cl,
        b"assume" => Kind::Assume,
        b"step" => Kind::Step,
        b":rule" => Kind::Rule,
        b":premises" => Kind::Premises,
        b":args" => Kind::Args,
        [b'~', rest @ ..] => Kind::Negated(negated(rest).ok_or(5)?),
        _ => Kind::Name(name(word).ok_or(5)?),
    })
}

/// The name behind a `~`: what is a name where it stands alone.
fn negated(rest: &[u8]) -> Option<&str> {
    match rest {
        [] => None,
        _ => match word(rest) {
            Ok(Kind::Name(name)) => Some(name),
            _ => None,
        },
    }
}

/// A digit first, or next after a leading `-`.
fn is_like_numeral(word: &[u8]) -> bool {
    matches!(word, [b'0'..=b'9', ..] | [b'-', b'0'..=b'9', ..])
}

/// The number of a well-formed numeral.
fn numeral(word: &[u8]) -> Option<i32> {
    let digits = word.strip_prefix(b"-").unwrap_or(word);
    let is_negative = digits.len() < word.len();
    let has_leading_zero = digits[0] == b'0' && (is_negative || digits.len() > 1);
    if has_leading_zero || digits.len() > MOST_DIGITS || !digits.iter().all(u8::is_ascii_digit) {
        return None;
    }
    let size = digits.iter().fold(0, |value, digit| 10 * value + i32::from(digit - b'0'));
    Some(if is_negative { -size } else { size })
}

/// The word as a name, if it is one.
fn name(word: &[u8]) -> Option<&str> {
    let (first, others) = word.split_first()?;
    let begins = |byte: &u8| byte.is_ascii_alphabetic() || matches!(byte, b'_' | b'@');
    let goes_on = |byte: &u8| begins(byte) || byte.is_ascii_digit() || *byte == b'.';
    let is_name = word.len() <= MOST_NAME && begins(first) && others.iter().all(goes_on);
    is_name.then(|| std::str::from_utf8(word).expect("a name is ASCII"))
}

/// What is known of a text while it is read.
struct Reader<'t, 'p> {
    tokens: Tokens<'t>,
    pool: &'p mut Pool,
    nodes: usize,
    pol_lines: usize,
    /// The commands above by their ids.
    ids: HashMap<&'t str, usize>,
    /// The variables by their names.
    variables: HashMap<&'t str, Rc<Term>>,
}

impl<'t> Reader<'t, '_> {
    /// The commands before the text, and all of its own up to the end.
    fn file(mut self, mut commands: Vec<Command>) -> Result<Vec<Command>, Refusal> {
        loop {
            let token = self.tokens.take()?;
            match token.kind {
                Kind::End => return Ok(commands),
                Kind::Open if commands.len() == MOST_COMMANDS => return token.refused(7),
                Kind::Open => commands.push(self.command(commands.len())?),
                _ => return token.refused(6),
            }
        }
    }

    /// A command behind its bracket. Its id is known only to those below it.
    fn command(&mut self, place: usize) -> Result<Command, Refusal> {
        let head = self.tokens.take()?;
        match head.kind {
            Kind::Assume | Kind::Step => (),
            Kind::Name("pol") if self.pol_lines == MOST_POL_LINES => return head.refused(7),
            Kind::Name("pol") => self.pol_lines += 1,
            _ => return head.refused(6),
        }
        let id = self.new_id()?;
        let command = match head.kind {
            Kind::Assume => self.assumption(id)?,
            Kind::Step => self.step(id)?,
            _ => self.pol(id)?,
        };
        self.ids.insert(id, place);
        Ok(command)
    }

    /// A pol line behind its id: at least one word. Its words are no nodes.
    fn pol(&mut self, id: &str) -> Result<Command, Refusal> {
        let mut words = Vec::new();
        loop {
            let token = self.tokens.take_in_pol()?;
            if token.kind == Kind::Close && !words.is_empty() {
                break;
            }
            words.push(self.pol_word(token)?);
        }
        let line = |word: &Word| if let Word::Line(place) = word { Some(*place) } else { None };
        let premises = words.iter().filter_map(line).collect();
        Ok(Command { id: id.into(), rule: Rule::Pol, clause: vec![], premises, args: vec![], words })
    }

    /// The word of a pol line that a token begins. `d` and `s` are operations, whatever ids there are.
    fn pol_word(&mut self, token: Token<'t>) -> Result<Word, Refusal> {
        match token.kind {
            Kind::Operator(Operator::Add) => Ok(Word::Add),
            Kind::Name("s") => Ok(Word::Saturate),
            Kind::Numeral(value) => {
                let behind = self.tokens.take_in_pol()?;
                match behind.kind {
                    Kind::Operator(Operator::Mult) => Ok(Word::Multiply(value)),
                    Kind::Name("d") => Ok(Word::Divide(value)),
                    _ => behind.refused(6),
                }
            }
            Kind::Name(name) if name != "d" => {
                let axiom = || Word::Axiom(name.into(), false);
                Ok(self.ids.get(name).map_or_else(axiom, |place| Word::Line(*place)))
            }
            Kind::Negated(name) => Ok(Word::Axiom(name.into(), true)),
            _ => token.refused(6),
        }
    }

    /// An assumption behind its id.
    fn assumption(&mut self, id: &str) -> Result<Command, Refusal> {
        let first = self.tokens.take()?;
        let clause = vec![self.term(first, 1)?];
        self.expect(Kind::Close)?;
        Ok(Command { id: id.into(), rule: Rule::Assume, clause, premises: vec![], args: vec![], words: vec![] })
    }

    /// A step behind its id.
    fn step(&mut self, id: &str) -> Result<Command, Refusal> {
        self.expect(Kind::Open)?;
        self.expect(Kind::Cl)?;
        let first = self.tokens.take()?;
        let clause = self.terms(first, 1)?;
        self.expect(Kind::Rule)?;
        let rule = self.rule()?;
        let mut token = self.tokens.take()?;
        let mut premises = vec![];
        if token.kind == Kind::Premises {
            premises = self.premises()?;
            token = self.tokens.take()?;
        }
        let mut args = vec![];
        if token.kind == Kind::Args {
            args = self.args()?;
            token = self.tokens.take()?;
        }
        match token.kind {
            Kind::Close => Ok(Command { id: id.into(), rule, clause, premises, args, words: vec![] }),
            _ => token.refused(6),
        }
    }

    /// An id that no command above has.
    fn new_id(&mut self) -> Result<&'t str, Refusal> {
        let token = self.tokens.take()?;
        match token.kind {
            Kind::Name(id) if self.ids.contains_key(id) => token.refused(8),
            Kind::Name(id) => Ok(id),
            _ => token.refused(6),
        }
    }

    /// The name of a rule of steps.
    fn rule(&mut self) -> Result<Rule, Refusal> {
        let token = self.tokens.take()?;
        match token.kind {
            Kind::Name(name) => Rule::of_step(name).map_or_else(|| token.refused(8), Ok),
            _ => token.refused(6),
        }
    }

    /// The cited commands, at least one, in brackets.
    fn premises(&mut self) -> Result<Vec<usize>, Refusal> {
        self.expect(Kind::Open)?;
        let first = self.tokens.take()?;
        let mut premises = vec![self.premise(first)?];
        loop {
            let token = self.tokens.take()?;
            if token.kind == Kind::Close {
                return Ok(premises);
            }
            premises.push(self.premise(token)?);
        }
    }

    /// A cited command, which is a node on no level.
    fn premise(&mut self, token: Token<'t>) -> Result<usize, Refusal> {
        let Kind::Name(id) = token.kind else { return token.refused(6) };
        self.begin_node(token, 1)?;
        match self.ids.get(id) {
            Some(place) => Ok(*place),
            None => token.refused(8),
        }
    }

    /// The arguments of a step, at least one, in brackets.
    fn args(&mut self) -> Result<Vec<Rc<Term>>, Refusal> {
        self.expect(Kind::Open)?;
        self.some_terms(1)
    }

    /// At least one term up to a closing bracket.
    fn some_terms(&mut self, level: usize) -> Result<Vec<Rc<Term>>, Refusal> {
        let first = self.tokens.take()?;
        match first.kind {
            Kind::Close => first.refused(6),
            _ => self.terms(first, level),
        }
    }

    /// Any number of terms up to a closing bracket.
    fn terms(&mut self, first: Token<'t>, level: usize) -> Result<Vec<Rc<Term>>, Refusal> {
        let mut terms = Vec::new();
        let mut token = first;
        while token.kind != Kind::Close {
            terms.push(self.term(token, level)?);
            token = self.tokens.take()?;
        }
        Ok(terms)
    }

    /// The term that a token begins.
    fn term(&mut self, token: Token<'t>, level: usize) -> Result<Rc<Term>, Refusal> {
        match token.kind {
            Kind::Numeral(value) => {
                self.begin_node(token, level)?;
                Ok(self.pool.add(Term::Const(Constant::Integer(value.into()))))
            }
            Kind::Name(name) => {
                self.begin_node(token, level)?;
                Ok(self.variable(name))
            }
            Kind::Open => {
                self.begin_node(token, level)?;
                let operator = self.operator()?;
                let args = self.some_terms(level + 1)?;
                Ok(self.pool.add(Term::Op(operator, args)))
            }
            _ => token.refused(6),
        }
    }

    /// The variable of a name.
    fn variable(&mut self, name: &'t str) -> Rc<Term> {
        let pool = &mut *self.pool;
        self.variables.entry(name).or_insert_with(|| pool.add(Term::Var(name.into()))).clone()
    }

    /// An operator.
    fn operator(&mut self) -> Result<Operator, Refusal> {
        let token = self.tokens.take()?;
        match token.kind {
            Kind::Operator(operator) => Ok(operator),
            _ => token.refused(6),
        }
    }

    /// Counts the node that begins at a token.
    fn begin_node(&mut self, token: Token, level: usize) -> Result<(), Refusal> {
        if level > MOST_DEPTH || self.nodes == MOST_NODES {
            return token.refused(7);
        }
        self.nodes += 1;
        Ok(())
    }

    /// A token that has to stand here.
    fn expect(&mut self, kind: Kind) -> Result<(), Refusal> {
        let token = self.tokens.take()?;
        if token.kind == kind { Ok(()) } else { token.refused(6) }
    }
}

#[cfg(test)]
mod tests {
    use super::{Refusal, read};
    use crate::ast::Pool;

    fn refusal(text: &str) -> Option<(u8, usize)> {
        match read(&mut Pool::new(), text.as_bytes()) {
            Ok(_) => None,
            Err(Refusal { number, byte }) => Some((number, byte)),
        }
    }

    /// A term of the level, and its innermost leaf's place.
    fn nested(level: usize) -> String {
        format!("(assume a {}x{})", "(+ ".repeat(level - 1), ")".repeat(level - 1))
    }

    #[test]
    fn words() {
        for good in ["0", "-5", "99999999", "-99999999", "x", "_", "@a.0", "(- 5)"] {
            assert_eq!(refusal(&format!("(assume a {good})")), None, "{good}");
        }
        for malformed in ["-0", "007", "100000000", "-100000000", "1x", "-1."] {
            assert_eq!(refusal(&format!("(assume a {malformed})")), Some((4, 10)), "{malformed}");
        }
        for of_no_kind in [";x", "+1", "--1", "-x", ":foo", "x-y", ".x", &"x".repeat(33)] {
            assert_eq!(refusal(&format!("(assume a {of_no_kind})")), Some((5, 10)), "{of_no_kind}");
        }
        assert_eq!(refusal(&format!("(assume a {})", "x".repeat(32))), None);
    }

    #[test]
    fn grammar() {
        assert_eq!(refusal(""), None);
        assert_eq!(refusal(" \n"), None);
        assert_eq!(refusal("(assume a)"), Some((6, 9)));
        assert_eq!(refusal("(assume a x\n  \n"), Some((6, 15)));
        assert_eq!(refusal("(assume a (+))"), Some((6, 12)));
        assert_eq!(refusal("(assume cl x)"), Some((6, 8)));
        assert_eq!(refusal("(step t (cl) :rule assume)"), Some((6, 19)));
        assert_eq!(refusal("(step t (cl) :rule cp_literal :premises ())"), Some((6, 41)));
        assert_eq!(refusal("x\0"), Some((6, 0)));
        assert_eq!(refusal("(\0"), Some((3, 1)));
    }

    #[test]
    fn ids_and_rules() {
        assert_eq!(refusal("(step t (cl) :rule foo)"), Some((8, 19)));
        assert_eq!(refusal("(assume a x) (assume a y)"), Some((8, 21)));
        assert_eq!(refusal("(step t (cl) :rule cp_literal :premises (t))"), Some((8, 41)));
    }

    #[test]
    fn pol_lines() {
        for good in ["x", "~x +", "x 3 *", "x 3 d", "s", "p", "~d ~s ~pol", "x y z + + s s", "a ~a +", "cp_part", "-1 *"] {
            assert_eq!(refusal(&format!("(assume a x)(pol p {good})")), None, "{good}");
        }
        let at = |words: &str| refusal(&format!("(pol p {words}"));
        assert_eq!(at(")"), Some((6, 7)));
        assert_eq!(at("x"), Some((6, 8)));
        for word in ["d", "*", "-", ">=", "and", "cl", "assume", ":rule", "("] {
            assert_eq!(at(&format!("x {word} )")), Some((6, 9)), "{word}");
        }
        for word in ["s", "+", "~x", "x", ")", "3", "-", ">=", "and", "cl", "assume", ":rule", "("] {
            assert_eq!(at(&format!("x 3 {word} )")), Some((6, 11)), "{word}");
        }
        for (word, number) in [("~", 5), ("~cl", 5), ("~5", 5), ("~+", 5), ("~~x", 5), ("~and", 5), ("007", 4), (";", 5)] {
            assert_eq!(at(&format!("x {word} )")), Some((number, 9)), "{word}");
            assert_eq!(at(&format!("x 3 {word} )")), Some((number, 11)), "{word}");
        }
        assert_eq!(at(&format!("~{} )", "x".repeat(32))), None);
        assert_eq!(at(&format!("~{} )", "x".repeat(33))), Some((5, 7)));
        assert_eq!(refusal("(pol ~p x)"), Some((5, 5)));
        assert_eq!(refusal("(pol p x)(pol p x)"), Some((8, 14)));
        assert_eq!(refusal("(pol p p)(pol d d 2)"), Some((6, 16)));
        assert_eq!(refusal("(~pol p x)"), Some((5, 1)));
        assert_eq!(refusal("(assume a ~x)"), Some((5, 10)));
        assert_eq!(refusal("(step t (cl) :rule pol)"), Some((8, 19)));
        let lines = |count: usize| (0..count).map(|i| format!("(pol p{i} x)")).collect::<String>();
        assert_eq!(refusal(&lines(64)), None);
        assert_eq!(refusal(&(lines(64) + "(pol p0 x)")), Some((7, lines(64).len() + 1)));
        assert_eq!(refusal(&(lines(64) + "(pol")), Some((7, lines(64).len() + 1)));
    }

    #[test]
    fn limits() {
        assert_eq!(refusal(&" ".repeat(32_768)), None);
        assert_eq!(refusal(&" ".repeat(32_769)), Some((2, 32_768)));
        assert_eq!(refusal(&nested(64)), None);
        assert_eq!(refusal(&nested(65)), Some((7, 10 + 3 * 64)));
        let ones = |count: usize| format!("(assume a (+{}))", " 1".repeat(count));
        assert_eq!(refusal(&ones(4_095)), None);
        assert_eq!(refusal(&ones(4_096)), Some((7, 12 + 2 * 4_095 + 1)));
        let steps = |count: usize| (0..count).map(|i| format!("(assume a{i} x)\n")).collect::<String>();
        assert_eq!(refusal(&steps(512)), None);
        assert_eq!(refusal(&(steps(512) + "()")), Some((7, steps(512).len())));
    }
}
