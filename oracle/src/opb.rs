//! OPB texts, document 02, No. 1: a text's constraints, and the assumptions that stand before the commands of the proof text.
//!
//! A text is taken line by line, since no word goes beyond its line and a comment is one. What may come next is the state of the constraint
//! that is open; a line is a comment only where none is.

use crate::ast::{Constant, Operator, Pool, Rc, Term};
use crate::reader::{Command, MOST_BYTES, MOST_COMMANDS, MOST_NAME, MOST_NODES, Refusal, Rule};

/// `min:` or `max:`.
const OBJECTIVE: u8 = 50;
/// A known word, a bracket or the end where the format has none.
const BROKEN: u8 = 51;
/// The largest number of a text.
const LARGEST: i32 = 99_999_999;

/// A coefficient with its literal.
#[derive(Debug, Clone, PartialEq, Eq)]
pub struct Summand {
    /// The coefficient.
    pub coefficient: i32,
    /// The variable's name.
    pub variable: String,
    /// Whether it is `~x7`.
    pub negated: bool,
}

/// The relation of a constraint.
#[derive(Debug, Clone, Copy, PartialEq, Eq)]
pub enum Relation {
    /// `>=`
    AtLeast,
    /// `=`
    Equal,
}

/// A constraint.
#[derive(Debug, Clone, PartialEq, Eq)]
pub struct Constraint {
    /// Its summands.
    pub summands: Vec<Summand>,
    /// Its relation.
    pub relation: Relation,
    /// Its constant.
    pub constant: i32,
}

impl Constraint {
    /// How many assumptions it becomes.
    fn assumptions(&self) -> usize {
        match self.relation {
            Relation::AtLeast => 1,
            Relation::Equal => 2,
        }
    }

    /// How many nodes these have: `>=` and the constant, the sum, and three for each summand or five where it is negated.
    pub(crate) fn nodes(&self) -> usize {
        let summands: usize = self.summands.iter().map(|summand| if summand.negated { 5 } else { 3 }).sum();
        let sum = match self.summands.len() {
            0 => 1,
            1 => summands,
            _ => 1 + summands,
        };
        self.assumptions() * (2 + sum)
    }
}

/// Reads a text into its constraints.
pub fn read_opb(text: &[u8]) -> Result<Vec<Constraint>, Refusal> {
    if text.len() > MOST_BYTES {
        return Err(Refusal { number: 2, byte: MOST_BYTES });
    }
    let mut reader = Reader::default();
    let mut start = 0;
    for line in text.split(|byte| *byte == b'\n') {
        reader.line(line, start)?;
        start += line.len() + 1;
    }
    match reader.open {
        None => Ok(reader.constraints),
        Some(_) => Err(Refusal { number: BROKEN, byte: text.len() }),
    }
}

/// The constraints up to some byte.
#[derive(Default)]
struct Reader {
    constraints: Vec<Constraint>,
    assumptions: usize,
    nodes: usize,
    open: Option<Open>,
}

/// A constraint that has begun.
struct Open {
    first: usize,
    summands: Vec<Summand>,
    due: Due,
}

/// What may come next in a constraint.
#[derive(Clone, Copy)]
enum Due {
    /// A coefficient or the relation.
    Coefficient,
    /// The literal of this coefficient.
    Literal(i32),
    /// The constant behind this relation.
    Constant(Relation),
    /// The `;` behind this relation and constant.
    End(Relation, i32),
}

/// A known word.
enum Word<'t> {
    Number(i32),
    Literal { name: &'t str, negated: bool },
    Relation(Relation),
    Semicolon,
}

impl Reader {
    /// Takes a line that starts at a byte.
    fn line(&mut self, line: &[u8], start: usize) -> Result<(), Refusal> {
        if self.open.is_none() && line.starts_with(b"*") {
            return match line.iter().position(|byte| is_bad(*byte)) {
                Some(place) => Err(Refusal { number: 3, byte: start + place }),
                None => Ok(()),
            };
        }
        let mut place = 0;
        while place < line.len() {
            let length = line[place..].iter().take_while(|byte| is_in_word(**byte)).count().max(1);
            if length > 1 || !matches!(line[place], b' ' | b'\t' | b'\r') {
                self.token(&line[place..place + length], start + place)?;
            }
            place += length;
        }
        Ok(())
    }

    /// Takes a token that begins at a byte.
    fn token(&mut self, token: &[u8], byte: usize) -> Result<(), Refusal> {
        let word = word(token).map_err(|number| Refusal { number, byte })?;
        let open = self.open.get_or_insert_with(|| Open { first: byte, summands: vec![], due: Due::Coefficient });
        open.due = match (open.due, word) {
            (Due::Coefficient, Word::Number(coefficient)) => Due::Literal(coefficient),
            (Due::Coefficient, Word::Relation(relation)) => Due::Constant(relation),
            (Due::Literal(coefficient), Word::Literal { name, negated }) => {
                open.summands.push(Summand { coefficient, variable: name.into(), negated });
                Due::Coefficient
            }
            (Due::Constant(relation), Word::Number(constant)) => Due::End(relation, constant),
            (Due::End(relation, constant), Word::Semicolon) => {
                let summands = std::mem::take(&mut open.summands);
                let first = open.first;
                self.open = None;
                return self.close(Constraint { summands, relation, constant }, first);
            }
            _ => return Err(Refusal { number: BROKEN, byte }),
        };
        Ok(())
    }

    /// Takes a whole constraint, which began at a byte: 7 stands there, and neither half of an `=` is made where one is too many.
    fn close(&mut self, constraint: Constraint, first: usize) -> Result<(), Refusal> {
        self.assumptions += constraint.assumptions();
        self.nodes += constraint.nodes();
        if self.assumptions > MOST_COMMANDS || self.nodes > MOST_NODES {
            return Err(Refusal { number: 7, byte: first });
        }
        self.constraints.push(constraint);
        Ok(())
    }
}

/// Neither printable nor a blank.
fn is_bad(byte: u8) -> bool {
    !matches!(byte, b' '..=b'~' | b'\t' | b'\n' | b'\r')
}

/// A byte of a word: no blank, no bracket, no `;`.
fn is_in_word(byte: u8) -> bool {
    matches!(byte, b'!'..=b'~') && !matches!(byte, b'(' | b')' | b';')
}

/// The word of a token, or the number that refuses it: 3, 4, 5, 50, or 51 for a bracket.
fn word(token: &[u8]) -> Result<Word<'_>, u8> {
    match token {
        b";" => Ok(Word::Semicolon),
        b"(" | b")" => Err(BROKEN),
        [byte] if is_bad(*byte) => Err(3),
        b">=" => Ok(Word::Relation(Relation::AtLeast)),
        b"=" => Ok(Word::Relation(Relation::Equal)),
        b"min:" | b"max:" => Err(OBJECTIVE),
        [b'0'..=b'9', ..] | [b'+' | b'-', b'0'..=b'9', ..] => number(token).map(Word::Number).ok_or(4),
        [b'~', name @ ..] => variable(name).map(|name| Word::Literal { name, negated: true }).ok_or(5),
        name => variable(name).map(|name| Word::Literal { name, negated: false }).ok_or(5),
    }
}

/// The number of a token, where it is written as that number is, but for a `+`.
fn number(token: &[u8]) -> Option<i32> {
    let token = std::str::from_utf8(token).ok()?;
    let token = token.strip_prefix('+').unwrap_or(token);
    let number: i32 = token.parse().ok()?;
    let is_within = (-LARGEST..=LARGEST).contains(&number);
    (is_within && number.to_string() == token).then_some(number)
}

/// The name of a variable: `x` and digits.
fn variable(name: &[u8]) -> Option<&str> {
    let digits = name.strip_prefix(b"x")?;
    let is_variable = !digits.is_empty() && digits.iter().all(u8::is_ascii_digit) && name.len() <= MOST_NAME;
    std::str::from_utf8(name).ok().filter(|_| is_variable)
}

/// The assumptions that constraints become, c1, c2 and so on.
pub(crate) fn assumptions(pool: &mut Pool, constraints: &[Constraint]) -> Vec<Command> {
    let mut commands = Vec::new();
    for constraint in constraints {
        let signs: &[i32] = match constraint.relation {
            Relation::AtLeast => &[1],
            Relation::Equal => &[1, -1],
        };
        for sign in signs {
            let id = format!("c{}", commands.len() + 1);
            let clause = vec![inequality(pool, constraint, *sign)];
            commands.push(Command { id, rule: Rule::Assume, clause, premises: vec![], args: vec![], words: vec![] });
        }
    }
    commands
}

/// `(>= sum constant)` of a constraint, with all its signs turned where the sign is -1.
fn inequality(pool: &mut Pool, constraint: &Constraint, sign: i32) -> Rc<Term> {
    let mut summands = Vec::new();
    for Summand { coefficient, variable, negated } in &constraint.summands {
        let mut literal = pool.add(Term::Var(variable.clone()));
        if *negated {
            let one = numeral(pool, 1);
            literal = pool.add(Term::Op(Operator::Sub, vec![one, literal]));
        }
        let coefficient = numeral(pool, sign * coefficient);
        summands.push(pool.add(Term::Op(Operator::Mult, vec![coefficient, literal])));
    }
    let sum = match summands.len() {
        0 => numeral(pool, 0),
        1 => summands.remove(0),
        _ => pool.add(Term::Op(Operator::Add, summands)),
    };
    let constant = numeral(pool, sign * constraint.constant);
    pool.add(Term::Op(Operator::GreaterEq, vec![sum, constant]))
}

fn numeral(pool: &mut Pool, value: i32) -> Rc<Term> {
    pool.add(Term::Const(Constant::Integer(value.into())))
}

#[cfg(test)]
mod tests {
    use super::{Constraint, Relation, Summand, assumptions, read_opb};
    use crate::ast::Pool;
    use crate::reader::Refusal;

    fn refusal(text: impl AsRef<[u8]>) -> Option<(u8, usize)> {
        match read_opb(text.as_ref()) {
            Ok(_) => None,
            Err(Refusal { number, byte }) => Some((number, byte)),
        }
    }

    fn assumed(text: &str) -> Vec<String> {
        let constraints = read_opb(text.as_bytes()).expect("the text is read");
        let mut pool = Pool::new();
        assumptions(&mut pool, &constraints).iter().map(|command| format!("{} {}", command.id, command.clause[0])).collect()
    }

    #[test]
    fn constraints() {
        let summand = |coefficient, variable: &str, negated| Summand { coefficient, variable: variable.into(), negated };
        assert_eq!(
            read_opb(b"* c\n+1 x1 -2 ~x07\r\n>= -3;= +0 ;"),
            Ok(vec![
                Constraint {
                    summands: vec![summand(1, "x1", false), summand(-2, "x07", true)],
                    relation: Relation::AtLeast,
                    constant: -3
                },
                Constraint { summands: vec![], relation: Relation::Equal, constant: 0 },
            ])
        );
    }

    #[test]
    fn shapes_of_assumptions() {
        assert_eq!(assumed(">= 1 ;"), ["c1 (>= 0 1)"]);
        assert_eq!(assumed("2 ~x1 >= 1 ;"), ["c1 (>= (* 2 (- 1 x1)) 1)"]);
        assert_eq!(
            assumed("2 x1 -3 ~x2 = 0 ; 1 x3 >= -1 ;"),
            ["c1 (>= (+ (* 2 x1) (* -3 (- 1 x2))) 0)", "c2 (>= (+ (* -2 x1) (* 3 (- 1 x2))) 0)", "c3 (>= (* 1 x3) -1)"]
        );
    }

    #[test]
    fn nodes_are_those_of_the_terms() {
        fn count(term: &crate::ast::Term) -> usize {
            match term {
                crate::ast::Term::Op(_, args) => 1 + args.iter().map(|arg| count(arg)).sum::<usize>(),
                _ => 1,
            }
        }
        for text in [">= 1 ;", "= 1 ;", "1 x1 >= 1 ;", "1 ~x1 = 1 ;", "1 x1 2 ~x2 3 x3 >= 1 ;", "1 x1 1 x1 = 0 ;"] {
            let constraints = read_opb(text.as_bytes()).expect("the text is read");
            let made = assumptions(&mut Pool::new(), &constraints);
            let nodes: usize = made.iter().map(|command| count(&command.clause[0])).sum();
            assert_eq!(constraints[0].nodes(), nodes, "{text}");
            assert_eq!(constraints[0].assumptions(), made.len(), "{text}");
        }
    }

    #[test]
    fn words() {
        for good in ["0", "+0", "-5", "+5", "99999999", "-99999999", "+99999999"] {
            assert_eq!(refusal(format!("{good} x1 >= {good} ;")), None, "{good}");
        }
        for malformed in [
            "-0",
            "007",
            "+00",
            "-01",
            "100000000",
            "+100000000",
            "1x",
            "+1.",
            "-1~x1",
            "5x1",
            "99999999999999999999",
            "-2147483648",
        ] {
            assert_eq!(refusal(format!("{malformed} x1 >= 1 ;")), Some((4, 0)), "{malformed}");
        }
        for of_no_kind in [
            "x", "X1", "y1", "x1a", "~", "~~x1", "~1", "+", "-", "+x1", "--1", "+-1", "*", ">", "<=", "==", ">=1", "|x|", "min",
            "min:1", "Min:",
        ] {
            assert_eq!(refusal(format!(" {of_no_kind} x1 >= 1 ;")), Some((5, 1)), "{of_no_kind}");
        }
        let digits = "1".repeat(31);
        assert_eq!(refusal(format!("1 x{digits} 1 ~x{digits} >= 1 ;")), None);
        assert_eq!(refusal(format!("1 x{digits}1 >= 1 ;")), Some((5, 2)));
        assert_eq!(refusal(format!("1 ~x{digits}1 >= 1 ;")), Some((5, 2)));
        assert_eq!(refusal("1 x1>=1;"), Some((5, 2)));
        assert_eq!(refusal("1 x1 max:;"), Some((50, 5)));
    }

    #[test]
    fn the_format() {
        for (text, byte) in [
            (";", 0),
            ("x1", 0),
            ("1 1", 2),
            ("1 ;", 2),
            ("1 >=", 2),
            (">= x1", 3),
            (">= ;", 3),
            (">= 1 1", 5),
            ("(", 0),
            ("1)", 1),
        ] {
            assert_eq!(refusal(text), Some((51, byte)), "{text}");
        }
        assert_eq!(refusal("1 x1 \n "), Some((51, 7)));
        assert_eq!(refusal(">= 1 ; ;"), Some((51, 7)));
        assert_eq!(refusal(">= 1;>= 2;\n"), None);
    }

    #[test]
    fn comments() {
        for good in ["*", "* (;\t\r min: 007\n*\n>= 1 ;\n* c", "\n\n* c\n", ">= 1 ;\n*\n* c\n>= 1 ;"] {
            assert_eq!(refusal(good), None, "{good}");
        }
        assert_eq!(refusal(" * c"), Some((5, 1)));
        assert_eq!(refusal(">= 1 ; * c"), Some((5, 7)));
        assert_eq!(refusal(">=\n* c\n1 ;"), Some((5, 3)));
        assert_eq!(refusal("\r* c"), Some((5, 1)));
        assert_eq!(refusal("* c\0"), Some((3, 3)));
        assert_eq!(refusal(b"* c\n\xff"), Some((3, 4)));
        assert_eq!(refusal("1\0"), Some((3, 1)));
    }

    #[test]
    fn limits() {
        assert_eq!(refusal("\n".repeat(32_768)), None);
        assert_eq!(refusal(" ".repeat(32_769)), Some((2, 32_768)));
        assert_eq!(refusal(">= 0 ;".repeat(512)), None);
        assert_eq!(refusal(">= 0 ;".repeat(513)), Some((7, 6 * 512)));
        assert_eq!(refusal(">= 0 ;".repeat(512) + "  >= 0"), Some((51, 6 * 512 + 6)));
        assert_eq!(refusal(">= 0 ;".repeat(511) + " = 0 ;"), Some((7, 6 * 511 + 1)));
        assert_eq!(refusal("1 x1 ".repeat(1_364) + ">= 0 ;"), None);
        assert_eq!(refusal(format!("{} 1 ~x1 >= 0 ;", "1 x1 ".repeat(1_363))), Some((7, 0)));
    }
}
