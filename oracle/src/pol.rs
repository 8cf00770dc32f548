//! Pol lines, document 02, No. 2: what a line's words leave, or the number of the first word that fails.
//!
//! An entry of the stack has for each variable what its plain and its negated literal have, where they are there. The original judges every
//! word that works on entries: it is asked whether the entry that was made here follows by its rule, so that a sign check that fails is its own,
//! and it is asked whether it reads the inequality of a pushed line.

use crate::answer::{ACCEPTED, answer_of_sums};
use crate::ast::{Constant, Operator, Pool, Rc, Term, match_term};
use crate::marks::{has_names, literals};
use crate::reader::{Command, Rule, Word};
use crate::{NO_ANSWER, UNREACHABLE};
use std::collections::BTreeMap;

/// The stack runs short, overflows, or has not one entry at the end.
const STACK: u8 = 52;
/// A number beyond the numeral range, or too many literals.
const BEYOND: u8 = 53;
/// A pushed line that is no inequality over names, or a sign check that fails.
const NO_INEQUALITY: u8 = 54;
/// The original's sign checks: a negative number, a zero divisor, a negative number in saturation.
const SIGN_CHECKS: [u8; 3] = [27, 28, 32];

/// The places of the stack.
const PLACES: usize = 32;
/// The most literals of an entry, zeros counted.
const MOST_LITERALS: usize = 64;
/// The largest size of a numeral.
const LARGEST: i64 = 99_999_999;

/// What a variable has in an entry: the coefficients of its plain and its negated literal, where they are there.
#[derive(Clone, Copy, Default)]
struct Sides {
    plain: Option<i64>,
    negated: Option<i64>,
}

/// An entry of the stack. Names are in byte order.
#[derive(Clone, Default)]
struct Entry {
    variables: BTreeMap<String, Sides>,
    constant: i64,
}

/// The inequality that the words of a pol line leave, or its answer.
pub(crate) fn derived(pool: &mut Pool, words: &[Word], above: &[Command]) -> Result<Rc<Term>, u8> {
    let mut stack = Vec::new();
    for word in words {
        let entry = worked(pool, word, &mut stack, above)?;
        if !entry.is_within() {
            return Err(BEYOND);
        }
        stack.push(entry);
    }
    match &stack[..] {
        [entry] => Ok(entry.finished().term(pool)),
        _ => Err(STACK),
    }
}

/// The entry that a word puts on the stack, from which what it works on is taken.
fn worked(pool: &mut Pool, word: &Word, stack: &mut Vec<Entry>, above: &[Command]) -> Result<Entry, u8> {
    match word {
        Word::Line(_) | Word::Axiom(..) if stack.len() == PLACES => Err(STACK),
        Word::Line(place) => Entry::of_line(pool, &above[*place].clause),
        Word::Axiom(name, negated) => {
            let mut entry = Entry::default();
            entry.add(name, *negated, 1);
            Ok(entry)
        }
        Word::Add => {
            let (right, left) = (stack.pop().ok_or(STACK)?, stack.pop().ok_or(STACK)?);
            let sum = left.plus(&right).reduced();
            judged(pool, Rule::Addition, &[&left, &right], None, sum)
        }
        Word::Multiply(factor) => {
            let top = stack.pop().ok_or(STACK)?;
            let made = top.each(|number| i64::from(*factor) * number);
            judged(pool, Rule::Multiplication, &[&top], Some(*factor), made)
        }
        Word::Divide(divisor) => {
            let top = stack.pop().ok_or(STACK)?;
            let made = top.each(|number| (number + i64::from(*divisor) - 1).checked_div(i64::from(*divisor)).unwrap_or(number));
            judged(pool, Rule::Division, &[&top], Some(*divisor), made)
        }
        Word::Saturate => {
            let top = stack.pop().ok_or(STACK)?;
            let made = top.each(|number| number.min(top.constant));
            judged(pool, Rule::Saturation, &[&top], None, made)
        }
    }
}

/// The entry that was made of others by a rule, where the original accepts it; 54 where a sign check of the original fails.
fn judged(pool: &mut Pool, rule: Rule, from: &[&Entry], argument: Option<i32>, made: Entry) -> Result<Entry, u8> {
    let premises: Vec<_> = from.iter().map(|entry| [entry.term(pool)]).collect();
    let premises: Vec<&[_]> = premises.iter().map(|clause| &clause[..]).collect();
    let arguments: Vec<_> = argument.iter().map(|number| numeral(pool, i64::from(*number))).collect();
    let conclusion = [made.term(pool)];
    match answer_of_sums(pool, rule, &premises, &arguments, &conclusion) {
        ACCEPTED => Ok(made),
        NO_ANSWER => Err(NO_ANSWER),
        answer if SIGN_CHECKS.contains(&answer) => Err(NO_INEQUALITY),
        _ => Err(UNREACHABLE),
    }
}

impl Entry {
    /// The inequality of a line, which has to be one over names that the original reads: multiplied by 1 it is itself.
    fn of_line(pool: &mut Pool, clause: &[Rc<Term>]) -> Result<Entry, u8> {
        let one = numeral(pool, 1);
        match answer_of_sums(pool, Rule::Multiplication, &[clause], &[one], clause) {
            ACCEPTED => (),
            NO_ANSWER => return Err(NO_ANSWER),
            _ => return Err(NO_INEQUALITY),
        }
        let (_, constant) = match_term!((>= sum constant) = &clause[0]).expect("the original has read an inequality");
        if !has_names(&clause[0]) {
            return Err(NO_INEQUALITY);
        }
        let mut entry = Entry { constant: number(constant), ..Entry::default() };
        for ((variable, negated), coefficient) in literals(&clause[0]) {
            entry.add(&variable.to_string(), negated, coefficient.to_i64().expect("a numeral is small"));
        }
        Ok(entry)
    }

    /// Adds to a literal's coefficient.
    fn add(&mut self, name: &str, negated: bool, coefficient: i64) {
        let sides = self.variables.entry(name.to_owned()).or_default();
        let side = if negated { &mut sides.negated } else { &mut sides.plain };
        *side = Some(side.unwrap_or(0) + coefficient);
    }

    /// The literals with their coefficients, names in byte order, plain before negated.
    fn literals(&self) -> impl Iterator<Item = (&str, bool, i64)> {
        self.variables.iter().flat_map(|(name, sides)| {
            let plain = sides.plain.map(|coefficient| (name.as_str(), false, coefficient));
            plain.into_iter().chain(sides.negated.map(|coefficient| (name.as_str(), true, coefficient)))
        })
    }

    /// Both sums together, not reduced.
    fn plus(&self, other: &Entry) -> Entry {
        let mut sum = self.clone();
        other.literals().for_each(|(name, negated, coefficient)| sum.add(name, negated, coefficient));
        sum.constant += other.constant;
        sum
    }

    /// With the smaller side of each variable that has both taken from both, and from the constant.
    fn reduced(mut self) -> Entry {
        for sides in self.variables.values_mut() {
            if let Sides { plain: Some(plain), negated: Some(negated) } = sides {
                let slack = *plain.min(negated);
                *plain -= slack;
                *negated -= slack;
                self.constant -= slack;
            }
        }
        self
    }

    /// With each number changed.
    fn each(&self, change: impl Fn(i64) -> i64) -> Entry {
        let change_sides = |(name, sides): (&String, &Sides)| {
            (name.clone(), Sides { plain: sides.plain.map(&change), negated: sides.negated.map(&change) })
        };
        Entry { variables: self.variables.iter().map(change_sides).collect(), constant: change(self.constant) }
    }

    /// Whether no number is beyond the numerals, and no literal is too many.
    fn is_within(&self) -> bool {
        let within = |number: i64| (-LARGEST..=LARGEST).contains(&number);
        within(self.constant)
            && self.literals().all(|(_, _, coefficient)| within(coefficient))
            && self.literals().count() <= MOST_LITERALS
    }

    /// Without zeros.
    fn finished(&self) -> Entry {
        let nonzero = |side: Option<i64>| side.filter(|coefficient| *coefficient != 0);
        let without = |(name, sides): (&String, &Sides)| {
            (name.clone(), Sides { plain: nonzero(sides.plain), negated: nonzero(sides.negated) })
        };
        Entry { variables: self.variables.iter().map(without).collect(), constant: self.constant }
    }

    /// `(>= sum constant)` of all that is there: no summand is `0`, one stands bare.
    fn term(&self, pool: &mut Pool) -> Rc<Term> {
        let mut summands = Vec::new();
        for (name, negated, coefficient) in self.literals() {
            let mut literal = pool.add(Term::Var(name.into()));
            if negated {
                let one = numeral(pool, 1);
                literal = pool.add(Term::Op(Operator::Sub, vec![one, literal]));
            }
            let coefficient = numeral(pool, coefficient);
            summands.push(pool.add(Term::Op(Operator::Mult, vec![coefficient, literal])));
        }
        let sum = match summands.len() {
            0 => numeral(pool, 0),
            1 => summands.remove(0),
            _ => pool.add(Term::Op(Operator::Add, summands)),
        };
        let constant = numeral(pool, self.constant);
        pool.add(Term::Op(Operator::GreaterEq, vec![sum, constant]))
    }
}

/// A numeral's term.
fn numeral(pool: &mut Pool, value: i64) -> Rc<Term> {
    pool.add(Term::Const(Constant::Integer(value.into())))
}

/// A numeral's number.
fn number(term: &Rc<Term>) -> i64 {
    term.as_integer().and_then(|value| value.to_i64()).expect("a numeral is small")
}

#[cfg(test)]
mod tests {
    use crate::{ORIGINAL, account};

    /// Inequality or answer of the last command, a pol line with these words behind some assumptions.
    fn last(words: &str) -> String {
        let given = "(assume a (>= (+ (* 3 x) (* 2 (- 1 y))) 4))(assume b (>= (* 2 (- 1 x)) 1))(assume n (>= x 0))\
            (assume m (>= (* -1 x) 0))(assume k (>= (* 99999999 x) 99999999))(assume z (>= (+ (* 0 x) (* 1 y)) 1))\
            (assume o (>= (* 1 (+ x y)) 0))(pol r s)";
        let text = format!("{given}(pol p {words})");
        let account = account(text.as_bytes()).expect("the text is read");
        let (command, line) = (account.commands.last().expect("it has commands"), account.lines.last().expect("and lines"));
        match &command.clause[..] {
            [term] => format!("{term} {}", line.holds),
            _ => line.answer.to_string(),
        }
    }

    #[test]
    fn what_lines_derive() {
        if !ORIGINAL {
            return;
        }
        for (words, due) in [
            ("a", "(>= (+ (* 3 x) (* 2 (- 1 y))) 4) true"),
            ("a b +", "(>= (+ (* 1 x) (* 2 (- 1 y))) 3) true"),
            ("a 2 d", "(>= (+ (* 2 x) (* 1 (- 1 y))) 2) true"),
            ("a 2 *", "(>= (+ (* 6 x) (* 4 (- 1 y))) 8) true"),
            ("b s", "(>= (* 1 (- 1 x)) 1) true"),
            ("y x +", "(>= (+ (* 1 x) (* 1 y)) 0) true"),
            ("~p p +", "(>= 0 -1) true"),
            ("z ~x -1 *", "54"),
            ("z ~x +", "(>= (+ (* 1 (- 1 x)) (* 1 y)) 1) true"),
            ("z m + ~x +", "(>= (+ (* 2 (- 1 x)) (* 1 y)) 2) true"),
            ("a 0 *", "(>= 0 0) true"),
            ("k ~x 99999999 * +", "(>= 0 0) true"),
            ("k k +", "53"),
            ("k 2 *", "53"),
            ("+", "52"),
            ("x +", "52"),
            ("x y", "52"),
            ("-1 *", "52"),
            ("x 0 d", "54"),
            ("x -1 d", "54"),
            ("m s", "54"),
            ("n", "54"),
            ("o", "54"),
            ("r", "54"),
        ] {
            assert_eq!(last(words), due, "{words}");
        }
        let pushes = |count: usize| format!("{}{}", "x ".repeat(count), "+ ".repeat(count - 1));
        assert_eq!(last(&pushes(32)), "(>= (* 32 x) 0) true");
        assert_eq!(last(&pushes(33)), "52");
        let names = |count: usize| (0..count).map(|i| if i == 0 { "v0 ".into() } else { format!("v{i} + ") }).collect::<String>();
        assert!(last(&names(64)).ends_with("true"));
        assert_eq!(last(&names(65)), "53");
        assert_eq!(last(&(names(64) + "0 * ~w +")), "53");
    }
}
