//! OPB texts with proofs behind them: constraints that the text's own assignment satisfies, steps that cite them, and assumptions of a proof that
//! become constraints.

use crate::generate::Maker;
use crate::opb_damage::other_id;
use crate::opb_write::{self, Constraint};
use crate::pair::Pair;
use crate::rules::Rule;
use crate::term::*;

/// Names of variables, most of which an OPB text can have: alike in their first digits, with leading zeros, of the greatest length.
pub const POOL: [&str; 14] = [
    "x1", "x2", "x3", "x4", "x12", "x1", "x01", "x0", "x00", "x1234567890123456789012345678901",
    "x1234567890123456789012345678902", "x7", "y", "c1",
];

fn is_variable(name: &str) -> bool {
    name.strip_prefix('x').is_some_and(|digits| !digits.is_empty() && digits.bytes().all(|byte| byte.is_ascii_digit()))
}

/// The constraint that becomes a term, if there is one.
fn constraint_of(term: &Term) -> Option<Constraint> {
    let (sum, constant) = term.two(Ge)?;
    let summands = match sum {
        Number(0) => &[],
        Apply(Add, summands) if summands.len() < 2 => return None,
        _ => sum.summands(),
    };
    let summands = summands.iter().map(|summand| {
        let (coefficient, factor) = summand.two(Mul)?;
        let (variable, negated) = factor.negated().map_or((factor, false), |variable| (variable, true));
        match variable {
            Name(name) if is_variable(name) => Some((within(coefficient)?, *name, negated)),
            _ => None,
        }
    });
    Some(Constraint { summands: summands.collect::<Option<_>>()?, equal: false, constant: within(constant)? })
}

/// The number of a numeral that both texts can have.
fn within(term: &Term) -> Option<i64> {
    term.as_number().filter(|number| number.abs() <= LARGEST)
}

fn turned(constraint: &Constraint) -> Constraint {
    let summands = constraint.summands.iter().map(|(coefficient, variable, negated)| (-coefficient, *variable, *negated));
    Constraint { summands: summands.collect(), equal: false, constant: -constraint.constant }
}

/// The term that a constraint becomes.
fn term_of(constraint: &Constraint) -> Term {
    let product = |(coefficient, variable, negated): &(i64, &'static str, bool)| {
        times(*coefficient, if *negated { negation(Name(variable)) } else { Name(variable) })
    };
    let mut summands: Vec<Term> = constraint.summands.iter().map(product).collect();
    let sum = match summands.len() {
        0 => Number(0),
        1 => summands.remove(0),
        _ => Apply(Add, summands),
    };
    at_least(sum, constraint.constant)
}

impl Maker<'_> {
    /// Constraints that the assignment satisfies, where there is one; an `=` is two assumptions.
    pub fn model(&mut self, count: usize) {
        for _ in 0..count {
            let constraint = self.constraint();
            self.assume(term_of(&constraint));
            if constraint.equal {
                self.assume(term_of(&turned(&constraint)));
            }
        }
    }

    fn constraint(&mut self) -> Constraint {
        let variables: Vec<&'static str> = self.names.iter().copied().filter(|name| is_variable(name)).collect();
        let count = if variables.is_empty() { 0 } else { *self.random.one(&[0, 1, 1, 2, 2, 2, 3, 3, 4, 6]) };
        let summands: Vec<_> = (0..count)
            .map(|_| {
                let coefficient = if self.random.chance(60) { self.number().abs().max(1) } else { self.number() };
                (coefficient, *self.random.one(&variables), self.random.chance(35))
            })
            .collect();
        let equal = self.random.chance(25);
        let mut constraint = Constraint { summands, equal, constant: 0 };
        let sum = term_of(&constraint);
        let room = if equal { 0 } else { self.random.number(&[0, 0, 0, 1, 1, 2]) };
        let by_chance = self.number();
        let value = sum.two(Ge).and_then(|(sum, _)| self.value(sum));
        constraint.constant = value.map_or(by_chance, |value| value - room).clamp(-LARGEST, LARGEST);
        constraint
    }

    /// Both texts: assumptions that a constraint can become stand in the OPB text, all of them or some.
    pub fn pair(&mut self) -> Pair {
        let often = *self.random.one(&[100, 100, 70, 40]);
        let mut constraints: Vec<Constraint> = Vec::new();
        let mut assumptions = 0;
        for number in 0..self.commands.len() {
            let command = &self.commands[number];
            let constraint = if command.rule == Rule::Assume { self.only(number).and_then(constraint_of) } else { None };
            let Some(constraint) = constraint.filter(|_| self.random.chance(often)) else { continue };
            assumptions += 1;
            self.commands[number].id = format!("c{assumptions}");
            self.commands[number].given = true;
            match constraints.last_mut() {
                Some(last) if !last.equal && turned(last) == constraint && self.random.chance(90) => last.equal = true,
                _ => constraints.push(constraint),
            }
        }
        let opb = opb_write::written(&constraints, self.random);
        if self.random.chance(3) {
            self.take_id(assumptions);
        }
        let mut text = self.text();
        if self.random.chance(4) {
            text = other_id(&text, self.random);
        }
        Pair::behind(opb, text)
    }

    /// Give a command of the proof text an id that is a constraint's, or nearly one.
    fn take_id(&mut self, assumptions: usize) {
        let own: Vec<usize> = (0..self.commands.len()).filter(|number| !self.commands[*number].given).collect();
        if !own.is_empty() {
            let number = self.random.below(assumptions + 2);
            let zero = if self.random.chance(20) { "0" } else { "" };
            self.commands[*self.random.one(&own)].id = format!("c{zero}{number}");
        }
    }
}

#[cfg(test)]
mod tests {
    use super::{constraint_of, term_of, turned};
    use crate::opb_write::Constraint;
    use crate::term::*;

    #[test]
    fn constraints_and_terms() {
        let constraint = Constraint { summands: vec![(2, "x1", false), (-3, "x02", true)], equal: false, constant: 1 };
        assert_eq!(constraint_of(&term_of(&constraint)), Some(constraint.clone()));
        assert_eq!(turned(&turned(&constraint)), constraint);
        for term in [
            at_least(single(Add, times(1, Name("x1"))), 1),
            at_least(times(1, Name("y")), 1),
            at_least(Name("x1"), 1),
            at_least(Number(4), 1),
            pair(Ge, times(1, Name("x1")), Name("x1")),
            at_least(times(1, Name("x1")), LARGEST + 1),
        ] {
            assert_eq!(constraint_of(&term), None, "{term:?}");
        }
    }
}
