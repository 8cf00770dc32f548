//! What the original takes from the module above it, and the original itself, as the build has numbered it.

use super::error::{CheckerError, EqualityError, Range};
use crate::ast::{Pool, Rc, Term};

/// Accepted, or why not.
pub type RuleResult = Result<(), CheckerError>;

/// A rule.
pub type Rule = fn(RuleArgs) -> RuleResult;

/// What a rule is given.
pub struct RuleArgs<'a> {
    /// The step's clause.
    pub conclusion: &'a [Rc<Term>],
    /// What the step cites.
    pub premises: &'a [Premise<'a>],
    /// The step's arguments.
    pub args: &'a [Rc<Term>],
    /// Where all terms are.
    pub pool: &'a mut Pool,
}

/// A cited command.
#[derive(Debug, Clone, Copy)]
pub struct Premise<'a> {
    /// Its clause.
    pub clause: &'a [Rc<Term>],
}

/// Refuses the step with an error unless a condition holds.
macro_rules! rassert {
    ($condition:expr, $error:expr $(,)?) => {
        if !$condition {
            return Err($error.into());
        }
    };
}

/// 20 unless the step cites as many commands as the rule has premises.
pub(crate) fn assert_num_premises<T: Into<Range>>(premises: &[Premise], range: T) -> RuleResult {
    let range = range.into();
    match range.contains(premises.len()) {
        true => Ok(()),
        false => Err(CheckerError::WrongNumberOfPremises(range, premises.len())),
    }
}

/// 21 unless a clause has the due length.
pub(crate) fn assert_clause_len<T: Into<Range>>(clause: &[Rc<Term>], range: T) -> RuleResult {
    let range = range.into();
    match range.contains(clause.len()) {
        true => Ok(()),
        false => Err(CheckerError::WrongLengthOfClause(range, clause.len())),
    }
}

/// 22 unless the step has as many arguments as the rule.
pub(crate) fn assert_num_args<T: Into<Range>>(args: &[Rc<Term>], range: T) -> RuleResult {
    let range = range.into();
    match range.contains(args.len()) {
        true => Ok(()),
        false => Err(CheckerError::WrongNumberOfArgs(range, args.len())),
    }
}

/// 35 unless two terms are equal. Only `cp_literal` calls it, which the build checks.
fn assert_eq(a: &Rc<Term>, b: &Rc<Term>) -> RuleResult {
    match a == b {
        true => Ok(()),
        false => Err(EqualityError::ExpectedEqual(35, a.clone(), b.clone()).into()),
    }
}

/// An inequality as it is read: the total of each literal, a variable and whether it is negated, and the constant.
pub(crate) type Inequality = (Vec<(Rc<Term>, bool, crate::rug::Integer)>, crate::rug::Integer);

/// The original. `rug` is brought into scope under the name by which it is used there.
#[cfg(not(no_original))]
pub mod cutting_planes {
    use crate::rug;

    include!(concat!(env!("OUT_DIR"), "/cutting_planes.rs"));

    /// What the original's own reader, which it keeps to itself, reads of a term, if it reads it.
    pub(crate) fn inequality(term: &Rc<Term>) -> Option<super::Inequality> {
        let (totals, constant) = unwrap_pseudoboolean_inequality(term).ok()?;
        let totals = totals.into_iter().map(|(literal, total)| (literal.var, literal.negated, total));
        Some((totals.collect(), constant))
    }
}

#[cfg(no_original)]
pub mod cutting_planes;
