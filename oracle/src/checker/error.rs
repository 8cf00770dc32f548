//! Stand in for Carcara's errors: the variants that the cutting-planes rules can give. Variants that serve several checks carry the
//! number that the build puts at each place (`build.rs`); of the others the variant says the number.

use crate::ast::{Rc, Term};
use crate::rug::Integer;

/// Why a step is refused.
#[derive(Debug)]
pub enum CheckerError {
    /// A number and an explanation.
    Explanation(u8, String),
    /// The premises that were expected, and those that there are.
    WrongNumberOfPremises(Range, usize),
    /// The terms that were expected in a clause, and those that there are.
    WrongLengthOfClause(Range, usize),
    /// The arguments that were expected, and those that there are.
    WrongNumberOfArgs(Range, usize),
    /// The pattern, and the term that does not match it.
    TermOfWrongForm(&'static str, Rc<Term>),
    /// A number, the integer that was expected, and the term where it was.
    ExpectedInteger(u8, Integer, Rc<Term>),
    /// The term that is no integer.
    ExpectedAnyInteger(Rc<Term>),
    /// The term that is no integer from 0.
    ExpectedNonnegInteger(Rc<Term>),
    /// A divisor is 0.
    DivOrModByZero,
    /// Two terms differ.
    TermEquality(EqualityError<Rc<Term>>),
    /// Two integers differ.
    IntegerEquality(EqualityError<Integer>),
}

/// Two values that had to be equal.
#[derive(Debug)]
pub enum EqualityError<T> {
    /// A number, and the values.
    ExpectedEqual(u8, T, T),
}

/// How many of something there have to be. The cutting-planes rules only ask for exact counts.
#[derive(Debug, Clone, Copy)]
pub struct Range(usize);

impl Range {
    /// Whether a count is in the range.
    pub fn contains(self, count: usize) -> bool {
        count == self.0
    }
}

impl From<usize> for Range {
    fn from(count: usize) -> Self {
        Self(count)
    }
}

impl From<EqualityError<Rc<Term>>> for CheckerError {
    fn from(error: EqualityError<Rc<Term>>) -> Self {
        Self::TermEquality(error)
    }
}

impl From<EqualityError<Integer>> for CheckerError {
    fn from(error: EqualityError<Integer>) -> Self {
        Self::IntegerEquality(error)
    }
}

impl CheckerError {
    /// Document 01's number of the failing check.
    pub fn number(&self) -> u8 {
        match self {
            Self::Explanation(number, _) | Self::ExpectedInteger(number, _, _) => *number,
            Self::WrongNumberOfPremises(..) => 20,
            Self::WrongLengthOfClause(..) => 21,
            Self::WrongNumberOfArgs(..) => 22,
            Self::TermOfWrongForm(..) => 23,
            Self::ExpectedAnyInteger(_) => 24,
            Self::ExpectedNonnegInteger(_) => 27,
            Self::DivOrModByZero => 28,
            Self::TermEquality(error) => error.number(),
            Self::IntegerEquality(error) => error.number(),
        }
    }
}

impl<T> EqualityError<T> {
    /// Document 01's number of the failing check.
    pub fn number(&self) -> u8 {
        match self {
            Self::ExpectedEqual(number, _, _) => *number,
        }
    }
}
