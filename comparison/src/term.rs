//! The terms that texts are made of, before they are written.

/// The largest numeral that is read.
pub const LARGEST: i64 = 99_999_999;

/// The operators of the grammar.
#[derive(Clone, Copy, Debug, PartialEq)]
pub enum Operator {
    Add,
    Sub,
    Mul,
    Ge,
    Gt,
    Le,
    Lt,
    Eq,
    And,
}

pub use Operator::{Add, And, Eq, Ge, Gt, Le, Lt, Mul, Sub};

/// All operators, in the order of document 01.
pub const OPERATORS: [Operator; 9] = [Add, Sub, Mul, Ge, Gt, Le, Lt, Eq, And];
/// The relations that a normalization supports.
pub const RELATIONS: [Operator; 5] = [Ge, Gt, Le, Lt, Eq];

impl Operator {
    /// How it is written.
    pub fn word(self) -> &'static str {
        ["+", "-", "*", ">=", ">", "<=", "<", "=", "and"][self as usize]
    }
}

/// A numeral, a variable or an application.
#[derive(Clone, Debug, PartialEq)]
pub enum Term {
    Number(i64),
    Name(&'static str),
    Apply(Operator, Vec<Term>),
}

pub use Term::{Apply, Name, Number};

/// An application to two arguments.
pub fn pair(operator: Operator, left: Term, right: Term) -> Term {
    Apply(operator, vec![left, right])
}

/// An application to one argument.
pub fn single(operator: Operator, argument: Term) -> Term {
    Apply(operator, vec![argument])
}

/// `(- 1 v)`
pub fn negation(term: Term) -> Term {
    pair(Sub, Number(1), term)
}

/// `(* c t)`
pub fn times(coefficient: i64, term: Term) -> Term {
    pair(Mul, Number(coefficient), term)
}

/// `(>= sum constant)`
pub fn at_least(sum: Term, constant: i64) -> Term {
    pair(Ge, sum, Number(constant))
}

impl Term {
    /// The two arguments of an application of the operator to two.
    pub fn two(&self, operator: Operator) -> Option<(&Term, &Term)> {
        match self {
            Apply(own, arguments) if *own == operator && arguments.len() == 2 => Some((&arguments[0], &arguments[1])),
            _ => None,
        }
    }

    /// The arguments of an application of the operator, else none.
    pub fn under(&self, operator: Operator) -> &[Term] {
        match self {
            Apply(own, arguments) if *own == operator => arguments,
            _ => &[],
        }
    }

    /// The v of `(- 1 v)`.
    pub fn negated(&self) -> Option<&Term> {
        match self.two(Sub) {
            Some((Number(1), variable)) => Some(variable),
            _ => None,
        }
    }

    /// The number of a numeral.
    pub fn as_number(&self) -> Option<i64> {
        match self {
            Number(number) => Some(*number),
            _ => None,
        }
    }

    /// A sum's own list of children, or a list of that one term.
    pub fn summands(&self) -> &[Term] {
        match self {
            Apply(Add, arguments) => arguments,
            _ => std::slice::from_ref(self),
        }
    }
}
