//! Stands in for Carcara's terms, as far as document 01's grammar has them.

use super::Rc;
use crate::checker::error::CheckerError;
use crate::rug::Integer;
use std::fmt;

/// A term. Every variable is an Int, so none carries a sort.
#[derive(Clone, PartialEq, Eq, Hash)]
pub enum Term {
    /// A constant.
    Const(Constant),
    /// A variable and its name.
    Var(String),
    /// An operator and its arguments, at least one.
    Op(Operator, Vec<Rc<Term>>),
}

/// A constant. Document 01 has integers only.
#[derive(Debug, Clone, PartialEq, Eq, Hash)]
pub enum Constant {
    /// An integer.
    Integer(Integer),
}

/// An operator of document 01's grammar.
#[derive(Debug, Clone, Copy, PartialEq, Eq, Hash)]
pub enum Operator {
    /// `+`
    Add,
    /// `-`
    Sub,
    /// `*`
    Mult,
    /// `>=`
    GreaterEq,
    /// `>`
    GreaterThan,
    /// `<=`
    LessEq,
    /// `<`
    LessThan,
    /// `=`
    Equals,
    /// `and`
    And,
}

impl Term {
    /// The value of an integer constant.
    pub fn as_integer(&self) -> Option<Integer> {
        match self {
            Term::Const(Constant::Integer(value)) => Some(value.clone()),
            _ => None,
        }
    }

    /// Whether the term is a variable.
    pub fn is_var(&self) -> bool {
        matches!(self, Term::Var(_))
    }

    /// Whether the term is this integer constant: a digit of a pattern.
    pub(crate) fn is_integer(&self, value: i32) -> bool {
        matches!(self, Term::Const(Constant::Integer(constant)) if *constant == value)
    }
}

impl Rc<Term> {
    /// The value of an integer constant, or the error that one was expected.
    pub fn as_integer_err(&self) -> Result<Integer, CheckerError> {
        self.as_integer().ok_or_else(|| CheckerError::ExpectedAnyInteger(self.clone()))
    }
}

impl fmt::Display for Operator {
    fn fmt(&self, f: &mut fmt::Formatter) -> fmt::Result {
        f.write_str(match self {
            Operator::Add => "+",
            Operator::Sub => "-",
            Operator::Mult => "*",
            Operator::GreaterEq => ">=",
            Operator::GreaterThan => ">",
            Operator::LessEq => "<=",
            Operator::LessThan => "<",
            Operator::Equals => "=",
            Operator::And => "and",
        })
    }
}

impl fmt::Display for Term {
    fn fmt(&self, f: &mut fmt::Formatter) -> fmt::Result {
        match self {
            Term::Const(Constant::Integer(value)) => write!(f, "{value}"),
            Term::Var(name) => f.write_str(name),
            Term::Op(operator, args) => {
                write!(f, "({operator}")?;
                for arg in args {
                    write!(f, " {arg}")?;
                }
                f.write_str(")")
            }
        }
    }
}

impl fmt::Debug for Term {
    fn fmt(&self, f: &mut fmt::Formatter) -> fmt::Result {
        fmt::Display::fmt(self, f)
    }
}
