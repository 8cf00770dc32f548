//! What stands in the original's place where the package was built without it: rules that answer nothing. Their number is
//! [`crate::NO_ANSWER`], which is none of document 01's.

use super::{Inequality, RuleArgs, RuleResult};
use crate::ast::{Rc, Term};
use crate::checker::error::CheckerError;

/// A rule that answers nothing.
pub fn no_answer(_: RuleArgs) -> RuleResult {
    Err(CheckerError::Explanation(crate::NO_ANSWER, "built without the original".into()))
}

/// No term is read.
pub(crate) fn inequality(_: &Rc<Term>) -> Option<Inequality> {
    None
}

pub use no_answer as cp_addition;
pub use no_answer as cp_multiplication;
pub use no_answer as cp_division;
pub use no_answer as cp_saturation;
pub use no_answer as cp_literal;
pub use no_answer as cp_normalize;
