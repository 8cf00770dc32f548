//! Terms: stand-ins for what the original takes from Carcara's module of this name.

mod macros;
mod pool;
mod rc;
mod term;

pub(crate) use macros::{build_term, match_term, match_term_err, operator};
pub use pool::Pool;
pub use rc::Rc;
pub use term::{Constant, Operator, Term};
