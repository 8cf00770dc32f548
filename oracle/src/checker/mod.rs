//! The checker: stand-ins for what the original takes from Carcara's module of this name, and the original itself.

pub mod error;
pub mod rules;

pub(crate) use crate::ast::Rc;
