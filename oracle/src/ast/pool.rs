//! Stands in for Carcara's `Pool`: hash consing, so that each distinct term is allocated once.

use super::{Rc, Term};
use std::borrow::Borrow;
use std::collections::HashSet;
use std::hash::{Hash, Hasher};

/// All terms of a text. Terms of one pool are structurally equal exactly when their pointers are equal.
#[derive(Default)]
pub struct Pool {
    terms: HashSet<ByValue>,
}

impl Pool {
    /// An empty pool.
    pub fn new() -> Self {
        Self::default()
    }

    /// The one allocation of a term, made now if the term is new.
    pub fn add(&mut self, term: Term) -> Rc<Term> {
        if let Some(ByValue(known)) = self.terms.get(&term) {
            return known.clone();
        }
        let added = Rc::new(term);
        self.terms.insert(ByValue(added.clone()));
        added
    }
}

/// A pooled term that is looked up by its value. Its arguments are pooled already, so one level decides.
struct ByValue(Rc<Term>);

impl Borrow<Term> for ByValue {
    fn borrow(&self) -> &Term {
        &self.0
    }
}

impl PartialEq for ByValue {
    fn eq(&self, other: &Self) -> bool {
        self.0.as_ref() == other.0.as_ref()
    }
}

impl Eq for ByValue {}

impl Hash for ByValue {
    fn hash<H: Hasher>(&self, state: &mut H) {
        self.0.as_ref().hash(state);
    }
}

#[cfg(test)]
mod tests {
    use super::Pool;
    use crate::ast::Term;
    use crate::ast::build_term;

    #[test]
    fn equal_terms_have_one_allocation() {
        let mut pool = Pool::new();
        let x = pool.add(Term::Var("x".into()));
        let y = pool.add(Term::Var("y".into()));
        let first = build_term!(pool, (- 1 {x.clone()}));
        let second = build_term!(pool, (- 1 {x.clone()}));
        let other = build_term!(pool, (- 1 {y}));
        assert!(first == second);
        assert!(first != other);
    }
}
