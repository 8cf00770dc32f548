//! The marks of document 01, section 5: `plain` and what is a statement, told from the terms; and what refutes, document 02, No. 6, told from
//! the inequality that the original reads.

use crate::answer::{inequality, relation, summands};
use crate::ast::{Operator, Rc, Term, match_term};
use crate::reader::{Command, Rule};
use crate::rug::Integer;
use std::collections::HashMap;

/// Whether an accepted command is plain.
pub fn is_plain(command: &Command, above: &[Command]) -> bool {
    let premise = |place: usize| &above[command.premises[place]].clause[0];
    let conclusion = || &command.clause[0];
    match command.rule {
        Rule::Assume | Rule::Literal | Rule::Transfer | Rule::Part | Rule::Pol => true,
        Rule::Multiplication | Rule::Division | Rule::Saturation => has_names(premise(0)) && has_names(conclusion()),
        Rule::Addition => {
            let (left, right, conclusion) = (premise(0), premise(1), conclusion());
            [left, right, conclusion].into_iter().all(has_names) && !hides_a_coefficient(left, right, conclusion)
        }
        Rule::Normalize => is_plain_normalization(conclusion()),
    }
}

/// A literal: a variable, and whether it is negated.
pub(crate) type Literal<'t> = (&'t Rc<Term>, bool);

/// The literals of an inequality that was accepted, with their coefficients. A lone 0 has none.
pub(crate) fn literals(inequality: &Rc<Term>) -> impl Iterator<Item = (Literal<'_>, Integer)> {
    let (sum, _) = match_term!((>= sum constant) = inequality).expect("the rule has read an inequality");
    summands(sum).iter().filter_map(|summand| {
        let (coefficient, literal) = match_term!((* coefficient literal) = summand)?;
        let coefficient = coefficient.as_integer()?;
        Some(match match_term!((- 1 var) = literal) {
            Some(var) => ((var, true), coefficient),
            None => ((literal, false), coefficient),
        })
    })
}

/// Whether each term in a variable's place of an inequality is a name.
pub(crate) fn has_names(inequality: &Rc<Term>) -> bool {
    literals(inequality).all(|((var, _), _)| var.is_var())
}

/// The total of each literal.
fn totals<'t>(literals: impl Iterator<Item = (Literal<'t>, Integer)>) -> HashMap<Literal<'t>, Integer> {
    let mut totals = HashMap::new();
    for (literal, coefficient) in literals {
        *totals.entry(literal).or_default() += coefficient;
    }
    totals
}

/// Whether a literal's total in an addition's conclusion is zero and its reduced coefficient is not.
fn hides_a_coefficient(left: &Rc<Term>, right: &Rc<Term>, conclusion: &Rc<Term>) -> bool {
    // A total of positive coefficients is not zero.
    if literals(conclusion).all(|(_, coefficient)| coefficient > 0) {
        return false;
    }
    let concluded = totals(literals(conclusion));
    let added = totals(literals(left).chain(literals(right)));
    let mut zeros = concluded.iter().filter(|(_, total)| **total == 0);
    zeros.any(|(literal, _)| reduced(&added, *literal).is_some_and(|coefficient| coefficient != 0))
}

/// A literal's coefficient after cancelling: what it has more than its opposite, if both are there.
fn reduced(added: &HashMap<Literal, Integer>, literal: Literal) -> Option<Integer> {
    let (var, negated) = literal;
    let own = added.get(&literal)?;
    Some(match added.get(&(var, !negated)) {
        Some(opposite) => Ord::max(own - opposite, 0.into()),
        None => own.clone(),
    })
}

/// Whether each leaf and each entry of a normalization has a name in its variable's place, and no one-argument `-` was met.
fn is_plain_normalization(conclusion: &Rc<Term>) -> bool {
    let (general, normalized) = match_term!((= general normalized) = conclusion).expect("the rule has read an equation");
    let (left, right) = relation(general).expect("the rule has read a relation");
    is_plain_tree(left) && is_plain_tree(right) && has_plain_entries(normalized)
}

/// Whether the leaves of a side are plain, and each `-` on the way to them has several arguments.
fn is_plain_tree(term: &Rc<Term>) -> bool {
    match term.as_ref() {
        Term::Op(Operator::Sub, args) if args.len() == 1 => false,
        Term::Op(Operator::Add | Operator::Sub, args) => args.iter().all(is_plain_tree),
        Term::Const(_) => true,
        _ => is_plain_entry(term),
    }
}

/// Whether the entries of a normalized relation are plain: those of an inequality, or of both halves of an `and`.
fn has_plain_entries(normalized: &Rc<Term>) -> bool {
    if let Some(halves) = match_term!((and ...) = normalized) {
        return halves.iter().all(has_plain_entries);
    }
    let (sum, _) = match_term!((>= sum constant) = normalized).expect("the rule has read an inequality");
    summands(sum).iter().all(is_plain_entry)
}

/// Whether the term in an entry's variable's place is a name; a product of two numerals has no such place.
fn is_plain_entry(term: &Rc<Term>) -> bool {
    let weighted = match match_term!((* left right) = term) {
        Some((left, right)) => match (left.as_integer(), right.as_integer()) {
            (Some(_), Some(_)) => return true,
            (Some(_), None) => right,
            (None, Some(_)) => left,
            (None, None) => term,
        },
        None => term,
    };
    match_term!((- 1 var) = weighted).unwrap_or(weighted).is_var()
}

/// Whether a term is a statement: a relation of arithmetic, `and` of statements, `=` of two statements.
pub fn is_statement(term: &Rc<Term>) -> bool {
    if let Some(parts) = match_term!((and ...) = term) {
        return parts.iter().all(is_statement);
    }
    if let Some((left, right)) = match_term!((= left right) = term)
        && is_statement(left)
        && is_statement(right)
    {
        return true;
    }
    relation(term).is_some_and(|(left, right)| is_arithmetic(left) && is_arithmetic(right))
}

/// Whether a term is arithmetic: numerals, names, `+ - *` over arithmetic.
fn is_arithmetic(term: &Rc<Term>) -> bool {
    match term.as_ref() {
        Term::Op(Operator::Add | Operator::Sub | Operator::Mult, args) => args.iter().all(is_arithmetic),
        Term::Op(..) => false,
        Term::Const(_) | Term::Var(_) => true,
    }
}

/// Whether a clause is one inequality over names whose sum has a greatest value below its constant.
pub fn unreachable(clause: &[Rc<Term>]) -> bool {
    let [term] = clause else { return false };
    inequality(term)
        .is_some_and(|(totals, constant)| totals.iter().all(|(var, _, _)| var.is_var()) && greatest(&totals) < constant)
}

/// The greatest value of a sum over all 0-1 assignments: its value where every variable is 0, and what it gains by each variable that is
/// better at 1.
fn greatest(totals: &[(Rc<Term>, bool, Integer)]) -> Integer {
    let mut greatest = Integer::default();
    let mut gains: HashMap<&Rc<Term>, Integer> = HashMap::new();
    for (var, negated, total) in totals {
        let gain = gains.entry(var).or_default();
        if *negated {
            greatest += total;
            *gain -= total;
        } else {
            *gain += total;
        }
    }
    gains.into_values().filter(|gain| *gain > 0).for_each(|gain| greatest += gain);
    greatest
}

#[cfg(test)]
mod tests {
    use crate::{ORIGINAL, account};

    #[test]
    fn what_refutes() {
        if !ORIGINAL {
            return;
        }
        let refuted = |term: &str, constant: i64| {
            let text = format!("(assume a (>= {term} {constant}))");
            account(text.as_bytes()).expect("the text is read").refuted
        };
        for (term, greatest) in [
            ("0", 0),
            ("(+ 0)", 0),
            ("(* 1 x)", 1),
            ("(* -1 x)", 0),
            ("(* -1 (- 1 x))", 0),
            ("(+ (* 2 x) (* 1 y))", 3),
            ("(+ (* 2 x) (* 3 x) (* -1 x))", 4),
            ("(+ (* 2 x) (* 5 (- 1 x)))", 5),
            ("(+ (* -3 x) (* -2 (- 1 x)))", -2),
            ("(+ (* -3 x) (* 0 (- 1 x)))", 0),
            ("(+ (* 3 x) (* -2 (- 1 y)) (* -4 z))", 3),
        ] {
            assert!(!refuted(term, greatest), "{term}");
            assert!(refuted(term, greatest + 1), "{term}");
        }
        for term in ["x", "4", "(+ 0 0)", "(+ x)", "(* x 2)", "(* 1 (+ x y))", "(* 0 (- x))", "(+ (* 1 x) 1)"] {
            assert!(!refuted(term, 9), "{term}");
        }
        let summands = |count: usize| format!("(+{})", " (* 99999999 x)".repeat(count));
        assert!(!refuted(&summands(512), 99_999_999));
        let summands = |count: usize| format!("(+{})", " (* 0 x)".repeat(count));
        assert!(refuted(&summands(512), 1) && !refuted(&summands(513), 1));
    }
}
