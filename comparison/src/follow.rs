//! What follows from what, for making steps that are mostly accepted. Nothing here judges a step: that is the oracle's part.

use crate::term::{Add, Apply, Eq, Ge, Gt, Le, Lt, Mul, Number, Operator, Sub, Term};

/// A variable or its negation.
#[derive(Clone, PartialEq)]
pub struct Literal {
    pub variable: Term,
    pub negated: bool,
}

/// Literals with their coefficients, in order of first appearance.
pub type Sum = Vec<(Literal, i64)>;

/// A summand of a general relation.
#[derive(Clone)]
pub struct Entry {
    pub coefficient: i64,
    pub variable: Term,
    pub negated: bool,
}

/// Add to a literal's coefficient.
fn add_literal(sum: &mut Sum, literal: &Literal, coefficient: i64) {
    match sum.iter_mut().find(|(own, _)| own == literal) {
        Some((_, total)) => *total += coefficient,
        None => sum.push((literal.clone(), coefficient)),
    }
}

/// The sum of a term that section 2 of document 01 reads.
pub fn sum_of(term: &Term) -> Option<Sum> {
    let summands = term.summands();
    if let [Number(number)] = summands {
        return (*number == 0).then(Vec::new);
    }
    let mut sum = Vec::new();
    for summand in summands {
        let (coefficient, factor) = summand.two(Mul)?;
        let literal = match factor.negated() {
            Some(variable) => Literal { variable: variable.clone(), negated: true },
            None => Literal { variable: factor.clone(), negated: false },
        };
        add_literal(&mut sum, &literal, coefficient.as_number()?);
    }
    Some(sum)
}

/// Sum and constant of an inequality that section 2 reads.
pub fn inequality(term: &Term) -> Option<(Sum, i64)> {
    let (sum, constant) = term.two(Ge)?;
    Some((sum_of(sum)?, constant.as_number()?))
}

/// Two sums together.
pub fn added(left: &Sum, right: &Sum) -> Sum {
    let mut total = left.clone();
    right.iter().for_each(|(literal, coefficient)| add_literal(&mut total, literal, *coefficient));
    total
}

/// The sum with opposite literals cancelled, and the slack.
pub fn reduced(sum: &Sum) -> (Sum, i64) {
    let (mut result, mut slack) = (sum.clone(), 0);
    for (at, (literal, coefficient)) in sum.iter().enumerate() {
        let opposite = Literal { variable: literal.variable.clone(), negated: !literal.negated };
        if let Some((_, other)) = sum.iter().find(|(own, _)| *own == opposite) {
            let smaller = *coefficient.min(other);
            result[at].1 -= smaller;
            slack += if literal.negated { 0 } else { smaller };
        }
    }
    (result, slack)
}

/// The greatest value of a sum: for each variable the larger of its two totals.
pub fn greatest(sum: &Sum) -> i64 {
    let total = |variable: &Term, negated: bool| {
        sum.iter().find(|(own, _)| own.variable == *variable && own.negated == negated).map_or(0, |(_, total)| *total)
    };
    let has_plain = |variable: &Term| sum.iter().any(|(own, _)| own.variable == *variable && !own.negated);
    let counted = sum.iter().filter(|(literal, _)| !literal.negated || !has_plain(&literal.variable));
    counted.map(|(literal, _)| total(&literal.variable, false).max(total(&literal.variable, true))).sum()
}

/// Division as the Rust has it: truncated toward zero.
pub fn divided(number: i64, divisor: i64) -> i64 {
    (number + divisor - 1) / divisor
}

fn negate(entries: &mut [Entry]) {
    entries.iter_mut().for_each(|entry| entry.coefficient = -entry.coefficient);
}

fn leaf(term: &Term) -> (Vec<Entry>, i64) {
    let (coefficient, factor) = match term.two(Mul) {
        Some((Number(left), Number(right))) => return (Vec::new(), left * right),
        Some((Number(number), factor)) | Some((factor, Number(number))) => (*number, factor),
        _ => (1, term),
    };
    let entry = match factor.negated() {
        Some(variable) => Entry { coefficient, variable: variable.clone(), negated: true },
        None => Entry { coefficient, variable: factor.clone(), negated: false },
    };
    (vec![entry], 0)
}

fn flattened_list(terms: &[Term]) -> (Vec<Entry>, i64) {
    let (mut entries, mut constant) = (Vec::new(), 0);
    for term in terms {
        let (more, number) = flattened(term);
        entries.extend(more);
        constant += number;
    }
    (entries, constant)
}

/// The entries and the constant of a tree of sums and differences.
pub fn flattened(term: &Term) -> (Vec<Entry>, i64) {
    match term {
        Apply(Add, arguments) => flattened_list(arguments),
        Apply(Sub, arguments) => {
            let (mut entries, constant) = flattened(&arguments[0]);
            let (mut taken, number) = flattened_list(&arguments[1..]);
            negate(&mut taken);
            entries.extend(taken);
            (entries, constant - number)
        }
        Number(number) => (Vec::new(), *number),
        _ => leaf(term),
    }
}

/// Negative coefficients flip the literal and move into the constant.
fn pushed(mut entries: Vec<Entry>, mut constant: i64) -> (Vec<Entry>, i64) {
    for entry in entries.iter_mut().filter(|entry| entry.coefficient < 0) {
        entry.negated = !entry.negated;
        constant -= entry.coefficient;
        entry.coefficient = -entry.coefficient;
    }
    (entries, constant)
}

/// The normalized form of a relation: one inequality, or two for `=`.
pub fn normalized(relation: Operator, left: &Term, right: &Term) -> Vec<(Vec<Entry>, i64)> {
    let (mut entries, left_constant) = flattened(left);
    let (mut taken, right_constant) = flattened(right);
    negate(&mut taken);
    entries.extend(taken);
    let mut constant = right_constant - left_constant;
    if matches!(relation, Lt | Le) {
        negate(&mut entries);
        constant = -constant;
    }
    if matches!(relation, Lt | Gt) {
        constant += 1;
    }
    let (entries, constant) = pushed(entries, constant);
    if relation != Eq {
        return vec![(entries, constant)];
    }
    let mut opposite = entries.clone();
    negate(&mut opposite);
    let second = pushed(opposite, -constant);
    vec![(entries, constant), second]
}
