//! Lines that section 2 of document 01 reads as sums over names, and `refuted` by them (document 02, No. 6): the greatest value of each is found by
//! trying all assignments of its names, and no formula of the request is used.

use crate::rules::Rule;
use oracle::ast::Operator;
use oracle::{Rc, Term};

/// The most summands that section 2 reads.
const MOST_SUMMANDS: usize = 512;
/// The most names of a sum for which all assignments are tried.
const MOST_NAMES: usize = 12;

/// What a sum may have, for counting.
pub const SHAPES: [&str; 8] = [
    "no literal", "one literal", "several literals", "a repeated literal", "opposite literals", "opposite totals below 0",
    "a negative coefficient", "a zero coefficient",
];

/// Which of these a sum has.
pub type Shapes = [bool; SHAPES.len()];

struct Summand {
    coefficient: i128,
    name: usize,
    negated: bool,
}

/// A sum over names, and the constant that it has to reach.
pub struct Sum {
    summands: Vec<Summand>,
    names: usize,
    constant: i128,
}

/// The number of a numeral.
fn number(term: &Term) -> Option<i128> {
    term.as_integer()?.to_i64().map(i128::from)
}

/// The two arguments of an operator.
fn two(term: &Term, operator: Operator) -> Option<(&Rc<Term>, &Rc<Term>)> {
    match term {
        Term::Op(own, arguments) if *own == operator => match &arguments[..] {
            [left, right] => Some((left, right)),
            _ => None,
        },
        _ => None,
    }
}

impl Sum {
    /// The sum of a clause: one inequality of at most 512 summands, each a numeral times a name or a negated one, or of a lone 0.
    pub fn of_clause(clause: &[Rc<Term>]) -> Option<Sum> {
        let [term] = clause else { return None };
        let (sum, constant) = two(term, Operator::GreaterEq)?;
        let constant = number(constant)?;
        let terms = match &**sum {
            Term::Op(Operator::Add, arguments) => &arguments[..],
            _ => std::slice::from_ref(sum),
        };
        if terms.len() > MOST_SUMMANDS {
            return None;
        }
        if matches!(terms, [lone] if number(lone) == Some(0)) {
            return Some(Sum { summands: Vec::new(), names: 0, constant });
        }
        let mut names = Vec::new();
        let summands = terms.iter().map(|term| summand(term, &mut names)).collect::<Option<_>>()?;
        Some(Sum { summands, names: names.len(), constant })
    }

    /// The value under an assignment; bit i is the i-th name's value.
    fn value(&self, assignment: u64) -> i128 {
        let is_one = |summand: &&Summand| (assignment >> summand.name & 1 == 1) != summand.negated;
        self.summands.iter().filter(is_one).map(|summand| summand.coefficient).sum()
    }

    /// The greatest value under all assignments, where there are few enough of them.
    fn greatest(&self) -> Option<i128> {
        if self.names > MOST_NAMES {
            return None;
        }
        (0..1u64 << self.names).map(|assignment| self.value(assignment)).max()
    }

    /// The total of a literal.
    fn total(&self, (name, negated): (usize, bool)) -> i128 {
        let is_own = |summand: &&Summand| summand.name == name && summand.negated == negated;
        self.summands.iter().filter(is_own).map(|summand| summand.coefficient).sum()
    }

    fn shapes(&self) -> Shapes {
        let mut literals: Vec<(usize, bool)> = self.summands.iter().map(|summand| (summand.name, summand.negated)).collect();
        literals.sort_unstable();
        literals.dedup();
        [
            literals.is_empty(),
            literals.len() == 1,
            literals.len() > 1,
            literals.len() < self.summands.len(),
            literals.windows(2).any(|two| two[0].0 == two[1].0),
            literals.windows(2).any(|two| two[0].0 == two[1].0 && self.total(two[0]) < 0 && self.total(two[1]) < 0),
            self.summands.iter().any(|summand| summand.coefficient < 0),
            self.summands.iter().any(|summand| summand.coefficient == 0),
        ]
    }
}

/// A summand, whose name gets the number that it has among the names.
fn summand<'t>(term: &'t Term, names: &mut Vec<&'t str>) -> Option<Summand> {
    let (coefficient, factor) = two(term, Operator::Mult)?;
    let negation = two(factor, Operator::Sub).filter(|(one, _)| number(one) == Some(1));
    let (variable, negated) = negation.map_or((factor, false), |(_, variable)| (variable, true));
    let Term::Var(name) = &**variable else { return None };
    let place = names.iter().position(|own| own == name).unwrap_or_else(|| {
        names.push(name);
        names.len() - 1
    });
    Some(Summand { coefficient: number(coefficient)?, name: place, negated })
}

/// Which line was the first that no assignment satisfies.
#[derive(Clone, Copy, Debug, PartialEq, Eq)]
pub enum Source {
    Constraint,
    Line(Rule),
}

/// What the marked lines of a text that are sums over names show.
#[derive(Default)]
pub struct Reach {
    /// The first line that no assignment satisfies, and what such lines have.
    pub first: Option<(usize, Source)>,
    pub below: Shapes,
    /// How many lines with each shape have a greatest value that is their constant.
    pub equal: [u64; SHAPES.len()],
    /// How many lines some assignment satisfies.
    pub satisfied: u64,
    /// How many lines have too many names.
    pub untried: u64,
}

impl Reach {
    /// One marked line more.
    pub fn add(&mut self, place: usize, source: Source, sum: &Sum) {
        let Some(greatest) = sum.greatest() else {
            self.untried += 1;
            return;
        };
        let shapes = sum.shapes();
        if greatest < sum.constant {
            self.first = self.first.or(Some((place, source)));
            self.below.iter_mut().zip(shapes).for_each(|(below, shape)| *below |= shape);
            return;
        }
        self.satisfied += 1;
        if greatest == sum.constant {
            self.equal.iter_mut().zip(shapes).for_each(|(count, shape)| *count += u64::from(shape));
        }
    }

    /// What is wrong with `refuted`, which has to be yes exactly where a marked line that is a sum over names is satisfied by no assignment.
    pub fn wrong(&self, refuted: bool) -> Option<String> {
        match (refuted, self.first) {
            (false, Some((place, _))) => {
                Some(format!("refuted=no, and no assignment satisfies line {}, which holds and is a sum over names", place + 1))
            }
            (true, None) if self.untried == 0 => {
                Some("refuted=yes, and some assignment satisfies each line that holds and is a sum over names".to_owned())
            }
            _ => None,
        }
    }
}

#[cfg(test)]
mod tests {
    use super::{Sum, SHAPES};

    fn sum(term: &str) -> Option<Sum> {
        let account = oracle::account(format!("(assume a {term})").as_bytes()).expect("the text is read");
        Sum::of_clause(&account.commands[0].clause)
    }

    #[test]
    fn greatest_values() {
        for (term, greatest, shapes) in [
            ("(>= 0 1)", 0, "no literal"),
            ("(>= (+ 0) 1)", 0, "no literal"),
            ("(>= (* -1 x) 1)", 0, "one literal, a negative coefficient"),
            ("(>= (+ (* 2 x) (* 1 x)) 1)", 3, "one literal, a repeated literal"),
            ("(>= (+ (* 2 x) (* 0 (- 1 y))) 1)", 2, "several literals, a zero coefficient"),
            ("(>= (+ (* 2 x) (* 5 (- 1 x))) 1)", 5, "several literals, opposite literals"),
            ("(>= (+ (* -3 x) (* 2 (- 1 x))) 1)", 2, "several literals, opposite literals, a negative coefficient"),
            (
                "(>= (+ (* -3 x) (* -2 (- 1 x))) 1)",
                -2,
                "several literals, opposite literals, opposite totals below 0, a negative coefficient",
            ),
        ] {
            let sum = sum(term).expect("section 2 reads it");
            assert_eq!(sum.greatest(), Some(greatest), "{term}");
            let found: Vec<&str> = SHAPES.into_iter().zip(sum.shapes()).filter_map(|(name, has)| has.then_some(name)).collect();
            assert_eq!(found.join(", "), shapes, "{term}");
        }
    }

    #[test]
    fn what_is_no_sum_over_names() {
        for term in [
            "(>= x 2)", "(>= 4 5)", "(>= (+ 4) 5)", "(>= (+ 0 0) 1)", "(>= (+ x) 2)", "(>= (* x 1) 2)", "(>= (* 1 (+ x y)) 5)",
            "(>= (* 1 (- 2 x)) 5)", "(>= (* 2 3) 9)", "(>= (+ (* 1 x) 0) 2)", "(>= (+ 0 (* 1 x)) 2)", "(>= 0 x)", "(> 0 1)",
            "(and (>= 0 1))", "(>= 0 1 1)",
        ] {
            assert!(sum(term).is_none(), "{term}");
        }
        let zeros = |count: usize| format!("(>= (+{}) 1)", " (* 0 x)".repeat(count));
        assert!(sum(&zeros(512)).is_some() && sum(&zeros(513)).is_none());
    }
}
