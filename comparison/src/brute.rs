//! Demand 3 by all assignments: truth as section 5 of document 01 gives it, over the terms that the oracle's reader has read, and the solutions
//! of an OPB text from its own bytes (`solutions.rs`). Only the marks are the library's own.

use crate::report::Line;
use crate::rules::Rule;
use crate::solutions::{self, Constraint};
use crate::sums::{Reach, Source, Sum};
use oracle::ast::{Constant, Operator};
use oracle::{Account, Term};
use std::collections::HashMap;
use std::ops::Deref;

/// The most variables of a text for which all assignments are tried.
const MOST_VARIABLES: usize = 10;
/// The most evaluations of a statement in one text: a text of many lines and many variables would hold up the run.
const MOST_WORK: usize = 1 << 20;

/// A term that has a value.
enum Arithmetic {
    Number(i128),
    Variable(usize),
    Sum(Vec<Arithmetic>),
    Difference(Vec<Arithmetic>),
    Product(Vec<Arithmetic>),
}

/// A term that is true or false.
enum Statement {
    Relation(Operator, Arithmetic, Arithmetic),
    All(Vec<Statement>),
    Same(Box<[Statement; 2]>),
}

/// What trying all assignments gave.
pub enum Outcome {
    /// Too many variables or numbers beyond an i128.
    Untried,
    /// Each marked line is satisfied by each of so many assignments that satisfy the assumptions, and `refuted` is what the marked lines that are
    /// sums over names show.
    Fine { models: u64, steps: u64, assumptions: u64, reach: Reach },
    /// A mark is wrong.
    Wrong(String),
}

/// A value left the range of an i128.
struct TooLarge;

/// The variables' numbers, in order of appearance.
#[derive(Default)]
struct Names {
    numbers: HashMap<String, usize>,
}

impl Names {
    fn number(&mut self, name: &str) -> usize {
        let next = self.numbers.len();
        *self.numbers.entry(name.to_owned()).or_insert(next)
    }

    /// Arithmetic: numerals, names, `+ - *` over arithmetic.
    fn arithmetic(&mut self, term: &Term) -> Option<Arithmetic> {
        match term {
            Term::Const(Constant::Integer(number)) => Some(Arithmetic::Number(number.to_string().parse().ok()?)),
            Term::Var(name) => Some(Arithmetic::Variable(self.number(name))),
            Term::Op(operator, arguments) => {
                let make = match operator {
                    Operator::Add => Arithmetic::Sum,
                    Operator::Sub => Arithmetic::Difference,
                    Operator::Mult => Arithmetic::Product,
                    _ => return None,
                };
                arguments.iter().map(|argument| self.arithmetic(argument)).collect::<Option<_>>().map(make)
            }
        }
    }

    /// Statements: a two-argument relation of arithmetic, `and` of statements, `=` of two statements.
    fn statement(&mut self, term: &Term) -> Option<Statement> {
        let Term::Op(operator, arguments) = term else { return None };
        if *operator == Operator::And {
            return arguments.iter().map(|argument| self.statement(argument)).collect::<Option<_>>().map(Statement::All);
        }
        let [left, right] = &arguments[..] else { return None };
        if !is_relation(*operator) {
            return None;
        }
        if let (Some(left), Some(right)) = (self.arithmetic(left), self.arithmetic(right)) {
            return Some(Statement::Relation(*operator, left, right));
        }
        match operator {
            Operator::Equals => Some(Statement::Same(Box::new([self.statement(left)?, self.statement(right)?]))),
            _ => None,
        }
    }

    /// The statement of a clause that has exactly one term.
    fn clause<T: Deref<Target = Term>>(&mut self, clause: &[T]) -> Option<Statement> {
        match clause {
            [term] => self.statement(term),
            _ => None,
        }
    }
}

fn is_relation(operator: Operator) -> bool {
    use Operator::{Equals, GreaterEq, GreaterThan, LessEq, LessThan};
    matches!(operator, Equals | GreaterEq | GreaterThan | LessEq | LessThan)
}

/// A value under an assignment; bit i is variable i's value.
fn value(term: &Arithmetic, assignment: u64) -> Result<i128, TooLarge> {
    let total = |terms: &[Arithmetic]| {
        terms.iter().try_fold(0i128, |sum, term| sum.checked_add(value(term, assignment)?).ok_or(TooLarge))
    };
    match term {
        Arithmetic::Number(number) => Ok(*number),
        Arithmetic::Variable(number) => Ok(i128::from(assignment >> number & 1)),
        Arithmetic::Sum(terms) => total(terms),
        Arithmetic::Product(terms) => {
            terms.iter().try_fold(1i128, |product, term| product.checked_mul(value(term, assignment)?).ok_or(TooLarge))
        }
        Arithmetic::Difference(terms) => {
            let first = value(&terms[0], assignment)?;
            match terms.len() {
                1 => first.checked_neg().ok_or(TooLarge),
                _ => first.checked_sub(total(&terms[1..])?).ok_or(TooLarge),
            }
        }
    }
}

/// Truth under an assignment.
fn is_true(statement: &Statement, assignment: u64) -> Result<bool, TooLarge> {
    match statement {
        Statement::Relation(operator, left, right) => {
            let (left, right) = (value(left, assignment)?, value(right, assignment)?);
            Ok(match operator {
                Operator::GreaterEq => left >= right,
                Operator::GreaterThan => left > right,
                Operator::LessEq => left <= right,
                Operator::LessThan => left < right,
                _ => left == right,
            })
        }
        Statement::All(parts) => {
            for part in parts {
                if !is_true(part, assignment)? {
                    return Ok(false);
                }
            }
            Ok(true)
        }
        Statement::Same(sides) => Ok(is_true(&sides[0], assignment)? == is_true(&sides[1], assignment)?),
    }
}

/// A marked line: its place, and its statement where its clause is one.
struct Marked {
    place: usize,
    statement: Option<Statement>,
}

/// A read text: the constraints before it, its own assumptions that are statements, and the lines that the library marks.
struct Claim<'t> {
    constraints: Vec<Constraint<'t>>,
    assumptions: Vec<Statement>,
    marked: Vec<Marked>,
    refuted: bool,
}

impl Claim<'_> {
    /// Whether an assignment solves the constraints and satisfies the assumptions.
    fn holds_assumptions(&self, names: &Names, assignment: u64) -> Result<bool, TooLarge> {
        let value = |name: &str| names.numbers.get(name).map_or(0, |number| i128::from(assignment >> number & 1));
        if !self.constraints.iter().all(|constraint| constraint.is_true(value)) {
            return Ok(false);
        }
        for assumption in &self.assumptions {
            if !is_true(assumption, assignment)? {
                return Ok(false);
            }
        }
        Ok(true)
    }

    /// What is wrong under an assignment that satisfies the assumptions.
    fn wrong_under(&self, assignment: u64) -> Result<Option<String>, TooLarge> {
        if self.refuted {
            return Ok(Some("refuted=yes, and an assignment satisfies the assumptions".to_owned()));
        }
        for marked in &self.marked {
            let satisfied = match &marked.statement {
                Some(statement) => is_true(statement, assignment)?,
                None => false,
            };
            if !satisfied {
                return Ok(Some(format!("line {} has holds=yes, and an assignment does not satisfy it", marked.place + 1)));
            }
        }
        Ok(None)
    }

    /// How many assignments satisfy the assumptions, or what is wrong under one of them.
    fn models(&self, names: &Names) -> Result<Result<u64, String>, TooLarge> {
        let mut models = 0;
        for assignment in 0..1u64 << names.numbers.len() {
            if self.holds_assumptions(names, assignment)? {
                models += 1;
                if let Some(wrong) = self.wrong_under(assignment)? {
                    return Ok(Err(format!("{wrong} (assignment {assignment:b}, the first variable last)")));
                }
            }
        }
        Ok(Ok(models))
    }
}

/// Try all assignments on a read text, behind an OPB text or an empty one, with the marks of the library's report.
pub fn tried(opb: &[u8], account: &Account, lines: &[Line], refuted: bool) -> Outcome {
    if account.commands.len() != lines.len() {
        return Outcome::Wrong("the report has another number of lines than the text has commands".to_owned());
    }
    let Some(constraints) = solutions::constraints(opb) else {
        return Outcome::Wrong("the OPB text is read, and has no constraints of the form that is due".to_owned());
    };
    let mut names = Names::default();
    for (_, variable, _) in constraints.iter().flat_map(|constraint| &constraint.summands) {
        names.number(variable);
    }
    let given: usize = constraints.iter().map(Constraint::assumptions).sum();
    let mut claim = Claim { constraints, assumptions: Vec::new(), marked: Vec::new(), refuted };
    let (mut steps, mut assumptions, mut reach) = (0, 0, Reach::default());
    for (place, (command, line)) in account.commands.iter().zip(lines).enumerate() {
        if line.rule == Rule::Assume && place >= given {
            claim.assumptions.extend(names.clause(&command.clause));
        }
        if line.holds {
            claim.marked.push(Marked { place, statement: names.clause(&command.clause) });
            *if line.rule == Rule::Assume { &mut assumptions } else { &mut steps } += 1;
            if let Some(sum) = Sum::of_clause(&command.clause) {
                let source = if place < given { Source::Constraint } else { Source::Line(line.rule) };
                reach.add(place, source, &sum);
            }
        }
    }
    if let Some(wrong) = reach.wrong(refuted) {
        return Outcome::Wrong(wrong);
    }
    let variables = names.numbers.len();
    if variables > MOST_VARIABLES || (lines.len() << variables) > MOST_WORK {
        return Outcome::Untried;
    }
    match claim.models(&names) {
        Err(TooLarge) => Outcome::Untried,
        Ok(Err(wrong)) => Outcome::Wrong(wrong),
        Ok(Ok(models)) => Outcome::Fine { models, steps, assumptions, reach },
    }
}

#[cfg(test)]
mod tests {
    use super::{tried, Outcome};
    use crate::report::Line;
    use crate::rules::Rule;

    /// What comes out where every line of the text is marked.
    fn all_marked(text: &str, refuted: bool) -> Outcome {
        all_marked_behind("", text, refuted)
    }

    /// The same behind an OPB text.
    fn all_marked_behind(opb: &str, text: &str, refuted: bool) -> Outcome {
        let account = oracle::account_both(opb.as_bytes(), text.as_bytes()).expect("the texts are read");
        let rule_of = |id: &str| if id.starts_with('t') { Rule::Part } else { Rule::Assume };
        let line = |id: &str| Line { rule: rule_of(id), answer: 0, plain: true, holds: true };
        let lines: Vec<Line> = account.commands.iter().map(|command| line(&command.id)).collect();
        tried(opb.as_bytes(), &account, &lines, refuted)
    }

    fn step(assumption: &str, conclusion: &str) -> String {
        format!("(assume a {assumption})(step t (cl {conclusion}) :rule cp_part :premises (a) :args (0))")
    }

    #[test]
    fn what_follows_is_fine() {
        for (assumption, conclusion, due) in [
            ("(>= (+ (* 2 x) y) 2)", "(>= (+ x y) 1)", 2),
            ("(= (- x) 0)", "(< x 1)", 1),
            ("(and (> x y) (<= x 1))", "(= (= x 1) (= y 0))", 1),
            ("(> 0 1)", "(> 0 7)", 0),
            ("(= (- 3 x 1 y) 0)", "(>= (* x y) 1)", 1),
        ] {
            let outcome = all_marked(&step(assumption, conclusion), false);
            assert!(matches!(outcome, Outcome::Fine { models, steps: 1, assumptions: 1, .. } if models == due), "{assumption}");
        }
    }

    #[test]
    fn what_does_not_follow_is_wrong() {
        for (assumption, conclusion) in [
            ("(>= (* 3 x) 0)", "(>= (* 0 x) 1)"),
            ("(>= (- x) 0)", "(>= x 1)"),
            ("(>= x 0)", "x"),
            ("(>= x 0)", "(>= x 0 0)"),
            ("(>= x 0)", "(>= x 0) (>= x 0)"),
            ("(>= x 0)", "(= x (>= x 0))"),
            ("(>= x 0)", "(and (>= x 0) (= x y))"),
            ("x", "(>= x 0)"),
        ] {
            assert!(matches!(all_marked(&step(assumption, conclusion), false), Outcome::Wrong(_)), "{conclusion}");
        }
    }

    #[test]
    fn refuted_asks_for_no_assignment() {
        assert!(matches!(all_marked("(assume a (>= (+ (* 1 x) (* 1 y)) 2))", true), Outcome::Wrong(_)));
        assert!(matches!(all_marked("(assume a (>= (+ (* 1 x) (* 1 y)) 3))", true), Outcome::Fine { models: 0, .. }));
        assert!(matches!(all_marked("(assume a (>= 0 1))(assume b (>= x 0))", true), Outcome::Fine { models: 0, .. }));
    }

    #[test]
    fn refuted_asks_for_a_sum_that_no_assignment_satisfies() {
        for (text, refuted) in [
            ("(assume a (>= (+ (* 1 x) (* 1 y)) 3))", false),
            ("(assume a (>= (+ (* -3 x) (* -2 (- 1 x))) -1))", false),
            ("(assume a (>= (+ x y) 3))", true),
            ("(assume a (>= (* 1 (+ x y)) 5))", true),
            ("(assume a (>= (* 1 x) 1))(assume b (>= (* 1 (- 1 x)) 1))", true),
        ] {
            assert!(matches!(all_marked(text, refuted), Outcome::Wrong(_)), "{text}");
            assert!(matches!(all_marked(text, !refuted), Outcome::Fine { models: 0, .. }), "{text}");
        }
    }

    #[test]
    fn solutions_of_an_opb_text() {
        let follows = |opb: &str, conclusion: &str| {
            let text = format!("(step t (cl {conclusion}) :rule cp_part :premises (c1) :args (0))");
            all_marked_behind(opb, &text, false)
        };
        assert!(matches!(follows("2 x1 -1 ~x2 >= 1 ;", "(>= x1 1)"), Outcome::Fine { models: 2, steps: 1, assumptions: 1, .. }));
        assert!(matches!(follows("1 x1 1 x2 = 2 ;", "(>= x2 1)"), Outcome::Fine { models: 1, steps: 1, assumptions: 2, .. }));
        assert!(matches!(follows("1 x1 1 x2 >= 1 ;", "(>= x2 1)"), Outcome::Wrong(_)));
        assert!(matches!(follows("1 ~x2 >= 1 ;", "(>= x2 1)"), Outcome::Wrong(_)));
        assert!(matches!(all_marked_behind("1 x1 >= 2 ;", "", true), Outcome::Fine { models: 0, .. }));
        assert!(matches!(all_marked_behind("1 x1 >= 1 ;", "(assume a (>= 0 x1))", false), Outcome::Fine { models: 0, .. }));
        assert!(matches!(all_marked_behind("1 x1 >= 1 ;", "(assume a (>= 0 1))", true), Outcome::Fine { models: 0, .. }));
        assert!(matches!(all_marked_behind("1 x1 >= 1 ;", "", true), Outcome::Wrong(_)));
        assert!(matches!(all_marked_behind("1 x1 = -1 ;", "", false), Outcome::Wrong(_)));
    }

    #[test]
    fn numbers_beyond_the_range_are_not_tried() {
        let product = format!("(assume a (>= (*{}) 0))", " 99999999".repeat(5));
        assert!(matches!(all_marked(&product, false), Outcome::Untried));
    }
}
