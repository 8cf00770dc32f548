//! Whole files of each kind.

use crate::follow;
use crate::generate::Maker;
use crate::rules::{Rule, RULES};
use crate::term::*;

impl Maker<'_> {
    /// Steps of any rules, some of them near misses.
    pub fn proof(&mut self, steps: usize, missed: usize) {
        for _ in 0..steps {
            let rule = *self.random.one(&RULES);
            let number = self.step(rule);
            if self.random.chance(missed) {
                self.miss(number);
            } else if self.random.chance(missed / 5) {
                self.cite_odd(number);
            }
        }
    }

    /// A chain: relations are carried over, their parts taken, and then cut.
    pub fn chain(&mut self, steps: usize) {
        for _ in 0..1 + self.random.below(2) {
            let last = self.carried_over();
            if self.only(last).is_some_and(|term| !term.under(And).is_empty()) {
                self.part_of(last);
            }
        }
        for _ in 0..steps {
            let rule = *self.random.one(&[
                Rule::Addition,
                Rule::Addition,
                Rule::Multiplication,
                Rule::Division,
                Rule::Division,
                Rule::Saturation,
                Rule::Literal,
            ]);
            self.step(rule);
        }
    }

    /// Assumptions only: statements and what is nearly one, and what may refute.
    pub fn statements(&mut self) {
        for _ in 0..1 + self.random.below(3) {
            let formula = self.formula(2);
            self.assume(formula);
        }
        if self.random.chance(30) {
            let formula = self.nearly_false();
            self.assume(formula);
        }
        if self.random.chance(40) {
            self.part();
        }
        if self.random.chance(30) {
            self.transfer();
        }
    }

    /// `(>= 0 k)` and `(>= (* 1 x) k)`, k on both sides of what refutes, and terms like them that section 2 does not read.
    fn nearly_false(&mut self) -> Term {
        let (name, other) = (self.name(), self.name());
        let choices = [
            at_least(Number(0), 1),
            at_least(Number(0), 7),
            at_least(Number(0), LARGEST),
            at_least(Number(0), 0),
            at_least(Number(0), -1),
            at_least(single(Add, Number(0)), 1),
            pair(Ge, Number(0), name.clone()),
            pair(Gt, Number(0), Number(1)),
            Apply(Ge, vec![Number(0), Number(1), Number(1)]),
            single(And, at_least(Number(0), 1)),
            at_least(Number(1), 2),
            at_least(pair(Add, Number(0), Number(0)), 1),
            at_least(times(0, name.clone()), 1),
            at_least(times(1, name.clone()), 1),
            at_least(times(1, name.clone()), 2),
            at_least(times(-1, name.clone()), 0),
            at_least(times(-1, name.clone()), 1),
            at_least(name.clone(), 2),
            at_least(single(Add, name.clone()), 2),
            at_least(pair(Mul, name.clone(), Number(1)), 2),
            at_least(times(1, pair(Add, name.clone(), other.clone())), 5),
            at_least(times(0, pair(Add, name.clone(), other)), 1),
            pair(Gt, times(1, name.clone()), Number(1)),
            pair(Eq, times(1, name.clone()), Number(2)),
            pair(Le, Number(2), times(1, name.clone())),
            single(And, at_least(times(1, name), 2)),
        ];
        self.random.one(&choices).clone()
    }

    /// A refutation: v and its negation are derived, each from a pair of assumptions or assumed at once, and added.
    pub fn refutation(&mut self) {
        self.model = None;
        let variable = if self.random.chance(92) { self.name() } else { self.odd_variable() };
        let left = self.derived_literal(variable.clone());
        let right = self.derived_literal(negation(variable));
        let last = self.add_two(left, right);
        if self.random.chance(20) {
            let factor = self.random.number(&[1, 2, 5]);
            self.scaled(Rule::Multiplication, last, Some(factor), |number| factor * number);
        }
        if self.random.chance(15) {
            self.miss(last);
        }
    }

    /// `l >= 1`: assumed, or by adding two assumptions over another variable and dividing.
    fn derived_literal(&mut self, literal: Term) -> usize {
        if self.random.chance(35) {
            return self.assume(at_least(times(1, literal), 1));
        }
        let other = self.name();
        let (first, second) = (self.random.between(1, 3), self.random.between(1, 3));
        let one = pair(Add, times(first, literal.clone()), times(1, other.clone()));
        let two = pair(Add, times(second, literal), times(1, negation(other)));
        let left = self.assume(at_least(one, 1));
        let right = self.assume(at_least(two, 1));
        let sum = self.add_two(left, right);
        let divisor = first + second;
        self.scaled(Rule::Division, sum, Some(divisor), |number| follow::divided(number, divisor))
    }

    /// Short steps with several faults at once, so that the order of the checks shows.
    pub fn faults(&mut self, steps: usize) {
        for _ in 0..2 {
            let term = self.small_inequality();
            self.assume(term);
        }
        let rule = *self.random.one(&RULES);
        let clause = if self.random.chance(50) { Vec::new() } else { vec![self.name(), self.name()] };
        self.add(rule, clause, Vec::new(), Vec::new());
        for _ in 0..steps {
            self.faulty_step();
        }
    }

    fn count_near(&mut self, count: usize) -> usize {
        if self.random.chance(78) {
            count
        } else {
            self.random.below(4)
        }
    }

    fn faulty_step(&mut self) {
        let rule = *self.random.one(&RULES);
        let (premises, arguments) = rule.counts();
        let (premises, arguments, length) = (self.count_near(premises), self.count_near(arguments), self.count_near(1));
        let clause = (0..length).map(|_| self.small_inequality()).collect();
        let premises = (0..premises).map(|_| if self.random.chance(50) { 0 } else { self.random.below(3) }).collect();
        let arguments = (0..arguments).map(|_| self.small_argument()).collect();
        self.add(rule, clause, premises, arguments);
    }

    fn small_argument(&mut self) -> Term {
        match self.random.below(8) {
            0 | 1 => self.name(),
            2 => negation(self.name()),
            3 => single(Sub, Number(2)),
            _ => Number(self.random.number(&[0, 1, 2, 2, -1, 3])),
        }
    }

    fn small_inequality(&mut self) -> Term {
        let name = self.name();
        let sum = match self.random.below(9) {
            0..=2 => Number(0),
            3 | 4 => times(2, name),
            5 => times(-1, name),
            6 => name,
            7 => Number(4),
            _ => pair(Mul, name, Number(2)),
        };
        let operator = if self.random.chance(85) { Ge } else { *self.random.one(&OPERATORS) };
        let constant = if self.random.chance(88) { Number(self.random.number(&[0, 0, 1, 1, -1])) } else { self.name() };
        pair(operator, sum, constant)
    }
}
