//! Sums with constants at their greatest values, one above and one below (document 02, No. 6): assumed, or derived by steps and pol lines from lines
//! that some assignment satisfies.

use crate::follow::{self, Sum};
use crate::generate::Maker;
use crate::rules::Rule;
use crate::term::*;

/// How far a constant is from the greatest value.
const NEAR: [i64; 10] = [0, 0, 0, 0, 1, 1, 1, -1, 2, 9];

impl Maker<'_> {
    /// Lines at their greatest values, and what follows from them.
    pub fn greatest_values(&mut self) {
        self.model = None;
        for _ in 0..1 + self.random.below(3) {
            let number = match self.random.below(100) {
                0..=34 => self.assumed_sum(),
                35..=54 => self.conflict(false),
                55..=74 => self.conflict(true),
                75..=86 => self.part_of_sums(),
                _ => self.carried_sum(),
            };
            if self.random.chance(12) {
                self.miss(number);
            } else if self.random.chance(25) {
                let rule = *self.random.one(&[Rule::Multiplication, Rule::Division, Rule::Saturation, Rule::Addition, Rule::Pol]);
                self.step(rule);
            }
        }
    }

    /// Summands: none, one, many, of a literal that repeats, of opposite literals with signs of all kinds, all of them negative.
    fn shaped(&mut self) -> Vec<Term> {
        let literal = self.literal();
        let opposite = opposite_of(&literal);
        let negative = |maker: &mut Self| -maker.number().abs().max(1);
        let mut summands = match self.random.below(14) {
            0 => return Vec::new(),
            1 | 2 => return vec![times(self.number(), literal)],
            3 => return vec![times(negative(self), literal)],
            4..=6 => (0..2 + self.random.below(2)).map(|_| times(self.number(), literal.clone())).collect(),
            7 | 8 => vec![times(self.number(), literal), times(self.number(), opposite)],
            9 | 10 => vec![times(negative(self), literal), times(negative(self), opposite)],
            11 => (0..2 + self.random.below(3)).map(|_| times(negative(self), self.literal())).collect(),
            _ => Vec::new(),
        };
        for _ in 0..self.random.below(5) {
            summands.push(times(self.number(), self.literal()));
        }
        self.random.shuffle(&mut summands);
        summands
    }

    /// A sum with a constant near its greatest value.
    fn near(&mut self) -> Term {
        let summands = self.shaped();
        let sum = self.joined(summands);
        let greatest = follow::sum_of(&sum).map_or(0, |sum| follow::greatest(&sum));
        let constant = greatest + self.random.number(&NEAR);
        at_least(sum, self.within(constant))
    }

    fn assumed_sum(&mut self) -> usize {
        let term = self.near();
        self.assume(term)
    }

    /// Two inequalities that an assignment each satisfies, mostly, and their sum, by a step or a pol line, near its greatest value.
    fn conflict(&mut self, pol: bool) -> usize {
        let left = self.shaped();
        let mut right: Vec<Term> = Vec::new();
        for summand in &left {
            if let Some((_, factor)) = summand.two(Mul) {
                if self.random.chance(65) {
                    right.push(times(self.random.number(&[1, 1, 2, 3, -1]), opposite_of(factor)));
                }
            }
        }
        if right.is_empty() || self.random.chance(30) {
            right.push(times(self.number(), self.literal()));
        }
        let (left, right) = (self.joined(left), self.joined(right));
        let totals = |sum: &Term| follow::sum_of(sum).unwrap_or_default();
        let (left_totals, right_totals): (Sum, Sum) = (totals(&left), totals(&right));
        let (reduced, slack) = follow::reduced(&follow::added(&left_totals, &right_totals));
        let due = follow::greatest(&reduced) + self.random.number(&NEAR) + slack;
        let left_constant = follow::greatest(&left_totals) - self.random.number(&[0, 0, 0, 1]);
        let mut right_constant = due - left_constant;
        if self.random.chance(80) {
            right_constant = right_constant.min(follow::greatest(&right_totals));
        }
        let left_constant = self.within(left_constant);
        let right_constant = self.within(right_constant);
        let left = self.assume(at_least(left, left_constant));
        let right = self.assume(at_least(right, right_constant));
        if pol {
            self.pol_sum(left, right)
        } else {
            self.add_two(left, right)
        }
    }

    /// A part of an `and` of such sums.
    fn part_of_sums(&mut self) -> usize {
        let parts = (0..1 + self.random.below(2)).map(|_| self.near()).collect();
        let whole = self.assume(Apply(And, parts));
        self.part_of(whole)
    }

    /// A relation near the greatest value of its sum, normalized and transferred, and of an `=` a part.
    fn carried_sum(&mut self) -> usize {
        let term = self.near();
        let (sum, constant) = match term.two(Ge) {
            Some((sum, constant)) => (sum.clone(), constant.as_number().unwrap_or(0)),
            None => return self.assume(term),
        };
        let relation = match self.random.below(4) {
            0 => pair(Gt, sum, Number(constant - 1)),
            1 => pair(Eq, sum, Number(constant)),
            2 => pair(Le, Number(constant), sum),
            _ => term,
        };
        let last = self.carried_over_of(relation);
        match self.only(last).is_some_and(|term| !term.under(And).is_empty()) {
            true => self.part_of(last),
            false => last,
        }
    }
}

/// The opposite of a literal.
fn opposite_of(literal: &Term) -> Term {
    match literal.negated() {
        Some(variable) => variable.clone(),
        None => negation(literal.clone()),
    }
}
