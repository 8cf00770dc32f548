//! Assumptions and steps that are made by applying their rule, so that most are accepted.

use crate::follow::{self, Entry, Sum};
use crate::generate::Maker;
use crate::rules::Rule;
use crate::term::*;

impl Maker<'_> {
    // ------------------------------------------------------------ premises
    /// A command whose clause is an inequality that section 2 reads: an earlier one or a new one.
    pub fn readable(&mut self, nonnegative: bool) -> usize {
        let usable = |term: &Term| {
            follow::inequality(term).is_some_and(|(sum, constant)| {
                !nonnegative || constant >= 0 && sum.iter().all(|(_, coefficient)| *coefficient >= 0)
            })
        };
        let earlier = self.earlier(usable);
        if !earlier.is_empty() && self.random.chance(72) {
            return *self.random.one(&earlier);
        }
        let term = self.satisfied_inequality(nonnegative);
        self.assume(term)
    }

    fn inequality_of(&self, number: usize) -> (Sum, i64) {
        self.only(number).and_then(follow::inequality).unwrap_or_default()
    }

    // ------------------------------------------------------------ steps of each rule

    /// A step of the rule with what it needs; its number.
    pub fn step(&mut self, rule: Rule) -> usize {
        match rule {
            Rule::Addition => self.addition(),
            Rule::Multiplication => self.multiplication(),
            Rule::Division => self.division(),
            Rule::Saturation => self.saturation(),
            Rule::Literal => self.literal_step(),
            Rule::Normalize => self.normalize(),
            Rule::Transfer => self.transfer(),
            Rule::Part => self.part(),
            Rule::Assume => self.readable(false),
            Rule::Pol => self.pol(),
        }
    }

    /// The sum of two given inequalities.
    pub fn add_two(&mut self, left: usize, right: usize) -> usize {
        let (left_sum, left_constant) = self.inequality_of(left);
        let (right_sum, right_constant) = self.inequality_of(right);
        let (mut sum, slack) = follow::reduced(&follow::added(&left_sum, &right_sum));
        if !sum.is_empty() && self.random.chance(2) {
            // a zero of the conclusion that faces a nonzero coefficient
            let place = self.random.below(sum.len());
            sum[place].1 = 0;
        }
        let constant = self.within(left_constant + right_constant - slack);
        let term = at_least(self.written_sum(&sum, 15), constant);
        self.add(Rule::Addition, vec![term], vec![left, right], Vec::new())
    }

    fn addition(&mut self) -> usize {
        let left = self.readable(false);
        let right = self.readable(false);
        self.add_two(left, right)
    }

    /// A step of one premise that does the same to each of its numbers.
    pub fn scaled(&mut self, rule: Rule, premise: usize, argument: Option<i64>, result: impl Fn(i64) -> i64) -> usize {
        let (mut sum, constant) = self.inequality_of(premise);
        sum.iter_mut().for_each(|(_, coefficient)| *coefficient = result(*coefficient));
        let constant = self.within(result(constant));
        let term = at_least(self.written_sum(&sum, 95), constant);
        self.add(rule, vec![term], vec![premise], argument.into_iter().map(Number).collect())
    }

    fn multiplication(&mut self) -> usize {
        let premise = self.readable(false);
        let factor = self.random.number(&[0, 1, 2, 2, 3, 3, 5, 10]);
        self.scaled(Rule::Multiplication, premise, Some(factor), |number| factor * number)
    }

    fn division(&mut self) -> usize {
        let premise = self.readable(false);
        let divisor = self.random.number(&[1, 2, 2, 2, 3, 3, 4, 7]);
        self.scaled(Rule::Division, premise, Some(divisor), |number| follow::divided(number, divisor))
    }

    fn saturation(&mut self) -> usize {
        let nonnegative = self.random.chance(93);
        let premise = self.readable(nonnegative);
        let (_, constant) = self.inequality_of(premise);
        self.scaled(Rule::Saturation, premise, None, |number| number.min(constant))
    }

    fn literal_step(&mut self) -> usize {
        let name = self.name();
        let literal = if self.random.chance(50) { negation(name) } else { name };
        let sum = if self.random.chance(50) { times(1, literal.clone()) } else { literal.clone() };
        let premises = self.uncounted_premises(15);
        self.add(Rule::Literal, vec![at_least(sum, 0)], premises, vec![literal])
    }

    /// Premises for a rule that does not count them.
    fn uncounted_premises(&mut self, percent: usize) -> Vec<usize> {
        if self.commands.is_empty() || !self.random.chance(percent) {
            return Vec::new();
        }
        (0..1 + self.random.below(2)).map(|_| self.random.below(self.commands.len())).collect()
    }

    /// A leaf of a general relation: mostly names and products, now and then any of the odd kinds.
    fn leaf(&mut self) -> Term {
        let number = self.number();
        match self.random.below(100) {
            0..=29 => self.literal(),
            30..=74 => times(number, self.literal()),
            75..=84 => pair(Mul, self.literal(), Number(number)),
            85..=92 => Number(number),
            93..=95 => times(2, Number(number)),
            96 => pair(Mul, self.name(), self.name()),
            97 => times(number, negation(negation(self.name()))),
            98 => single(Mul, Number(number)),
            _ => Apply(Mul, vec![Number(2), self.name(), self.name()]),
        }
    }

    /// A side of a general relation: sums and differences over leaves.
    pub fn tree(&mut self, depth: usize) -> Term {
        if depth == 0 || self.random.chance(45) {
            return self.leaf();
        }
        let count = if self.random.chance(96) { 2 + self.random.below(2) } else { 1 };
        let operator = *self.random.one(&[Add, Add, Sub]);
        Apply(operator, (0..count).map(|_| self.tree(depth - 1)).collect())
    }

    /// A relation of any kind between two trees.
    fn relation(&mut self) -> Term {
        let operator = *self.random.one(&RELATIONS);
        let depth = *self.random.one(&[1, 1, 2, 2, 3]);
        let left = self.tree(depth);
        let right = if self.random.chance(60) { Number(self.number()) } else { self.tree(1) };
        if self.random.chance(92) {
            self.satisfied_relation(operator, left, right)
        } else {
            pair(operator, left, right)
        }
    }

    /// An entry as a summand: `(* c l)`, `(* l c)`, or `l` alone for coefficient 1.
    pub fn written_entry(&mut self, entry: &Entry) -> Term {
        let mut factor = if entry.negated { negation(entry.variable.clone()) } else { entry.variable.clone() };
        if entry.negated && self.random.chance(2) {
            factor = negation(factor);
        }
        let coefficient = self.within(entry.coefficient);
        match self.random.below(10) {
            0..=5 if coefficient == 1 => factor,
            9 => pair(Mul, factor, Number(coefficient)),
            _ => times(coefficient, factor),
        }
    }

    /// One normalized inequality.
    pub fn written_half(&mut self, entries: &[Entry], constant: i64) -> Term {
        let summands = entries.iter().map(|entry| self.written_entry(entry)).collect();
        let sum = self.joined(summands);
        at_least(sum, self.within(constant))
    }

    /// The equation of a relation and its normalized form.
    fn normalization(&mut self, relation: &Term) -> Option<Term> {
        let Apply(operator, sides) = relation else { return None };
        let [left, right] = &sides[..] else { return None };
        let halves: Vec<Term> = follow::normalized(*operator, left, right)
            .iter()
            .map(|(entries, constant)| self.written_half(entries, *constant))
            .collect();
        let normalized = if halves.len() == 1 { halves[0].clone() } else { Apply(And, halves) };
        Some(pair(Eq, relation.clone(), normalized))
    }

    fn normalize(&mut self) -> usize {
        let relation = self.relation();
        let equation = self.normalization(&relation).unwrap_or(relation);
        let premises = self.uncounted_premises(4);
        let arguments = if self.random.chance(3) { vec![self.name()] } else { Vec::new() };
        self.add(Rule::Normalize, vec![equation], premises, arguments)
    }

    /// An assumed relation, its normalization, and the normalized form; the number of the last.
    pub fn carried_over(&mut self) -> usize {
        let relation = self.relation();
        self.carried_over_of(relation)
    }

    /// The same of this relation.
    pub fn carried_over_of(&mut self, relation: Term) -> usize {
        let assumed = self.assume(relation.clone());
        let equation = self.normalization(&relation).unwrap_or(relation);
        let normalized = equation.two(Eq).map_or(Number(0), |(_, right)| right.clone());
        let step = self.add(Rule::Normalize, vec![equation], Vec::new(), Vec::new());
        self.add(Rule::Transfer, vec![normalized], vec![assumed, step], Vec::new())
    }

    /// R and `(= R N)`: the latter normalized here, assumed or an earlier step.
    pub fn transfer(&mut self) -> usize {
        let earlier = self.earlier(|term| term.two(Eq).is_some());
        let equation = match self.random.below(10) {
            0..=3 if !earlier.is_empty() => *self.random.one(&earlier),
            0..=7 => self.normalize(),
            _ => {
                let formula = pair(Eq, self.formula(1), self.formula(1));
                self.assume(formula)
            }
        };
        let Some((left, right)) = self.only(equation).and_then(|term| term.two(Eq)) else { return equation };
        let (mut given, mut concluded) = (left.clone(), right.clone());
        // now and then from N to R, which is none
        let backwards = self.random.chance(5);
        if backwards {
            std::mem::swap(&mut given, &mut concluded);
        }
        let known = self.earlier(|term| *term == given);
        let relation = if known.is_empty() { self.assume(given) } else { known[0] };
        let number = self.add(Rule::Transfer, vec![concluded], vec![relation, equation], Vec::new());
        self.commands[number].missed = backwards;
        number
    }

    /// One part of an `and`.
    pub fn part_of(&mut self, whole: usize) -> usize {
        let parts = self.only(whole).map_or(&[][..], |term| term.under(And)).to_vec();
        if parts.is_empty() {
            return whole;
        }
        let place = self.random.below(parts.len());
        self.add(Rule::Part, vec![parts[place].clone()], vec![whole], vec![Number(place as i64)])
    }

    pub fn part(&mut self) -> usize {
        let earlier = self.earlier(|term| !term.under(And).is_empty());
        if !earlier.is_empty() && self.random.chance(60) {
            let whole = *self.random.one(&earlier);
            return self.part_of(whole);
        }
        let count = 1 + self.random.below(3);
        let parts =
            (0..count).map(|_| if self.random.chance(60) { self.satisfied_inequality(false) } else { self.formula(1) }).collect();
        let whole = self.assume(Apply(And, parts));
        self.part_of(whole)
    }

    // ------------------------------------------------------------ statements and terms like them

    /// Arithmetic: numerals, names and `+ - *`, here and there with one argument.
    pub fn arithmetic(&mut self, depth: usize) -> Term {
        if depth == 0 || self.random.chance(35) {
            return if self.random.chance(60) { self.name() } else { Number(self.number()) };
        }
        let count = *self.random.one(&[1, 2, 2, 2, 3]);
        let operator = *self.random.one(&[Add, Sub, Mul]);
        Apply(operator, (0..count).map(|_| self.arithmetic(depth - 1)).collect())
    }

    /// Statements, and terms that are nearly so: relations of other counts, mixed equations.
    pub fn formula(&mut self, depth: usize) -> Term {
        match self.random.below(100) {
            0..=4 => self.arithmetic(1),
            5..=54 => self.small_relation(),
            _ if depth == 0 => self.small_relation(),
            55..=77 => Apply(And, (0..1 + self.random.below(3)).map(|_| self.formula(depth - 1)).collect()),
            _ => pair(Eq, self.formula(depth - 1), self.formula(depth - 1)),
        }
    }

    fn small_relation(&mut self) -> Term {
        let operator = *self.random.one(&RELATIONS);
        let (left, right) = (self.arithmetic(2), self.arithmetic(1));
        match self.random.below(20) {
            0 => single(operator, left),
            1 => Apply(operator, vec![left, right, Number(0)]),
            2..=5 => pair(operator, left, right),
            _ => self.satisfied_relation(operator, left, right),
        }
    }
}
