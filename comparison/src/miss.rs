//! Near misses: a step that was made to be accepted gets one change or a few.

use crate::follow::{self, Entry};
use crate::generate::Maker;
use crate::rules::{Rule, RULES};
use crate::term::*;

impl Maker<'_> {
    /// Make a near miss of a step, with one fault or a few.
    pub fn miss(&mut self, number: usize) {
        self.commands[number].missed = true;
        match self.random.below(100) {
            0..=59 => self.miss_by_rule(number),
            60..=74 => self.change_clause_term(number),
            _ => self.miss_anyhow(number),
        }
        while self.random.chance(15) {
            self.miss_anyhow(number);
        }
    }

    /// A fault that aims at the checks of the step's own rule.
    fn miss_by_rule(&mut self, number: usize) {
        match self.commands[number].rule {
            Rule::Normalize => self.miss_normalization(number),
            Rule::Literal => self.miss_literal(number),
            Rule::Transfer | Rule::Part => self.miss_link(number),
            Rule::Assume => self.change_clause_term(number),
            Rule::Pol => self.miss_pol(number),
            _ if !self.commands[number].arguments.is_empty() && self.random.chance(25) => self.miss_arguments(number),
            _ => self.miss_sum(number),
        }
    }

    /// A fault that any step can have.
    fn miss_anyhow(&mut self, number: usize) {
        match self.random.below(8) {
            0 | 1 => self.miss_clause(number),
            2 | 3 => self.miss_arguments(number),
            4 | 5 => self.miss_premises(number),
            6 => self.commands[number].rule = *self.random.one(&RULES),
            _ => self.change_clause_term(0),
        }
    }

    // ------------------------------------------------------------ any term

    fn change_clause_term(&mut self, number: usize) {
        if let Some(term) = self.only(number).cloned() {
            self.commands[number].clause = vec![self.changed(&term)];
        }
    }

    /// A term with one change at any place: a number, a literal, the order, the operator or the shape.
    fn changed(&mut self, term: &Term) -> Term {
        let Apply(operator, arguments) = term else { return self.changed_leaf(term) };
        match self.random.below(100) {
            0..=69 => {
                let mut arguments = arguments.clone();
                let place = self.random.below(arguments.len());
                arguments[place] = self.changed(&arguments[place]);
                Apply(*operator, arguments)
            }
            70..=87 => Apply(*operator, self.changed_arguments(arguments)),
            88..=93 => Apply(*self.random.one(&OPERATORS), arguments.clone()),
            _ => match self.random.below(5) {
                0 => single(Add, term.clone()),
                1 => single(Sub, term.clone()),
                2 => negation(term.clone()),
                3 => times(1, term.clone()),
                _ => single(And, term.clone()),
            },
        }
    }

    fn changed_leaf(&mut self, leaf: &Term) -> Term {
        match leaf {
            Number(number) => match self.random.below(7) {
                0 | 1 => Number(number + 1),
                2 | 3 => Number(number - 1),
                4 => Number(-number),
                5 => Number(self.random.number(&[0, 1, LARGEST, -LARGEST])),
                _ => self.name(),
            },
            _ => match self.random.below(5) {
                0 => negation(leaf.clone()),
                1 => Number(3),
                2 => self.odd_variable(),
                _ => self.name(),
            },
        }
    }

    /// Arguments dropped, doubled, swapped, or one zero summand more.
    fn changed_arguments(&mut self, arguments: &[Term]) -> Vec<Term> {
        let mut arguments = arguments.to_vec();
        let (place, other) = (self.random.below(arguments.len()), self.random.below(arguments.len()));
        match self.random.below(5) {
            0 if arguments.len() > 1 => drop(arguments.remove(place)),
            1 => arguments.insert(place, arguments[place].clone()),
            2 => arguments.push(times(self.random.number(&[0, 0, 1]), self.literal())),
            _ => arguments.swap(place, other),
        }
        arguments
    }

    // ------------------------------------------------------------ what any step has

    /// A clause of another length, or of another shape.
    fn miss_clause(&mut self, number: usize) {
        let mut clause = self.commands[number].clause.clone();
        match self.random.below(8) {
            0 | 1 => clause.clear(),
            2 => clause.extend(clause.clone()),
            3 => clause.push(self.name()),
            4 => (0..self.random.below(9)).for_each(|_| clause.push(Number(0))),
            _ => clause = vec![self.odd_inequality()],
        }
        self.commands[number].clause = clause;
    }

    /// An argument more or less, of the wrong sign, zero, or no numeral.
    fn miss_arguments(&mut self, number: usize) {
        let mut arguments = self.commands[number].arguments.clone();
        match self.random.below(10) {
            0..=6 if !arguments.is_empty() => arguments[0] = self.other_argument(&arguments[0].clone()),
            7 => drop(arguments.pop()),
            _ => arguments.push(self.other_argument(&Number(2))),
        }
        self.commands[number].arguments = arguments;
    }

    fn other_argument(&mut self, argument: &Term) -> Term {
        match self.random.below(7) {
            0 => self.changed(argument),
            1 => self.name(),
            2 => Number(self.random.number(&[-1, -2, -LARGEST])),
            3 => Number(0),
            4 => Number(self.random.number(&[1, 2, 3, LARGEST])),
            5 => negation(self.variable()),
            _ => single(Sub, Number(2)),
        }
    }

    /// A premise more or less, two exchanged, or another one; seldom one that is not above.
    fn miss_premises(&mut self, number: usize) {
        let other = if self.random.chance(95) && number > 0 { self.random.below(number) } else { number };
        let mut premises = self.commands[number].premises.clone();
        match self.random.below(10) {
            0..=2 => drop(premises.pop()),
            3 | 4 => premises.reverse(),
            5..=7 if !premises.is_empty() => {
                let place = self.random.below(premises.len());
                premises[place] = other;
            }
            _ => premises.push(other),
        }
        self.commands[number].premises = premises;
    }

    /// Put a premise before the step that section 2 does not read, or one of another length, and cite it.
    pub fn cite_odd(&mut self, number: usize) {
        if number + 1 != self.commands.len() {
            return;
        }
        let Some(mut step) = self.commands.pop() else { return };
        let odd = if self.random.chance(70) {
            let term = self.odd_inequality();
            self.assume(term)
        } else {
            let clause = if self.random.chance(50) { Vec::new() } else { vec![self.name(), self.name()] };
            let rule = *self.random.one(&RULES);
            self.add(rule, clause, Vec::new(), Vec::new())
        };
        match step.premises.is_empty() {
            true => step.clause = self.commands[odd].clause.clone(),
            false => {
                let place = self.random.below(step.premises.len());
                step.premises[place] = odd;
            }
        }
        let last = self.add(step.rule, step.clause, step.premises, step.arguments);
        self.commands[last].missed = true;
    }

    /// Inequalities that section 2 does not read (23 to 26), and their neighbours.
    fn odd_inequality(&mut self) -> Term {
        let name = self.name();
        let sum = self.odd_sum();
        match self.random.below(12) {
            0..=4 => at_least(sum, self.number()),
            5 => pair(Ge, sum, name),
            6 => pair(Ge, self.sum(false), single(Sub, Number(1))),
            7 => pair(Ge, Number(4), name),
            8 => pair(*self.random.one(&OPERATORS), self.sum(false), Number(1)),
            9 => single(Ge, self.sum(false)),
            10 => Apply(Ge, vec![self.sum(false), Number(1), Number(0)]),
            _ => self.random.one(&[name, Number(5), Number(0)]).clone(),
        }
    }

    fn odd_sum(&mut self) -> Term {
        let (name, other) = (self.name(), self.name());
        let product = times(2, name.clone());
        match self.random.below(18) {
            0 | 1 => name,
            2 => Number(self.random.number(&[4, -1, LARGEST])),
            3 => single(Add, Number(0)),
            4 => single(Add, Number(4)),
            5 => pair(Add, Number(0), Number(0)),
            6 => pair(Mul, name, Number(2)),
            7 => times(2, Number(3)),
            8 => single(Mul, Number(2)),
            9 => Apply(Mul, vec![Number(2), name, other]),
            10 => pair(Add, product, other),
            11 => pair(Add, pair(Mul, name, Number(2)), other),
            12 => pair(Add, product, Number(1)),
            13 => pair(Mul, name, negation(other)),
            14 => times(2, single(Sub, name)),
            15 => negation(name),
            16 => single(Add, single(Add, product)),
            _ => single(Sub, product),
        }
    }

    // ------------------------------------------------------------ what one rule has

    /// A conclusion with another constant, coefficient or literal, a key less, a key more.
    fn miss_sum(&mut self, number: usize) {
        let Some((mut sum, mut constant)) = self.only(number).and_then(follow::inequality) else { return };
        let way = self.random.below(6);
        if way == 0 || self.random.chance(10) {
            constant += self.random.number(&[1, -1, 2, -constant]);
        }
        if sum.is_empty() {
            let literal = follow::Literal { variable: self.variable(), negated: self.random.chance(50) };
            sum.push((literal, self.random.number(&[0, 1])));
        }
        let place = self.random.below(sum.len());
        let coefficient = sum[place].1;
        match way {
            1 | 2 => sum[place].1 = self.random.number(&[coefficient + 1, coefficient - 1, 0, -coefficient]),
            3 => drop(sum.remove(place)),
            4 => sum[place].0.negated = !sum[place].0.negated,
            5 => sum[place].0.variable = self.variable(),
            _ => (),
        }
        let summands = sum.into_iter().map(|(literal, number)| {
            let factor = if literal.negated { negation(literal.variable) } else { literal.variable };
            times(number, factor)
        });
        let sum = self.joined(summands.collect());
        self.commands[number].clause = vec![at_least(sum, constant)];
    }

    /// A literal with another coefficient (34, 24), another sign or name (35), an argument that is none (33), of no form (36).
    fn miss_literal(&mut self, number: usize) {
        let mut literal = self.commands[number].arguments[0].clone();
        if self.random.chance(20) {
            literal = match self.random.below(3) {
                0 => self.odd_variable(),
                1 => negation(self.odd_variable()),
                _ => self.arithmetic(1),
            };
            self.commands[number].arguments[0] = literal.clone();
        }
        let sum = match self.random.below(9) {
            0 | 1 => times(self.random.number(&[0, 2, -1, 1]), literal),
            2 => pair(Mul, self.name(), literal),
            3 => times(1, negation(literal)),
            4 => negation(literal),
            5 | 6 => self.name(),
            7 => pair(Mul, literal, Number(1)),
            _ => Apply(Mul, vec![Number(1), Number(1), literal]),
        };
        let constant = self.random.number(&[0, 0, 0, 0, 1]);
        self.commands[number].clause = vec![at_least(sum, constant)];
    }

    /// A link whose conclusion, order of premises or place is another.
    fn miss_link(&mut self, number: usize) {
        match self.random.below(4) {
            0 if self.commands[number].rule == Rule::Part => self.miss_place(number),
            0 => self.commands[number].premises.reverse(),
            1 => self.miss_arguments(number),
            _ => self.change_clause_term(number),
        }
    }

    /// The place of another part of the same `and`.
    fn miss_place(&mut self, number: usize) {
        let whole = self.commands[number].premises.first().and_then(|premise| self.only(*premise));
        let parts = whole.map_or(0, |term| term.under(And).len()) as i64;
        if let (Some(Number(place)), 2..) = (self.commands[number].arguments.first_mut(), parts) {
            *place = (*place + 1) % parts;
        }
    }

    /// A normalization with another relation, other halves or another order of them.
    fn miss_normalization(&mut self, number: usize) {
        let Some((relation, normalized)) = self.only(number).and_then(|term| term.two(Eq)) else { return };
        let (relation, normalized) = (relation.clone(), normalized.clone());
        let Apply(operator, sides) = &relation else { return };
        let [left, right] = &sides[..] else { return };
        let equation = if self.random.chance(25) {
            pair(Eq, self.other_relation(*operator, left, right), normalized)
        } else {
            let other = self.other_halves(*operator, left, right);
            pair(Eq, relation.clone(), other)
        };
        self.commands[number].clause = vec![equation];
    }

    /// A general relation of another count (22), of no supported kind (37), or another one.
    fn other_relation(&mut self, operator: Operator, left: &Term, right: &Term) -> Term {
        let (left, right) = (left.clone(), right.clone());
        match self.random.below(7) {
            0 => single(operator, left),
            1 => Apply(operator, vec![left, right.clone(), right]),
            2 => pair(*self.random.one(&[Add, Sub, Mul]), left, right),
            3 => single(And, pair(operator, left, right)),
            4 => left,
            5 => pair(*self.random.one(&RELATIONS), left, right),
            _ => pair(operator, right, left),
        }
    }

    fn other_halves(&mut self, operator: Operator, left: &Term, right: &Term) -> Term {
        let halves = follow::normalized(operator, left, right);
        let mut terms: Vec<Term> = halves
            .iter()
            .map(|(entries, constant)| match self.random.chance(65) {
                true => self.other_half(entries, *constant),
                false => self.written_half(entries, *constant),
            })
            .collect();
        match self.random.below(12) {
            0 => terms.reverse(),
            1 => terms.push(terms[0].clone()),
            2 if terms.len() == 2 => drop(terms.pop()),
            // the second half without its negation
            3 if terms.len() == 2 => terms[1] = self.written_half(&halves[0].0, -halves[0].1),
            _ => (),
        }
        if terms.len() == 1 {
            terms.remove(0)
        } else {
            Apply(And, terms)
        }
    }

    /// A normalized inequality with faults for 39, 38, 29, 24 and 23, each by itself.
    fn other_half(&mut self, entries: &[Entry], constant: i64) -> Term {
        let entries = if self.random.chance(45) { self.other_entries(entries) } else { entries.to_vec() };
        let mut summands: Vec<Term> = entries.iter().map(|entry| self.written_entry(entry)).collect();
        if self.random.chance(18) {
            let place = self.random.below(summands.len() + 1);
            let constant = self.random.one(&[times(2, Number(3)), times(0, Number(1)), Number(3)]).clone();
            summands.insert(place, constant);
        }
        let number = match self.random.below(10) {
            0 | 1 => Number(constant + self.random.number(&[1, -1])),
            2 => self.name(),
            3 => single(Sub, Number(1)),
            _ => Number(constant),
        };
        let operator = if self.random.chance(8) { *self.random.one(&OPERATORS) } else { Ge };
        pair(operator, self.joined(summands), number)
    }

    /// Entries with one sign or coefficient changed, in another order, or one less or more.
    fn other_entries(&mut self, entries: &[Entry]) -> Vec<Entry> {
        let mut entries = entries.to_vec();
        if entries.is_empty() {
            return entries;
        }
        let place = self.random.below(entries.len());
        match self.random.below(7) {
            0 | 1 => entries[place].negated = !entries[place].negated,
            2 => entries[place].coefficient += self.random.number(&[1, -1]),
            3 => self.random.shuffle(&mut entries),
            4 => drop(entries.pop()),
            5 => entries.push(entries[place].clone()),
            _ => entries[place].variable = self.variable(),
        }
        entries
    }
}
