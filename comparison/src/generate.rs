//! Makes the commands of a text: its names, numbers, literals and sums, and terms that an assignment of its own satisfies.

use crate::follow::Sum;
use crate::random::Random;
use crate::rules::Rule;
use crate::term::*;
use crate::write::{self, Command};

/// Names that begin alike, that look like words of the grammar, and of the greatest length.
const POOL: [&str; 16] = [
    "x", "y", "z", "u", "v", "w1", "w11", "@a.b", "_", "X", "s0", "andx", "cl_", "cp_part", "abcdefghijklmnopqrstuvwxyz_01234",
    "abcdefghijklmnopqrstuvwxyz_01235",
];

/// Makes the commands of one text. `steps.rs` has the rules, `miss.rs` near misses, `files.rs` whole files.
pub struct Maker<'r> {
    pub random: &'r mut Random,
    pub commands: Vec<Command>,
    /// The text's own few names, so that literals repeat and meet their negations.
    pub names: Vec<&'static str>,
    /// An assignment of the names that the assumptions are made to satisfy, so that what follows from them says something.
    pub model: Option<u64>,
    /// How many of a hundred variables' places have another term.
    odd: usize,
    longest: usize,
    ids: usize,
}

impl<'r> Maker<'r> {
    /// A maker with names of its own.
    pub fn new(random: &'r mut Random) -> Maker<'r> {
        Maker::with_names(random, &POOL)
    }

    /// A maker with some of these names.
    pub fn with_names(random: &'r mut Random, pool: &[&'static str]) -> Maker<'r> {
        let mut names = pool.to_vec();
        random.shuffle(&mut names);
        let count = if random.chance(97) { 1 + random.below(5) } else { 6 + random.below(5) };
        names.truncate(count);
        let model = if random.chance(85) { Some(random.next()) } else { None };
        let odd = *random.one(&[0, 0, 0, 0, 4, 4, 12]);
        let longest = *random.one(&[3, 4, 4, 6, 10]);
        let ids = random.below(8);
        Maker { random, commands: Vec::new(), names, model, odd, longest, ids }
    }

    /// The text of the commands.
    pub fn text(&mut self) -> Vec<u8> {
        write::written(&self.commands, self.random)
    }

    // ------------------------------------------------------------ commands

    /// A new command; its number.
    pub fn add(&mut self, rule: Rule, clause: Vec<Term>, premises: Vec<usize>, arguments: Vec<Term>) -> usize {
        let number = self.commands.len();
        let id = match self.ids {
            0 => format!("x{number}"),
            1 => format!("@{number}.{}", "a".repeat(self.random.below(20))),
            2 => format!("_{:031}", number),
            _ => format!("s{number}"),
        };
        self.commands.push(Command { id, rule, clause, premises, arguments, words: Vec::new(), missed: false, given: false });
        number
    }

    /// A new assumption; its number.
    pub fn assume(&mut self, term: Term) -> usize {
        self.add(Rule::Assume, vec![term], Vec::new(), Vec::new())
    }

    /// The only term of a command's clause.
    pub fn only(&self, number: usize) -> Option<&Term> {
        match &self.commands[number].clause[..] {
            [term] => Some(term),
            _ => None,
        }
    }

    /// The commands that a test of their only term takes; those that were changed are seldom among them.
    pub fn earlier(&mut self, test: impl Fn(&Term) -> bool) -> Vec<usize> {
        let changed_too = self.random.chance(12);
        let fits = |number: &usize| (changed_too || !self.commands[*number].missed) && self.only(*number).is_some_and(&test);
        (0..self.commands.len()).rev().take(24).filter(fits).collect()
    }

    // ------------------------------------------------------------ numbers, literals, sums

    /// Small numbers of either sign, zero among them, seldom one at the range's ends.
    pub fn number(&mut self) -> i64 {
        match self.random.below(100) {
            0 => self.random.number(&[LARGEST, -LARGEST, LARGEST - 1, 50_000_000]),
            1 => self.random.between(-1000, 1000),
            _ => self.random.number(&[-5, -3, -2, -1, 0, 1, 1, 1, 2, 2, 3, 3, 4, 5, 7, 12]),
        }
    }

    /// A number that is mostly from 1.
    fn positive(&mut self) -> i64 {
        self.number().abs().max(i64::from(self.random.chance(92)))
    }

    /// One of the text's names.
    pub fn name(&mut self) -> Term {
        let place = self.random.below(self.names.len());
        Name(self.names[place])
    }

    /// What a variable's place may hold although it is no name.
    pub fn odd_variable(&mut self) -> Term {
        let (name, other) = (self.name(), self.name());
        match self.random.below(14) {
            0 => Number(self.random.number(&[0, 1, 3, -1])),
            1 => pair(Add, name, other),
            2 => single(Sub, name),
            3 | 4 => negation(name),
            5 => negation(negation(name)),
            6 => pair(Mul, name, other),
            7 => single(Add, name),
            8 => single(And, name),
            9 => at_least(name, 0),
            10 => pair(Sub, Number(2), name),
            11 => times(2, name),
            12 => pair(Mul, name, Number(2)),
            _ => Apply(Sub, vec![Number(1), name, other]),
        }
    }

    /// A name; seldom another term.
    pub fn variable(&mut self) -> Term {
        if self.random.chance(self.odd) {
            self.odd_variable()
        } else {
            self.name()
        }
    }

    /// A variable or its negation.
    pub fn literal(&mut self) -> Term {
        let variable = self.variable();
        if self.random.chance(40) {
            negation(variable)
        } else {
            variable
        }
    }

    /// A sum of these summands: 0 for none, one of them bare or under a `+`.
    pub fn joined(&mut self, mut summands: Vec<Term>) -> Term {
        match summands.len() {
            0 if self.random.chance(95) => Number(0),
            0 => single(Add, Number(0)),
            1 if self.random.chance(80) => summands.remove(0),
            _ => Apply(Add, summands),
        }
    }

    /// A sum as section 2 reads it.
    pub fn sum(&mut self, nonnegative: bool) -> Term {
        let count = *self.random.one(&[0, 1, 1, 2, 2, 2, 3, 3, 4, self.longest]);
        let mut summands = Vec::new();
        for _ in 0..count {
            let number = if nonnegative || self.random.chance(60) { self.positive() } else { self.number() };
            summands.push(times(number, self.literal()));
        }
        if self.random.chance(5) {
            summands.push(times(0, self.literal()));
        }
        self.joined(summands)
    }

    /// A number that a numeral can have; seldom one that is too large by one.
    pub fn within(&mut self, number: i64) -> i64 {
        let most = if self.random.chance(98) { LARGEST } else { LARGEST + 1 };
        number.clamp(-most, most)
    }

    /// Literals with coefficients as a sum: in another order, split, with zeros left out or written.
    pub fn written_sum(&mut self, sum: &Sum, zeros: usize) -> Term {
        let mut summands = Vec::new();
        for (literal, number) in sum {
            let factor = if literal.negated { negation(literal.variable.clone()) } else { literal.variable.clone() };
            let mut number = self.within(*number);
            if number == 0 && !self.random.chance(zeros) {
                continue;
            }
            if self.random.chance(4) && number.abs() < LARGEST {
                let part = self.random.number(&[1, 1, -1, 0]);
                summands.push(times(part, factor.clone()));
                number -= part;
            }
            summands.push(times(number, factor));
        }
        if self.random.chance(3) {
            summands.push(times(0, self.literal()));
        }
        if self.random.chance(25) {
            self.random.shuffle(&mut summands);
        }
        self.joined(summands)
    }

    // ------------------------------------------------------------ values under the text's own assignment

    /// The value of an arithmetic term under the assignment.
    pub fn value(&self, term: &Term) -> Option<i64> {
        match term {
            Number(number) => Some(*number),
            Name(name) => {
                let place = self.names.iter().position(|own| own == name)?;
                Some((self.model? >> place & 1) as i64)
            }
            Apply(Add, arguments) => arguments.iter().map(|term| self.value(term)).sum(),
            Apply(Mul, arguments) => {
                arguments.iter().map(|term| self.value(term)).try_fold(1i64, |total, one| total.checked_mul(one?))
            }
            Apply(Sub, arguments) => {
                let values: Option<Vec<i64>> = arguments.iter().map(|term| self.value(term)).collect();
                let values = values?;
                let rest: i64 = values[1..].iter().sum();
                Some(if values.len() == 1 { -values[0] } else { values[0] - rest })
            }
            Apply(..) => None,
        }
    }

    /// An inequality that the assignment satisfies, where there is one.
    pub fn satisfied_inequality(&mut self, nonnegative: bool) -> Term {
        let sum = self.sum(nonnegative);
        let by_chance = self.number();
        let constant = match self.value(&sum) {
            Some(value) => value - self.random.number(&[0, 0, 0, 1, 1, 2, 3]),
            None => by_chance,
        };
        let constant = if nonnegative { constant.max(self.random.number(&[0, 0, -1])) } else { constant };
        at_least(sum, self.within(constant))
    }

    /// A relation between two trees that the assignment satisfies, where there is one.
    pub fn satisfied_relation(&mut self, relation: Operator, left: Term, right: Term) -> Term {
        let (Some(left_value), Some(right_value)) = (self.value(&left), self.value(&right)) else {
            return pair(relation, left, right);
        };
        let room = self.random.number(&[0, 0, 0, 1, 2]);
        let moved = left_value - right_value
            + match relation {
                Ge => -room,
                Gt => -room - 1,
                Le => room,
                Lt => room + 1,
                _ => 0,
            };
        match right {
            _ if moved == 0 => pair(relation, left, right),
            Number(number) => pair(relation, left, Number(self.within(number + moved))),
            _ if self.random.chance(50) => pair(relation, left, pair(Add, right, Number(self.within(moved)))),
            _ => pair(relation, pair(Sub, left, Number(self.within(moved))), right),
        }
    }
}
