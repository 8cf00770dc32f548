//! Pol lines that are made by applying their words, so that most succeed, cancel, round and saturate; refutations by one line; near misses.

use crate::follow::{self, Literal, Sum};
use crate::generate::Maker;
use crate::rules::Rule;
use crate::term::*;
use crate::write::PolWord;

/// Names in an order of their own, `d` and `s` among them, of the greatest length, and one that may be an id.
pub const POOL: [&str; 16] = [
    "x", "y", "z", "d", "s", "X", "_", "@a.b", "x1", "x10", "x2", "pol", "s0", "cp_part", "abcdefghijklmnopqrstuvwxyz_01234",
    "abcdefghijklmnopqrstuvwxyz_01235",
];

/// Words that a near miss puts among those of a line: operations without what they need, numerals alone, and words of other places.
const WORDS: [&str; 34] = [
    "+", "+", "s", "s", "d", "*", "2", "2 d", "2 *", "0 *", "0 d", "-1 *", "-1 d", "1 d", "3 d", "99999999 *", "50000000 *",
    "99999999 d", "2 s", "2 2 d", "2 ~x", "(", ")", "cl", "and", "-", ">=", ":rule", "~", "~cl", "~5", "~d", "~s", "007",
];

/// The most words of a line by chance.
const MOST_WORDS: usize = 40;

/// A line under way: its words, and what is on the stack as far as this is foreseen.
#[derive(Default)]
struct Line {
    words: Vec<PolWord>,
    stack: Vec<(Sum, i64)>,
}

impl Line {
    fn word(&mut self, word: impl Into<String>) {
        self.words.push(PolWord::Word(word.into()));
    }

    /// `+`
    fn add(&mut self) {
        if let (Some((right, right_constant)), Some((left, left_constant))) = (self.stack.pop(), self.stack.pop()) {
            let (sum, slack) = follow::reduced(&follow::added(&left, &right));
            self.stack.push((sum, left_constant + right_constant - slack));
        }
        self.word("+");
    }

    /// A word that does the same to each number of the top.
    fn each(&mut self, word: String, change: impl Fn(i64) -> i64) {
        if let Some((sum, constant)) = self.stack.last_mut() {
            sum.iter_mut().for_each(|(_, coefficient)| *coefficient = change(*coefficient));
            *constant = change(*constant);
        }
        self.word(word);
    }

    fn multiply(&mut self, factor: i64) {
        self.each(format!("{factor} *"), |number| factor * number);
    }

    fn divide(&mut self, divisor: i64) {
        self.each(format!("{divisor} d"), |number| follow::divided(number, divisor));
    }

    fn saturate(&mut self) {
        let constant = self.stack.last().map_or(0, |(_, constant)| *constant);
        self.each("s".into(), |number| number.min(constant));
    }

    /// The literals of the top.
    fn top(&self) -> &[(Literal, i64)] {
        self.stack.last().map_or(&[], |(sum, _)| sum)
    }

    /// Whether `s` is accepted.
    fn is_nonnegative(&self) -> bool {
        self.stack.last().is_some_and(|(sum, constant)| *constant >= 0 && sum.iter().all(|(_, coefficient)| *coefficient >= 0))
    }
}

/// The clause of what a line leaves: zeros left out, names in byte order, plain before negated.
fn clause(sum: &Sum, constant: i64) -> Vec<Term> {
    let fits = |number: i64| number.abs() <= LARGEST;
    if !fits(constant) || sum.iter().any(|(_, coefficient)| !fits(*coefficient)) {
        return Vec::new();
    }
    let key = |literal: &Literal| match &literal.variable {
        Name(name) => (*name, literal.negated),
        _ => ("", literal.negated),
    };
    let mut entries: Vec<_> = sum.iter().filter(|(_, coefficient)| *coefficient != 0).collect();
    entries.sort_by_key(|(literal, _)| key(literal));
    let product = |(literal, coefficient): &&(Literal, i64)| {
        let variable = literal.variable.clone();
        times(*coefficient, if literal.negated { negation(variable) } else { variable })
    };
    let mut summands: Vec<Term> = entries.iter().map(product).collect();
    let sum = match summands.len() {
        0 => Number(0),
        1 => summands.remove(0),
        _ => Apply(Add, summands),
    };
    vec![at_least(sum, constant)]
}

/// Whether an inequality can be pushed.
fn has_names(term: &Term) -> bool {
    follow::inequality(term).is_some_and(|(sum, _)| sum.iter().all(|(literal, _)| matches!(literal.variable, Name(_))))
}

impl Maker<'_> {
    /// A pol line whose words are applied as they are chosen; its number.
    pub fn pol(&mut self) -> usize {
        let mut line = Line::default();
        self.push_some(&mut line);
        for _ in 0..*self.random.one(&[0, 1, 1, 2, 2, 3, 4, 6, 10]) {
            self.work(&mut line);
        }
        while line.stack.len() > 1 {
            line.add();
        }
        if self.random.chance(30) {
            self.round(&mut line);
        }
        self.finish(line)
    }

    /// The command of a line.
    fn finish(&mut self, line: Line) -> usize {
        let clause = match &line.stack[..] {
            [(sum, constant)] => clause(sum, *constant),
            _ => Vec::new(),
        };
        let number = self.add(Rule::Pol, clause, Vec::new(), Vec::new());
        self.commands[number].words = line.words;
        let id = *self.random.one(&["d", "s", "x", "y", "z", "pol"]);
        if self.random.chance(12) && self.commands.iter().all(|command| command.id != id) {
            self.commands[number].id = id.to_owned();
        }
        number
    }

    /// Push a line above: an assumption, a step or a pol line; seldom one that cannot be pushed.
    fn push_line(&mut self, line: &mut Line) {
        let any = self.random.chance(3) && !self.commands.is_empty();
        let mut earlier = self.earlier(has_names);
        if self.random.chance(95) {
            earlier.retain(|number| !matches!(self.commands[*number].id.as_str(), "d" | "s"));
        }
        let number = if any {
            self.random.below(self.commands.len())
        } else if self.random.chance(2) {
            self.no_name()
        } else if !earlier.is_empty() && self.random.chance(80) {
            *self.random.one(&earlier)
        } else {
            let term = self.satisfied_inequality(false);
            self.assume(term)
        };
        line.words.push(PolWord::Line(number));
        line.stack.push(self.only(number).and_then(follow::inequality).unwrap_or_default());
    }

    /// An assumption that section 2 reads, with a term that is no name in a variable's place, which cannot be pushed.
    fn no_name(&mut self) -> usize {
        let odd = self.odd_variable();
        let summand = times(self.random.number(&[0, 1, 2]), odd);
        let sum = if self.random.chance(50) { pair(Add, times(1, self.name()), summand) } else { summand };
        self.assume(at_least(sum, 0))
    }

    /// Push the axiom of a literal, where a name that is an id above is that line.
    fn push_literal(&mut self, line: &mut Line, variable: &Term, negated: bool) {
        let Name(name) = variable else { return self.push_line(line) };
        let operation = !negated && matches!(*name, "d" | "s");
        if operation && self.random.chance(97) {
            return self.push_line(line);
        }
        line.word(format!("{}{name}", if negated { "~" } else { "" }));
        let above = self.commands.iter().position(|command| !negated && command.id == *name);
        line.stack.push(match above {
            Some(number) => self.only(number).and_then(follow::inequality).unwrap_or_default(),
            None => (vec![(Literal { variable: variable.clone(), negated }, 1)], 0),
        });
    }

    fn push_some(&mut self, line: &mut Line) {
        if self.random.chance(75) {
            self.push_line(line);
        } else {
            let (variable, negated) = (self.name(), self.random.chance(50));
            self.push_literal(line, &variable, negated);
        }
        if self.random.chance(20) {
            let factor = self.random.number(&[0, 1, 2, 2, 3, 5, 12]);
            line.multiply(factor);
        }
    }

    /// One thing more: an addition, one that cancels a literal of the top, a push for later, or a rounding.
    fn work(&mut self, line: &mut Line) {
        match self.random.below(100) {
            0..=34 => {
                self.push_some(line);
                line.add();
            }
            35..=64 => self.cancel(line),
            65..=74 => self.push_some(line),
            75..=79 if line.stack.len() > 1 => line.add(),
            _ => self.round(line),
        }
    }

    /// Add the opposite of a literal of the top, as often as cancels it, or nearly.
    fn cancel(&mut self, line: &mut Line) {
        if line.top().is_empty() {
            return self.push_some(line);
        }
        let (literal, coefficient) = self.random.one(line.top()).clone();
        self.push_literal(line, &literal.variable, !literal.negated);
        if coefficient != 1 || self.random.chance(10) {
            let near = self.random.number(&[0, 0, 0, 0, 0, 0, 1, -1]);
            line.multiply((coefficient.abs() + near).max(0));
        }
        line.add();
    }

    /// Divide by a number that rounds, or saturate where that is accepted, or multiply.
    fn round(&mut self, line: &mut Line) {
        match self.random.below(10) {
            0..=4 => {
                let of_top: Vec<i64> = line.top().iter().map(|(_, coefficient)| *coefficient).filter(|one| *one > 0).collect();
                let small = self.random.number(&[1, 2, 2, 3, 4, 7]);
                let divisor = if of_top.is_empty() || self.random.chance(50) { small } else { *self.random.one(&of_top) };
                line.divide(divisor);
            }
            5..=7 if line.is_nonnegative() || self.random.chance(5) => line.saturate(),
            _ => {
                let factor = self.random.number(&[0, 1, 2, 3, 3, 10]);
                line.multiply(factor);
            }
        }
    }

    /// Pol lines and steps that cite each other, some of them near misses.
    pub fn pols(&mut self, lines: usize, missed: usize) {
        for _ in 0..lines {
            let rule = *self.random.one(&[Rule::Addition, Rule::Multiplication, Rule::Division, Rule::Saturation, Rule::Literal]);
            let number = if self.random.chance(70) { self.pol() } else { self.step(rule) };
            let is_pol = self.commands[number].rule == Rule::Pol;
            match self.random.chance(missed) {
                true if is_pol => self.miss_pol(number),
                true => self.miss(number),
                false if is_pol && self.random.chance(30) => self.show(number),
                false => (),
            }
        }
    }

    /// Take a pol line across an equation, which is accepted only where its clause is written as foreseen; seldom in another order.
    fn show(&mut self, number: usize) {
        let Some((sum, constant)) = self.only(number).and_then(|clause| clause.two(Ge)) else { return };
        let (mut sum, constant) = (sum.clone(), constant.clone());
        if let Apply(Add, summands) = &mut sum {
            if self.random.chance(8) {
                self.random.shuffle(summands);
            }
        }
        let clause = pair(Ge, sum, constant);
        let concluded = at_least(Number(0), 0);
        let equation = self.assume(pair(Eq, clause, concluded.clone()));
        self.add(Rule::Transfer, vec![concluded], vec![number, equation], Vec::new());
    }

    /// A near miss of a pol line: its words dropped, doubled, exchanged, or others among them.
    pub fn miss_pol(&mut self, number: usize) {
        self.commands[number].missed = true;
        loop {
            let count = self.commands[number].words.len();
            let (place, other) = (self.random.below(count.max(1)), self.random.below(count.max(1)));
            let word = PolWord::Word((*self.random.one(&WORDS)).to_owned());
            let line = PolWord::Line(self.random.below(number.max(1)));
            let words = &mut self.commands[number].words;
            match self.random.below(12) {
                0 if count > 0 => drop(words.remove(place)),
                1 if count > 0 => words.insert(place, words[place].clone()),
                2 if count > 0 => words.swap(place, other),
                3 | 4 if count > 0 => words[place] = word,
                5 if number > 0 => words.insert(place, line),
                6 if count < MOST_WORDS => words.extend(words.clone()),
                7 => words.truncate(place),
                _ => words.insert(place, word),
            }
            if !self.random.chance(15) {
                return;
            }
        }
    }

    /// A refutation by one pol line: a literal and its negation, each assumed or from two assumptions, and added.
    pub fn pol_refutation(&mut self) {
        self.model = None;
        let variable = self.name();
        let mut line = Line::default();
        for literal in [variable.clone(), negation(variable)] {
            self.push_derived(&mut line, literal);
        }
        line.add();
        if self.random.chance(20) {
            line.multiply(2);
        }
        let number = self.finish(line);
        if self.random.chance(15) {
            self.miss_pol(number);
        }
    }

    /// The sum of two lines above by a pol line, now and then rounded.
    pub fn pol_sum(&mut self, left: usize, right: usize) -> usize {
        let mut line = Line::default();
        for number in [left, right] {
            line.words.push(PolWord::Line(number));
            line.stack.push(self.only(number).and_then(follow::inequality).unwrap_or_default());
        }
        line.add();
        if self.random.chance(15) {
            self.round(&mut line);
        }
        self.finish(line)
    }

    /// Push `l >= 1`: an assumption, or two over another variable that are added and divided.
    fn push_derived(&mut self, line: &mut Line, literal: Term) {
        let push = |maker: &mut Self, line: &mut Line, term: Term| {
            let number = maker.assume(term);
            line.words.push(PolWord::Line(number));
            line.stack.push(maker.only(number).and_then(follow::inequality).unwrap_or_default());
        };
        if self.random.chance(35) {
            return push(self, line, at_least(times(1, literal), 1));
        }
        let other = self.name();
        let (first, second) = (self.random.between(1, 3), self.random.between(1, 3));
        push(self, line, at_least(pair(Add, times(first, literal.clone()), times(1, other.clone())), 1));
        push(self, line, at_least(pair(Add, times(second, literal), times(1, negation(other))), 1));
        line.add();
        line.divide(first + second);
    }
}
