//! Counts of a run, and what a long run has to have reached.

use crate::brute::Outcome;
use crate::pair::Pair;
use crate::report::{Line, Report};
use crate::rules::{Rule, ANSWERING, ANSWERS};
use crate::sums::{Reach, Source, SHAPES};
use crate::texts;
use std::fmt::Write;

/// From so many texts on a run has to have reached everything that can be reached.
pub const LONG: u64 = 50_000;

const RULES_AND_ASSUME: usize = ANSWERING.len() + 1;

/// What can derive the first line of a file that no assignment satisfies. Of the others' lines some assignment satisfies those without premises, and those
/// with one where one satisfies that.
const REFUTING: [Rule; 5] = [Rule::Assume, Rule::Addition, Rule::Transfer, Rule::Part, Rule::Pol];

/// The refusals of a proof text, and of an OPB text.
const REFUSALS: [usize; 8] = [1, 2, 3, 4, 5, 6, 7, 8];
const OPB_REFUSALS: [usize; 7] = [2, 3, 4, 5, 7, 50, 51];
/// The numbers of refusals are below.
const NUMBERS: usize = 52;

/// Counts of refusals by their numbers.
struct Refusals([u64; NUMBERS]);

impl Default for Refusals {
    fn default() -> Refusals {
        Refusals([0; NUMBERS])
    }
}

impl Refusals {
    fn add(&mut self, number: u8) {
        self.0[usize::from(number).min(NUMBERS - 1)] += 1;
    }

    /// The counts of those that are due; others are there only where one came.
    fn shown(&self, due: &[usize]) -> String {
        let shown = (0..NUMBERS).filter(|number| due.contains(number) || self.0[*number] > 0);
        shown.map(|number| format!("{number}: {}", self.0[number])).collect::<Vec<_>>().join(", ")
    }

    /// Those that are due and never came, and those that came and are not due.
    fn missing<'a>(&'a self, due: &'a [usize], whose: &'a str) -> impl Iterator<Item = String> + 'a {
        (0..NUMBERS).filter_map(move |number| match (due.contains(&number), self.0[number]) {
            (true, 0) => Some(format!("{whose}: refusal {number} never came")),
            (false, 1..) => Some(format!("{whose}: refusal {number} came, which the documents do not have")),
            _ => None,
        })
    }
}

/// What was counted of pairs alone.
#[derive(Default)]
struct Pairs {
    all: u64,
    read: u64,
    refuted: u64,
    opb: Refusals,
    behind: Refusals,
    /// Lines with `holds=yes` that were tried, and of them with a solution; refuted pairs that were tried.
    tried: u64,
    tried_with_solution: u64,
    tried_refuted: u64,
}

/// What was counted of texts that were tried, by the marked lines that are sums over names.
#[derive(Default)]
struct Sums {
    /// Refuted texts in which a line with each shape is satisfied by no assignment.
    refuted: [u64; SHAPES.len()],
    /// Refuted texts by their first such line.
    by_constraint: u64,
    by_line: [u64; RULES_AND_ASSUME],
    /// Lines of the other texts that some assignment satisfies, and of each shape those with a constant that is their greatest value.
    satisfied: u64,
    equal: [u64; SHAPES.len()],
}

impl Sums {
    fn add(&mut self, reach: &Reach, refuted: bool) {
        if !refuted {
            self.satisfied += reach.satisfied;
            self.equal.iter_mut().zip(reach.equal).for_each(|(count, more)| *count += more);
            return;
        }
        self.refuted.iter_mut().zip(reach.below).for_each(|(count, below)| *count += u64::from(below));
        match reach.first {
            Some((_, Source::Constraint)) => self.by_constraint += 1,
            Some((_, Source::Line(rule))) => self.by_line[rule as usize] += 1,
            None => (),
        }
    }

    /// Shapes that never came, and rules that derived the first line that no assignment satisfies and cannot, or can and never did.
    fn missing(&self) -> Vec<String> {
        let mut missing = Vec::new();
        for (place, shape) in SHAPES.iter().enumerate() {
            if self.refuted[place] == 0 {
                missing.push(format!("no text is refuted by a sum with {shape}"));
            }
            if self.equal[place] == 0 {
                missing.push(format!("no sum with {shape} has its greatest value as constant"));
            }
        }
        for rule in ANSWERING.into_iter().chain([Rule::Assume]) {
            match (REFUTING.contains(&rule), self.by_line[rule as usize]) {
                (true, 0) => missing.push(format!("no text is refuted first by {}", rule.name())),
                (false, 1..) => missing.push(format!("{} refuted first, which it cannot", rule.name())),
                _ => (),
            }
        }
        if self.by_constraint == 0 {
            missing.push("no text is refuted first by a constraint".to_owned());
        }
        missing
    }

    fn shown(&self, text: &mut String) {
        let shapes = |counts: &[u64]| {
            let shown: Vec<String> = SHAPES.iter().zip(counts).map(|(shape, count)| format!("{shape} {count}")).collect();
            shown.join(", ")
        };
        let _ = writeln!(text, "refuted, tried, by sums with {}", shapes(&self.refuted));
        let lines: Vec<String> =
            REFUTING.iter().map(|rule| format!("{} {}", rule.name(), self.by_line[*rule as usize])).collect();
        let _ = writeln!(text, "  first by a constraint {}, {}", self.by_constraint, lines.join(", "));
        let _ = writeln!(
            text,
            "not refuted: {} marked lines are sums over names, each with an assignment that satisfies it",
            self.satisfied
        );
        let _ = writeln!(text, "  with their greatest value as constant {}", shapes(&self.equal));
    }
}

/// Counts of answers, from 0 to 54.
struct Answers([u64; ANSWERS]);

impl Default for Answers {
    fn default() -> Answers {
        Answers([0; ANSWERS])
    }
}

/// What was counted.
#[derive(Default)]
pub struct Count {
    pub texts: u64,
    pub steps: u64,
    /// Lines with `holds=yes` that were tried with all assignments.
    pub tried: u64,
    kinds: [u64; texts::KINDS.len()],
    answers: [Answers; RULES_AND_ASSUME],
    refusals: Refusals,
    pairs: Pairs,
    plain: [u64; RULES_AND_ASSUME],
    holds: [u64; RULES_AND_ASSUME],
    read: u64,
    refuted: u64,
    untried: u64,
    tried_steps: u64,
    tried_with_model: u64,
    tried_steps_with_model: u64,
    tried_texts: u64,
    tried_refuted: u64,
    sums: Sums,
}

impl Count {
    /// Count a text of a kind.
    pub fn text(&mut self, kind: usize) {
        self.texts += 1;
        self.kinds[kind] += 1;
    }

    /// Count tables that were too small.
    pub fn too_small(&mut self) {
        self.refusals.add(1);
    }

    /// Count what a report says.
    pub fn report(&mut self, report: &Report, pair: &Pair) {
        self.pairs.all += u64::from(pair.opb.is_some());
        match report {
            Report::Refused(number) => {
                let refusals = match &pair.opb {
                    None => &mut self.refusals,
                    Some(opb) if oracle::read_opb(opb).is_err() => &mut self.pairs.opb,
                    Some(_) => &mut self.pairs.behind,
                };
                refusals.add(*number);
            }
            Report::Read(lines, refuted) => {
                self.pairs.read += u64::from(pair.opb.is_some());
                self.pairs.refuted += u64::from(*refuted && pair.opb.is_some());
                self.read += 1;
                self.refuted += u64::from(*refuted);
                lines.iter().for_each(|line| self.line(line));
            }
        }
    }

    fn line(&mut self, line: &Line) {
        let rule = line.rule as usize;
        self.steps += u64::from(line.rule != Rule::Assume);
        self.answers[rule].0[usize::from(line.answer).min(ANSWERS - 1)] += 1;
        self.plain[rule] += u64::from(line.plain);
        self.holds[rule] += u64::from(line.holds);
    }

    /// Count what trying all assignments gave.
    pub fn outcome(&mut self, outcome: &Outcome, refuted: bool, pair: &Pair) {
        match outcome {
            Outcome::Fine { models, steps, assumptions, reach } => {
                self.sums.add(reach, refuted);
                if pair.opb.is_some() {
                    let lines = steps + assumptions;
                    self.pairs.tried += lines;
                    self.pairs.tried_with_solution += if *models > 0 { lines } else { 0 };
                    self.pairs.tried_refuted += u64::from(refuted);
                }
                self.tried_texts += 1;
                self.tried_refuted += u64::from(refuted);
                self.tried += steps + assumptions;
                self.tried_steps += steps;
                if *models > 0 {
                    self.tried_with_model += steps + assumptions;
                    self.tried_steps_with_model += steps;
                }
            }
            _ => self.untried += 1,
        }
    }

    /// One line for the progress.
    pub fn progress(&self, seconds: f64) -> String {
        format!("{seconds:6.0} s: {} texts, {} steps, {} marked lines tried, no difference", self.texts, self.steps, self.tried)
    }

    /// What a long run should have reached and did not, and answers that the documents do not have for a rule.
    pub fn missing(&self) -> Vec<String> {
        let mut missing = Vec::new();
        for rule in ANSWERING {
            let counts = &self.answers[rule as usize].0;
            for (answer, count) in counts.iter().enumerate() {
                match (rule.answers().contains(&(answer as u8)), count) {
                    (true, 0) => missing.push(format!("{} never answered {answer}", rule.name())),
                    (false, 1..) => missing.push(format!("{} answered {answer}, which the documents do not have", rule.name())),
                    _ => (),
                }
            }
        }
        missing.extend(self.refusals.missing(&REFUSALS, "texts alone"));
        missing.extend(self.pairs.opb.missing(&OPB_REFUSALS, "OPB texts"));
        missing.extend(self.pairs.behind.missing(&REFUSALS[1..], "texts behind an OPB text"));
        missing.extend(self.missing_marks());
        missing.extend(self.sums.missing());
        missing
    }

    fn missing_marks(&self) -> Vec<String> {
        let mut missing = Vec::new();
        for rule in ANSWERING {
            let (accepted, plain, holds) =
                (self.answers[rule as usize].0[0], self.plain[rule as usize], self.holds[rule as usize]);
            if holds == 0 || holds == plain {
                missing.push(format!("{} always or never holds where it is plain", rule.name()));
            }
            if (accepted > plain) != rule.can_be_unplain() {
                missing.push(format!("{}: {plain} of {accepted} accepted steps are plain", rule.name()));
            }
        }
        if self.refuted == 0 || self.tried_refuted == 0 {
            missing.push("no text is refuted".to_owned());
        }
        if self.pairs.tried_with_solution == 0 || self.pairs.tried_refuted == 0 {
            missing.push("no line behind an OPB text was tried with a solution, or no pair is refuted".to_owned());
        }
        missing
    }

    /// The tables at the end of a run.
    pub fn summary(&self) -> String {
        let mut text = String::new();
        let kinds: Vec<String> = texts::KINDS.iter().zip(self.kinds).map(|(kind, count)| format!("{kind} {count}")).collect();
        let _ = writeln!(text, "texts {}: {}", self.texts, kinds.join(", "));
        let _ = writeln!(text, "read {}, refuted {}; refusals {}", self.read, self.refuted, self.refusals.shown(&REFUSALS));
        self.pair_lines(&mut text);
        self.answer_table(&mut text);
        self.mark_table(&mut text);
        let _ = writeln!(
            text,
            "all assignments: {} texts, {} of them refuted; not tried {}",
            self.tried_texts, self.tried_refuted, self.untried
        );
        let _ = writeln!(text, "lines with holds=yes that were tried: {}, {} of them steps", self.tried, self.tried_steps);
        let (lines, steps) = (self.tried_with_model, self.tried_steps_with_model);
        let _ = writeln!(text, "and with an assignment that satisfies the assumptions: {lines}, {steps} of them steps");
        self.sums.shown(&mut text);
        text
    }

    fn pair_lines(&self, text: &mut String) {
        let pairs = &self.pairs;
        let _ = writeln!(text, "behind OPB texts {}: read {}, refuted {}", pairs.all, pairs.read, pairs.refuted);
        let _ = writeln!(text, "  refusals of OPB texts {}", pairs.opb.shown(&OPB_REFUSALS));
        let _ = writeln!(text, "  refusals of proof texts behind them {}", pairs.behind.shown(&REFUSALS[1..]));
        let _ = writeln!(
            text,
            "  lines with holds=yes that were tried: {}, with a solution of the OPB text {}; refuted {}",
            pairs.tried, pairs.tried_with_solution, pairs.tried_refuted
        );
    }

    fn answer_table(&self, text: &mut String) {
        let _ = write!(text, "{:>8}", "answer");
        *text += &ANSWERING.map(|rule| format!("{:>18}", rule.name())).concat();
        for answer in (0..ANSWERS).filter(|answer| ANSWERING.iter().any(|rule| self.answers[*rule as usize].0[*answer] > 0)) {
            let _ = write!(text, "\n{answer:>8}");
            for rule in ANSWERING {
                let count = self.answers[rule as usize].0[answer];
                let _ = match count {
                    0 => write!(text, "{:>18}", "-"),
                    _ => write!(text, "{count:>18}"),
                };
            }
        }
        text.push('\n');
    }

    fn mark_table(&self, text: &mut String) {
        for (name, counts) in [("plain", &self.plain), ("holds", &self.holds)] {
            let _ = write!(text, "{name:>8}");
            *text += &ANSWERING.map(|rule| format!("{:>18}", counts[rule as usize])).concat();
            let _ = writeln!(text, "  assumptions {}", counts[Rule::Assume as usize]);
        }
        let _ = writeln!(text, "steps {}", self.steps);
    }
}

#[cfg(test)]
mod tests {
    use super::{Count, OPB_REFUSALS, REFUSALS, REFUTING};
    use crate::brute::Outcome;
    use crate::pair::Pair;
    use crate::report::{Line, Report};
    use crate::rules::{Rule, ANSWERING, RULES};
    use crate::sums::{Reach, Source, SHAPES};

    /// A count that has everything once.
    fn all_reached() -> Count {
        let mut count = Count::default();
        let (alone, behind) = (Pair::alone(Vec::new()), Pair::behind(Vec::new(), Vec::new()));
        count.too_small();
        (2..9).for_each(|number| count.report(&Report::Refused(number), &alone));
        (2..9).for_each(|number| count.report(&Report::Refused(number), &behind));
        let refused = Pair::behind(b";".to_vec(), Vec::new());
        OPB_REFUSALS.iter().for_each(|number| count.report(&Report::Refused(*number as u8), &refused));
        for rule in ANSWERING {
            let refused = rule.answers()[1..].iter().map(|answer| Line { rule, answer: *answer, plain: false, holds: false });
            let accepted = [(true, true), (true, false), (!rule.can_be_unplain(), false)];
            let accepted = accepted.map(|(plain, holds)| Line { rule, answer: 0, plain, holds });
            count.report(&Report::Read(refused.chain(accepted).collect(), true), &alone);
        }
        let fine = |models: u64, reach: Reach| Outcome::Fine { models, steps: 1, assumptions: 1, reach };
        let sources = REFUTING.iter().map(|rule| Source::Line(*rule)).chain([Source::Constraint]);
        for source in sources {
            let reach = Reach { first: Some((0, source)), below: [true; SHAPES.len()], ..Reach::default() };
            count.outcome(&fine(0, reach), true, &behind);
        }
        count.outcome(&fine(1, Reach { equal: [1; SHAPES.len()], ..Reach::default() }), false, &behind);
        count
    }

    #[test]
    fn everything_is_asked_for() {
        assert!(all_reached().missing().is_empty());
        let pairs: usize = ANSWERING.iter().map(|rule| rule.answers().len()).sum();
        assert_eq!(pairs, 84);
        assert!(Count::default().missing().len() >= pairs + 2 * REFUSALS.len() + OPB_REFUSALS.len());
    }

    #[test]
    fn a_refusal_of_another_text_is_noticed() {
        let mut count = all_reached();
        count.report(&Report::Refused(51), &Pair::behind(Vec::new(), Vec::new()));
        assert_eq!(count.missing(), ["texts behind an OPB text: refusal 51 came, which the documents do not have"]);
    }

    #[test]
    fn a_first_line_that_cannot_be_one_is_noticed() {
        let mut count = all_reached();
        let reach = Reach { first: Some((0, Source::Line(Rule::Division))), ..Reach::default() };
        count.outcome(&Outcome::Fine { models: 0, steps: 1, assumptions: 1, reach }, true, &Pair::alone(Vec::new()));
        assert_eq!(count.missing(), ["cp_division refuted first, which it cannot"]);
    }

    #[test]
    fn an_answer_of_another_rule_is_noticed() {
        let mut count = all_reached();
        let line = Line { rule: RULES[4], answer: 20, plain: false, holds: false };
        count.report(&Report::Read(vec![line], false), &Pair::alone(Vec::new()));
        assert_eq!(count.missing(), ["cp_literal answered 20, which the documents do not have"]);
    }
}
