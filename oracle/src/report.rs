//! The account of a text, and the report of document 01, section 6, that is written of it.

use crate::answer::{ACCEPTED, answer};
use crate::ast::Pool;
use crate::marks::{is_plain, is_statement, unreachable};
use crate::opb::{Constraint, assumptions, read_opb};
use crate::pol::derived;
use crate::reader::{Command, Refusal, Rule, read_behind};
use std::fmt::Write;

/// What is said of a text that was read.
#[derive(Debug, Clone)]
pub struct Account {
    /// Its commands.
    pub commands: Vec<Command>,
    /// What is said of each.
    pub lines: Vec<Line>,
    /// Whether some line that holds is an inequality over names whose sum has a greatest value below its constant.
    pub refuted: bool,
}

/// What is said of a command.
#[derive(Debug, Clone, Copy, PartialEq, Eq)]
pub struct Line {
    /// Its answer, 0 where it is accepted.
    pub answer: u8,
    /// The mark `plain`.
    pub plain: bool,
    /// The mark `holds`.
    pub holds: bool,
}

/// The account of a text, or why it is not read.
pub fn account(text: &[u8]) -> Result<Account, Refusal> {
    account_both(b"", text)
}

/// The account of an OPB text and the proof text behind it, or why one of them is not read. The OPB text is judged first.
pub fn account_both(opb: &[u8], text: &[u8]) -> Result<Account, Refusal> {
    let constraints = read_opb(opb)?;
    let mut pool = Pool::new();
    let before = assumptions(&mut pool, &constraints);
    let nodes = constraints.iter().map(Constraint::nodes).sum();
    let mut commands = read_behind(&mut pool, &before, nodes, text)?;
    let mut lines = Vec::with_capacity(commands.len());
    for place in 0..commands.len() {
        let (above, rest) = commands.split_at_mut(place);
        let line = match rest[0].rule {
            Rule::Pol => pol_line(&mut pool, &mut rest[0], above, &lines),
            _ => line(&mut pool, &rest[0], above, &lines),
        };
        lines.push(line);
    }
    let refuted = commands.iter().zip(&lines).any(|(command, line)| line.holds && unreachable(&command.clause));
    Ok(Account { commands, lines, refuted })
}

/// What is said of a command, given the commands above it and what is said of them.
fn line(pool: &mut Pool, command: &Command, above: &[Command], lines: &[Line]) -> Line {
    let answer = answer(pool, command, above);
    let plain = answer == ACCEPTED && is_plain(command, above);
    let holds = match command.rule {
        Rule::Assume => is_statement(&command.clause[0]),
        _ => plain && command.premises.iter().all(|place| lines[*place].holds),
    };
    Line { answer, plain, holds }
}

/// What is said of a pol line, which gets the clause that it derives; a refused one keeps its clause of no terms.
fn pol_line(pool: &mut Pool, command: &mut Command, above: &[Command], lines: &[Line]) -> Line {
    match derived(pool, &command.words, above) {
        Ok(inequality) => {
            command.clause = vec![inequality];
            Line { answer: ACCEPTED, plain: true, holds: command.premises.iter().all(|place| lines[*place].holds) }
        }
        Err(answer) => Line { answer, plain: false, holds: false },
    }
}

/// The report of a text, for a caller with room enough for it: refusal 1 is not given here.
pub fn report(text: &[u8]) -> Vec<u8> {
    report_both(b"", text)
}

/// The report of an OPB text and the proof text behind it, for the same caller.
pub fn report_both(opb: &[u8], text: &[u8]) -> Vec<u8> {
    match account_both(opb, text) {
        Ok(account) => account.written(),
        Err(Refusal { number, byte }) => format!("refused={number} byte={byte}\n"),
    }
    .into_bytes()
}

impl Account {
    /// A line for each command, then the totals.
    fn written(&self) -> String {
        let mut report = String::new();
        for (command, line) in self.commands.iter().zip(&self.lines) {
            writeln!(
                report,
                "id={} rule={} answer={} plain={} holds={}",
                command.id,
                command.rule.name(),
                line.answer,
                yes_or_no(line.plain),
                yes_or_no(line.holds)
            )
            .expect("a string takes every line");
        }
        let refused = self.lines.iter().filter(|line| line.answer != ACCEPTED).count();
        writeln!(report, "commands={} refused={refused} refuted={}", self.lines.len(), yes_or_no(self.refuted))
            .expect("a string takes every line");
        report
    }
}

/// How a mark is written.
fn yes_or_no(mark: bool) -> &'static str {
    if mark { "yes" } else { "no" }
}
