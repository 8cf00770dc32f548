//! The answer of each command: of the six rules by the original, of the two links (41) and of too many summands or leaves (40), which
//! document 01 adds, by this file.
//!
//! 40 stands between checks of the original: an addition whose left premise is no inequality is 23 even if its right premise has 513
//! summands. So that no second account of the original's order is needed, the original itself says whether it comes so far: it is
//! handed the step with a variable that no text has, the mark, in place of each sum that is too long, so that it refuses the mark with
//! `ExpectedAnyInteger` where it would have begun to read that sum. Only that refusal is answered 40.

use crate::ast::{Operator, Pool, Rc, Term, build_term, match_term};
use crate::checker::error::CheckerError;
use crate::checker::rules::cutting_planes as original;
use crate::checker::rules::{self, Inequality, Premise, RuleArgs, RuleResult};
use crate::reader::{Command, Rule};

/// The answer of an accepted command.
pub const ACCEPTED: u8 = 0;
/// Too many summands or leaves.
const TOO_MANY: u8 = 40;
/// A link that does not match.
const NO_LINK: u8 = 41;
/// The most summands of a sum, and the most leaves of a general relation.
const MOST_SUMMANDS: usize = 512;

/// The answer of a command, given those above it.
pub fn answer(pool: &mut Pool, command: &Command, above: &[Command]) -> u8 {
    let premises: Vec<Premise> = command.premises.iter().map(|place| Premise { clause: &above[*place].clause }).collect();
    let step = Step { premises: &premises, args: &command.args, conclusion: &command.clause };
    match command.rule {
        Rule::Assume => ACCEPTED,
        Rule::Addition => inequalities(pool, step, original::cp_addition),
        Rule::Multiplication => inequalities(pool, step, original::cp_multiplication),
        Rule::Division => inequalities(pool, step, original::cp_division),
        Rule::Saturation => inequalities(pool, step, original::cp_saturation),
        Rule::Literal => number(&ask(pool, step, original::cp_literal)),
        Rule::Normalize => normalization(pool, step),
        Rule::Transfer => transfer(step),
        Rule::Part => part(step),
        Rule::Pol => unreachable!("a pol line has its answer from its words"),
    }
}

/// The answer of a rule that reads the sums of one or two inequalities, as if a step of that rule stood in the text.
pub(crate) fn answer_of_sums(
    pool: &mut Pool,
    rule: Rule,
    premises: &[&[Rc<Term>]],
    args: &[Rc<Term>],
    conclusion: &[Rc<Term>],
) -> u8 {
    let premises: Vec<Premise> = premises.iter().map(|clause| Premise { clause }).collect();
    let step = Step { premises: &premises, args, conclusion };
    match rule {
        Rule::Addition => inequalities(pool, step, original::cp_addition),
        Rule::Multiplication => inequalities(pool, step, original::cp_multiplication),
        Rule::Division => inequalities(pool, step, original::cp_division),
        _ => inequalities(pool, step, original::cp_saturation),
    }
}

/// What a rule reads of a step.
#[derive(Clone, Copy)]
struct Step<'a> {
    premises: &'a [Premise<'a>],
    args: &'a [Rc<Term>],
    conclusion: &'a [Rc<Term>],
}

/// What the original says of a step.
fn ask(pool: &mut Pool, step: Step, rule: rules::Rule) -> RuleResult {
    rule(RuleArgs { conclusion: step.conclusion, premises: step.premises, args: step.args, pool })
}

/// The number of what the original says.
fn number(result: &RuleResult) -> u8 {
    result.as_ref().map_or_else(CheckerError::number, |()| ACCEPTED)
}

/// As `number`, and 40 where the original came to the mark.
fn number_or_too_many(result: &RuleResult, mark: &Rc<Term>) -> u8 {
    match result {
        Err(CheckerError::ExpectedAnyInteger(term)) if term == mark => TOO_MANY,
        _ => number(result),
    }
}

/// A variable whose name no text can have.
fn new_mark(pool: &mut Pool) -> Rc<Term> {
    pool.add(Term::Var(String::new()))
}

/// The answer of the rules that read each sum of their inequalities.
fn inequalities(pool: &mut Pool, step: Step, rule: rules::Rule) -> u8 {
    let mut clauses = step.premises.iter().map(|premise| premise.clause).chain([step.conclusion]);
    if !clauses.any(|clause| clause.iter().any(is_over_long)) {
        return number(&ask(pool, step, rule));
    }
    let mark = new_mark(pool);
    let premises: Vec<_> = step.premises.iter().map(|premise| with_marked_sums(pool, premise.clause, &mark)).collect();
    let premises: Vec<_> = premises.iter().map(|clause| Premise { clause }).collect();
    let conclusion = with_marked_sums(pool, step.conclusion, &mark);
    let marked = Step { premises: &premises, conclusion: &conclusion, ..step };
    number_or_too_many(&ask(pool, marked, rule), &mark)
}

/// The inequality of a term that section 2 reads: the original reads it, and its sum is not too long.
pub(crate) fn inequality(term: &Rc<Term>) -> Option<Inequality> {
    if is_over_long(term) { None } else { original::inequality(term) }
}

/// Whether a term is an inequality of a sum that is too long.
fn is_over_long(term: &Rc<Term>) -> bool {
    match_term!((>= sum constant) = term).is_some_and(|(sum, _constant)| summands(sum).len() > MOST_SUMMANDS)
}

/// The summands of a sum: its own list of children, or the one term that is no `+`.
pub(crate) fn summands(sum: &Rc<Term>) -> &[Rc<Term>] {
    match_term!((+ ...) = sum).unwrap_or(std::slice::from_ref(sum))
}

/// A clause with the mark as coefficient in place of each sum that is too long. The constant stays, since it is looked at first.
fn with_marked_sums(pool: &mut Pool, clause: &[Rc<Term>], mark: &Rc<Term>) -> Vec<Rc<Term>> {
    let marked = |term: &Rc<Term>| match match_term!((>= sum constant) = term) {
        Some((_, constant)) if is_over_long(term) => {
            build_term!(pool, (>= (* {mark.clone()} {mark.clone()}) {constant.clone()}))
        }
        _ => term.clone(),
    };
    clause.iter().map(marked).collect()
}

/// The answer of cp_normalize. A relation whose leaves can be counted has passed every check before 40.
fn normalization(pool: &mut Pool, step: Step) -> u8 {
    if step.conclusion.iter().all(|conclusion| !is_too_large(conclusion)) {
        return number(&ask(pool, step, original::cp_normalize));
    }
    if let [conclusion] = step.conclusion
        && has_too_many_leaves(conclusion)
    {
        return TOO_MANY;
    }
    let mark = new_mark(pool);
    let conclusion: Vec<_> = step.conclusion.iter().map(|term| with_marked_constants(pool, term, &mark)).collect();
    let marked = Step { conclusion: &conclusion, ..step };
    number_or_too_many(&ask(pool, marked, original::cp_normalize), &mark)
}

/// Whether a conclusion of cp_normalize has too many leaves, or summands in one of its normalized sums.
fn is_too_large(conclusion: &Rc<Term>) -> bool {
    let Some((_, normalized)) = match_term!((= general normalized) = conclusion) else { return false };
    has_too_many_leaves(conclusion) || halves(normalized).iter().any(is_over_long)
}

/// The inequalities of a normalized relation: the parts of an `and`, or the one that it is.
fn halves(normalized: &Rc<Term>) -> &[Rc<Term>] {
    match_term!((and ...) = normalized).unwrap_or(std::slice::from_ref(normalized))
}

/// Whether a term equates a relation of over 512 leaves, on both its sides together, with something.
fn has_too_many_leaves(conclusion: &Rc<Term>) -> bool {
    let Some((general, _)) = match_term!((= general normalized) = conclusion) else { return false };
    relation(general).is_some_and(|(left, right)| leaves(left) + leaves(right) > MOST_SUMMANDS)
}

/// The two sides of a supported relation.
pub(crate) fn relation(term: &Rc<Term>) -> Option<(&Rc<Term>, &Rc<Term>)> {
    use Operator::{Equals, GreaterEq, GreaterThan, LessEq, LessThan};
    match term.as_ref() {
        Term::Op(Equals | GreaterEq | GreaterThan | LessEq | LessThan, args) => match args.as_slice() {
            [left, right] => Some((left, right)),
            _ => None,
        },
        _ => None,
    }
}

/// The leaves of a term: what flattening does not open.
fn leaves(term: &Rc<Term>) -> usize {
    match term.as_ref() {
        Term::Op(Operator::Add | Operator::Sub, args) => args.iter().map(leaves).sum(),
        _ => 1,
    }
}

/// The conclusion of a normalization with the mark in place of the constant of each half whose sum is too long. The original looks at
/// the constant right after it has taken the sum apart, and the sum that is put there cannot be refused.
fn with_marked_constants(pool: &mut Pool, conclusion: &Rc<Term>, mark: &Rc<Term>) -> Rc<Term> {
    let Some((general, normalized)) = match_term!((= general normalized) = conclusion) else { return conclusion.clone() };
    let mut marked = |half: &Rc<Term>| match is_over_long(half) {
        true => build_term!(pool, (>= {mark.clone()} {mark.clone()})),
        false => half.clone(),
    };
    let normalized = match match_term!((and ...) = normalized) {
        Some(halves) => Term::Op(Operator::And, halves.iter().map(marked).collect()),
        None => Term::clone(&marked(normalized)),
    };
    let normalized = pool.add(normalized);
    build_term!(pool, (= {general.clone()} {normalized}))
}

/// The answer of cp_transfer: from R and `(= R N)` to N.
fn transfer(step: Step) -> u8 {
    let terms = link_terms(step, 2, 0);
    linked(terms, |premises, conclusion| {
        let (given, normalized) = match_term!((= given normalized) = premises[1])?;
        Some(given == premises[0] && normalized == conclusion)
    })
}

/// The answer of cp_part: from `(and ..)` to the part that the argument counts from 0.
fn part(step: Step) -> u8 {
    let terms = link_terms(step, 1, 1);
    linked(terms, |premises, conclusion| {
        let parts = match_term!((and ...) = premises[0])?;
        let place = step.args[0].as_integer()?.to_usize()?;
        parts.get(place).map(|part| part == conclusion)
    })
}

/// The premises' terms and the conclusion of a link, after 20, 21, 22, 21.
fn link_terms<'a>(step: Step<'a>, premises: usize, args: usize) -> Result<(Vec<&'a Rc<Term>>, &'a Rc<Term>), CheckerError> {
    rules::assert_num_premises(step.premises, premises)?;
    let premises: Result<Vec<_>, _> = step.premises.iter().map(|premise| only_term(premise.clause)).collect();
    let premises = premises?;
    rules::assert_num_args(step.args, args)?;
    Ok((premises, only_term(step.conclusion)?))
}

/// The term of a clause of one, or 21.
fn only_term(clause: &[Rc<Term>]) -> Result<&Rc<Term>, CheckerError> {
    rules::assert_clause_len(clause, 1)?;
    Ok(&clause[0])
}

/// The answer of a link whose terms have to match.
fn linked<'a>(
    terms: Result<(Vec<&'a Rc<Term>>, &'a Rc<Term>), CheckerError>,
    matches: impl FnOnce(&[&'a Rc<Term>], &'a Rc<Term>) -> Option<bool>,
) -> u8 {
    match terms {
        Err(error) => error.number(),
        Ok((premises, conclusion)) if matches(&premises, conclusion) == Some(true) => ACCEPTED,
        Ok(_) => NO_LINK,
    }
}
