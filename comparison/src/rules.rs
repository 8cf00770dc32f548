//! The rules, and the answers that documents 01 and 02 have for each.

/// A rule, an assumption or a pol line.
#[derive(Clone, Copy, Debug, PartialEq, Eq)]
pub enum Rule {
    Addition,
    Multiplication,
    Division,
    Saturation,
    Literal,
    Normalize,
    Transfer,
    Part,
    Assume,
    Pol,
}

/// The rules of steps.
pub const RULES: [Rule; 8] = [
    Rule::Addition,
    Rule::Multiplication,
    Rule::Division,
    Rule::Saturation,
    Rule::Literal,
    Rule::Normalize,
    Rule::Transfer,
    Rule::Part,
];

/// What has answers: the rules of steps, and pol lines.
pub const ANSWERING: [Rule; RULES.len() + 1] = {
    let mut all = [Rule::Pol; RULES.len() + 1];
    let mut at = 0;
    while at < RULES.len() {
        all[at] = RULES[at];
        at += 1;
    }
    all
};

/// How many numbers an answer can be: 0 to 54.
pub const ANSWERS: usize = 55;

const NAMES: [&str; 10] = [
    "cp_addition", "cp_multiplication", "cp_division", "cp_saturation", "cp_literal", "cp_normalize", "cp_transfer", "cp_part",
    "assume", "pol",
];

impl Rule {
    /// How it is written.
    pub fn name(self) -> &'static str {
        NAMES[self as usize]
    }

    /// The rule of a name.
    pub fn named(name: &[u8]) -> Option<Rule> {
        let all = ANSWERING.iter().copied().chain([Rule::Assume]);
        all.into_iter().find(|rule| rule.name().as_bytes() == name)
    }

    /// Premises and arguments of an accepted step.
    pub fn counts(self) -> (usize, usize) {
        match self {
            Rule::Addition | Rule::Transfer => (2, 0),
            Rule::Multiplication | Rule::Division | Rule::Part => (1, 1),
            Rule::Saturation => (1, 0),
            Rule::Literal => (0, 1),
            Rule::Normalize | Rule::Assume | Rule::Pol => (0, 0),
        }
    }

    /// The answers that the rule can have, from sections 2 to 5 of document 01 and No. 2 of document 02.
    pub fn answers(self) -> &'static [u8] {
        match self {
            Rule::Addition => &[0, 20, 21, 22, 23, 24, 25, 26, 29, 30, 31, 40],
            Rule::Multiplication => &[0, 20, 21, 22, 23, 24, 25, 26, 27, 29, 30, 31, 40],
            Rule::Division => &[0, 20, 21, 22, 23, 24, 25, 26, 27, 28, 29, 30, 31, 40],
            Rule::Saturation => &[0, 20, 21, 22, 23, 24, 25, 26, 29, 30, 31, 32, 40],
            Rule::Literal => &[0, 21, 22, 24, 33, 34, 35, 36],
            Rule::Normalize => &[0, 21, 22, 23, 24, 29, 37, 38, 39, 40],
            Rule::Transfer | Rule::Part => &[0, 20, 21, 22, 41],
            Rule::Assume => &[0],
            Rule::Pol => &[0, 52, 53, 54],
        }
    }

    /// Whether an accepted step of the rule can be marked `plain=no`.
    pub fn can_be_unplain(self) -> bool {
        !matches!(self, Rule::Literal | Rule::Transfer | Rule::Part | Rule::Assume | Rule::Pol)
    }
}
