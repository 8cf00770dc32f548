//! The solutions of an OPB text that is read, told from its bytes: an account of its own, which knows nothing of refusals and of assumptions.

/// A constraint: coefficients with their variables and whether these are negated, the relation, the constant.
pub struct Constraint<'t> {
    pub summands: Vec<(i128, &'t str, bool)>,
    pub equal: bool,
    pub constant: i128,
}

/// The constraints of a text that is read; none where it cannot be one.
pub fn constraints(opb: &[u8]) -> Option<Vec<Constraint<'_>>> {
    let text = std::str::from_utf8(opb).ok()?;
    let lines = text.split('\n').filter(|line| !line.starts_with('*'));
    // what stands behind a `;` on its line begins the next constraint
    let mut words: Vec<&str> = Vec::new();
    let mut result = Vec::new();
    for line in lines {
        for (place, part) in line.split(';').enumerate() {
            if place > 0 {
                result.push(constraint(&words)?);
                words.clear();
            }
            words.extend(part.split_ascii_whitespace());
        }
    }
    words.is_empty().then_some(result)
}

fn constraint<'t>(words: &[&'t str]) -> Option<Constraint<'t>> {
    let [sum @ .., relation, constant] = words else { return None };
    let summands = sum.chunks(2).map(|summand| {
        let [coefficient, literal] = summand else { return None };
        let variable = literal.trim_start_matches('~');
        Some((coefficient.parse().ok()?, variable, variable != *literal))
    });
    let equal = match *relation {
        "=" => true,
        ">=" => false,
        _ => return None,
    };
    Some(Constraint { summands: summands.collect::<Option<_>>()?, equal, constant: constant.parse().ok()? })
}

impl Constraint<'_> {
    /// How many assumptions it becomes.
    pub fn assumptions(&self) -> usize {
        1 + usize::from(self.equal)
    }

    /// Whether it is true where each variable has the value that is handed over, `~x7` being 1 - x7.
    pub fn is_true(&self, value: impl Fn(&str) -> i128) -> bool {
        let term = |(coefficient, variable, negated): &(i128, &str, bool)| match negated {
            true => coefficient * (1 - value(variable)),
            false => coefficient * value(variable),
        };
        let sum: i128 = self.summands.iter().map(term).sum();
        if self.equal {
            sum == self.constant
        } else {
            sum >= self.constant
        }
    }
}

#[cfg(test)]
mod tests {
    use super::constraints;

    #[test]
    fn solutions_of_a_text() {
        let text = b"* #variable= 2\n+2 x1 -1 ~x2 >= 1;1\nx1\r\n= 1 ;\n* c ;\n>= -1 ;";
        let constraints = constraints(text).expect("the text is read");
        assert_eq!(constraints.iter().map(|one| one.assumptions()).collect::<Vec<_>>(), [1, 2, 1]);
        let solves = |x1: i128, x2: i128| constraints.iter().all(|one| one.is_true(|name| if name == "x1" { x1 } else { x2 }));
        assert!(solves(1, 0) && solves(1, 1));
        assert!(!solves(0, 0) && !solves(0, 1));
    }

    #[test]
    fn no_constraints() {
        assert!(constraints(b"* c\n \n*").is_some_and(|list| list.is_empty()));
        for text in ["1 x1", "1 >= 1 ;", "1 x1 > 1 ;", "1 x1 >= ;"] {
            assert!(constraints(text.as_bytes()).is_none(), "{text}");
        }
    }
}
