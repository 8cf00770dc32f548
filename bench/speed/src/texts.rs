//! The texts that are timed, each within document 01's limits.

use std::fmt::Write;

/// A text and what it is.
pub struct Text {
    pub name: &'static str,
    pub bytes: Vec<u8>,
}

/// An OPB text, the proof text behind it, and what they are.
pub struct Pair {
    pub name: &'static str,
    pub opb: Vec<u8>,
    pub proof: Vec<u8>,
}

fn text(name: &'static str, content: String) -> Text {
    Text { name, bytes: content.into_bytes() }
}

/// `(+ (* c v) ..)` over names and coefficients.
fn sum(literals: impl Iterator<Item = (usize, String)>) -> String {
    let mut out = String::from("(+");
    for (coefficient, name) in literals {
        write!(out, " (* {coefficient} {name})").expect("a string takes what is written");
    }
    out + ")"
}

/// Document 01's example (section 6).
fn example() -> String {
    "(assume a1 (>= (+ (* 2 x) (* 1 y)) 2))\n\
     (assume a2 (>= (* 1 (- 1 x)) 1))\n\
     (step t1 (cl (>= (+ (* 1 x) (* 1 y)) 1)) :rule cp_division :premises (a1) :args (2))\n"
        .into()
}

/// Additions of five summands, each to the sum before it.
fn additions(steps: usize) -> String {
    let five = |first: usize, each: usize| sum((0..5).map(|i| (first * (i + 1) + each, format!("x{i}"))));
    let mut out = format!("(assume t0 (>= {} 3))\n(assume b (>= {} 1))\n", five(1, 0), five(0, 1));
    for step in 1..=steps {
        let (total, constant, before) = (five(1, step), 3 + step, step - 1);
        writeln!(out, "(step t{step} (cl (>= {total} {constant})) :rule cp_addition :premises (t{before} b))")
            .expect("a string takes what is written");
    }
    out
}

/// A multiplication by 2 of a sum of so many summands, over so many names.
fn multiplication(summands: usize, names: usize, name: impl Fn(usize) -> String) -> String {
    let total = |by: usize| sum((0..summands).map(|i| ((i % 7 + 1) * by, name(i % names))));
    format!("(assume a (>= {} 3))\n(step b (cl (>= {} 6)) :rule cp_multiplication :premises (a) :args (2))\n", total(1), total(2))
}

/// Small steps of four rules up to so many bytes: what a solver's log looks like. The names are long enough that 32 KB have no more than 4,096 nodes.
pub fn small_steps(bytes: usize) -> String {
    let (x, y) = ("capacity", "workload");
    let mut out = format!("(assume a (>= (+ (* 1 {x}) (* 1 {y})) 1))\n");
    for step in 0.. {
        let by = step % 50 + 1;
        let (clause, rule) = match step % 4 {
            0 => (format!("(>= (+ (* {by} {x}) (* {by} {y})) {by})"), format!("cp_multiplication :premises (a) :args ({by})")),
            1 => (format!("(>= (+ (* 2 {x}) (* 2 {y})) 2)"), "cp_addition :premises (a a)".into()),
            2 => (format!("(>= (* 1 (- 1 {x})) 0)"), format!("cp_literal :args ((- 1 {x}))")),
            _ => (format!("(= (< (* {by} {x}) 3) (>= (* {by} (- 1 {x})) {}))", by - 2), "cp_normalize".into()),
        };
        let line = format!("(step s{step} (cl {clause}) :rule {rule})\n");
        if out.len() + line.len() > bytes {
            break;
        }
        out += &line;
    }
    out
}

/// Assumptions of three literals, in every fourth one a literal negated, each with its double behind it: lines that hold. No line's constant is above the
/// greatest value of its sum, so that each of them is asked whether it refutes, and none does.
fn held_sums(lines: usize) -> String {
    let literal = |place: usize, i: usize| {
        let name = format!("b_weight_{:02}", (place * 3 + i * i) % 40);
        if i == 1 && place % 4 == 1 { format!("(- 1 {name})") } else { name }
    };
    let inequality = |place: usize, by: usize| {
        let total = sum((0..3).map(|i| (((place + i) % 7 + 1) * by, literal(place, i))));
        format!("(>= {total} {})", (place % 6 + 1) * by)
    };
    let line = |number: usize| match (number / 2, number % 2) {
        (place, 0) => format!("(assume a{place} {})\n", inequality(place, 1)),
        (place, _) => {
            format!("(step t{place} (cl {}) :rule cp_multiplication :premises (a{place}) :args (2))\n", inequality(place, 2))
        }
    };
    (0..lines).map(line).collect()
}

/// Assumptions of depth 64.
fn deep() -> String {
    (0..63).map(|i| format!("(assume d{i} {}x{})\n", "(- ".repeat(63), ")".repeat(63))).collect()
}

/// A name of 32 bytes.
fn long_name(number: usize) -> String {
    format!("a_name_of_thirty_two_bytes_{number:05}")
}

/// All texts but those that show how time grows.
pub fn all() -> Vec<Text> {
    vec![
        text("an empty file", String::new()),
        text("one assumption", "(assume a (>= x 1))\n".into()),
        text("document 01's example, 3 commands", example()),
        text("small steps, 1 KB", small_steps(1_024)),
        text("small steps, 32 KB", small_steps(32_768)),
        text("140 additions of five summands", additions(140)),
        text("300 lines that hold, 32 KB", held_sums(300)),
        text("a multiplication of 20 summands, 20 names", multiplication(20, 20, |i| format!("v{i}"))),
        text("a multiplication of 400 summands, 400 names", multiplication(400, 400, |i| format!("v{i}"))),
        text("sums of 512 summands, 16 names", multiplication(512, 16, |i| format!("v{i}"))),
        text("sums of 512 summands, 512 names", multiplication(512, 512, |i| format!("v{i}"))),
        text("terms of depth 64", deep()),
        text("names of 32 bytes, 8 different", multiplication(380, 8, long_name)),
        text("names of 32 bytes, all different", multiplication(380, 380, long_name)),
        text("small steps, refused at the end", small_steps(32_766) + "("),
        text("sums, refused at the end", multiplication(512, 16, |i| format!("v{i}")) + ";"),
    ]
}

/// A constraint over five of forty variables, the last one negated: coefficients, names, and the constant.
struct Constraint {
    summands: Vec<(usize, String)>,
    constant: usize,
}

impl Constraint {
    /// The one with a number; every number and name as it is written by these.
    fn new(number: usize, coefficient: impl Fn(usize) -> usize, name: impl Fn(usize) -> String) -> Constraint {
        let summands = (0..5).map(|i| (coefficient((number + i) % 7 + 1), name((number * 3 + i * i) % 40 + 1))).collect();
        Constraint { summands, constant: coefficient(2) }
    }

    /// How an OPB text has it, with `>=` or `=`.
    fn opb(&self, relation: &str) -> String {
        let mut out = String::new();
        for (place, (coefficient, name)) in self.summands.iter().enumerate() {
            let negation = if place == 4 { "~" } else { "" };
            write!(out, "+{coefficient} {negation}{name} ").expect("a string takes what is written");
        }
        format!("{out}{relation} {} ;\n", self.constant)
    }

    /// The inequality times a factor, as a proof text has it.
    fn times(&self, factor: usize) -> String {
        let literal = |place: usize, name: &str| if place == 4 { format!("(- 1 {name})") } else { name.to_string() };
        let summands = self.summands.iter().enumerate();
        let total = sum(summands.map(|(place, (coefficient, name))| (coefficient * factor, literal(place, name))));
        format!("(>= {total} {})", self.constant * factor)
    }
}

/// Constraints with small numbers over x1 to x40.
fn small_constraint(number: usize) -> Constraint {
    Constraint::new(number, |k| k, |v| format!("x{v}"))
}

/// Lines up to so many bytes.
fn up_to(bytes: usize, line: impl Fn(usize) -> String) -> String {
    let mut out = String::new();
    for number in 0.. {
        let line = line(number);
        if out.len() + line.len() > bytes {
            break;
        }
        out += &line;
    }
    out
}

/// A model of small constraints up to so many bytes.
fn model(bytes: usize) -> String {
    up_to(bytes, |number| small_constraint(number).opb(">="))
}

/// The same with the competitions' first line and a long comment before each constraint.
fn commented_model(bytes: usize) -> String {
    let comment = |number| format!("* constraint {number}: {}\n", "capacity of a machine, by the hour; ".repeat(6));
    let lines = up_to(bytes - 40, |number| comment(number) + &small_constraint(number).opb(">="));
    format!("* #variable= 40 #constraint= {}\n{lines}", lines.lines().count() / 2)
}

/// A model whose numbers have 8 digits and whose names have 18, so that 32 KB have no more than 4,096 nodes.
fn wide_model(bytes: usize) -> String {
    let constraint = |number| Constraint::new(number, |k| 12_345_678 + k, |v| format!("x{}", 100_000_000_000_000_000 + v));
    up_to(bytes, |number| constraint(number).opb(">="))
}

/// A proof behind small constraints, up to so many bytes: the first forty in turn, each twice and three times.
fn steps_behind(bytes: usize) -> String {
    up_to(bytes, |step| {
        let place = step / 2 % 40;
        let (number, constraint) = (place + 1, small_constraint(place));
        let (clause, rule) = match step % 2 {
            0 => (constraint.times(2), format!("cp_multiplication :premises (c{number}) :args (2)")),
            _ => (constraint.times(3), format!("cp_addition :premises (s{} c{number})", step - 1)),
        };
        format!("(step s{step} (cl {clause}) :rule {rule})\n")
    })
}

/// An assumption over so many literals from a first variable on, every third one negated.
fn assumption(id: usize, first: usize, literals: usize) -> String {
    let literal = |place: usize| if place % 3 == 2 { format!("(- 1 v{place})") } else { format!("v{place}") };
    let total = sum((0..literals).map(|i| ((id + i) % 5 + 1, literal(first + i))));
    format!("(assume a{id} (>= {total} {}))\n", id % 4 + 2)
}

/// Sixty-four pol lines over sixteen assumptions of five summands: each adds an assumption and a literal to the line before, halves and saturates.
fn short_pol_lines() -> String {
    let mut out: String = (0..16).map(|id| assumption(id, id, 5)).collect();
    out += "(pol p0 a0)\n";
    for line in 1..64 {
        writeln!(out, "(pol p{line} p{} a{} + ~v{} + 2 d s)", line - 1, line % 16, line % 20)
            .expect("a string takes what is written");
    }
    out
}

/// Sixty-four pol lines, each the sum of eight assumptions of sixty literals, divided and saturated.
fn wide_pol_lines() -> String {
    let mut out: String = (0..8).map(|id| assumption(id, 0, 60)).collect();
    for line in 0..64 {
        writeln!(out, "(pol p{line} a0 a1 + a2 + a3 + a4 + a5 + a6 + a7 + {} d s)", line % 8 + 1)
            .expect("a string takes what is written");
    }
    out
}

/// One pol line of about a thousand words on a stack of 32 entries with 64 literals each: all are pushed, added up and divided, again and again.
fn long_pol_line() -> String {
    let mut out = assumption(0, 0, 64) + "(pol p a0";
    for _ in 0..16 {
        out += &" a0".repeat(31);
        out += &" +".repeat(31);
        out += " 32 d";
    }
    out + " s)\n"
}

/// Texts of pol lines.
pub fn pol_texts() -> Vec<Text> {
    vec![
        text("one pol line", "(pol p x)\n".into()),
        text("2 assumptions, 1 pol line", ODD_POL.into()),
        text("64 pol lines of five summands", short_pol_lines()),
        text("64 pol lines of sixty literals", wide_pol_lines()),
        text("a pol line of 1,026 words, a stack of 32", long_pol_line()),
    ]
}

/// A refutation by one pol line.
const ODD_POL: &str = "(assume a (>= (+ (* 2 x) (* 2 y)) 3))
(assume b (>= (+ (* -2 x) (* -2 y)) -3))
(pol p a 2 d 2 * b +)
";

/// Examples.
const PIGEONS: &str = include_str!("../../../examples/pol/pigeons.opb");
const PIGEONS_PROOF: &str = include_str!("../../../examples/pol/pigeons.proof");
const ODD: &str = include_str!("../../../examples/opb/odd.opb");
const ODD_PROOF: &str = include_str!("../../../examples/opb/odd.proof");

/// All pairs of an OPB text and a proof text.
pub fn pairs() -> Vec<Pair> {
    let pair = |name, opb: String, proof: String| Pair { name, opb: opb.into_bytes(), proof: proof.into_bytes() };
    let alone = |name, opb| pair(name, opb, String::new());
    vec![
        alone("two empty texts", String::new()),
        alone("a small model alone", ODD.into()),
        pair("a small model, 3 steps", ODD.into(), ODD_PROOF.into()),
        alone("a model, 2 KB", model(2_048)),
        alone("a model of equalities, 2 KB", up_to(2_048, |number| small_constraint(number).opb("="))),
        alone("a model of 4,080 nodes", (0..204).map(|number| small_constraint(number).opb(">=")).collect()),
        alone("a model with comments, 32 KB", commented_model(32_768)),
        alone("a model of long words, 32 KB", wide_model(32_768)),
        alone("a model of long words, refused at the end", wide_model(32_766) + "+1"),
        pair("a model of 2 KB, a proof of 2 KB", model(2_048), steps_behind(2_048)),
        pair("a model of 2 KB, a proof of 16 KB", model(2_048), steps_behind(16_384)),
        pair("a model with comments, 32 KB, a proof of 8 KB", commented_model(32_768), steps_behind(8_192)),
        pair("a model of 22 constraints, 4 pol lines", PIGEONS.into(), PIGEONS_PROOF.into()),
        pair("no model, small steps, 32 KB", String::new(), small_steps(32_768)),
    ]
}

#[cfg(test)]
mod tests {
    use super::held_sums;

    /// All lines of the text hold, none refutes, and the text has 32 KB.
    #[test]
    fn lines_that_hold_do_not_refute() {
        let text = held_sums(300);
        assert!((32_000..=32_768).contains(&text.len()), "{} bytes", text.len());
        if oracle::ORIGINAL {
            let account = oracle::account(text.as_bytes()).expect("it is read");
            assert!(account.lines.len() == 300 && account.lines.iter().all(|line| line.holds) && !account.refuted);
        }
    }
}
