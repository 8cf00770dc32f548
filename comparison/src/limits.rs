//! Texts at each limit of document 01, one below it and one beyond it.

use crate::random::Random;

const TEXT: usize = 32_768;
const NODES: usize = 4_096;
const DEPTH: usize = 64;
const COMMANDS: usize = 512;
const NAME: usize = 32;
const SUMMANDS: usize = 512;
const RELATIONS: [&str; 5] = [">=", ">", "<=", "<", "="];
const PRODUCT: &str = "(* 99999999 99999999)";

/// Kinds of texts at limits.
const KINDS: usize = 11;

/// One text of each kind at each side of its limit, with each choice that the kind has.
pub fn all() -> Vec<Vec<u8>> {
    let mut texts = Vec::new();
    for kind in 0..KINDS {
        for beyond in [-1, 0, 1, 2] {
            for choice in 0..choices(kind) {
                texts.push(text(kind, beyond, choice));
            }
        }
    }
    texts
}

/// A text at a limit by chance.
pub fn any(random: &mut Random) -> Vec<u8> {
    let kind = random.below(KINDS);
    let beyond = random.between(-2, 2);
    let choice = random.below(choices(kind));
    text(kind, beyond, choice)
}

fn choices(kind: usize) -> usize {
    [3, 8, 6, 4, 4, 10, PLACES.len() * 5, 5 * 6, 5 * 4, 12, 9][kind]
}

fn text(kind: usize, beyond: i64, choice: usize) -> Vec<u8> {
    let at = |limit: usize| (limit as i64 + beyond) as usize;
    match kind {
        0 => long_text(at(TEXT), choice),
        1 => many_nodes(at(NODES), choice),
        2 => deep_term(at(DEPTH), choice),
        3 => many_commands(at(COMMANDS), choice),
        4 => long_name(at(NAME), choice),
        5 => numeral(beyond, choice),
        6 => summands(at(SUMMANDS), choice / 5, choice % 5),
        7 => leaves(at(SUMMANDS), RELATIONS[choice / 6], choice % 6),
        8 => normalized_summands(at(SUMMANDS), RELATIONS[choice / 4], choice % 4),
        9 => large_numbers(at(SUMMANDS), choice),
        _ => greatest_value(at(SUMMANDS), choice),
    }
    .into_bytes()
}

// ------------------------------------------------------------ the file

/// So many bytes: blanks alone, behind a proof, or a word that ends there.
fn long_text(bytes: usize, choice: usize) -> String {
    let start = "(assume a (>= (* 1 x) 1))\n(step b (cl (>= (* 2 x) 2)) :rule cp_multiplication :premises (a) :args (2))\n";
    match choice {
        0 => " ".repeat(bytes),
        1 => format!("{start}{}", "\n".repeat(bytes - start.len())),
        _ => format!("{start}{}(", "\t".repeat(bytes - start.len() - 1)),
    }
}

/// So many nodes: leaves, applications, arguments or cited premises at the end, the last one of any kind.
fn many_nodes(nodes: usize, choice: usize) -> String {
    let leaves = |count: usize| " x".repeat(count);
    match choice {
        0 => format!("(assume a (+{}))", leaves(nodes - 1)),
        1 => format!("(assume a (+{} (- x)))", leaves(nodes - 3)),
        2 => format!("(step a (cl{}) :rule cp_literal :args (x))", leaves(nodes - 1)),
        3 => format!("(step a (cl) :rule cp_literal :args ({}))", leaves(nodes)),
        4 => format!("(assume a x)(step b (cl (+{})) :rule cp_part :premises (a{}))", leaves(nodes - 13), " a".repeat(10)),
        5 => format!("(assume a x)(step b (cl (+{})) :rule cp_part :premises (a undefined))", leaves(nodes - 4)),
        6 => format!("(assume a (+{} ()))", leaves(nodes - 2)),
        _ => format!("(assume a (and{}))(assume a x)", leaves(nodes - 2)),
    }
}

/// A term of so many levels, alone or with more of them.
fn deep_term(depth: usize, choice: usize) -> String {
    let nested = |operator: &str, inner: &str, levels: usize| {
        format!("{}{inner}{}", format!("({operator} ").repeat(levels), ")".repeat(levels))
    };
    let minus = |inner: &str, levels: usize| format!("{}{inner}{}", "(- 1 ".repeat(levels), ")".repeat(levels));
    match choice {
        0 => format!("(assume a {})", nested("and", "x", depth - 1)),
        1 => format!("(assume a {})", nested("+", "()", depth - 1)),
        2 => format!("(assume a {})", nested("and", "(>= (* 1 x) 1)", depth - 3)),
        3 => format!("(step a (cl (>= {0} 0)) :rule cp_literal :args ({0}))", minus("x", depth - 2)),
        4 => format!("(step a (cl (= (>= {} 0) (>= x 0))) :rule cp_normalize)", nested("+", "x", depth - 3)),
        _ => format!("(step a (cl (= (>= {} 7) (>= x 8))) :rule cp_normalize)", minus("x", depth - 3)),
    }
}

/// So many commands, the last one of any kind.
fn many_commands(commands: usize, choice: usize) -> String {
    let mut text: String = (1..commands).map(|number| format!("(assume a{number} (>= 0 0))\n")).collect();
    text += match choice {
        0 => "(assume last x)",
        1 => "(step last (cl (>= 0 0)) :rule cp_addition :premises (a1 a511))",
        2 => "()",
        _ => "x",
    };
    text
}

/// A name of so many bytes as an id, a variable, a premise or a rule.
fn long_name(bytes: usize, choice: usize) -> String {
    let name = "n".repeat(bytes);
    match choice {
        0 => format!("(assume {name} (>= 0 1))"),
        1 => format!("(assume a (>= (* 1 {name}) 1))"),
        2 => format!("(assume {name} x)(step b (cl) :rule cp_literal :premises ({name}))"),
        _ => format!("(step b (cl) :rule {name})"),
    }
}

/// Numerals around the range's ends, and of forms like them.
fn numeral(beyond: i64, choice: usize) -> String {
    let largest = 99_999_999 + beyond;
    let word = match choice {
        0 => largest.to_string(),
        1 => format!("-{largest}"),
        2 => format!("0{largest}"),
        3 => beyond.to_string(),
        4 => format!("-0{beyond}"),
        5 => format!("{largest}x"),
        6 => format!("+{largest}"),
        7 => "0".repeat((4 + beyond) as usize),
        8 => "9".repeat((20 + beyond) as usize),
        _ => format!("18446744073709551{}", 615 + beyond),
    };
    format!("(assume a (>= 0 {word}))")
}

// ------------------------------------------------------------ sums

/// Where a long sum stands in a step.
const PLACES: [(&str, &str, usize); 9] = [
    ("cp_addition", "", 0),
    ("cp_addition", "", 1),
    ("cp_addition", "", 2),
    ("cp_multiplication", "1", 0),
    ("cp_multiplication", "1", 2),
    ("cp_division", "1", 0),
    ("cp_division", "1", 2),
    ("cp_saturation", "", 0),
    ("cp_saturation", "", 2),
];

fn repeated(count: usize, summand: &str) -> String {
    format!("(+{})", format!(" {summand}").repeat(count))
}

fn numbered(count: usize, coefficient: i64) -> String {
    let summands: String = (0..count).map(|number| format!(" (* {coefficient} x{number})")).collect();
    format!("(+{summands})")
}

/// A step of the rule over these inequalities.
fn step(rule: &str, argument: &str, left: &str, right: &str, conclusion: &str) -> String {
    let arguments = if argument.is_empty() { String::new() } else { format!(" :args ({argument})") };
    match rule {
        "cp_addition" => {
            format!("(assume l {left})\n(assume r {right})\n(step s (cl {conclusion}) :rule {rule} :premises (l r))\n")
        }
        _ => format!("(assume l {left})\n(step s (cl {conclusion}) :rule {rule} :premises (l){arguments})\n"),
    }
}

/// A sum of so many summands in a place of a rule.
fn summands(count: usize, place: usize, choice: usize) -> String {
    let (rule, argument, place) = PLACES[place];
    let (long, short) = match choice {
        0 => (format!("(>= {} {count})", repeated(count, "(* 1 x)")), format!("(>= (* {count} x) {count})")),
        1 => (format!("(>= {} 0)", repeated(count, "(* 0 x)")), "(>= 0 0)".to_owned()),
        2 => (format!("(>= {} 1)", numbered(count, 1)), format!("(>= {} 1)", numbered(count.min(SUMMANDS), 1))),
        3 => (format!("(>= {} 0)", repeated(count, "x")), "(>= 0 0)".to_owned()),
        _ => (format!("(>= {} y)", repeated(count, "4")), "(>= 0 0)".to_owned()),
    };
    match place {
        0 => step(rule, argument, &long, "(>= 0 0)", &short),
        1 => step(rule, argument, "(>= 0 0)", &long, &short),
        _ => step(rule, argument, &short, "(>= 0 0)", &long),
    }
}

/// An assumption of so many summands at its greatest value or above it; sums of large numbers on both sides of every constant.
fn greatest_value(count: usize, choice: usize) -> String {
    let both = |summands: [&str; 2]| format!("(+{})", (0..count).map(|at| format!(" {}", summands[at % 2])).collect::<String>());
    let (sum, constant) = match choice {
        0 => (repeated(count, "(* 0 x)"), 1),
        1 => (repeated(count, "(* 1 x)"), count as i64),
        2 => (repeated(count, "(* 1 x)"), count as i64 + 1),
        3 => (repeated(count, "(* -1 (- 1 x))"), 1),
        4 => (numbered(count, 1), count as i64 + 1),
        5 => (repeated(count, "(* 99999999 x)"), 99_999_999),
        6 => (repeated(count, "(* -99999999 x)"), -99_999_999),
        7 => (both(["(* -99999999 x)", "(* -99999999 (- 1 x))"]), -99_999_999),
        _ => (both(["(* 99999999 x)", "(* -99999999 x)"]), 1),
    };
    format!("(assume a (>= {sum} {constant}))\n")
}

// ------------------------------------------------------------ normalizations

fn normalize(relation: &str, left: &str, right: &str, normalized: &str) -> String {
    format!("(step s (cl (= ({relation} {left} {right}) {normalized})) :rule cp_normalize)\n")
}

/// The normalized form of so many x on the left side and a numeral on the right.
fn normal_form(relation: &str, count: usize, constant: i64) -> String {
    let straight = |constant: i64| format!("(>= {} {constant})", repeated(count, "x"));
    let flipped = |constant: i64| format!("(>= {} {constant})", repeated(count, "(- 1 x)"));
    let all = count as i64;
    match relation {
        ">=" => straight(constant),
        ">" => straight(constant + 1),
        "<=" => flipped(all - constant),
        "<" => flipped(all - constant + 1),
        _ => format!("(and {} {})", straight(constant), flipped(all - constant)),
    }
}

/// So many leaves on both sides together.
fn leaves(count: usize, relation: &str, choice: usize) -> String {
    let short = if relation == "=" { "(and (>= x 0) (>= x 0))" } else { "(>= x 0)" };
    let half = count / 2;
    match choice {
        0 => normalize(relation, &repeated(count - 1, "x"), "3", &normal_form(relation, count - 1, 3)),
        1 => normalize(
            relation,
            &repeated(half, "x"),
            &repeated(count - half, "1"),
            &normal_form(relation, half, (count - half) as i64),
        ),
        2 => normalize(relation, &format!("(- x{})", " 1".repeat(count - 2)), "0", &normal_form(relation, 1, count as i64 - 2)),
        3 => normalize(relation, "x", &repeated(count - 1, "(* 3 2)"), short),
        4 => normalize(relation, &format!("(- {})", repeated(count - 1, "x")), "0", &normal_form(relation, count - 1, 0)),
        _ => normalize(relation, &repeated(count - 1, "x"), "x", "x"),
    }
}

/// So many summands on the normalized side, in either half.
fn normalized_summands(count: usize, relation: &str, choice: usize) -> String {
    let long = format!("(>= {} 1)", repeated(count, "x"));
    let constant = format!("(>= (+ (* 2 3){}) 1)", " x".repeat(count - 1));
    let normalized = match (relation, choice) {
        ("=", 0) => format!("(and {long} (>= (- 1 x) 0))"),
        ("=", 1) => format!("(and (>= x 1) {long})"),
        ("=", 2) => format!("(and (>= x 1) {constant})"),
        ("=", _) => format!("(and {long} (> x 0))"),
        (_, 0) => long,
        (_, 1) => constant,
        (_, 2) => format!("(>= {} y)", repeated(count, "x")),
        _ => format!("(> {} 1)", repeated(count, "x")),
    };
    normalize(relation, "x", "1", &normalized)
}

// ------------------------------------------------------------ numbers as large as the limits let them grow

fn large_numbers(count: usize, choice: usize) -> String {
    let large = repeated(count, "(* 99999999 x)");
    let small = repeated(count, "(* -99999999 x)");
    let opposite = repeated(count, "(* 99999999 (- 1 x))");
    match choice {
        0 => step("cp_multiplication", "99999999", &format!("(>= {large} 99999999)"), "", &format!("(>= {large} 99999999)")),
        1 => step("cp_multiplication", "1", &format!("(>= {large} 0)"), "", &format!("(>= {large} 0)")),
        2 => step(
            "cp_division",
            "2",
            &format!("(>= {small} -99999999)"),
            "",
            &format!("(>= {} -49999999)", repeated(count, "(* -49999999 x)")),
        ),
        3 => step("cp_division", "99999999", &format!("(>= {large} 0)"), "", &format!("(>= (* {count} x) 0)")),
        4 => step("cp_addition", "", &format!("(>= {large} 0)"), &format!("(>= {small} 0)"), "(>= 0 0)"),
        5 => step("cp_addition", "", &format!("(>= {large} 0)"), &format!("(>= {opposite} 0)"), "(>= 0 0)"),
        6 => step("cp_saturation", "", &format!("(>= {large} 99999999)"), "", "(>= (* 99999999 x) 99999999)"),
        7 => normalize(">=", &repeated(count - 1, PRODUCT), "x", "(>= (- 1 x) 0)"),
        8 => normalize("<", "x", &repeated(count - 1, "(* -99999999 99999999)"), "(>= (- 1 x) 0)"),
        9 => normalize(">=", &small, "0", &format!("(>= {opposite} 0)")),
        10 => normalize(
            "=",
            &format!("(+ x {})", repeated(count / 2, PRODUCT)),
            &repeated(count - count / 2 - 1, PRODUCT),
            "(and (>= x 0) (>= (- 1 x) 1))",
        ),
        _ => normalize(">=", &repeated(1300, PRODUCT), "x", "(>= x 0)"),
    }
}
