//! Pairs at each limit of two texts together, one below it and one beyond it.

use crate::pair::Pair;
use crate::random::Random;

const TEXT: usize = 32_768;
const NODES: usize = 4_096;
const COMMANDS: usize = 512;
const NAME: usize = 32;
const SUMMANDS: usize = 512;

/// Kinds of pairs at limits.
const KINDS: usize = 8;

/// One pair of each kind at each side of its limit, with each choice that the kind has.
pub fn all() -> Vec<Pair> {
    let mut pairs = Vec::new();
    for kind in 0..KINDS {
        for beyond in [-1, 0, 1, 2] {
            for choice in 0..choices(kind) {
                pairs.push(pair(kind, beyond, choice));
            }
        }
    }
    pairs
}

/// A pair at a limit by chance.
pub fn any(random: &mut Random) -> Pair {
    let kind = random.below(KINDS);
    let beyond = random.between(-2, 2);
    let choice = random.below(choices(kind));
    pair(kind, beyond, choice)
}

fn choices(kind: usize) -> usize {
    [6, 5, 11, 7, 12, 4, 9, 12][kind]
}

fn pair(kind: usize, beyond: i64, choice: usize) -> Pair {
    let at = |limit: usize| (limit as i64 + beyond) as usize;
    let (opb, text) = match kind {
        0 => long_opb(at(TEXT), choice),
        1 => long_proof(at(TEXT), choice),
        2 => many_commands(at(COMMANDS), choice),
        3 => many_nodes(at(NODES), choice),
        4 => nodes_of_both(at(NODES), choice),
        5 => long_name(at(NAME), choice),
        6 => number(beyond, choice),
        _ => summands(at(SUMMANDS), choice),
    };
    Pair::behind(opb.into_bytes(), text.into_bytes())
}

/// So many bytes of the OPB text: blanks, a comment, a word or `;` that ends there, something wrong at its start.
fn long_opb(bytes: usize, choice: usize) -> (String, String) {
    let start = "1 x1 >= 1 ;\n";
    let opb = match choice {
        0 => " ".repeat(bytes),
        1 => format!("{start}*{}", "c".repeat(bytes - start.len() - 1)),
        2 => format!("1 x1 >= 1{};", "\t".repeat(bytes - 10)),
        3 => format!("{start}{}1", "\n".repeat(bytes - start.len() - 1)),
        4 => format!(";{}", " ".repeat(bytes - 1)),
        _ => "*\n".repeat(bytes).split_off(bytes),
    };
    (opb, "(step t (cl (>= (* 2 x1) 2)) :rule cp_addition :premises (c1 c1))".to_owned())
}

/// So many bytes of the proof text, behind an OPB text that is read or refused.
fn long_proof(bytes: usize, choice: usize) -> (String, String) {
    let opb = ["", "1 x1 >= 1 ;", ";", "1 x1 >= 1 ; min:", "* \u{7f}"][choice];
    (opb.to_owned(), " ".repeat(bytes))
}

/// So many commands of both texts, the last one of any kind and in either text.
fn many_commands(commands: usize, choice: usize) -> (String, String) {
    let some = |count: usize| ">= 0 ;\n".repeat(count);
    let addition = "(step t (cl (>= 0 0)) :rule cp_addition :premises (c1 c510))";
    match choice {
        0 => (some(commands), String::new()),
        1 => (some(commands - 2) + "= 0 ;", String::new()),
        2 => (some(commands - 1) + "* c\n  = 0 ;\n", String::new()),
        3 => ("= 0 ;".repeat(commands / 2), "(assume a x)".to_owned()),
        4 => (some(commands - 1), addition.to_owned()),
        5 => (some(commands - 1), "()".to_owned()),
        6 => (some(commands - 1) + "1 x1 >= 0", String::new()),
        7 => (some(commands - 1) + " -0 x1 >= 0 ;", String::new()),
        8 => (some(commands - 1) + " ;", String::new()),
        9 => (some(1), (1..commands).map(|number| format!("(assume a{number} x)\n")).collect()),
        _ => (some(commands - 1), "x".to_owned()),
    }
}

/// Summands with so many nodes, and as few negated ones as there can be.
fn with_nodes(nodes: usize) -> String {
    let negated = (0..3).find(|negated| (nodes - 5 * negated) % 3 == 0).unwrap_or(0);
    format!("{}{}", "1 x1 ".repeat((nodes - 5 * negated) / 3), "1 ~x1 ".repeat(negated))
}

/// So many nodes of the OPB text: one constraint, an `=`, several, the last one of any kind.
fn many_nodes(nodes: usize, choice: usize) -> (String, String) {
    let sum = |count: usize| with_nodes(count - 3);
    let opb = match choice {
        0 => sum(nodes) + ">= 0 ;",
        1 => sum(nodes / 2) + "= 0 ;",
        2 => sum(nodes - 5) + ">= 0 ; 1 x1 >= 0 ;",
        3 => sum(nodes - 7) + ">= 0 ;\n* c\n 1 ~x1 >= 0 ;",
        4 => sum(nodes - 3) + ">= 0 ; >= 0 ;",
        5 => sum(nodes - 10) + ">= 0 ; 1 x1 = 0 ;",
        _ => sum(nodes) + ">= 0",
    };
    (opb, String::new())
}

/// So many nodes of both texts, the last one of any kind in the proof text.
fn nodes_of_both(nodes: usize, choice: usize) -> (String, String) {
    let (own, text) = [
        (1, "(assume a x)"),
        (2, "(assume a (- x))"),
        (2, "(assume a (- ()))"),
        (1, "(step t (cl) :rule cp_literal :premises (c1))"),
        (1, "(step t (cl) :rule cp_literal :premises (c9))"),
        (2, "(step t (cl) :rule cp_literal :premises (c1 c1))"),
        (1, "(step t (cl) :rule cp_literal :args (x))"),
        (0, "(step t (cl) :rule cp_literal)"),
        (0, ""),
        (6, "(step t (cl (>= (* 0 x1) 0)) :rule cp_multiplication :premises (c1) :args (0))"),
        (1, "(step c1 (cl) :rule cp_literal :args (x))"),
        (1, "(assume a ()"),
    ][choice];
    (with_nodes(nodes - own - 3) + ">= 0 ;", text.to_owned())
}

/// A variable of so many bytes.
fn long_name(bytes: usize, choice: usize) -> (String, String) {
    let name = format!("x{}", "1".repeat(bytes - 1));
    let cite = format!("(step t (cl (>= (* 2 {name}) 0)) :rule cp_multiplication :premises (c1) :args (2))");
    match choice {
        0 => (format!("1 {name} >= 0 ;"), cite),
        1 => (format!("1 ~{name} >= 0 ;"), String::new()),
        2 => (format!("1 x{} 1 {name}1 >= 0 ;", "0".repeat(bytes - 2)), String::new()),
        _ => (format!("1 ~~{name} >= 0 ;"), String::new()),
    }
}

/// Numbers around the range's ends, and of forms like them, as coefficient and constant.
fn number(beyond: i64, choice: usize) -> (String, String) {
    let largest = 99_999_999 + beyond;
    let word = match choice {
        0 => largest.to_string(),
        1 => format!("-{largest}"),
        2 => format!("+{largest}"),
        3 => format!("0{largest}"),
        4 => format!("{beyond:+}"),
        5 => format!("-0{beyond}"),
        6 => format!("+0{}", beyond.max(0)),
        7 => "0".repeat((3 + beyond) as usize),
        _ => format!("18446744073709551{}", 615 + beyond),
    };
    let number: i64 = word.parse().unwrap_or(0);
    let cite = format!("(step t (cl (>= (* {number} x1) {number})) :rule cp_division :premises (c1) :args (1))");
    (format!("{word} x1 >= {word} ;\n1 x1 = {word} ;"), cite)
}

/// Constraints of so many summands that are cited.
fn summands(count: usize, choice: usize) -> (String, String) {
    let sum = "1 x1 ".repeat(count);
    // at the greatest value and above it, of each half
    match choice {
        8 => return (format!("{sum}>= {count} ;"), String::new()),
        9 => return (format!("{sum}>= {} ;", count + 1), String::new()),
        10 => return (format!("{sum}= 0 ;"), String::new()),
        11 => return (format!("{sum}= -1 ;"), String::new()),
        _ => (),
    }
    let (rule, premises, argument, result) = [
        ("cp_addition", "c1 c2", "", count),
        ("cp_addition", "c2 c1", "", count),
        ("cp_multiplication", "c1", "2", 2 * count),
        ("cp_division", "c1", "2", count.div_ceil(2)),
        ("cp_saturation", "c1", "", 1),
        ("cp_saturation", "c1", "", count),
        ("cp_addition", "c1 c1", "", 2 * count),
        ("cp_literal", "c1", "x1", 1),
    ][choice];
    let arguments = if argument.is_empty() { String::new() } else { format!(" :args ({argument})") };
    let clause = format!("(>= (* {result} x1) {})", usize::from(choice == 4));
    let constant = usize::from(choice == 4);
    (format!("{sum}>= {constant} ; >= 0 ;"), format!("(step t (cl {clause}) :rule {rule} :premises ({premises}){arguments})"))
}

#[cfg(test)]
mod tests {
    use super::{all, with_nodes};

    #[test]
    fn nodes_are_as_many() {
        for nodes in 30..60 {
            let text = with_nodes(nodes);
            assert_eq!(3 * text.matches(" x1 ").count() + 5 * text.matches(" ~x1 ").count(), nodes);
        }
    }

    #[test]
    fn texts_end_at_their_limits() {
        let lengths: Vec<usize> = all().iter().map(|pair| pair.constraints().len()).collect();
        assert!([32_767, 32_768, 32_769, 32_770].iter().all(|length| lengths.contains(length)));
    }
}
