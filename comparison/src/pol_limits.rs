//! Texts at each limit of pol lines, document 02, No. 2, one below it and one beyond it.

use crate::random::Random;

const LINES: usize = 64;
const PLACES: usize = 32;
const LITERALS: usize = 64;
const SUMMANDS: usize = 512;
const COMMANDS: usize = 512;
const NODES: usize = 4_096;
const TEXT: usize = 32_768;
const NAME: usize = 32;

/// How many choices each kind has.
const CHOICES: [usize; 8] = [7, 6, 10, 14, 4, 4, 4, 3];

/// One text of each kind at each side of its limit, with each choice that the kind has.
pub fn all() -> Vec<Vec<u8>> {
    let mut texts = Vec::new();
    for (kind, choices) in CHOICES.into_iter().enumerate() {
        for beyond in [-1, 0, 1, 2] {
            texts.extend((0..choices).map(|choice| text(kind, beyond, choice)));
        }
    }
    texts
}

/// A text at a limit by chance.
pub fn any(random: &mut Random) -> Vec<u8> {
    let kind = random.below(CHOICES.len());
    text(kind, random.between(-2, 2), random.below(CHOICES[kind]))
}

fn text(kind: usize, beyond: i64, choice: usize) -> Vec<u8> {
    let at = |limit: usize| (limit as i64 + beyond) as usize;
    match kind {
        0 => many_lines(at(LINES), choice),
        1 => high_stack(at(PLACES), choice),
        2 => many_literals(at(LITERALS), choice),
        3 => large_numbers(beyond, choice),
        4 => long_sum(at(SUMMANDS), choice),
        5 => behind_others(beyond, choice),
        6 => long_name(at(NAME), choice),
        _ => long_line(at(TEXT), choice),
    }
    .into_bytes()
}

/// So many pol lines, the last of any kind; steps between them count for nothing.
fn many_lines(lines: usize, choice: usize) -> String {
    let step = if choice == 1 { "(step t (cl (>= x 0)) :rule cp_literal :args (x))" } else { "" };
    let mut text: String = (1..lines).map(|number| format!("(pol p{number} x {number} *)\n")).collect();
    text += step;
    text += match choice {
        0 | 1 => "(pol last p1 p2 + s)",
        2 => "(pol",
        3 => "(pol p1 x)",
        4 => "(pol last)",
        5 => "(pol last d)",
        _ => "(poll last x)",
    };
    text
}

/// So many places of the stack: literals, lines, or what is added up again.
fn high_stack(places: usize, choice: usize) -> String {
    let pushes = |word: &str| format!("{word} ").repeat(places);
    let adds = " +".repeat(places - 1);
    match choice {
        0 => format!("(pol p {}{adds})", pushes("x")),
        1 => format!("(pol p {}{adds})", pushes("~x")),
        2 => format!("(assume a (>= (* 2 x) 1))(pol p {}{adds} {places} d)", pushes("a")),
        3 => format!("(assume a x)(pol p {}a{adds})", "y ".repeat(places - 1)),
        4 => format!("(assume a (>= (* 1 x) 1))(pol p {} 2 * s{})", pushes("a"), &adds[2..]),
        _ => format!("(pol p {}x{})", "x y + ".repeat(places - 1), " +".repeat(places - 1)),
    }
}

/// So many literals of an entry: pushed at once, added one by one, zeros among them.
fn many_literals(literals: usize, choice: usize) -> String {
    let sum = |from: usize, to: usize| (from..to).map(|number| format!(" (* 1 v{number})")).collect::<String>();
    let added = |from: usize, to: usize| (from..to).map(|number| format!(" v{number} +")).collect::<String>();
    match choice {
        0 => format!("(assume a (>= (+{}) 1))(pol p a)", sum(0, literals)),
        1 => format!("(pol p v0{})", added(1, literals)),
        2 => format!("(pol p v0{} ~v0 + ~v1 +)", added(1, literals - 2)),
        3 => format!("(assume a (>= (+{} (* 0 z) (* 0 (- 1 z))) 1))(pol p a)", sum(0, literals - 2)),
        4 => format!("(assume a (>= (+{}) 1))(pol p a 0 * w +)", sum(0, literals - 1)),
        5 => format!("(assume a (>= (+{}) 1))(pol p a 2 d s ~v0 +)", sum(0, literals - 1)),
        6 => format!("(assume a (>= (+{0}{0}) 1))(pol p a)", sum(0, literals)),
        7 => format!("(assume a (>= (+{}) 1))(assume b (>= (+{}) 1))(pol p a b +)", sum(0, 40), sum(20, literals)),
        8 => format!("(assume a (>= (+{}) 1))(pol p a a + a +)(pol q p ~v0 + -1 *)", sum(0, literals)),
        _ => format!("(pol p v0{})(pol q p 0 *)(pol r q{})", added(1, literals), added(100, 100 + literals - 1)),
    }
}

/// Numbers at the end of the numerals: coefficients, constants, totals of a pushed line, and what cancels before it is judged.
fn large_numbers(beyond: i64, choice: usize) -> String {
    let (half, rest) = (50_000_000, 49_999_999 + beyond);
    let most = 99_999_999;
    match choice {
        0 => format!("(assume a (>= (* {half} x) 0))(assume b (>= (* {rest} x) 0))(pol p a b +)"),
        1 => format!("(assume a (>= 0 {half}))(assume b (>= 0 {rest}))(pol p a b +)"),
        2 => format!("(assume a (>= 0 -{half}))(assume b (>= 0 -{rest}))(pol p a b +)"),
        3 => format!("(assume a (>= (+ (* {half} x) (* {rest} x)) 0))(pol p a 0 *)"),
        4 => format!("(assume a (>= (+ (* -{half} x) (* -{rest} x)) 0))(pol p a)"),
        5 => format!("(assume a (>= (* {most} x) 0))(assume b (>= (* {most} (- 1 x)) {}))(pol p a b +)", beyond - 1),
        6 => {
            format!("(assume a (>= (* {most} x) {most}))(assume b (>= (* {most} (- 1 x)) {}))(pol p a b +)", most + beyond.min(0))
        }
        7 => format!("(assume a (>= (* 33333333 x) {}))(pol p a 3 *)", 33_333_333 + beyond),
        8 => format!("(assume a (>= 0 -33333333))(pol p a {} *)", 3 + beyond),
        9 => format!("(assume a (>= (* -{half} x) {rest}))(assume b (>= (* {half} (- 1 x)) 0))(pol p a b +)"),
        10 => format!("(pol p x {most} * ~y {most} * + {} *)", 1 + beyond),
        11 => format!("(pol p x {most} * {} *)", -1 - beyond),
        12 => format!("(assume a (>= (+ (* {most} x) (* {} x) (* 1 (+ x y))) 0))(pol p a)", 1 + beyond),
        _ => format!("(assume a (>= (* -{most} x) -{most}))(pol p a {} d)", (1 + beyond).max(1)),
    }
}

/// A pushed line of so many summands, which section 2 reads up to 512.
fn long_sum(summands: usize, choice: usize) -> String {
    let sum = |word: &str, count: usize| format!(" {word}").repeat(count);
    match choice {
        0 => format!("(assume a (>= (+{}) 1))(pol p a)", sum("(* 1 x)", summands)),
        1 => format!("(assume a (>= (+{}{}) 1))(pol p a s)", sum("(* 1 x)", 300), sum("(* 1 (- 1 x))", summands - 300)),
        2 => format!("(assume a (>= (+{}) 1))(pol p a a +)(pol q p)", sum("(* 0 x)", summands)),
        _ => format!("(assume a (>= (+{} x) 1))(pol p a)", sum("(* 1 x)", summands - 1)),
    }
}

/// A pol line behind so many nodes, which it adds none to, or as the last command.
fn behind_others(beyond: i64, choice: usize) -> String {
    let commands = (COMMANDS as i64 + beyond) as usize;
    let many: String = (1..commands).map(|number| format!("(assume a{number} (>= 0 0))")).collect();
    let full = format!("(assume a (>= 0 1))(assume b (+{}))", " 1".repeat((NODES as i64 - 4 + beyond) as usize));
    match choice {
        0 => format!("{many}(pol p a1 a2 +)"),
        1 => format!("{many}(pol a1 x)"),
        2 => format!("{full}(pol p a x + a 2 * + s)(pol q p p p p)"),
        _ => format!("{full}(pol p b)(assume c x)"),
    }
}

/// A name of so many bytes in a pol line.
fn long_name(bytes: usize, choice: usize) -> String {
    let name = "n".repeat(bytes);
    match choice {
        0 => format!("(pol p {name} {name} +)"),
        1 => format!("(pol p ~{name} {} +)", "n".repeat(31)),
        2 => format!("(pol {name} x)(pol q {name})"),
        _ => format!("(assume a (>= (* 1 {name}) 1))(pol p a ~{name} +)"),
    }
}

/// A text of so many bytes whose pol line has as many words as it has room for.
fn long_line(bytes: usize, choice: usize) -> String {
    let (start, end) = ("(assume a (>= (+ (* 3 x) (* 2 y)) 4))(pol p a", ")");
    let word = [" s", " ~x +", " 2 * 2 d"][choice];
    let count = (bytes - start.len() - end.len()) / word.len();
    let words = word.repeat(count);
    format!("{start}{words}{}{end}", " ".repeat(bytes - start.len() - end.len() - words.len()))
}

#[cfg(test)]
mod tests {
    use super::all;

    #[test]
    fn each_answer_and_the_end_of_a_text() {
        if !oracle::ORIGINAL {
            return;
        }
        let texts = all();
        let reports: String = texts.iter().map(|text| String::from_utf8_lossy(&oracle::report(text)).into_owned()).collect();
        for part in
            ["answer=52", "answer=53", "answer=54", "rule=pol answer=0", "refused=7", "refused=2", "refused=6", "refused=8"]
        {
            assert!(reports.contains(part), "{part}");
        }
        assert!([32_767, 32_768, 32_769].iter().all(|length| texts.iter().any(|text| text.len() == *length)));
    }
}
