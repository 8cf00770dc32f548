//! The texts that both readers are run on: those that are timed, and random and damaged ones from a seed.

const MAX_TEXT: usize = 32768;
const RULES: [&str; 8] = [
    "cp_addition", "cp_multiplication", "cp_division", "cp_saturation", "cp_literal", "cp_normalize", "cp_transfer", "cp_part",
];
const OPERATORS: [&str; 9] = ["+", "-", "*", ">=", ">", "<=", "<", "=", "and"];

// ---------------------------------------------------------------- texts that are timed

/// Pieces one after the other while they fit into a text, up to so many, between a start and an end.
fn filled(start: &str, most: usize, piece: impl Fn(usize) -> String, end: &str) -> Vec<u8> {
    let mut text = start.to_owned();
    for number in 0..most {
        let next = piece(number);
        if text.len() + next.len() + end.len() > MAX_TEXT {
            break;
        }
        text += &next;
    }
    (text + end).into_bytes()
}

fn small_steps() -> Vec<u8> {
    let step = |number: usize| {
        let (above, coefficient, rule) = (number.saturating_sub(1), 2 + number % 7, RULES[1 + number % 2]);
        format!("(step t{number} (cl (>= (* {coefficient} x{}) 1)) :rule {rule} :premises (t{above}) :args (2))\n", number % 20)
    };
    filled("(assume t0 (>= (* 2 x0) 1))\n", 512, |number| step(number + 1), "")
}

fn deep_terms() -> Vec<u8> {
    let term = |number: usize| format!("(assume a{number} {}x{number}{})\n", "(and\n  ".repeat(63), ")".repeat(63));
    filled("", 63, term, "")
}

/// Each text with its name.
pub fn measured() -> Vec<(&'static str, Vec<u8>)> {
    let summand = |number: usize| format!(" (* {} literal_{:03})", 1000000 + number, number % 16);
    let other_summand = |number: usize| format!(" (* {} literal_{number:04})", 100000 + number);
    let operand = |number: usize| format!(" n{number:06}");
    let long_name = |number: usize| format!(" a_long_name_for_a_variable_{number:05}");
    let few_long = |number: usize| format!(" a_long_name_for_a_variable_{:05}", number % 8);
    let refused = |mut text: Vec<u8>| {
        text.truncate(MAX_TEXT - 1);
        text.push(b';');
        text
    };
    vec![
        ("many small steps", small_steps()),
        ("sums, 16 names", filled("(assume a (>= (+", 1364, summand, ") 1))\n")),
        ("sums, a name for each summand", filled("(assume a (>= (+", 1364, other_summand, ") 1))\n")),
        ("4,094 different names", filled("(assume a (+", 4094, operand, "))\n")),
        ("long names, 8 different", filled("(assume a (+", 4094, few_long, "))\n")),
        ("long names, all different", filled("(assume a (+", 4094, long_name, "))\n")),
        ("terms of depth 64", deep_terms()),
        ("blanks", vec![b' '; MAX_TEXT]),
        ("small steps, refused at the end", refused(small_steps())),
        ("sums, refused at the end", refused(filled("(assume a (>= (+", 1364, summand, ") 1))\n"))),
    ]
}

// ---------------------------------------------------------------- random and damaged texts

/// SplitMix64.
pub struct Random(u64);

impl Random {
    pub fn new(seed: u64) -> Self {
        Random(seed)
    }

    pub fn next(&mut self) -> u64 {
        self.0 = self.0.wrapping_add(0x9e3779b97f4a7c15);
        let mut bits = self.0;
        bits = (bits ^ (bits >> 30)).wrapping_mul(0xbf58476d1ce4e5b9);
        bits = (bits ^ (bits >> 27)).wrapping_mul(0x94d049bb133111eb);
        bits ^ (bits >> 31)
    }

    pub fn below(&mut self, limit: usize) -> usize {
        (self.next() % limit as u64) as usize
    }

    fn chance(&mut self, percent: usize) -> bool {
        self.below(100) < percent
    }

    fn of<'a, T: ?Sized>(&mut self, choices: &[&'a T]) -> &'a T {
        choices[self.below(choices.len())]
    }
}

// Tokens of every kind, good and bad.
const TOKENS: [&[u8]; 78] = [
    b"(", b")", b"()", b"cl", b"assume", b"step", b"and", b":rule", b":premises", b":args", b"+", b"-", b"*", b">=", b">",
    b"<=", b"<", b"=", b"0", b"7", b"-5", b"99999999", b"-99999999", b"a", b"b", b"c1", b"x", b"y", b"zz", b"_@.9", b"And",
    b"CL", b"ass", b"cp_addition", b"cp_part", b"cp_literal", b"cp_", b"foo", b"nnnnnnnnnnnnnnnnnnnnnnnnnnnnnnnn",
    b"nnnnnnnnnnnnnnnnnnnnnnnnnnnnnnnnn", b"-0", b"00", b"007", b"-01", b"1x", b"-1.", b"100000000", b"-100000000",
    b"99999999999999999999", b"184467440737095516159", b"5>=", b";x", b"+1", b"--1", b"-x", b">==", b"=>", b".x", b":rul", b":rules",
    b":", b"x:", b"x-y", b"!", b"~x", b"\"x\"", b"\x00", b"\x80", b"\x7f", b"\x0b", b"\x1f", b"\xff", b"x\x00", b"1\xff",
    b"x\x00y", b":rule\x01", b"(\x00", b"\xc3\xa9",
];

/// The tokens of one random file.
struct Maker<'r> {
    random: &'r mut Random,
    tokens: Vec<Vec<u8>>,
    ids: usize,
}

impl Maker<'_> {
    fn put(&mut self, token: impl AsRef<[u8]>) {
        self.tokens.push(token.as_ref().to_vec());
    }

    fn numeral(&mut self) {
        let digits = self.random.below(8) as u32 + 1;
        let number = self.random.below(10usize.pow(digits));
        let minus = number != 0 && self.random.chance(30);
        self.put(format!("{}{number}", if minus { "-" } else { "" }));
    }

    fn variable(&mut self) {
        let name = match self.random.below(10) {
            0 => format!("v{}", self.random.below(400)),
            1 => format!("@{}", "long.".repeat(1 + self.random.below(6))),
            _ => self.random.of(&["x", "y", "z", "x1", "x2", "X", "_", "y.1"]).to_owned(),
        };
        self.put(name);
    }

    fn term(&mut self, depth: usize) {
        if depth == 0 || self.random.chance(35) {
            return if self.random.chance(50) { self.numeral() } else { self.variable() };
        }
        self.put("(");
        let operator = self.random.of(&OPERATORS);
        self.put(operator);
        for _ in 0..1 + self.random.below(3) {
            self.term(depth - 1);
        }
        self.put(")");
    }

    fn terms(&mut self, least: usize) {
        for _ in 0..least + self.random.below(3) {
            let depth = self.random.below(5);
            self.term(depth);
        }
    }

    fn command(&mut self) {
        self.put("(");
        let number = self.ids;
        self.ids += 1;
        if self.random.chance(40) {
            self.put("assume");
            self.put(format!("c{number}"));
            let depth = self.random.below(5);
            self.term(depth);
        } else {
            self.put("step");
            self.put(format!("c{number}"));
            self.put("(");
            self.put("cl");
            self.terms(0);
            self.put(")");
            self.put(":rule");
            let rule = self.random.of(&RULES);
            self.put(rule);
            if number > 0 && self.random.chance(60) {
                self.put(":premises");
                self.put("(");
                for _ in 0..1 + self.random.below(3) {
                    let above = self.random.below(number);
                    self.put(format!("c{above}"));
                }
                self.put(")");
            }
            if self.random.chance(40) {
                self.put(":args");
                self.put("(");
                self.terms(1);
                self.put(")");
            }
        }
        self.put(")");
    }
}

fn is_bracket(token: &[u8]) -> bool {
    token == b"(" || token == b")"
}

/// The tokens as a text: blanks between words, and here and there more of them, or none at a bracket.
fn written(random: &mut Random, tokens: &[Vec<u8>]) -> Vec<u8> {
    let mut text = Vec::new();
    let mut last: &[u8] = b"(";
    for token in tokens {
        let apart = !is_bracket(last) && !is_bracket(token);
        if apart || random.chance(40) {
            text.extend_from_slice(random.of(&[" ", " ", " ", "\n", "\t", "\r\n", "  "]).as_bytes());
        }
        text.extend_from_slice(token);
        last = token;
    }
    text.extend_from_slice(random.of(&["", "\n", " \n", "\r\n"]).as_bytes());
    text
}

/// One token changed, put in, taken out or exchanged.
fn damage_tokens(random: &mut Random, tokens: &mut Vec<Vec<u8>>) {
    let place = random.below(tokens.len() + 1);
    let token = random.of(&TOKENS).to_vec();
    if place == tokens.len() || random.chance(30) {
        tokens.insert(place, token);
        return;
    }
    match random.below(4) {
        0 => {
            tokens.remove(place);
        }
        1 => {
            let other = random.below(tokens.len());
            tokens.swap(place, other);
        }
        2 => tokens[place] = tokens[random.below(tokens.len())].clone(),
        _ => tokens[place] = token,
    }
}

/// One byte changed, put in or taken out, or the end cut off.
fn damage_bytes(random: &mut Random, text: &mut Vec<u8>) {
    if text.is_empty() {
        return;
    }
    let place = random.below(text.len());
    let byte = if random.chance(50) { random.next() as u8 } else { b"()() -01x9.:;=>+*~\n@_Aa"[random.below(23)] };
    match random.below(4) {
        0 => {
            text.remove(place);
        }
        1 => text.insert(place, byte),
        2 => text[place] = byte,
        _ => text.truncate(place),
    }
}

/// A text at about one of the limits: nodes, depth, commands, bytes, a name's or a numeral's length.
fn near_a_limit(random: &mut Random) -> Vec<u8> {
    let off = random.below(4);
    let mut text = match random.below(7) {
        0 => format!("(assume a (+{}))(assume b x)", " 1".repeat(4092 + off)),
        1 => {
            let depth = 62 + off;
            format!("(step t (cl {}x{}) :rule cp_part)", "(- ".repeat(depth), " y)".repeat(depth))
        }
        2 => (0..510 + off).map(|number| format!("(assume a{number} x)")).collect(),
        3 => format!("(assume a x){}", " ".repeat(MAX_TEXT - 14 + off)),
        4 => format!("(assume a (+ {0} {0}))", "n".repeat(30 + off)),
        5 => format!("(assume p x)(step t (cl) :rule cp_part :premises ({}))", "p ".repeat(4093 + off)),
        _ => format!("(assume a (+ {0} -{0}))", "9".repeat(6 + off)),
    }
    .into_bytes();
    if random.chance(40) {
        damage_bytes(random, &mut text);
    }
    text
}

/// A random text: a file, mostly damaged; seldom any tokens, any bytes, or one at a limit.
pub fn random(random: &mut Random) -> Vec<u8> {
    match random.below(1000) {
        0..=9 => return near_a_limit(random),
        10..=59 => {
            let tokens: Vec<Vec<u8>> = (0..random.below(30)).map(|_| random.of(&TOKENS).to_vec()).collect();
            return written(random, &tokens);
        }
        60..=79 => return (0..random.below(60)).map(|_| random.next() as u8).collect(),
        _ => {}
    }
    let commands = if random.chance(2) { random.below(60) } else { random.below(7) };
    let mut maker = Maker { random, tokens: Vec::new(), ids: 0 };
    for _ in 0..commands {
        maker.command();
    }
    let mut tokens = maker.tokens;
    let way = random.below(10);
    if way < 5 {
        for _ in 0..1 + random.below(2) {
            damage_tokens(random, &mut tokens);
        }
    }
    let mut text = written(random, &tokens);
    if (5..8).contains(&way) {
        for _ in 0..1 + random.below(2) {
            damage_bytes(random, &mut text);
        }
    }
    text
}
