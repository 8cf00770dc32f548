//! The proved reader (the static library of crate `reading`) beside a plain Rust reader: times of both on the same texts in
//! one run, or a comparison of both on random and damaged texts.
//!
//!     reading                      times
//!     reading --compare N SEED     N texts: the number and byte of each refusal, or every command and term
mod plain;
mod texts;

use plain::{File, Operator, Refusal, Rule, Term};
use std::hint::black_box;
use std::time::Instant;

#[link(name = "reading", kind = "static")]
extern "C" {
    // a slice is two arguments: its pointer and its length
    fn cutting_planes_read(
        text: *const u8, text_len: usize, nodes: *mut u32, nodes_len: usize, commands: *mut u16, commands_len: usize,
        answer: *mut usize, answer_len: usize,
    ) -> usize;
}

const NODE_WORDS: usize = 16384;
const COMMAND_WORDS: usize = 6144;
const ANSWER_WORDS: usize = 3;

// How the tables are laid out.
const CHILDREN: usize = 12288;
const PARTS: usize = 1024;
const NUMERAL: u32 = 9;
const NEGATIVE: u32 = 10;
const NAME: u32 = 11;

/// The tables that are lent to the proved reader.
struct Tables {
    nodes: Vec<u32>,
    commands: Vec<u16>,
    answer: Vec<usize>,
}

impl Tables {
    fn new(nodes: usize, commands: usize, answer: usize) -> Self {
        Tables { nodes: vec![0; nodes], commands: vec![0; commands], answer: vec![0; answer] }
    }

    /// The number that the proved reader answers for the text.
    fn read(&mut self, text: &[u8]) -> usize {
        let (nodes, commands, answer) = (&mut self.nodes, &mut self.commands, &mut self.answer);
        // the pointers and lengths are those of live slices
        unsafe {
            cutting_planes_read(
                text.as_ptr(), text.len(), nodes.as_mut_ptr(), nodes.len(), commands.as_mut_ptr(), commands.len(),
                answer.as_mut_ptr(), answer.len(),
            )
        }
    }

    fn children(&self, first: u32, count: u32) -> &[u32] {
        &self.nodes[CHILDREN + first as usize..][..count as usize]
    }

    /// Whether node i is the term. `numbers` has the table's number of each of the file's names that was met so far.
    fn is_term(&self, i: u32, term: &Term, file: &File, text: &[u8], numbers: &mut [Option<u32>]) -> bool {
        let [kind, a, b] = self.nodes[3 * i as usize..][..3] else { return false };
        match term {
            Term::Numeral(number) => {
                kind == if *number < 0 { NEGATIVE } else { NUMERAL } && a == number.unsigned_abs() && b == 0
            }
            Term::Variable(name) => {
                kind >= NAME
                    && text.get(a as usize..b as usize) == Some(file.names[*name])
                    && *numbers[*name].get_or_insert(kind) == kind
            }
            Term::Application(operator, terms) => {
                kind == *operator as u32 && self.are_terms(a, b, terms, file, text, numbers, i)
            }
        }
    }

    /// Whether so many child words are the terms, each of a node below `limit`.
    #[allow(clippy::too_many_arguments)]
    fn are_terms(
        &self, first: u32, count: u32, terms: &[Term], file: &File, text: &[u8], numbers: &mut [Option<u32>], limit: u32,
    ) -> bool {
        let used = self.answer[2];
        first as usize + count as usize <= used
            && count as usize == terms.len()
            && self.children(first, count).iter().zip(terms).all(|(&child, term)| {
                child < limit && self.is_term(child, term, file, text, numbers)
            })
    }

    /// Whether the tables say what the file does: every command and every term, and equal numbers for equal names alone.
    fn is_file(&self, file: &File, text: &[u8]) -> bool {
        let nodes = self.answer[1] as u32;
        let mut numbers = vec![None; file.names.len()];
        let all = file.commands.iter().enumerate().all(|(number, command)| {
            let [start, end] = self.commands[2 * number..][..2] else { return false };
            let from_end = |word: u16| text.len().wrapping_sub(word.into());
            let parts = &self.commands[PARTS + 7 * number..][..7];
            let parts: Vec<u32> = parts.iter().map(|&word| word.into()).collect();
            let [kind, clause, terms, premises, cited, arguments, given] = parts[..] else { return false };
            text.get(from_end(start)..from_end(end)) == Some(command.id)
                && kind == command.rule.map_or(0, |rule| 1 + rule as u32)
                && self.are_terms(clause, terms, &command.clause, file, text, &mut numbers, nodes)
                && cited as usize == command.premises.len()
                && premises as usize + cited as usize <= self.answer[2]
                && self.children(premises, cited).iter().zip(&command.premises).all(|(&one, &other)| one as usize == other)
                && self.are_terms(arguments, given, &command.arguments, file, text, &mut numbers, nodes)
        });
        let mut given: Vec<u32> = numbers.iter().flatten().copied().collect();
        given.sort_unstable();
        given.dedup();
        all && self.answer[0] == file.commands.len() && self.answer[1] == file.nodes && given.len() == file.names.len()
    }

    /// Whether the proved reader answered what the plain one did.
    fn agree(&self, number: usize, plain: &Result<File, Refusal>, text: &[u8]) -> bool {
        match plain {
            Ok(file) => number == 0 && self.is_file(file, text),
            Err(refusal) => number == usize::from(refusal.number) && self.answer[0] == refusal.byte,
        }
    }
}

/// The layout names operators and rules by their places.
fn check_numbers() {
    assert_eq!([Operator::Plus as u32, Operator::AtLeast as u32, Operator::And as u32], [0, 3, 8]);
    assert_eq!([Rule::Addition as u32, Rule::Literal as u32, Rule::Part as u32], [0, 4, 7]);
}

/// The median of the times in microseconds.
fn median(times: &mut [f64]) -> f64 {
    times.sort_unstable_by(f64::total_cmp);
    times[times.len() / 2]
}

fn time(run: impl FnOnce()) -> f64 {
    let start = Instant::now();
    run();
    start.elapsed().as_secs_f64() * 1e6
}

/// Prints the times of both readers on each text.
fn measure() {
    const RUNS: usize = 201;
    let mut tables = Tables::new(NODE_WORDS, COMMAND_WORDS, ANSWER_WORDS);
    println!("microseconds to read a text, median of {RUNS} runs of each reader, one after the other in turn;");
    println!("the lent tables are not cleared between runs, and what the plain reader allocates is freed in its time");
    println!("{:34} {:>6} {:>8} {:>6} {:>9} {:>9} {:>7}", "text", "bytes", "commands", "nodes", "proved", "plain", "ratio");
    for (name, text) in texts::measured() {
        let number = tables.read(&text);
        let plain = plain::read(&text);
        assert!(tables.agree(number, &plain, &text), "the readers differ on: {name}");
        let (mut proved_times, mut plain_times) = (Vec::new(), Vec::new());
        for _ in 0..RUNS {
            proved_times.push(time(|| {
                black_box(tables.read(black_box(&text)));
            }));
            plain_times.push(time(|| {
                drop(black_box(plain::read(black_box(&text))));
            }));
        }
        let (proved, other) = (median(&mut proved_times), median(&mut plain_times));
        let counts = plain.map_or(("-".into(), "-".into()), |file| (file.commands.len().to_string(), file.nodes.to_string()));
        println!("{name:34} {:6} {:>8} {:>6} {proved:9.1} {other:9.1} {:7.2}", text.len(), counts.0, counts.1, proved / other);
    }
}

/// Tables that are too small are answered by 1, and nothing is written.
fn check_small(text: &[u8]) {
    for (nodes, commands, answer) in [
        (NODE_WORDS - 1, COMMAND_WORDS, ANSWER_WORDS), (NODE_WORDS, COMMAND_WORDS - 1, ANSWER_WORDS),
        (NODE_WORDS, COMMAND_WORDS, ANSWER_WORDS - 1), (0, COMMAND_WORDS, ANSWER_WORDS), (NODE_WORDS, 0, ANSWER_WORDS),
        (NODE_WORDS, COMMAND_WORDS, 0), (0, 0, 0),
    ] {
        let mut tables = Tables::new(nodes, commands, answer);
        tables.nodes.fill(7);
        tables.commands.fill(7);
        tables.answer.fill(7);
        assert_eq!(tables.read(text), 1, "{nodes}, {commands} and {answer} words");
        let untouched = tables.nodes.iter().all(|&word| word == 7) && tables.commands.iter().all(|&word| word == 7);
        assert!(untouched && tables.answer.iter().all(|&word| word == 7), "{nodes}, {commands} and {answer} words: written");
    }
}

/// Compares both readers on so many texts, and says whether they agree on all.
fn compare(count: usize, seed: u64) -> bool {
    let mut random = texts::Random::new(seed);
    let mut exact = Tables::new(NODE_WORDS, COMMAND_WORDS, ANSWER_WORDS);
    let mut larger = Tables::new(NODE_WORDS + 100, COMMAND_WORDS + 100, ANSWER_WORDS + 100);
    let (mut read, mut commands, mut nodes, mut differing, mut refused) = (0, 0, 0, 0, [0; 9]);
    for place in 0..count {
        let text = texts::random(&mut random);
        let tables = if random.below(8) == 0 { &mut larger } else { &mut exact };
        if random.below(64) == 0 {
            tables.nodes.fill_with(|| random.next() as u32);
            tables.commands.fill_with(|| random.next() as u16);
            tables.answer.fill_with(|| random.next() as usize);
        }
        let number = tables.read(&text);
        let plain = plain::read(&text);
        match &plain {
            Ok(file) => (read, commands, nodes) = (read + 1, commands + file.commands.len(), nodes + file.nodes),
            Err(refusal) => refused[usize::from(refusal.number)] += 1,
        }
        if !tables.agree(number, &plain, &text) {
            differing += 1;
            println!("text {place} of seed {seed}: the proved reader answers {number}, {:?}", &tables.answer[..3]);
            println!("    the plain one {:?}", plain.map(|file| (file.commands.len(), file.nodes)));
            println!("    {}", text[..text.len().min(500)].escape_ascii());
        }
        if place % 1000 == 0 {
            check_small(&text);
        }
    }
    println!("{count} texts, seed {seed}: {read} read, with {commands} commands and {nodes} nodes");
    for number in 2..=8 {
        println!("refused by {number}: {}", refused[number]);
    }
    println!("{differing} differ");
    differing == 0
}

fn main() {
    check_numbers();
    let words: Vec<String> = std::env::args().skip(1).collect();
    match words.iter().map(String::as_str).collect::<Vec<_>>()[..] {
        [] => measure(),
        ["--compare", count, seed] => {
            let (count, seed) = (count.parse().expect("a number of texts"), seed.parse().expect("a seed"));
            if !compare(count, seed) {
                std::process::exit(1);
            }
        }
        _ => {
            eprintln!("reading [--compare N SEED]");
            std::process::exit(2);
        }
    }
}
