//! The fixed list: files with many steps each and the reports that the oracle says are due, so that they can be replayed without Rust.

use crate::report::{parsed, Report};
use crate::rules::{Rule, ANSWERS, RULES};
use crate::texts;
use std::fs;
use std::path::Path;

/// The fewest steps of the list.
const FEWEST_STEPS: usize = 2_000;
/// The fewest times that each answer of each rule is in it.
const FEWEST: usize = 5;
/// How often each answer of each rule should be in it, where files can be chosen.
const WANTED: usize = 12;
/// The files are chosen out of so many.
const CANDIDATES: u64 = 1_500;
/// Where the indices of the list's texts begin, so that they are no texts of a run.
const FIRST_INDEX: u64 = 1 << 40;

type Reached = [[usize; ANSWERS]; RULES.len()];

/// A text with its report and how often each answer of each rule is in it.
struct Candidate {
    name: String,
    text: Vec<u8>,
    report: Vec<u8>,
    reached: Reached,
    steps: usize,
}

fn candidate(name: String, text: Vec<u8>) -> Option<Candidate> {
    let report = oracle::report(&text);
    let Report::Read(lines, _) = parsed(&report)? else { return None };
    let mut reached = [[0; ANSWERS]; RULES.len()];
    let mut steps = 0;
    for line in lines.iter().filter(|line| RULES.contains(&line.rule)) {
        reached[line.rule as usize][usize::from(line.answer)] += 1;
        steps += 1;
    }
    Some(Candidate { name, text, report, reached, steps })
}

fn add(total: &mut Reached, more: &Reached) {
    for (counts, more) in total.iter_mut().zip(more) {
        counts.iter_mut().zip(more).for_each(|(count, more)| *count += more);
    }
}

/// How many steps of a file have an answer that is not there as often as wanted.
fn gain(total: &Reached, more: &Reached) -> usize {
    let pairs = total.iter().flatten().zip(more.iter().flatten());
    pairs.map(|(count, more)| (*more).min(WANTED.saturating_sub(*count))).sum()
}

/// The files of the list: the systematic ones, then the most useful ones of those from the seed one after the other.
fn chosen(seed: u64) -> Vec<Candidate> {
    let systematic = long_sums().into_iter().chain(RULES.map(orders));
    let mut list: Vec<Candidate> = systematic.filter_map(|(name, text)| candidate(name, text)).collect();
    let mut total = [[0; ANSWERS]; RULES.len()];
    list.iter().for_each(|file| add(&mut total, &file.reached));
    let made = (0..CANDIDATES).map(|index| texts::for_the_fixed_list(seed, FIRST_INDEX + index));
    let mut others: Vec<Candidate> = made.filter_map(|text| candidate(String::new(), text)).collect();
    while !others.is_empty() && !(enough(&list) && others.iter().all(|file| gain(&total, &file.reached) == 0)) {
        let best = (0..others.len()).rev().max_by_key(|place| gain(&total, &others[*place].reached)).unwrap_or(0);
        let mut file = others.swap_remove(best);
        file.name = format!("steps_{:03}", list.len());
        add(&mut total, &file.reached);
        list.push(file);
    }
    list
}

fn enough(list: &[Candidate]) -> bool {
    list.iter().map(|file| file.steps).sum::<usize>() >= FEWEST_STEPS
}

/// Files in which sums of 513 summands are cited by many steps, and relations of 513 leaves are normalized.
fn long_sums() -> Vec<(String, Vec<u8>)> {
    let long = |summand: &str, count: usize| format!("(>= (+{}) 0)", format!(" {summand}").repeat(count));
    let mut sums = format!(
        "(assume zero (>= 0 0))\n(assume bare {})\n(assume ones {})\n(assume fits {})\n",
        long("x", 513),
        long("(* 1 x)", 513),
        long("x", 512)
    );
    for premise in ["bare", "ones", "fits"] {
        for (number, premises) in
            [format!("{premise} zero"), format!("zero {premise}"), format!("{premise} {premise}")].iter().enumerate()
        {
            sums += &format!("(step a{number}_{premise} (cl (>= (* 513 x) 0)) :rule cp_addition :premises ({premises}))\n");
        }
        for (number, argument) in ["1", "2", "3"].iter().enumerate() {
            sums += &format!(
                "(step m{number}_{premise} (cl (>= 0 0)) :rule cp_multiplication :premises ({premise}) :args ({argument}))\n"
            );
            sums +=
                &format!("(step d{number}_{premise} (cl (>= 0 0)) :rule cp_division :premises ({premise}) :args ({argument}))\n");
            sums +=
                &format!("(step s{number}_{premise} (cl (>= (* {argument} x) 0)) :rule cp_saturation :premises ({premise}))\n");
        }
    }
    let mut relations = String::new();
    for (number, relation) in [">=", ">", "<=", "<"].iter().enumerate() {
        relations += &format!("(step g{number} (cl (= ({relation} (+{}) 0) (>= x 0))) :rule cp_normalize)\n", " x".repeat(512));
    }
    relations += &format!("(step e (cl (= (= (+{}) 0) (and (>= x 0) (>= x 0)))) :rule cp_normalize)\n", " x".repeat(512));
    relations += &format!("(step n (cl (= (>= x 0) {})) :rule cp_normalize)\n", long("x", 513));
    relations += &format!("(step f (cl (= (>= x 0) {})) :rule cp_normalize)\n", long("x", 512));
    vec![("sums_513".to_owned(), sums.into_bytes()), ("leaves_513".to_owned(), relations.into_bytes())]
}

/// A file with each count of premises, arguments and terms of a rule against each other, so that the order of these checks shows.
fn orders(rule: Rule) -> (String, Vec<u8>) {
    let mut text = "(assume good (>= (* 1 x) 1))\n(assume odd (> x 0))\n".to_owned();
    text += "(step empty (cl) :rule cp_literal :args (x))\n(step two (cl x x) :rule cp_literal :args (x))\n";
    let mut number = 0;
    for premises in ["", "good", "odd", "good good", "empty", "good two", "empty good"] {
        for arguments in ["", "x", "-1", "1 1"] {
            for clause in ["", "(>= (* 1 x) 1)", "x", "x x"] {
                text += &format!("(step t{number} (cl {clause}) :rule {}", rule.name());
                for (keyword, inner) in [(":premises", premises), (":args", arguments)] {
                    if !inner.is_empty() {
                        text += &format!(" {keyword} ({inner})");
                    }
                }
                text += ")\n";
                number += 1;
            }
        }
    }
    (format!("orders_{}", rule.name()), text.into_bytes())
}

/// What the list has too little of.
fn lacking(total: &Reached, steps: usize) -> Vec<String> {
    let mut lacking = Vec::new();
    if steps < FEWEST_STEPS {
        lacking.push(format!("{steps} steps"));
    }
    for rule in RULES {
        for answer in rule.answers() {
            let count = total[rule as usize][usize::from(*answer)];
            if count < FEWEST {
                lacking.push(format!("{} answers {answer} {count} times", rule.name()));
            }
        }
    }
    lacking
}

/// Write the list; what is printed at the end.
pub fn write(folder: &Path, seed: u64) -> Result<String, String> {
    let list = chosen(seed);
    let mut total = [[0; ANSWERS]; RULES.len()];
    list.iter().for_each(|file| add(&mut total, &file.reached));
    let steps = list.iter().map(|file| file.steps).sum();
    let lacking = lacking(&total, steps);
    if !lacking.is_empty() {
        return Err(format!("too few: {}", lacking.join(", ")));
    }
    for file in &list {
        for (ending, bytes) in [("in", &file.text), ("out", &file.report)] {
            let path = folder.join(format!("{}.{ending}", file.name));
            fs::write(&path, bytes).map_err(|problem| format!("{}: {problem}", path.display()))?;
        }
    }
    let bytes: usize = list.iter().map(|file| file.text.len() + file.report.len()).sum();
    Ok(format!("{} files, {steps} steps, {bytes} bytes", list.len()))
}

/// Whether the stored list is what the oracle says now; what is printed at the end.
pub fn check(folder: &Path) -> Result<String, String> {
    let entries = fs::read_dir(folder).map_err(|problem| format!("{}: {problem}", folder.display()))?;
    let mut total = [[0; ANSWERS]; RULES.len()];
    let (mut files, mut steps, mut wrong) = (0, 0, Vec::new());
    for path in entries.filter_map(|entry| entry.ok().map(|entry| entry.path())) {
        if path.extension().is_none_or(|ending| ending != "in") {
            continue;
        }
        let read = |path: &Path| fs::read(path).map_err(|problem| format!("{}: {problem}", path.display()));
        let (text, stored) = (read(&path)?, read(&path.with_extension("out"))?);
        match candidate(String::new(), text) {
            Some(file) if file.report == stored => {
                add(&mut total, &file.reached);
                (files, steps) = (files + 1, steps + file.steps);
            }
            _ => wrong.push(format!("{} has another report than the oracle's", path.display())),
        }
    }
    wrong.extend(lacking(&total, steps));
    match wrong.is_empty() {
        true => Ok(format!("{files} files, {steps} steps: the stored reports are the oracle's")),
        false => Err(wrong.join("\n")),
    }
}
