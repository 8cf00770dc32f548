//! Compares the exported library with the oracle, text by text and pair by pair, and tries the library's marks with all assignments.

mod brute;
mod compare;
mod count;
mod damage;
mod files;
mod fixed;
mod follow;
mod generate;
mod greatest;
mod library;
mod limits;
mod miss;
mod models;
mod opb_damage;
mod opb_limits;
mod opb_write;
mod options;
mod pair;
mod pol_limits;
mod pols;
mod random;
mod report;
mod rules;
mod shrink;
mod solutions;
mod steps;
mod sums;
mod term;
mod texts;
mod write;

use count::Count;
use library::Library;
use options::{Mode, Options};
use pair::Pair;
use random::Random;
use std::io::Write;
use std::path::Path;
use std::process::ExitCode;
use std::time::Instant;

/// So many texts are looked through for a small one where one has failed.
const MORE_TEXTS: u64 = 10_000;
/// A line of progress comes after so many seconds.
const PROGRESS: f64 = 5.0;

fn main() -> ExitCode {
    let options = match Options::parsed(std::env::args().skip(1)) {
        Ok(options) => options,
        Err(problem) => return ended(Err(problem)),
    };
    match &options.mode {
        Mode::Original => ended(Ok(if oracle::ORIGINAL { "yes" } else { "no" }.to_owned())),
        Mode::Show(index) => ended(printed(&texts::text(options.seed, *index).1.text)),
        Mode::ShowOpb(index) => ended(printed(texts::text(options.seed, *index).1.constraints())),
        Mode::WriteFixedList(_) | Mode::CheckFixedList(_) | Mode::File(_) | Mode::Compare if !oracle::ORIGINAL => {
            ended(Err("the original was not at hand when this was built: nothing to compare with".to_owned()))
        }
        Mode::WriteFixedList(folder) => ended(fixed::write(folder, options.seed)),
        Mode::CheckFixedList(folder) => ended(fixed::check(folder)),
        Mode::File(path) => ended(one_file(path, options.opb.as_deref(), options.seed)),
        Mode::Compare => ended(run(&options)),
    }
}

/// Print the last words of a mode; its exit status.
fn ended(result: Result<String, String>) -> ExitCode {
    match result {
        Ok(words) if words.is_empty() => ExitCode::SUCCESS,
        Ok(words) => {
            println!("{words}");
            ExitCode::SUCCESS
        }
        Err(words) => {
            println!("{words}");
            ExitCode::FAILURE
        }
    }
}

/// Print bytes.
fn printed(bytes: &[u8]) -> Result<String, String> {
    std::io::stdout().write_all(bytes).map(|()| String::new()).map_err(|problem| problem.to_string())
}

/// Compare one file, behind an OPB text or alone.
fn one_file(path: &Path, opb: Option<&Path>, seed: u64) -> Result<String, String> {
    let read = |path: &Path| std::fs::read(path).map_err(|problem| format!("{}: {problem}", path.display()));
    let pair = Pair { opb: opb.map(read).transpose()?, text: read(path)? };
    let mut library = Library::new(seed);
    match compare::compared(&pair, &mut library, &mut Random::new(seed, 0), &mut Count::default()) {
        Ok(()) => Ok("no difference".to_owned()),
        Err(_) => Err(compare::explained(&pair, &mut library, seed)),
    }
}

/// A run under way.
struct Run<'o> {
    options: &'o Options,
    library: Library,
    count: Count,
    start: Instant,
    shown: f64,
}

impl Run<'_> {
    fn seconds(&self) -> f64 {
        self.start.elapsed().as_secs_f64()
    }

    /// Compare one text or pair; what is wrong as an error.
    fn text(&mut self, kind: usize, pair: &Pair, random: &mut Random, name: &str) -> Result<(), String> {
        self.count.text(kind);
        if compare::compared(pair, &mut self.library, random, &mut self.count).is_err() {
            println!("{name} of seed {} fails", self.options.seed);
            let smallest = self.smallest_failing(pair);
            return Err(compare::explained(&smallest, &mut self.library, self.options.seed));
        }
        if self.seconds() > self.shown + PROGRESS {
            self.shown = self.seconds();
            println!("{}", self.count.progress(self.shown));
        }
        Ok(())
    }

    /// The smallest text or pair that fails among some more: a small one is shrunk further than a large one.
    fn smallest_failing(&mut self, pair: &Pair) -> Pair {
        let mut smallest = pair.clone();
        for index in self.options.from..self.options.from + MORE_TEXTS {
            let (_, other) = texts::text(self.options.seed, index);
            let mut random = Random::new(!self.options.seed, index);
            let smaller = other.len() < smallest.len();
            if smaller && compare::compared(&other, &mut self.library, &mut random, &mut Count::default()).is_err() {
                println!("text {index} fails and is smaller");
                smallest = other;
            }
        }
        smallest
    }

    /// All texts at limits, then texts from the seed.
    fn texts(&mut self) -> Result<(), String> {
        let alone = limits::all().into_iter().map(|text| (texts::LIMIT, Pair::alone(text)));
        let both = opb_limits::all().into_iter().map(|pair| (texts::OPB_LIMIT, pair));
        let pol = pol_limits::all().into_iter().map(|text| (texts::POL_LIMIT, Pair::alone(text)));
        for (place, (kind, pair)) in alone.chain(both).chain(pol).enumerate() {
            let mut random = Random::new(self.options.seed, place as u64);
            self.text(kind, &pair, &mut random, &format!("limit {place}"))?;
        }
        let mut index = self.options.from;
        while !self.is_over() {
            let (kind, pair) = texts::text(self.options.seed, index);
            let mut random = Random::new(!self.options.seed, index);
            self.text(kind, &pair, &mut random, &format!("text {index}"))?;
            index += 1;
        }
        Ok(())
    }

    fn reached(&self) -> bool {
        let (count, options) = (&self.count, self.options);
        count.texts >= options.texts && count.steps >= options.steps && count.tried >= options.marked
    }

    fn is_over(&self) -> bool {
        match self.options.seconds {
            Some(seconds) if self.seconds() >= seconds as f64 => true,
            Some(_) if self.options.texts + self.options.steps + self.options.marked == 0 => false,
            _ => self.reached(),
        }
    }
}

/// Compare until the run is over; the last words.
fn run(options: &Options) -> Result<String, String> {
    let mut run =
        Run { options, library: Library::new(options.seed), count: Count::default(), start: Instant::now(), shown: 0.0 };
    println!("seed {}, texts from {}", options.seed, options.from);
    run.texts()?;
    println!("{}", run.count.summary());
    let seconds = run.seconds();
    if !run.reached() {
        return Err(format!("{seconds:.0} s were over before the numbers were reached"));
    }
    if run.count.texts < count::LONG {
        println!("fewer than {} texts: whether all answers were reached is not asked", count::LONG);
    }
    let missing = if run.count.texts >= count::LONG { run.count.missing() } else { Vec::new() };
    if !missing.is_empty() {
        return Err(missing.join("\n"));
    }
    Ok(format!(
        "no difference: {} texts, {} steps, {} marked lines tried, {seconds:.0} s",
        run.count.texts, run.count.steps, run.count.tried
    ))
}
