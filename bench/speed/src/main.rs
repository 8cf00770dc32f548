//! Times the checker's library beside the Rust (the oracle: the original's rules with a reader, marks and a report around them) on the
//! same texts in one run; and on OPB texts, with a proof text behind them and without, also beside a plain Rust reader of these; and on pol
//! lines, also beside a plain stack machine.
//!
//! Both are asked in turn, so that a change of the machine's speed meets both. A time is the least of the runs: what else the machine does
//! only ever adds to it. Our tables are made once and not cleared between runs; what the Rust allocates is freed in its time.
//!
//! `--texts FOLDER` writes the texts into a folder and times nothing (bench/speed/instructions).

mod opb;
mod pol;
mod texts;

use std::hint::black_box;
use std::time::{Duration, Instant};

use texts::{Pair, Text, all, pairs, pol_texts, small_steps};

/// How long a text is timed, and in how many parts at least.
const TIME: Duration = Duration::from_millis(600);
const PARTS: usize = 15;
/// How long one part takes at least, so that the clock's own steps do not show.
const PART: Duration = Duration::from_micros(400);

/// Three times in microseconds: the library, the Rust, and of that its reading.
struct Times {
    library: f64,
    rust: f64,
    reading: f64,
}

fn main() {
    let words: Vec<String> = std::env::args().skip(1).collect();
    if let [flag, folder] = &words[..]
        && flag == "--texts"
    {
        return write_texts(folder.as_ref());
    }
    if !oracle::ORIGINAL {
        eprintln!("the Rust is not at hand (CARCARA_SOURCE): there is nothing to be timed beside");
        std::process::exit(2);
    }
    let mut checker = cutting_planes::Checker::new();
    println!("least times in microseconds; tables made once and not cleared between runs; the Rust frees what it allocates");
    println!("{:<46}{:>7}{:>10}{:>10}{:>11}{:>8}", "text", "bytes", "proved", "the Rust", "(reading)", "ratio");
    let mut lowest = f64::INFINITY;
    for text in all() {
        let times = times(&mut checker, &text);
        let ratio = times.rust / times.library;
        lowest = lowest.min(ratio);
        println!(
            "{:<46}{:>7}{:>10.2}{:>10.2}{:>11.2}{:>8.2}",
            text.name,
            text.bytes.len(),
            times.library,
            times.rust,
            times.reading,
            ratio
        );
    }
    println!("least ratio: {lowest:.2} (the Rust's time by ours: above 1 the proved checker is the faster one)");
    growth(&mut checker);
    models(&mut checker);
    pol_lines(&mut checker);
}

/// Each text into a file of its own, in their order, and behind them the proof texts of the pairs, each with its OPB text beside it in a
/// file whose name ends with .opb, and the texts of pol lines.
fn write_texts(folder: &std::path::Path) {
    let write = |name: String, bytes: &[u8]| std::fs::write(folder.join(name), bytes).expect("the folder takes the texts");
    let texts = all();
    for (number, text) in texts.iter().enumerate() {
        write(format!("{number:02} {}", text.name), &text.bytes);
    }
    for (number, pair) in pairs().iter().enumerate() {
        let name = format!("{:02} {}", texts.len() + number, pair.name);
        write(format!("{name}.opb"), &pair.opb);
        write(name, &pair.proof);
    }
    for (number, text) in pol_texts().iter().enumerate() {
        write(format!("{:02} {}", texts.len() + pairs().len() + number, text.name), &text.bytes);
    }
}

/// How both times grow with the text.
fn growth(checker: &mut cutting_planes::Checker) {
    println!("\nsmall steps: how time grows");
    println!("{:>7}{:>10}{:>12}{:>10}{:>12}{:>8}", "bytes", "proved", "ns a byte", "the Rust", "ns a byte", "ratio");
    for kilobytes in [1, 2, 4, 8, 16, 32] {
        let text = Text { name: "small steps", bytes: small_steps(kilobytes * 1024).into_bytes() };
        let times = times(checker, &text);
        let bytes = text.bytes.len() as f64;
        println!(
            "{:>7}{:>10.2}{:>12.2}{:>10.2}{:>12.2}{:>8.2}",
            text.bytes.len(),
            times.library,
            times.library * 1000.0 / bytes,
            times.rust,
            times.rust * 1000.0 / bytes,
            times.rust / times.library
        );
    }
}

/// Models, with a proof behind them and without. For a model alone the plain reader writes the report; else its time is that of reading the
/// OPB text, and is compared with nothing.
fn models(checker: &mut cutting_planes::Checker) {
    println!(
        "\nOPB texts and the proof texts behind them: beside the Rust, of that its reading of the OPB text, and beside a plain reader"
    );
    println!(
        "{:<46}{:>7}{:>7}{:>10}{:>10}{:>10}{:>8}{:>12}{:>8}",
        "texts", "OPB", "proof", "proved", "the Rust", "(OPB)", "ratio", "plain Rust", "ratio"
    );
    for pair in pairs() {
        let [library, rust, reading, plain] = pair_times(checker, &pair);
        let beside_plain = if pair.proof.is_empty() { format!("{:.2}", plain / library) } else { "-".into() };
        println!(
            "{:<46}{:>7}{:>7}{library:>10.2}{rust:>10.2}{reading:>10.2}{:>8.2}{plain:>12.2}{beside_plain:>8}",
            pair.name,
            pair.opb.len(),
            pair.proof.len(),
            rust / library
        );
    }
}

/// Pol lines beside the Rust, in which the original judges each word, and beside the plain machine, which writes the same report.
fn pol_lines(checker: &mut cutting_planes::Checker) {
    println!("\npol lines: beside the Rust, which judges each word by the original's rule, and beside a plain machine");
    println!("{:<46}{:>7}{:>10}{:>10}{:>8}{:>12}{:>8}", "text", "bytes", "proved", "the Rust", "ratio", "plain Rust", "ratio");
    for text in pol_texts() {
        let bytes = &text.bytes[..];
        let report = checker.check_text(bytes).to_vec();
        assert!(report == oracle::report(bytes), "{}: the two reports differ", text.name);
        assert!(
            pol::report(bytes).is_some_and(|plain| plain.into_bytes() == report),
            "{}: the plain machine's report differs",
            text.name
        );
        assert!(String::from_utf8_lossy(&report).contains(" refused=0 "), "{}: a line is refused", text.name);
        let [library, rust, plain] = in_turn([
            &mut || {
                black_box(checker.check_text(black_box(bytes)));
            },
            &mut || {
                black_box(oracle::report(black_box(bytes)));
            },
            &mut || {
                black_box(pol::report(black_box(bytes)));
            },
        ]);
        println!(
            "{:<46}{:>7}{library:>10.2}{rust:>10.2}{:>8.2}{plain:>12.2}{:>8.2}",
            text.name,
            bytes.len(),
            rust / library,
            plain / library
        );
    }
}

/// The least times for one text, on which both have to agree first.
fn times(checker: &mut cutting_planes::Checker, text: &Text) -> Times {
    let bytes = &text.bytes[..];
    let report = checker.check_text(bytes);
    assert!(report == oracle::report(bytes), "{}: the two reports differ", text.name);
    assert!(report.starts_with(b"refused=") == text.name.contains("refused"), "{}: refused, or not", text.name);
    let [library, rust, reading] = in_turn([
        &mut || {
            black_box(checker.check_text(black_box(bytes)));
        },
        &mut || {
            black_box(oracle::report(black_box(bytes)));
        },
        &mut || {
            let mut pool = oracle::Pool::default();
            black_box(oracle::read(&mut pool, black_box(bytes)).is_ok());
        },
    ]);
    Times { library, rust, reading }
}

/// The same for a pair of texts: the library, the Rust, of that its reading of the OPB text into constraints, and the plain reader.
fn pair_times(checker: &mut cutting_planes::Checker, pair: &Pair) -> [f64; 4] {
    let Pair { name, opb, proof } = pair;
    let (opb, proof) = (&opb[..], &proof[..]);
    let report = checker.check_opb(opb, proof);
    assert!(report == oracle::report_both(opb, proof), "{name}: the two reports differ");
    assert!(!proof.is_empty() || report == opb::report(opb).as_bytes(), "{name}: the plain reader's report differs");
    assert!(report.starts_with(b"refused=") == name.contains("refused"), "{name}: refused, or not");
    assert!(name.contains("refused") || String::from_utf8_lossy(report).contains(" refused=0 "), "{name}: a step is refused");
    in_turn([
        &mut || {
            black_box(checker.check_opb(black_box(opb), black_box(proof)));
        },
        &mut || {
            black_box(oracle::report_both(black_box(opb), black_box(proof)));
        },
        &mut || {
            black_box(oracle::read_opb(black_box(opb)).is_ok());
        },
        &mut || {
            if proof.is_empty() {
                black_box(opb::report(black_box(opb)));
            } else {
                black_box(opb::read(black_box(opb)).is_ok());
            }
        },
    ])
}

/// The least times of some calls, which are made in turn.
fn in_turn<const N: usize>(mut calls: [&mut dyn FnMut(); N]) -> [f64; N] {
    let mut times = [f64::INFINITY; N];
    let mut parts = 0;
    let end = Instant::now() + TIME;
    while parts < PARTS || Instant::now() < end {
        for (time, call) in times.iter_mut().zip(&mut calls) {
            *time = time.min(part(call));
        }
        parts += 1;
    }
    times
}

/// The microseconds of one call, over as many calls as fill a part.
fn part(mut call: impl FnMut()) -> f64 {
    let start = Instant::now();
    let mut calls = 0;
    while start.elapsed() < PART {
        call();
        calls += 1;
    }
    start.elapsed().as_secs_f64() * 1e6 / f64::from(calls)
}
