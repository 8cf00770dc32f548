//! Prints the oracle's report on the text that stands in standard input, as the checker's program does with its own.
//!
//! With `--opb FILE` it stands behind that OPB text.

use std::io::{self, Read, Write};
use std::{env, fs};

fn main() -> io::Result<()> {
    let arguments: Vec<String> = env::args().skip(1).collect();
    let opb = match &arguments[..] {
        [] => Vec::new(),
        [option, file] if option == "--opb" => fs::read(file)?,
        _ => return Err(io::Error::other("usage: oracle [--opb FILE] < PROOF")),
    };
    let mut text = Vec::new();
    io::stdin().read_to_end(&mut text)?;
    if !oracle::ORIGINAL {
        eprintln!(
            "built without the original (CARCARA_SOURCE): the six rules have no answer, and {} stands for it",
            oracle::NO_ANSWER
        );
    }
    io::stdout().write_all(&oracle::report_both(&opb, &text))
}
