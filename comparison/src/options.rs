//! The command line.

use std::path::PathBuf;

/// How it is called.
pub const USAGE: &str = "\
comparison [--seed S] [--from INDEX] [--texts N] [--steps N] [--marked N] [--seconds S]
    compare the library with the oracle until each number that is given is reached, or the seconds are over;
    60 seconds where nothing is given
comparison [--opb FILE] --file FILE     compare one text, behind an OPB text or alone
comparison --show INDEX [--seed S]      print the text of an index
comparison --show-opb INDEX [--seed S]  print the OPB text before it, where it has one
comparison --write-fixed-list FOLDER [--seed S]
comparison --check-fixed-list FOLDER    whether the stored reports are what the oracle says now
comparison --original                   whether the original was at hand when this was built: yes or no
";

/// What to do.
pub enum Mode {
    Compare,
    File(PathBuf),
    Show(u64),
    ShowOpb(u64),
    WriteFixedList(PathBuf),
    CheckFixedList(PathBuf),
    Original,
}

/// Mode, seed and the ends of a run.
pub struct Options {
    pub mode: Mode,
    /// The OPB text before the one that is compared.
    pub opb: Option<PathBuf>,
    pub seed: u64,
    pub from: u64,
    pub texts: u64,
    pub steps: u64,
    pub marked: u64,
    pub seconds: Option<u64>,
}

impl Options {
    /// The options of the command line, or what is wrong with them.
    pub fn parsed(mut words: impl Iterator<Item = String>) -> Result<Options, String> {
        let mut options =
            Options { mode: Mode::Compare, opb: None, seed: 20_261_116, from: 0, texts: 0, steps: 0, marked: 0, seconds: None };
        while let Some(word) = words.next() {
            if word == "--original" {
                options.mode = Mode::Original;
                continue;
            }
            let value = words.next().ok_or_else(|| format!("{word} needs a value, or is none of these:\n{USAGE}"))?;
            options.set(&word, &value)?;
        }
        if options.texts + options.steps + options.marked == 0 && options.seconds.is_none() {
            options.seconds = Some(60);
        }
        Ok(options)
    }

    fn set(&mut self, word: &str, value: &str) -> Result<(), String> {
        let number = || value.replace([',', '_'], "").parse::<u64>().map_err(|_| format!("{word} {value}: no number"));
        match word {
            "--seed" => self.seed = number()?,
            "--from" => self.from = number()?,
            "--texts" => self.texts = number()?,
            "--steps" => self.steps = number()?,
            "--marked" => self.marked = number()?,
            "--seconds" => self.seconds = Some(number()?),
            "--show" => self.mode = Mode::Show(number()?),
            "--show-opb" => self.mode = Mode::ShowOpb(number()?),
            "--opb" => self.opb = Some(value.into()),
            "--file" => self.mode = Mode::File(value.into()),
            "--write-fixed-list" => self.mode = Mode::WriteFixedList(value.into()),
            "--check-fixed-list" => self.mode = Mode::CheckFixedList(value.into()),
            _ => return Err(format!("{word} is none of these:\n{USAGE}")),
        }
        Ok(())
    }
}
