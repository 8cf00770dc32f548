//! One text, alone or behind an OPB text, through the library and the oracle.

use crate::brute::{self, Outcome};
use crate::count::Count;
use crate::library::Library;
use crate::pair::Pair;
use crate::random::Random;
use crate::report::{parsed, Report};
use crate::shrink::shrunk_pair;
use std::panic::catch_unwind;

/// One text in so many is also checked with tables that are too small.
const TOO_SMALL: usize = 40;

/// So many tables are tried for a text that has failed, to fail again.
const TABLES_TRIED: u64 = 400;

/// What is wrong with a text.
pub enum Fault {
    /// The two reports differ: the library's and the oracle's.
    Differs(Vec<u8>, Vec<u8>),
    /// The library did something to its tables, or a mark is wrong.
    Wrong(String),
}

/// The oracle's report; a text that it cannot answer differs from every report.
fn oracle_report(pair: &Pair) -> Vec<u8> {
    let report = || oracle::report_both(pair.constraints(), &pair.text);
    catch_unwind(report).unwrap_or_else(|_| b"the oracle stopped in the middle\n".to_vec())
}

/// Compare a pair, and count what it has.
pub fn compared(pair: &Pair, library: &mut Library, random: &mut Random, count: &mut Count) -> Result<(), Fault> {
    let report = library.report(pair, random).map_err(Fault::Wrong)?;
    let due = oracle_report(pair);
    if report != due {
        return Err(Fault::Differs(report, due));
    }
    let parts =
        parsed(&report).ok_or_else(|| Fault::Wrong("the reports are equal, and not of the form of section 6".to_owned()))?;
    count.report(&parts, pair);
    if let Report::Read(lines, refuted) = &parts {
        if *refuted || lines.iter().any(|line| line.holds) {
            let account = oracle::account_both(pair.constraints(), &pair.text)
                .map_err(|_| Fault::Wrong("the oracle's account refuses what its report reads".to_owned()))?;
            let outcome = brute::tried(pair.constraints(), &account, lines, *refuted);
            count.outcome(&outcome, *refuted, pair);
            if let Outcome::Wrong(what) = outcome {
                return Err(Fault::Wrong(what));
            }
        }
    }
    if random.below(TOO_SMALL) == 0 {
        library.too_small(pair, random).map_err(Fault::Wrong)?;
        count.too_small();
    }
    Ok(())
}

/// Shrink a pair that fails and say what is wrong with it.
pub fn explained(pair: &Pair, library: &mut Library, seed: u64) -> String {
    std::panic::set_hook(Box::new(|_| ()));
    let mut with_tables =
        |pair: &Pair, index: u64| compared(pair, library, &mut Random::new(seed, index), &mut Count::default()).err();
    // tables with which the text fails, those that are too small among them; each try then has the same
    let tables = (0..TABLES_TRIED).find(|index| with_tables(pair, *index).is_some()).unwrap_or(0);
    let mut fault = |pair: &Pair| with_tables(pair, tables);
    let smaller = shrunk_pair(pair, &mut |pair| fault(pair).is_some());
    let mut message = String::new();
    if let Some(opb) = &smaller.opb {
        message += &format!("the OPB text, {} bytes, shrunk from {}:\n{}\n", opb.len(), pair.constraints().len(), shown(opb));
    }
    message += &format!("the text, {} bytes, shrunk from {}:\n{}\n", smaller.text.len(), pair.text.len(), shown(&smaller.text));
    match fault(&smaller) {
        Some(Fault::Differs(report, due)) => {
            message += &format!("the library's report:\n{}\nthe oracle's report:\n{}\n", shown(&report), shown(&due));
        }
        Some(Fault::Wrong(what)) => message += &format!("{what}\n"),
        None => message += "it does not fail when it is tried again\n",
    }
    message
}

/// The most bytes of a text or a report that are printed from each of its ends.
const SHOWN: usize = 2_000;

/// Bytes for a terminal: line feeds as they are, what cannot be printed as an escape, the middle of a long text left out.
fn shown(bytes: &[u8]) -> String {
    if bytes.len() > 2 * SHOWN {
        let left_out = bytes.len() - 2 * SHOWN;
        return format!("{}\n[{left_out} bytes left out]\n{}", shown(&bytes[..SHOWN]), shown(&bytes[bytes.len() - SHOWN..]));
    }
    let escaped = |byte: u8| match byte {
        b'\n' => "\n".to_owned(),
        _ => std::ascii::escape_default(byte).to_string(),
    };
    bytes.iter().copied().map(escaped).collect()
}
