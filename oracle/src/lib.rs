//! Carcara's cutting-planes rules, run on the texts of document 01: the other side of the comparison with this repository's checker.
//!
//! The six rules are the original's own source, taken at build time, with document 01's number put at each failing check
//! (`build.rs`) and nothing else changed. The modules [`ast`], [`checker`] and [`rug`] stand in for what it takes from Carcara. The
//! reader, the answers 40 and 41, the marks and the report are an account of document 01 of their own, the reader of OPB texts one of
//! document 02's No. 1, pol lines one of its No. 2, in which the original judges what each word gives, and what refutes one of its No. 6,
//! over the inequality that the original reads.
//!
//! ```
//! let report = oracle::report(b"(assume a (>= x 1))");
//! assert_eq!(report, b"id=a rule=assume answer=0 plain=yes holds=yes\ncommands=1 refused=0 refuted=no\n");
//! ```

// Without the original nothing uses some of what stands in for its surroundings.
#![cfg_attr(no_original, allow(dead_code, unused_imports, unused_macros))]

pub mod ast;
pub mod checker;
pub mod rug;

mod answer;
mod marks;
mod opb;
mod pol;
mod reader;
mod report;

pub use ast::{Pool, Rc, Term};
pub use opb::{Constraint, Relation, Summand, read_opb};
pub use reader::{Command, Refusal, Rule, Word, read};
pub use report::{Account, Line, account, account_both, report, report_both};

/// Whether the package was built with the original. Without it the six rules answer [`NO_ANSWER`].
pub const ORIGINAL: bool = cfg!(not(no_original));

/// The answer of a rule that is not there; none of document 01's numbers.
pub const NO_ANSWER: u8 = 254;

/// The answer of a check of the original that cannot fail; none of document 01's numbers.
pub const UNREACHABLE: u8 = 255;
