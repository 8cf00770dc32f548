//! Checks a cutting-planes proof: a text of assumptions, steps and pol lines in, a report with a line for each and totals out. The constraints
//! can also come from an OPB text, with the proof text behind it.
//!
//! The work is done by a library in which every function is proved. This wrapper lends it slices and trusts it for nothing else
//! than its own types: the returned length is looked up in the report, and never assumed.
//!
//! ```no_run
//! let mut checker = cutting_planes::Checker::new();
//! let report = checker.check_text(b"(assume a (>= 0 1))");
//! assert!(report.ends_with(b"refuted=yes\n"));
//! let report = checker.check_opb(b"+1 x1 >= 1 ; +1 ~x1 >= 1 ;", b"(step s (cl (>= 0 1)) :rule cp_addition :premises (c1 c2))");
//! assert!(report.ends_with(b"refuted=yes\n"));
//! ```

use std::fmt;

/// The longest text in bytes, of either kind. A longer one is reported as `refused=2 byte=32768`.
pub const TEXT_BYTES: usize = 32_768;

/// The fewest words that a node table has.
pub const NODE_WORDS: usize = 16_384;

/// The fewest bytes that a report has room for.
pub const REPORT_BYTES: usize = 65_536;

extern "C" {
    // Each slice is a pointer and a length.
    fn cutting_planes_check(
        text: *const u8,
        text_length: usize,
        nodes: *mut u32,
        nodes_length: usize,
        report: *mut u8,
        report_length: usize,
    ) -> usize;

    fn cutting_planes_check_opb(
        opb: *const u8,
        opb_length: usize,
        text: *const u8,
        text_length: usize,
        nodes: *mut u32,
        nodes_length: usize,
        report: *mut u8,
        report_length: usize,
    ) -> usize;
}

/// A table is too small: fewer than [`NODE_WORDS`] words, or fewer than [`REPORT_BYTES`] bytes. Nothing was written.
#[derive(Clone, Copy, Debug, PartialEq, Eq)]
pub struct TooSmall;

impl fmt::Display for TooSmall {
    fn fmt(&self, formatter: &mut fmt::Formatter<'_>) -> fmt::Result {
        write!(formatter, "fewer than {NODE_WORDS} words of nodes or {REPORT_BYTES} bytes of report")
    }
}

impl std::error::Error for TooSmall {}

/// The report of a text, at the front of the lent report; the bytes behind it are left as they were.
///
/// The node table is room to work in: what stands in it before a call changes nothing.
pub fn check<'r>(text: &[u8], nodes: &mut [u32], report: &'r mut [u8]) -> Result<&'r [u8], TooSmall> {
    // Safety: the pointers and lengths are those of slices, the lent tables are exclusive and so overlap nothing, and the
    // library keeps none of them.
    let length = unsafe {
        cutting_planes_check(text.as_ptr(), text.len(), nodes.as_mut_ptr(), nodes.len(), report.as_mut_ptr(), report.len())
    };
    written(length, report)
}

/// The report of an OPB text and the proof text behind it, at the front of the lent report, as [`check`] writes it.
///
/// The constraints become assumptions with the ids c1, c2 and so on, which the proof text may cite; an `=` becomes two. With an empty
/// OPB text the report is that of the proof text alone. A refusal's byte counts in the text that is refused; the OPB text is judged first.
pub fn check_opb<'r>(opb: &[u8], text: &[u8], nodes: &mut [u32], report: &'r mut [u8]) -> Result<&'r [u8], TooSmall> {
    // Safety: as above. The two texts are only read, so they may be the same bytes.
    let length = unsafe {
        cutting_planes_check_opb(
            opb.as_ptr(),
            opb.len(),
            text.as_ptr(),
            text.len(),
            nodes.as_mut_ptr(),
            nodes.len(),
            report.as_mut_ptr(),
            report.len(),
        )
    };
    written(length, report)
}

/// What a call wrote, by the length that it returned.
fn written(length: usize, report: &[u8]) -> Result<&[u8], TooSmall> {
    match length {
        0 => Err(TooSmall),
        _ => Ok(&report[..length]),
    }
}

/// Tables of the right sizes, made once and used for one text after another.
pub struct Checker {
    nodes: Box<[u32]>,
    report: Box<[u8]>,
}

impl Checker {
    /// A checker with its own tables.
    pub fn new() -> Checker {
        Checker { nodes: vec![0; NODE_WORDS].into(), report: vec![0; REPORT_BYTES].into() }
    }

    /// The report of a text; it stands until the next call.
    pub fn check_text(&mut self, text: &[u8]) -> &[u8] {
        check(text, &mut self.nodes, &mut self.report).expect("the tables have the sizes that the library asks for")
    }

    /// The report of an OPB text and the proof text behind it; it stands until the next call.
    pub fn check_opb(&mut self, opb: &[u8], text: &[u8]) -> &[u8] {
        check_opb(opb, text, &mut self.nodes, &mut self.report).expect("the tables have the sizes that the library asks for")
    }
}

impl Default for Checker {
    fn default() -> Checker {
        Checker::new()
    }
}
