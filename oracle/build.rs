//! Takes the original, Carcara's `cutting_planes.rs`, from where it lies, puts document 01's numbers at its failing checks, and
//! leaves the numbered copy in the build's own folder, where `src/checker/rules` includes it. No part of the original is kept here.

use std::env;
use std::fmt;
use std::fs;
use std::path::{Path, PathBuf};

/// The environment variable that names the folder in which Carcara's `src` lies.
const SOURCE_VARIABLE: &str = "CARCARA_SOURCE";

/// Where the sources lie if the variable is not set, from this package's folder.
const DEFAULT_SOURCE: &str = "../../shared/docs/src";

/// The original within the sources.
pub(crate) const ORIGINAL: &str = "src/checker/rules/cutting_planes.rs";

/// The number of checks that cannot fail: no answer of document 01, so that it is noticed if one fails all the same.
pub(crate) const UNREACHABLE: u8 = 255;

/// A failing check of the original that gets a number.
#[derive(Clone, Copy)]
pub(crate) struct Check {
    /// The function in which it stands.
    pub(crate) function: &'static str,
    /// The text behind which the number is put.
    pub(crate) constructor: &'static str,
    /// Document 01's number.
    pub(crate) number: u8,
}

impl fmt::Display for Check {
    fn fmt(&self, f: &mut fmt::Formatter) -> fmt::Result {
        write!(f, "`{}` in {} with number {}", self.constructor, self.function, self.number)
    }
}

pub(crate) const fn check(function: &'static str, constructor: &'static str, number: u8) -> Check {
    Check { function, constructor, number }
}

const EXPLANATION: &str = "CheckerError::Explanation(";
const EXPECTED_INTEGER: &str = "CheckerError::ExpectedInteger(";
const EXPECTED_EQUAL: &str = "EqualityError::ExpectedEqual(";

/// The variants that serve several checks of the document, so that each place needs its number.
pub(crate) const NUMBERED: [&str; 3] = [EXPLANATION, EXPECTED_INTEGER, EXPECTED_EQUAL];

/// The variants that the original builds itself and that stand for one number of the document wherever they stand:
/// 22, 27 and 28 (`CheckerError::number`).
const BY_VARIANT: [&str; 3] =
    ["CheckerError::WrongNumberOfArgs", "CheckerError::ExpectedNonnegInteger", "CheckerError::DivOrModByZero"];

/// The call whose failure is 35; it may stand in one function only.
const ASSERT_EQ: (&str, &str) = ("cp_literal", "assert_eq(");

/// Every place of a numbered variant, in the original's order.
pub(crate) const CHECKS: &[Check] = &[
    check("get_pb_hashmap", EXPECTED_INTEGER, 25),
    check("get_pb_hashmap", EXPLANATION, 26),
    check("assert_pbsum_subset_keys", EXPLANATION, 30),
    check("cp_addition", EXPLANATION, 29),
    check("cp_addition", EXPECTED_INTEGER, 31),
    check("cp_addition", EXPLANATION, UNREACHABLE),
    check("cp_multiplication", EXPECTED_INTEGER, 29),
    check("cp_multiplication", EXPECTED_INTEGER, 31),
    check("cp_division", EXPECTED_INTEGER, 29),
    check("cp_division", EXPECTED_INTEGER, 31),
    check("cp_saturation", EXPLANATION, 32),
    check("cp_saturation", EXPLANATION, 32),
    check("cp_saturation", EXPECTED_INTEGER, 29),
    check("cp_saturation", EXPECTED_INTEGER, 31),
    check("cp_literal", EXPLANATION, 33),
    check("cp_literal", EXPECTED_INTEGER, 34),
    check("cp_literal", EXPECTED_INTEGER, 34),
    check("cp_literal", EXPLANATION, 36),
    check("match_supported_relation_err", EXPLANATION, 37),
    check("match_supported_relation_err", EXPLANATION, 37),
    check("collect_addition_list", EXPLANATION, 38),
    check("check_pb_inequalities", EXPLANATION, 39),
    check("check_pb_inequalities", EXPLANATION, 39),
    check("check_pb_inequalities", EXPECTED_EQUAL, 29),
    check("cp_normalize", EXPLANATION, UNREACHABLE),
];

fn main() {
    println!("cargo::rerun-if-changed=build.rs");
    println!("cargo::rerun-if-env-changed={SOURCE_VARIABLE}");
    println!("cargo::rustc-check-cfg=cfg(no_original)");
    let original = source_folder().join(ORIGINAL);
    println!("cargo::rerun-if-changed={}", original.display());
    match fs::read_to_string(&original) {
        Ok(text) => write_numbered(&text),
        Err(error) => go_without(&original, &error),
    }
}

/// The folder that the variable names, or the default one.
pub(crate) fn source_folder() -> PathBuf {
    match env::var_os(SOURCE_VARIABLE) {
        Some(folder) => folder.into(),
        None => Path::new(&env::var_os("CARGO_MANIFEST_DIR").expect("cargo sets it")).join(DEFAULT_SOURCE),
    }
}

/// Writes the numbered copy, or stops the build where the original is not the one that the table was made for.
fn write_numbered(original: &str) {
    match numbered(original, CHECKS) {
        Ok(numbered) => {
            let folder = env::var_os("OUT_DIR").expect("cargo sets it");
            fs::write(Path::new(&folder).join("cutting_planes.rs"), numbered).expect("the build's folder can be written");
        }
        Err(message) => println!("cargo::error={ORIGINAL} is not the version that build.rs has the checks of: {message}"),
    }
}

/// Builds without the original: the package then has its reader and its marks, and answers no step of the six rules.
fn go_without(original: &Path, error: &std::io::Error) {
    println!("cargo::rustc-cfg=no_original");
    println!(
        "cargo::warning=built without the original ({}: {error}); set {SOURCE_VARIABLE} to the folder that has {ORIGINAL}",
        original.display()
    );
}

/// The original with a number behind each constructor that `checks` lists, and nothing else changed.
pub(crate) fn numbered(original: &str, checks: &[Check]) -> Result<String, String> {
    let mut result = String::new();
    let mut function = "no function";
    let mut due = (1..).zip(checks);
    for (number, line) in (1..).zip(original.split_inclusive('\n')) {
        function = function_of(line).unwrap_or(function);
        let line = numbered_line(line, function, &mut due);
        result += &line.map_err(|message| format!("line {number} in {function}: {message}"))?;
    }
    match due.next() {
        None => Ok(result),
        Some((row, check)) => Err(format!("check {row} is missing, {check}")),
    }
}

/// A line of a function with its numbers, which are those of the checks that are due next.
fn numbered_line<'c>(line: &str, function: &str, due: &mut impl Iterator<Item = (u32, &'c Check)>) -> Result<String, String> {
    check_call(line, function)?;
    let mut result = String::new();
    let mut rest = line;
    while let Some((before, constructor, after)) = next_numbered(rest) {
        check_others(before)?;
        let number = due_number(function, constructor, due.next())?;
        result += &format!("{before}{constructor}{number}, ");
        rest = after;
    }
    check_others(rest)?;
    Ok(result + rest)
}

/// The number of a constructor, if it is that of the check that is due.
fn due_number(function: &str, constructor: &str, due: Option<(u32, &Check)>) -> Result<u8, String> {
    match due {
        Some((_, check)) if (check.function, check.constructor) == (function, constructor) => Ok(check.number),
        Some((row, check)) => Err(format!("found `{constructor}` where check {row} is due, {check}")),
        None => Err(format!("found `{constructor}` after the last check")),
    }
}

/// The function that a line opens, if it opens one.
fn function_of(line: &str) -> Option<&str> {
    let line = line.trim_start();
    let header = line.strip_prefix("pub ").unwrap_or(line).strip_prefix("fn ")?;
    header.split(['(', '<']).next()
}

/// The first numbered constructor of a text, with what stands before and behind it.
fn next_numbered(text: &str) -> Option<(&str, &'static str, &str)> {
    let at = |constructor: &'static str| text.find(constructor).map(|place| (place, constructor));
    let (place, constructor) = NUMBERED.into_iter().filter_map(at).min()?;
    Some((&text[..place], constructor, &text[place + constructor.len()..]))
}

/// Checks that a text without numbered constructors has no error but those whose variant says the number. A numbered
/// variant in another form (as a pattern or a function, or broken over two lines) is among what this finds.
fn check_others(text: &str) -> Result<(), String> {
    for error in ["CheckerError::", "EqualityError::"] {
        for (place, _) in text.match_indices(error) {
            let here = &text[place..];
            if !BY_VARIANT.iter().any(|variant| names(here, variant)) {
                return Err(format!("`{}` has no number", here.trim_end()));
            }
        }
    }
    Ok(())
}

/// Whether a text begins with a path, and not with a longer one.
fn names(text: &str, path: &str) -> bool {
    text.strip_prefix(path).is_some_and(|rest| !rest.starts_with(|next: char| next.is_alphanumeric() || next == '_'))
}

/// Checks that the call whose failure is 35 stands only where the document has 35.
fn check_call(line: &str, function: &str) -> Result<(), String> {
    let (due, call) = ASSERT_EQ;
    if line.contains(call) && function != due {
        return Err(format!("`{call}` outside of {due}"));
    }
    Ok(())
}
