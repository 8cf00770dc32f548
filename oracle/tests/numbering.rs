//! The numbers that the build puts into the original (`build.rs`): what it changes, and what it stops at.

#[path = "../build.rs"]
#[allow(dead_code)]
mod build;

use build::{CHECKS, Check, NUMBERED, ORIGINAL, check, numbered, source_folder};

const SMALL: &str = "\
fn first() -> R {
    a(CheckerError::Explanation(x))?;
    b(CheckerError::DivOrModByZero)
}

pub fn second<T>(t: T) -> R {
    c(CheckerError::Explanation(
        y,
    ))
}
";

fn small_checks() -> [Check; 2] {
    [check("first", NUMBERED[0], 26), check("second", NUMBERED[0], 30)]
}

/// The message with which a text is refused.
fn refused(text: &str, checks: &[Check]) -> String {
    numbered(text, checks).expect_err("the text is not what the checks say")
}

#[test]
fn a_number_is_put_at_each_place() {
    let due = SMALL.replace("Explanation(x", "Explanation(26, x").replace("Explanation(\n", "Explanation(30, \n");
    assert_eq!(numbered(SMALL, &small_checks()).as_deref(), Ok(due.as_str()));
}

#[test]
fn a_missing_place_is_told() {
    let short = SMALL.split("pub fn").next().unwrap();
    assert!(refused(short, &small_checks()).starts_with("check 2 is missing, `CheckerError::Explanation(` in second"));
}

#[test]
fn a_place_too_many_is_told() {
    assert!(refused(SMALL, &small_checks()[..1]).starts_with("line 7 in second: found `CheckerError::Explanation(` after"));
}

#[test]
fn another_function_is_told() {
    let [first, second] = small_checks();
    assert!(refused(SMALL, &[second, first]).contains("where check 1 is due, `CheckerError::Explanation(` in second"));
}

#[test]
fn another_variant_is_told() {
    let text = SMALL.replace("Explanation(x", "ExpectedInteger(x");
    assert!(refused(&text, &small_checks()).starts_with("line 2 in first: found `CheckerError::ExpectedInteger("));
}

#[test]
fn an_error_without_a_number_is_told() {
    for unknown in ["CheckerError::Unspecified", "CheckerError::Explanation", "EqualityError::ExpectedToBe {"] {
        let text = SMALL.replace("CheckerError::DivOrModByZero", unknown);
        assert!(refused(&text, &small_checks()).ends_with("has no number"), "{unknown}");
    }
    let text = SMALL.replace("    b(", "    assert_eq(");
    assert!(refused(&text, &small_checks()).contains("outside of cp_literal"));
}

#[test]
fn numbers_are_the_documents_or_cannot_be_mistaken() {
    for check in CHECKS {
        assert!((25..=39).contains(&check.number) || check.number == oracle::UNREACHABLE, "{check}");
    }
}

/// The original, if it is at hand.
fn original() -> Option<String> {
    let original = std::fs::read_to_string(source_folder().join(ORIGINAL)).ok();
    if original.is_none() {
        eprintln!("the original is not at hand: the table is not tried on it");
    }
    original
}

#[test]
fn only_numbers_are_put_into_the_original() {
    let Some(original) = original() else { return };
    let mut text = numbered(&original, CHECKS).unwrap();
    for check in CHECKS {
        let with_number = format!("{}{}, ", check.constructor, check.number);
        text = text.replacen(&with_number, check.constructor, 1);
    }
    assert_eq!(text, original);
}

#[test]
fn every_row_of_the_table_is_needed() {
    let Some(original) = original() else { return };
    for row in 0..CHECKS.len() {
        let mut fewer = CHECKS.to_vec();
        fewer.remove(row);
        assert!(numbered(&original, &fewer).is_err(), "without row {}", row + 1);
    }
}

#[test]
fn every_place_of_the_original_is_needed() {
    let Some(original) = original() else { return };
    for constructor in NUMBERED {
        for (place, _) in original.match_indices(constructor) {
            let changed = [&original[..place], "other(", &original[place + constructor.len()..]].concat();
            assert!(numbered(&changed, CHECKS).is_err(), "without `{constructor}` at byte {place}");
        }
    }
}
