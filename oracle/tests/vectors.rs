//! Every text of the repository's vectors has the report that is due for it, alone or behind an OPB text.

use std::path::{Path, PathBuf};
use std::{env, fs};

/// The folder of the vectors: `reports` has `NAME.in`, a text, and `NAME.out`, its report; in `opb` an OPB text `NAME.opb` stands before.
fn folder() -> PathBuf {
    match env::var_os("CUTTING_PLANES_VECTORS") {
        Some(folder) => folder.into(),
        None => Path::new(env!("CARGO_MANIFEST_DIR")).join("../tests/vectors/reports"),
    }
}

/// The texts' paths.
fn texts(folder: &Path) -> Vec<PathBuf> {
    let entries = fs::read_dir(folder).expect("the folder of the vectors is there");
    let paths = entries.map(|entry| entry.expect("the folder can be read").path());
    paths.filter(|path| path.extension().is_some_and(|ending| ending == "in")).collect()
}

/// Each report of a folder is the due one.
fn compare(folder: &Path, report: impl Fn(&Path, &[u8]) -> Vec<u8>) {
    if !oracle::ORIGINAL {
        eprintln!("built without the original: no report is compared");
        return;
    }
    let texts = texts(folder);
    assert!(!texts.is_empty(), "there are no vectors");
    for path in texts {
        let text = fs::read(&path).expect("a text can be read");
        let due = fs::read(path.with_extension("out")).expect("a report can be read");
        let report = report(&path, &text);
        assert_eq!(String::from_utf8_lossy(&report), String::from_utf8_lossy(&due), "{}", path.display());
    }
}

#[test]
fn each_report_is_the_due_one() {
    compare(&folder(), |_, text| oracle::report(text));
}

#[test]
fn each_report_behind_an_opb_text_is_the_due_one() {
    compare(&folder().with_file_name("opb"), |path, text| {
        let opb = fs::read(path.with_extension("opb")).expect("an OPB text can be read");
        oracle::report_both(&opb, text)
    });
}
