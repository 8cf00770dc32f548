//! Calls the library on every text of a folder and compares each report with the stored one and with the program's.
//!
//! CUTTING_PLANES_VECTORS names the folder with reports/NAME.in and its report NAME.out, and opb/NAME.in, which stands behind the OPB text
//! NAME.opb; CUTTING_PLANES_PRINTED one with folders of the same names, where NAME.out is what the program printed.

use cutting_planes::{check, check_opb, Checker, TooSmall, NODE_WORDS, REPORT_BYTES, TEXT_BYTES};
use std::{env, fs, path::PathBuf, thread};

const WORD: u32 = 0xDEAD_BEEF;
const BYTE: u8 = 0xA7;
const MODEL: &[u8] = b"* x1 and not x1\n+1 x1 >= 1 ;\n+1 ~x1 >= 1 ;\n";
const PROOF: &[u8] = b"(step s (cl (>= 0 1)) :rule cp_addition :premises (c1 c2))\n";

/// A text with its report, behind an OPB text or alone.
struct Vector {
    name: String,
    opb: Option<Vec<u8>>,
    text: Vec<u8>,
    report: Vec<u8>,
}

impl Vector {
    /// The report in the lent tables: with the function that takes an OPB text, an empty one for a text alone, or with the other.
    fn check<'r>(&self, behind: bool, nodes: &mut [u32], report: &'r mut [u8]) -> Result<&'r [u8], TooSmall> {
        match &self.opb {
            Some(opb) => check_opb(opb, &self.text, nodes, report),
            None if behind => check_opb(b"", &self.text, nodes, report),
            None => check(&self.text, nodes, report),
        }
    }

    /// The functions that it is tried with: whether that is the one that takes an OPB text.
    fn functions(&self) -> &'static [bool] {
        match self.opb {
            Some(_) => &[true],
            None => &[false, true],
        }
    }
}

/// The folder that a variable of the environment names.
fn folder(variable: &str) -> PathBuf {
    PathBuf::from(env::var_os(variable).unwrap_or_else(|| panic!("{variable} names no folder")))
}

/// Every text of a kind with its report.
fn vectors_of(kind: &str) -> Vec<Vector> {
    let mut vectors = Vec::new();
    for entry in fs::read_dir(folder("CUTTING_PLANES_VECTORS").join(kind)).unwrap() {
        let path = entry.unwrap().path();
        if path.extension().is_some_and(|ending| ending == "in") {
            let name = format!("{kind}/{}", path.file_stem().unwrap().to_str().unwrap());
            let opb = (kind == "opb").then(|| fs::read(path.with_extension("opb")).unwrap());
            let report = fs::read(path.with_extension("out")).unwrap();
            vectors.push(Vector { name, opb, text: fs::read(path).unwrap(), report });
        }
    }
    assert!(vectors.len() >= 200, "only {} vectors in {kind}", vectors.len());
    vectors
}

/// Every text with its report.
fn vectors() -> Vec<Vector> {
    let mut vectors = vectors_of("reports");
    vectors.extend(vectors_of("opb"));
    vectors
}

#[test]
fn the_program_prints_the_stored_reports() {
    let printed = folder("CUTTING_PLANES_PRINTED");
    for Vector { name, report, .. } in vectors() {
        assert!(fs::read(printed.join(format!("{name}.out"))).unwrap() == report, "{name}");
    }
}

#[test]
fn right_and_larger_tables_clean_and_dirty() {
    let mut nodes = vec![WORD; NODE_WORDS + 1000];
    let mut report = vec![BYTE; REPORT_BYTES + 1000];
    for vector in vectors() {
        let (name, due) = (&vector.name, &vector.report);
        for (words, bytes, clean) in [
            (NODE_WORDS, REPORT_BYTES, false),
            (NODE_WORDS, REPORT_BYTES, true),
            (NODE_WORDS + 1, REPORT_BYTES + 1, false),
            (NODE_WORDS + 990, REPORT_BYTES + 990, true),
        ] {
            for &behind in vector.functions() {
                if clean {
                    nodes.fill(0);
                }
                nodes[words..].fill(WORD);
                report.fill(BYTE);
                let found = vector.check(behind, &mut nodes[..words], &mut report[..bytes]);
                assert!(
                    found == Ok(due),
                    "{name} with {words} words and {bytes} bytes, clean: {clean}, behind an OPB text: {behind}"
                );
                assert!(report[due.len()..].iter().all(|&byte| byte == BYTE), "{name}: a byte behind the report was changed");
                assert!(nodes[words..].iter().all(|&word| word == WORD), "{name}: a word behind the nodes was changed");
            }
        }
    }
}

#[test]
fn too_small_tables_are_left_alone() {
    let mut nodes = vec![WORD; NODE_WORDS];
    let mut report = vec![BYTE; REPORT_BYTES];
    for vector in vectors() {
        let name = &vector.name;
        for (words, bytes) in [
            (NODE_WORDS - 1, REPORT_BYTES),
            (NODE_WORDS, REPORT_BYTES - 1),
            (NODE_WORDS - 1, REPORT_BYTES - 1),
            (0, REPORT_BYTES),
            (NODE_WORDS, 0),
            (0, 0),
        ] {
            for &behind in vector.functions() {
                let found = vector.check(behind, &mut nodes[..words], &mut report[..bytes]);
                assert!(found == Err(TooSmall), "{name} with {words} words and {bytes} bytes, behind an OPB text: {behind}");
            }
        }
        assert!(nodes.iter().all(|&word| word == WORD), "{name}: a word was changed");
        assert!(report.iter().all(|&byte| byte == BYTE), "{name}: a byte was changed");
    }
}

#[test]
fn one_checker_for_many_texts() {
    let mut checker = Checker::new();
    for Vector { name, opb, text, report } in vectors() {
        match opb {
            Some(opb) => assert!(checker.check_opb(&opb, &text) == report, "{name}"),
            None => {
                assert!(checker.check_text(&text) == report, "{name}");
                assert!(checker.check_opb(b"", &text) == report, "{name} behind an empty OPB text");
            }
        }
    }
    assert_eq!(checker.check_text(b""), b"commands=0 refused=0 refuted=no\n");
    assert_eq!(checker.check_text(&vec![b' '; TEXT_BYTES]), b"commands=0 refused=0 refuted=no\n");
    assert_eq!(checker.check_text(&vec![b' '; TEXT_BYTES + 1]), b"refused=2 byte=32768\n");
    assert_eq!(checker.check_text(&vec![b' '; 1 << 20]), b"refused=2 byte=32768\n");
}

#[test]
fn a_model_and_a_proof() {
    let assumptions = "id=c1 rule=assume answer=0 plain=yes holds=yes\nid=c2 rule=assume answer=0 plain=yes holds=yes\n";
    let step = "id=s rule=cp_addition answer=0 plain=yes holds=yes\n";
    let mut checker = Checker::new();
    let mut due = |opb: &[u8], text: &[u8], report: &str| assert_eq!(checker.check_opb(opb, text), report.as_bytes());
    due(MODEL, b"", &format!("{assumptions}commands=2 refused=0 refuted=no\n"));
    due(MODEL, PROOF, &format!("{assumptions}{step}commands=3 refused=0 refuted=yes\n"));
    due(b"", PROOF, "refused=8 byte=51\n");
    due(b"min: +1 x1 ;", PROOF, "refused=50 byte=0\n");
    due(b"+1 x1 >= 1", b"(", "refused=51 byte=10\n");
}

#[test]
fn limits_of_two_texts() {
    let blanks = vec![b' '; 1 << 20];
    let mut checker = Checker::new();
    let mut due = |opb: &[u8], text: &[u8], report: &str| assert_eq!(checker.check_opb(opb, text), report.as_bytes());
    due(b"", b"", "commands=0 refused=0 refuted=no\n");
    due(&blanks[..TEXT_BYTES], &blanks[..TEXT_BYTES], "commands=0 refused=0 refuted=no\n");
    due(&blanks[..TEXT_BYTES + 1], b"(", "refused=2 byte=32768\n");
    due(b";", &blanks[..TEXT_BYTES + 1], "refused=51 byte=0\n");
    due(b"", &blanks[..TEXT_BYTES + 1], "refused=2 byte=32768\n");
    due(&blanks, &blanks, "refused=2 byte=32768\n");
}

#[test]
fn the_same_bytes_as_both_texts() {
    let mut checker = Checker::new();
    assert_eq!(checker.check_opb(b" \n", b" \n"), b"commands=0 refused=0 refuted=no\n");
    let both = b"* (assume a (>= 0 1))";
    let report = checker.check_opb(both, &both[2..]);
    assert_eq!(report, b"id=a rule=assume answer=0 plain=yes holds=yes\ncommands=1 refused=0 refuted=yes\n");
    assert_eq!(checker.check_opb(both, both), b"refused=6 byte=0\n");
}

#[test]
fn several_threads_at_once() {
    let vectors = vectors();
    thread::scope(|scope| {
        for first in 0..4 {
            let vectors = &vectors;
            scope.spawn(move || {
                let mut nodes = vec![0; NODE_WORDS];
                let mut report = vec![0; REPORT_BYTES];
                for vector in vectors.iter().skip(first * 5).step_by(9) {
                    for &behind in vector.functions() {
                        assert!(vector.check(behind, &mut nodes, &mut report) == Ok(&vector.report), "{}", vector.name);
                    }
                }
            });
        }
    });
}
