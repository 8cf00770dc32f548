//! Document 01's own examples: the table of answers, the report of section 6, the steps of section 7; and where 40 stands among the
//! other checks.

/// A step to try: rule, premises, clause, arguments.
type Step<'a> = (&'a str, &'a [&'a str], &'a str, &'a str);

/// A text whose last command is the step, the premises being assumptions.
fn text_of((rule, premises, clause, args): Step) -> String {
    let mut text = String::new();
    let mut ids = String::new();
    for (place, premise) in premises.iter().enumerate() {
        text += &format!("(assume p{place} {premise})\n");
        ids += &format!(" p{place}");
    }
    let premises = if ids.is_empty() { ids } else { format!(" :premises ({ids})") };
    let args = if args.is_empty() { String::new() } else { format!(" :args ({args})") };
    text + &format!("(step t (cl {clause}) :rule {rule}{premises}{args})\n")
}

/// The answer of a step and its mark `plain`.
fn said(step: Step) -> (u8, bool) {
    let account = oracle::account(text_of(step).as_bytes()).expect("the text is read");
    let line = account.lines.last().expect("there is a step");
    (line.answer, line.plain)
}

/// Whether steps of the six rules can be tried; says so if not.
fn has_original() -> bool {
    if !oracle::ORIGINAL {
        eprintln!("built without the original: its rules are not tried");
    }
    oracle::ORIGINAL
}

fn all_refused(steps: &[(u8, Step)]) {
    for (answer, step) in steps {
        assert_eq!(said(*step), (*answer, false), "{}", text_of(*step));
    }
}

#[test]
fn the_table_of_answers() {
    if !has_original() {
        return;
    }
    const ZERO: &str = "(>= 0 0)";
    const THREE: &[&str] = &["(>= (* 3 x) 1)"];
    all_refused(&[
        (20, ("cp_addition", &[ZERO], ZERO, "")),
        (21, ("cp_literal", &[], "", "x")),
        (22, ("cp_normalize", &[], "(= (>= x) (>= x 0))", "")),
        (23, ("cp_addition", &["(> (* 1 x) 0)", ZERO], ZERO, "")),
        (24, ("cp_multiplication", &[ZERO], ZERO, "x")),
        (25, ("cp_addition", &["(>= 4 1)", ZERO], ZERO, "")),
        (26, ("cp_addition", &["(>= x 1)", ZERO], ZERO, "")),
        (27, ("cp_division", &[ZERO], ZERO, "-2")),
        (28, ("cp_division", &[ZERO], ZERO, "0")),
        (29, ("cp_multiplication", THREE, "(>= (* 3 x) 2)", "1")),
        (30, ("cp_multiplication", THREE, "(>= 0 1)", "1")),
        (31, ("cp_multiplication", THREE, "(>= (* 2 x) 1)", "1")),
        (32, ("cp_saturation", &["(>= (* -1 x) 0)"], "(>= (* -1 x) 0)", "")),
        (33, ("cp_literal", &[], "(>= x 0)", "3")),
        (34, ("cp_literal", &[], "(>= (* 2 x) 0)", "x")),
        (35, ("cp_literal", &[], "(>= y 0)", "x")),
        (36, ("cp_literal", &[], "(>= x 1)", "x")),
        (37, ("cp_normalize", &[], "(= (+ x y) (>= x 0))", "")),
        (38, ("cp_normalize", &[], "(= (>= x 0) (>= (* 2 3) 0))", "")),
        (39, ("cp_normalize", &[], "(= (>= x 0) (>= y 0))", "")),
        (40, ("cp_multiplication", &[&sum(513)], ZERO, "1")),
    ]);
}

#[test]
fn links() {
    const BOTH: &[&str] = &["(and (>= x 0) (>= y 0))"];
    all_refused(&[
        (41, ("cp_transfer", &["(>= x 0)", "(= (>= y 0) (>= z 0))"], "(>= z 0)", "")),
        (41, ("cp_transfer", &["(>= x 0)", "(= (>= x 0) (>= z 0))"], "(>= y 0)", "")),
        (20, ("cp_transfer", &["(>= x 0)"], "(>= z 0)", "1")),
        (22, ("cp_transfer", &["(>= x 0)", "(>= x 0)"], "", "1")),
        (21, ("cp_transfer", &["(>= x 0)", "(>= x 0)"], "", "")),
        (41, ("cp_part", BOTH, "(>= y 0)", "0")),
        (41, ("cp_part", BOTH, "(>= y 0)", "2")),
        (41, ("cp_part", BOTH, "(>= y 0)", "-1")),
        (41, ("cp_part", BOTH, "(>= y 0)", "x")),
        (22, ("cp_part", BOTH, "(>= y 0)", "1 1")),
    ]);
    assert_eq!(said(("cp_transfer", &["(>= x 0)", "(= (>= x 0) (>= z 0))"], "(>= z 0)", "")), (0, true));
    assert_eq!(said(("cp_part", BOTH, "(>= y 0)", "1")), (0, true));
}

#[test]
fn steps_to_try() {
    if !has_original() {
        return;
    }
    const THREE: &str = "(>= (* 3 x) 1)";
    let steps: &[((u8, bool), Step)] = &[
        ((0, true), ("cp_division", &["(>= 0 -4)"], "(>= 0 -1)", "2")),
        ((0, true), ("cp_division", &["(>= 0 -5)"], "(>= 0 -2)", "2")),
        ((0, true), ("cp_division", &["(>= 0 -1)"], "(>= 0 0)", "2")),
        ((0, false), ("cp_addition", &[THREE, "(>= 0 0)"], "(>= (* 0 x) 1)", "")),
        ((0, false), ("cp_normalize", &[], "(= (>= (* -1 x) 0) (>= (* 1 (- 1 (- 1 x))) 1))", "")),
        ((0, false), ("cp_normalize", &[], "(= (>= (- x) 0) (>= x 0))", "")),
        ((0, true), ("cp_multiplication", &[THREE], "(>= (* 0 x) 0)", "0")),
        ((30, false), ("cp_multiplication", &[THREE], "(>= 0 0)", "0")),
        ((0, true), ("cp_saturation", &["(>= (* 5 x) 3)"], "(>= (* 3 x) 3)", "")),
        ((0, true), ("cp_normalize", &[], "(= (= x 1) (and (>= x 1) (>= (- 1 x) 0)))", "")),
        ((0, true), ("cp_normalize", &[], "(= (< (* 2 x) 3) (>= (* 2 (- 1 x)) 0))", "")),
        ((0, true), ("cp_multiplication", &[&sum(512)], &sum(512), "1")),
    ];
    for (due, step) in steps {
        assert_eq!(said(*step), *due, "{}", text_of(*step));
    }
}

/// `(>= (+ ..) 0)` with so many summands.
fn sum(summands: usize) -> String {
    of("(* 1 x)", summands, "0")
}

/// `(>= (+ s ..) k)` with so many summands.
fn of(summand: &str, summands: usize, constant: &str) -> String {
    format!("(>= (+{}) {constant})", format!(" {summand}").repeat(summands))
}

#[test]
fn where_40_stands_among_the_checks() {
    if !has_original() {
        return;
    }
    let long = sum(513);
    let (long_of_names, long_without_constant) = (of("x", 513, "0"), of("(* 1 x)", 513, "y"));
    let one_half = format!("(= (= x 1) (and (>= x 1) {long}))");
    let other_half = format!("(= (= x 1) (and {long} (>= 3 0)))");
    let wrong_half = format!("(= (= x 1) (and (>= y 1) {long}))");
    let refused_half = format!("(= (= x 1) (and (>= (* 2 3) 1) {long}))");
    let no_half = format!("(= (= x 1) (and (>= x 1) {long} (>= x 1)))");
    let leaves = |count: usize| format!("(= (>= (+{}) 0) x)", " x".repeat(count));
    all_refused(&[
        (23, ("cp_addition", &["(> x 0)", &long], "(>= 0 0)", "")),
        (40, ("cp_addition", &[&long, "(> x 0)"], "(>= 0 0)", "")),
        (26, ("cp_addition", &["(>= x 0)", &long], "(>= 0 0)", "")),
        (24, ("cp_addition", &["(>= (* y x) 0)", &long], "(>= 0 0)", "")),
        (40, ("cp_addition", &["(>= 0 0)", "(>= 0 0)"], &long, "")),
        (40, ("cp_addition", &[&long_of_names, "(>= 0 0)"], "(>= 0 0)", "")),
        (24, ("cp_addition", &[&long_without_constant, "(>= 0 0)"], "(>= 0 0)", "")),
        (20, ("cp_addition", &[&long], &long, "")),
        (22, ("cp_saturation", &[&long], &long, "1")),
        (28, ("cp_division", &[&long], &long, "0")),
        (36, ("cp_literal", &[], &of("x", 513, "1"), "x")),
        (35, ("cp_literal", &[], &long, "x")),
        (40, ("cp_normalize", &[], &one_half, "")),
        (40, ("cp_normalize", &[], &other_half, "")),
        (39, ("cp_normalize", &[], &wrong_half, "")),
        (38, ("cp_normalize", &[], &refused_half, "")),
        (23, ("cp_normalize", &[], &no_half, "")),
        (23, ("cp_normalize", &[], &leaves(511), "")),
        (40, ("cp_normalize", &[], &leaves(512), "")),
        (21, ("cp_normalize", &[], &(leaves(512) + "x"), "")),
    ]);
}

#[test]
fn the_report_of_section_6() {
    if !has_original() {
        return;
    }
    let text = "(assume a1 (>= (+ (* 2 x) (* 1 y)) 2))
(assume a2 (>= (* 1 (- 1 x)) 1))
(step t1 (cl (>= (+ (* 1 x) (* 1 y)) 1)) :rule cp_division :premises (a1) :args (2))
";
    let report = "id=a1 rule=assume answer=0 plain=yes holds=yes
id=a2 rule=assume answer=0 plain=yes holds=yes
id=t1 rule=cp_division answer=0 plain=yes holds=yes
commands=3 refused=0 refuted=no
";
    assert_eq!(String::from_utf8(oracle::report(text.as_bytes())).unwrap(), report);
}

#[test]
fn refused_texts_have_one_line() {
    assert_eq!(oracle::report(b"(assume a)"), b"refused=6 byte=9\n");
    assert_eq!(oracle::report(&[b' '; 32_769]), b"refused=2 byte=32768\n");
    assert_eq!(oracle::report(b""), b"commands=0 refused=0 refuted=no\n");
}

/// The rows of docs/DIFFERENCES.md that the original has an answer for: it accepts each, and the mark is as the row says.
#[test]
fn the_list_of_differences() {
    if !has_original() {
        return;
    }
    const SUM: &str = "(>= (* 0 (+ x y)) 0)";
    let rows: [(bool, Step); 8] = [
        // kept out by the mark plain
        (false, ("cp_addition", &["(>= (* 3 x) 1)", "(>= 0 0)"], "(>= (* 0 x) 1)", "")),
        (false, ("cp_normalize", &[], "(= (>= (- x) 0) (>= x 0))", "")),
        (false, ("cp_normalize", &[], "(= (>= (* -1 x) 0) (>= (* 1 (- 1 (- 1 x))) 1))", "")),
        (false, ("cp_multiplication", &[SUM], SUM, "1")),
        // sound all the same
        (true, ("cp_division", &["(>= (* 2 x) -4)"], "(>= (* 1 x) -1)", "2")),
        (true, ("cp_addition", &["(>= (* -2 x) -1)", "(>= (* 1 (- 1 x)) 0)"], "(>= (* 3 (- 1 x)) 1)", "")),
        (true, ("cp_multiplication", &["(>= (* 3 x) 1)"], "(>= (* 0 x) 0)", "0")),
        (true, ("cp_literal", &["(>= x 0)"], "(>= x 0)", "x")),
    ];
    for (plain, step) in rows {
        assert_eq!(said(step), (0, plain), "{}", text_of(step));
    }
}
