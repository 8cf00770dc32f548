"""The examples of document 01, of pol lines in document 02, and of their readings, each with what the document says of it.

`examples()` gives pairs of a text and a part of its report. A step's example is a text of its premises
and the step as the last command.
"""

# Document 01, table of answers: rule, premises, conclusion, arguments, and what the step's line has.
TABLE = (
    ("cp_addition", ("(>= (* 1 x) 0)",), "(>= (* 1 x) 0)", "", "answer=20 plain=no"),
    ("cp_normalize", (), "", "", "answer=21 plain=no"),
    ("cp_normalize", (), "(= (>= x) (>= x 0))", "", "answer=22 plain=no"),
    ("cp_addition", ("(> (* 1 x) 0)", "(>= 0 0)"), "(>= (* 1 x) 0)", "", "answer=23 plain=no"),
    ("cp_multiplication", ("(>= (* 1 x) 0)",), "(>= (* 1 x) 0)", "x", "answer=24 plain=no"),
    ("cp_addition", ("(>= 4 1)", "(>= 0 0)"), "(>= 4 1)", "", "answer=25 plain=no"),
    ("cp_addition", ("(>= x 1)", "(>= 0 0)"), "(>= x 1)", "", "answer=26 plain=no"),
    ("cp_division", ("(>= (* 2 x) 0)",), "(>= (* -1 x) 0)", "-2", "answer=27 plain=no"),
    ("cp_division", ("(>= (* 2 x) 0)",), "(>= (* 2 x) 0)", "0", "answer=28 plain=no"),
    ("cp_multiplication", ("(>= (* 3 x) 1)",), "(>= (* 3 x) 2)", "1", "answer=29 plain=no"),
    ("cp_multiplication", ("(>= (* 3 x) 1)",), "(>= 0 1)", "1", "answer=30 plain=no"),
    ("cp_multiplication", ("(>= (* 3 x) 1)",), "(>= (* 2 x) 1)", "1", "answer=31 plain=no"),
    ("cp_saturation", ("(>= (* -1 x) 0)",), "(>= (* -1 x) 0)", "", "answer=32 plain=no"),
    ("cp_literal", (), "(>= x 0)", "3", "answer=33 plain=no"),
    ("cp_literal", (), "(>= (* 2 x) 0)", "x", "answer=34 plain=no"),
    ("cp_literal", (), "(>= y 0)", "x", "answer=35 plain=no"),
    ("cp_literal", (), "(>= x 1)", "x", "answer=36 plain=no"),
    ("cp_normalize", (), "(= (+ x y) (>= x 0))", "", "answer=37 plain=no"),
    ("cp_normalize", (), "(= (>= x 0) (>= (* 2 3) 0))", "", "answer=38 plain=no"),
    ("cp_normalize", (), "(= (>= x 0) (>= y 0))", "", "answer=39 plain=no"),
    ("cp_transfer", ("(>= x 0)", "(= (>= y 0) (>= z 0))"), "(>= z 0)", "", "answer=41 plain=no"),
)

# Document 01, section 7: steps to try, and the mistakes that it names.
STEPS_TO_TRY = (
    ("cp_division", ("(>= (* -4 x) -4)",), "(>= (* -1 x) -1)", "2", "answer=0 plain=yes"),
    ("cp_division", ("(>= (* -5 x) -5)",), "(>= (* -2 x) -2)", "2", "answer=0 plain=yes"),
    ("cp_division", ("(>= (* -1 x) -1)",), "(>= (* 0 x) 0)", "2", "answer=0 plain=yes"),
    ("cp_division", ("(>= (* -4 x) -4)",), "(>= (* -2 x) -2)", "2", "answer=29 plain=no"),
    ("cp_addition", ("(>= (* 3 x) 1)", "(>= 0 0)"), "(>= (* 0 x) 1)", "", "answer=0 plain=no"),
    ("cp_normalize", (), "(= (>= (* -1 x) 0) (>= (* 1 (- 1 (- 1 x))) 1))", "", "answer=0 plain=no"),
    ("cp_normalize", (), "(= (>= (- x) 0) (>= x 0))", "", "answer=0 plain=no"),
    ("cp_multiplication", ("(>= (* 3 x) 1)",), "(>= (* 0 x) 0)", "0", "answer=0 plain=yes"),
    ("cp_multiplication", ("(>= (* 3 x) 1)",), "(>= 0 0)", "0", "answer=30 plain=no"),
    ("cp_saturation", ("(>= (* 5 x) 3)",), "(>= (* 3 x) 3)", "", "answer=0 plain=yes"),
    ("cp_normalize", (), "(= (= x 1) (and (>= x 1) (>= (- 1 x) 0)))", "", "answer=0 plain=yes"),
    ("cp_normalize", (), "(= (= x 1) (and (>= x 1) (>= x 0)))", "", "answer=39 plain=no"),
    ("cp_normalize", (), "(= (< (* 2 x) 3) (>= (* 2 (- 1 x)) 0))", "", "answer=0 plain=yes"),
    ("cp_addition", ("(>= (* -2 x) 0)", "(>= (* 1 (- 1 x)) 0)"), "(>= (* 3 (- 1 x)) 2)", "", "answer=0 plain=yes"),
)

# Document 01, sections 3 to 5, "checks in order": steps in which neighbouring checks fail together.
ORDER = (
    ("cp_addition", ("(>= 0 0)",), "", "1", "answer=20 plain=no"),
    ("cp_addition", ("(>= 0 0)", ""), "(>= 0 0)", "1", "answer=21 plain=no"),
    ("cp_addition", ("x", "(>= 0 0)"), "", "1", "answer=22 plain=no"),
    ("cp_addition", ("x", "(>= 0 0)"), "", "", "answer=21 plain=no"),
    ("cp_addition", ("(>= 0 x)", "x"), "(>= 4 0)", "", "answer=24 plain=no"),
    ("cp_addition", ("(>= 0 0)", "(>= 4 0)"), "x", "", "answer=25 plain=no"),
    ("cp_addition", ("(>= 0 0)", "(>= 0 0)"), "(>= x 1)", "", "answer=26 plain=no"),
    ("cp_addition", ("(>= (+ (* y x) x) 0)", "(>= 0 0)"), "(>= 0 0)", "", "answer=24 plain=no"),
    ("cp_addition", ("(>= (+ x (* y x)) 0)", "(>= 0 0)"), "(>= 0 0)", "", "answer=26 plain=no"),
    ("cp_addition", ("(>= (* 1 x) 0)", "(>= 0 0)"), "(>= 0 1)", "", "answer=29 plain=no"),
    ("cp_addition", ("(>= (+ (* 1 x) (* 1 y)) 0)", "(>= 0 0)"), "(>= (* 2 x) 0)", "", "answer=30 plain=no"),
    ("cp_multiplication", ("", ""), "(>= 0 0)", "", "answer=20 plain=no"),
    ("cp_multiplication", ("",), "", "", "answer=21 plain=no"),
    ("cp_multiplication", ("x",), "", "x x", "answer=22 plain=no"),
    ("cp_multiplication", ("x",), "", "x", "answer=24 plain=no"),
    ("cp_multiplication", ("x",), "", "-1", "answer=27 plain=no"),
    ("cp_multiplication", ("x",), "", "1", "answer=21 plain=no"),
    ("cp_multiplication", ("(>= (* 1 x) 0)",), "(>= 0 1)", "1", "answer=29 plain=no"),
    ("cp_multiplication", ("(>= (+ (* 1 x) (* 1 y)) 0)",), "(>= (* 2 x) 0)", "1", "answer=30 plain=no"),
    ("cp_multiplication", ("(>= 0 0)",), "(>= (* 2 x) 0)", "1", "answer=30 plain=no"),
    ("cp_multiplication", ("(>= (* 1 x) 0)",), "(>= (* 0 x) 0)", "1", "answer=31 plain=no"),
    ("cp_division", ("", ""), "", "", "answer=20 plain=no"),
    ("cp_division", ("x",), "", "0", "answer=28 plain=no"),
    ("cp_division", ("x",), "", "-1", "answer=27 plain=no"),
    ("cp_division", ("x",), "", "1", "answer=21 plain=no"),
    ("cp_division", ("(>= 0 x)",), "x", "1", "answer=24 plain=no"),
    ("cp_division", ("(>= 0 0)",), "(>= 4 1)", "1", "answer=25 plain=no"),
    ("cp_saturation", ("", ""), "", "1", "answer=20 plain=no"),
    ("cp_saturation", ("",), "", "1", "answer=22 plain=no"),
    ("cp_saturation", ("x",), "", "", "answer=21 plain=no"),
    ("cp_saturation", ("x",), "(>= 4 0)", "", "answer=23 plain=no"),
    ("cp_saturation", ("(>= 0 -1)",), "(>= 4 0)", "", "answer=25 plain=no"),
    ("cp_saturation", ("(>= 0 -1)",), "(>= 0 0)", "", "answer=32 plain=no"),
    ("cp_saturation", ("(>= (* -1 x) 1)",), "(>= 0 0)", "", "answer=32 plain=no"),
    ("cp_literal", (), "", "3 3", "answer=21 plain=no"),
    ("cp_literal", (), "x", "3 3", "answer=22 plain=no"),
    ("cp_literal", (), "x", "(- 1 3)", "answer=33 plain=no"),
    ("cp_literal", (), "(>= (* y (- 1 y)) 0)", "x", "answer=24 plain=no"),
    ("cp_literal", (), "(>= (* 2 y) 0)", "x", "answer=34 plain=no"),
    ("cp_literal", (), "(>= (* 1 (- 1 x)) 0)", "x", "answer=35 plain=no"),
    ("cp_literal", (), "(>= (* 1 (- 1 x)) 0)", "(- 1 x)", "answer=0 plain=yes"),
    ("cp_literal", (), "(>= (- 1 x) 0)", "(- 1 x)", "answer=0 plain=yes"),
    ("cp_normalize", (), "(= (+ x) (> x 0))", "", "answer=37 plain=no"),
    ("cp_normalize", (), "(= (>= x) (> x 0))", "", "answer=22 plain=no"),
    ("cp_normalize", (), "(= (>= x 0) (> (* 2 3) y))", "", "answer=23 plain=no"),
    ("cp_normalize", (), "(= (>= x 0) (>= (* 2 3) y))", "", "answer=38 plain=no"),
    ("cp_normalize", (), "(= (>= x 0) (>= z y))", "", "answer=24 plain=no"),
    ("cp_normalize", (), "(= (>= x 0) (>= (+ x x) 1))", "", "answer=39 plain=no"),
    ("cp_normalize", (), "(= (= x 1) (and (>= (* 2 3) y) (> x 0)))", "", "answer=23 plain=no"),
    ("cp_normalize", (), "(= (= x 1) (and (>= (* 2 3) y) (>= x z)))", "", "answer=38 plain=no"),
    ("cp_normalize", (), "(= (= x 1) (and (>= y 1) (>= (* 2 3) 0)))", "", "answer=39 plain=no"),
    ("cp_transfer", ("",), "", "1", "answer=20 plain=no"),
    ("cp_transfer", ("(>= x 0)", ""), "", "1", "answer=21 plain=no"),
    ("cp_transfer", ("(>= x 0)", "x"), "", "1", "answer=22 plain=no"),
    ("cp_transfer", ("(>= x 0)", "x"), "", "", "answer=21 plain=no"),
    ("cp_transfer", ("y", "(= x y)"), "x", "", "answer=41 plain=no"),
    ("cp_transfer", ("(= x y)", "x"), "y", "", "answer=41 plain=no"),
    ("cp_part", ("", ""), "", "", "answer=20 plain=no"),
    ("cp_part", ("",), "", "", "answer=21 plain=no"),
    ("cp_part", ("x",), "", "0 0", "answer=22 plain=no"),
    ("cp_part", ("x",), "", "0", "answer=21 plain=no"),
    ("cp_part", ("x",), "x", "0", "answer=41 plain=no"),
)

# The readings of answers, marks and division.
READ_STEPS = (
    ("cp_saturation", ("(>= 4 y)",), "(>= 4 y)", "", "answer=24 plain=no"),
    ("cp_saturation", ("(>= (+ 0) 1)",), "(>= 0 1)", "", "answer=0 plain=yes"),
    ("cp_saturation", ("(>= (+ 4) 1)",), "(>= 0 1)", "", "answer=25 plain=no"),
    ("cp_saturation", ("(>= (+ 0 0) 1)",), "(>= 0 1)", "", "answer=26 plain=no"),
    ("cp_normalize", (), "(= (= x 1) (and (>= x 2) (> x 1)))", "", "answer=23 plain=no"),
    ("cp_normalize", (), "(= (= x 1) (and (>= x 2) (>= (* 2 3) 1)))", "", "answer=29 plain=no"),
    ("cp_normalize", (), "(= (>= x 0) (>= 3 0))", "", "answer=39 plain=no"),
    ("cp_part", ("(and (>= x 0))",), "(>= x 0)", "0", "answer=0 plain=yes holds=yes"),
    ("cp_part", ("(and (>= x 0))",), "(>= x 0)", "x", "answer=41 plain=no"),
    ("cp_part", ("(and (>= x 0))",), "(>= x 0)", "-1", "answer=41 plain=no"),
    ("cp_part", ("(and (>= x 0))",), "(>= x 0)", "1", "answer=41 plain=no"),
    ("cp_multiplication", ("(>= (* 0 (+ x y)) 1)",), "(>= 0 1)", "1", "answer=0 plain=no"),
    ("cp_multiplication", ("(>= (+ (* 1 (- x)) (* -1 (- x))) 1)",), "(>= 0 1)", "1", "answer=0 plain=no"),
    ("cp_multiplication", ("(>= 0 1)",), "(>= (* 0 (+ x y)) 1)", "1", "answer=0 plain=no"),
    ("cp_multiplication", ("(>= (* 2 3) 1)",), "(>= (* 2 3) 1)", "1", "answer=0 plain=no"),
    ("cp_normalize", (), "(= (>= (+ x (* 2 3)) 7) (>= x 1))", "", "answer=0 plain=yes"),
    ("cp_addition", ("(>= (* 3 x) 1)", "(>= 0 0)"), "(>= (+ (* 1 x) (* -1 x)) 1)", "", "answer=0 plain=no"),
    ("cp_addition", ("(>= (* 3 x) 1)", "(>= 0 0)"), "(>= (+ (* 0 x) (* 3 x)) 1)", "", "answer=0 plain=yes"),
    ("cp_addition", ("(>= (* 0 (+ x y)) 0)", "(>= 0 0)"), "(>= 0 0)", "", "answer=0 plain=no"),
    ("cp_addition", ("(>= 0 0)", "(>= (* 0 (+ x y)) 0)"), "(>= 0 0)", "", "answer=0 plain=no"),
    ("cp_addition", ("(>= 0 0)", "(>= 0 0)"), "(>= (* 0 (+ x y)) 0)", "", "answer=0 plain=no"),
    ("cp_transfer", ("x", "(= x y)"), "y", "", "answer=0 plain=yes holds=no"),
    ("cp_literal", ("(>= x 0 0)",), "(>= x 0)", "x", "answer=0 plain=yes holds=no"),
    ("cp_literal", ("(= x (>= x 0))",), "(>= x 0)", "x", "answer=0 plain=yes holds=no"),
    ("cp_division", ("(>= (* -4 x) -4)",), "(>= (* 0 x) 0)", "3", "answer=0 plain=yes"),
)

# Document 01, sections 4 and 5: each place that decides `plain` of a normalization, and two conditions of
# agreeing entries.
MARKS = (
    ("cp_normalize", (), "(= (>= 0 (- x)) (>= (- 1 x) 1))", "", "answer=0 plain=no"),
    ("cp_normalize", (), "(= (>= (* -2 (- 1 (- 1 x))) 0) (>= (* 2 (- 1 x)) 2))", "", "answer=0 plain=no"),
    ("cp_normalize", (), "(= (= x 1) (and (>= x 1) (>= (- 1 (- 1 x)) 0)))", "", "answer=0 plain=no"),
    ("cp_normalize", (), "(= (= (* -1 x) 0) (and (>= (- 1 (- 1 x)) 1) (>= x 0)))", "", "answer=0 plain=no"),
    ("cp_normalize", (), "(= (>= (* x y) 0) (>= (* x y) 0))", "", "answer=0 plain=no"),
    ("cp_normalize", (), "(= (>= (* x 2) 0) (>= (* x 2) 0))", "", "answer=0 plain=yes"),
    ("cp_normalize", (), "(= (>= x 0) (>= (- 1 (- 1 x)) 0))", "", "answer=39 plain=no"),
)

# Whole files: the report of section 6, the refusals of the table and of the readings, refutations.
FILES = (
    (b"(assume a1 (>= (+ (* 2 x) (* 1 y)) 2))\n(assume a2 (>= (* 1 (- 1 x)) 1))\n(step t1 (cl (>= (+ (* 1 x)"
     b" (* 1 y)) 1)) :rule cp_division :premises (a1) :args (2))\n",
     "id=a1 rule=assume answer=0 plain=yes holds=yes\nid=a2 rule=assume answer=0 plain=yes holds=yes\n"
     "id=t1 rule=cp_division answer=0 plain=yes holds=yes\ncommands=3 refused=0 refuted=no\n"),
    (b"", "commands=0 refused=0 refuted=no\n"),
    (b" \n", "commands=0 refused=0 refuted=no\n"),
    (b"\0", "refused=3 byte=0\n"),
    (b" \x0b", "refused=3 byte=1\n"),
    (b"\x7f", "refused=3 byte=0\n"),
    (b"x\0", "refused=6 byte=0\n"),
    (b"-0", "refused=4 byte=0\n"),
    (b"007", "refused=4 byte=0\n"),
    (b"1x", "refused=4 byte=0\n"),
    (b"-1.", "refused=4 byte=0\n"),
    (b"(assume a 100000000)", "refused=4 byte=10\n"),
    (b"(assume a 99999999)", "commands=1 refused=0 refuted=no\n"),
    (b";x", "refused=5 byte=0\n"),
    (b"+1", "refused=5 byte=0\n"),
    (b"--1", "refused=5 byte=0\n"),
    (b"-x", "refused=5 byte=0\n"),
    (b":rules", "refused=5 byte=0\n"),
    (b"(assume " + b"a" * 33 + b" 1)", "refused=5 byte=8\n"),
    (b"(assume " + b"a" * 32 + b" 1)", "commands=1 refused=0 refuted=no\n"),
    (b"(assume a)", "refused=6 byte=9\n"),
    (b"(assume a 1 \n", "refused=6 byte=13\n"),
    (b"(step a (cl) :rule assume)", "refused=6 byte=19\n"),
    (b"(step a (cl) :rule foo)", "refused=8 byte=19\n"),
    (b"(step a (cl) :rule cp_part :premises (a))", "refused=8 byte=38\n"),
    (b"(assume a 1)(assume a 1)", "refused=8 byte=20\n"),
    (b"(assume and 1)", "refused=6 byte=8\n"),
    (b"(assume a (+))", "refused=6 byte=12\n"),
    (b"(assume a (x 1))", "refused=6 byte=11\n"),
    (b"(assume a 1 2)", "refused=6 byte=12\n"),
    (b"(assume a cl)", "refused=6 byte=10\n"),
    (b"(step a cl :rule cp_part)", "refused=6 byte=8\n"),
    (b"(step a (cl) :premises (a) :rule cp_part)", "refused=6 byte=13\n"),
    (b"(step a (cl) :rule cp_part :premises ())", "refused=6 byte=38\n"),
    (b"(step a (cl) :rule cp_part :args ())", "refused=6 byte=34\n"),
    (b"(assume a 1)(step b (cl) :rule cp_part :args (0) :premises (a))", "refused=6 byte=49\n"),
    (b"(assume a 1)(step b (cl) :rule cp_part :premises (a a) :premises (a))", "refused=6 byte=55\n"),
    (b"(assume a a)(step b (cl) :rule cp_part :premises (a) :args (b))", "commands=2 refused=1 refuted=no\n"),
    (b"(assume a " + b"(+ " * 63 + b"1" + b")" * 64, "commands=1 refused=0 refuted=no\n"),
    (b"(assume a " + b"(+ " * 64 + b"1" + b")" * 65, "refused=7 byte=202\n"),
    (b"(assume a " + b"(+ " * 64 + b"()" + b")" * 65, "refused=7 byte=202\n"),
    (b"(assume a (>= 0 1))", "refuted=yes\n"),
    (b"(assume a (>= 0 0))", "refuted=no\n"),
    (b"(assume a (>= (+ 0) 1))", "refuted=yes\n"),
    (b"(assume a (>= (+ (* 2 x) (* 1 y)) 4))", "refuted=yes\n"),
    (b"(assume a (>= (+ (* 2 x) (* 1 y)) 3))", "refuted=no\n"),
    (b"(assume a (>= (* 1 x) 2))", "refuted=yes\n"),
    (b"(assume a (>= x 2))", "refuted=no\n"),
    (b"(assume a (>= (* -1 x) 0))", "refuted=no\n"),
    (b"(assume a (>= (* -1 x) 1))", "refuted=yes\n"),
    (b"(assume a (>= (+ (* -3 x) (* -2 (- 1 x))) -2))", "refuted=no\n"),
    (b"(assume a (>= (+ (* -3 x) (* -2 (- 1 x))) -1))", "refuted=yes\n"),
    (b"(assume a (>= (+ (* 2 x) (* 2 x)) 4))", "refuted=no\n"),
    (b"(assume a (>= (+ (* 2 x) (* -2 x)) 1))", "refuted=yes\n"),
    (b"(assume a (>= (* 1 (+ x y)) 5))", "refuted=no\n"),
    (b"(assume a (> (* 1 x) 1))", "refuted=no\n"),
    (b"(assume a (and (>= (* 1 x) 2)))", "refuted=no\n"),
    (b"(step s (cl (>= (* 1 x) 2)) :rule cp_literal :args (x))", "refuted=no\n"),
)


# Document 02, No. 2: the words of a pol line behind two assumptions, and what its line has.
POLS = (
    ("a b +", "answer=0 plain=yes holds=yes"),
    ("a b + 3 d x7 2 * + s", "answer=0 plain=yes holds=yes"),
    ("~p p +", "answer=0 plain=yes holds=yes"),
    ("r", "answer=0 plain=yes holds=no"),
    ("+", "answer=52 plain=no"),
    ("a +", "answer=52 plain=no"),
    ("a b", "answer=52 plain=no"),
    ("-1 *", "answer=52 plain=no"),
    ("a 99999999 *", "answer=53 plain=no"),
    ("w", "answer=53 plain=no"),
    ("a 0 d", "answer=54 plain=no"),
    ("a -1 *", "answer=54 plain=no"),
    ("n s", "answer=54 plain=no"),
    ("o", "answer=54 plain=no"),
    ("e", "answer=54 plain=no"),
    ("x " * 33, "answer=52 plain=no"),
    ("x " * 32 + "+ " * 31, "answer=0 plain=yes holds=yes"),
)
POL_GIVEN = (
    "(assume a (>= (+ (* 3 x) (* 2 (- 1 y))) 4))(assume b (>= (* 2 (- 1 x)) 1))(assume n (>= (* -1 x) 0))(assume o (>= x 0))"
    "(assume w (>= (+ (* 99999999 x) (* 1 x)) 0))(pol e +)(step r (cl (>= (* 1 x) 1)) :rule cp_saturation :premises (a))")
POL_FILES = (
    (b"(pol p)", "refused=6 byte=6\n"), (b"(pol p x 2)", "refused=6 byte=10\n"), (b"(pol p x d)", "refused=6 byte=9\n"), (b"(pol p * x)", "refused=6 byte=7\n"),
    (b"(pol ~p x)", "refused=5 byte=5\n"), (b"(pol p ~cl)", "refused=5 byte=7\n"), (b"(pol p ~5)", "refused=5 byte=7\n"), (b"(pol p ~d 2 d s)", "rule=pol answer=0 plain=yes holds=yes\n"),
    (b"(pol p x)(pol p x)", "refused=8 byte=14\n"), (b"(assume a ~x)", "refused=5 byte=10\n"), (b"(step t (cl) :rule pol)", "refused=8 byte=19\n"),
    (b"(assume a (>= (* 1 x) 1))(assume b (>= (* 1 (- 1 x)) 1))(pol p a b +)", "refuted=yes\n"),
    (b"(assume a (>= (+ (* 2 x) (* 1 y)) 3))(assume b (>= (* 1 (- 1 x)) 1))(pol p a b +)", "refuted=yes\n"),
    (b"(assume a (>= (+ (* 2 x) (* 1 y)) 3))(assume b (>= (* 1 (- 1 x)) 0))(pol p a b +)", "refuted=no\n"),
    (b"(assume a (>= (* 2 x) 1))(pol p a)(step s (cl (>= (* 1 x) 1)) :rule cp_division :premises (p) :args (2))", "id=s rule=cp_division answer=0 plain=yes holds=yes\n"),
    (b"(pol p +)(step s (cl (>= 0 0)) :rule cp_saturation :premises (p))", "id=s rule=cp_saturation answer=21 plain=no holds=no\n"),
)


def step_text(rule, premises, conclusion, arguments):
    """A text of the premises and the step; a premise without a term is a step with an empty clause."""
    names = ["p%d" % place for place in range(len(premises))]
    lines = [
        "(assume %s %s)" % (name, term) if term else "(step %s (cl) :rule cp_literal)" % name
        for name, term in zip(names, premises)]
    cited = " :premises (%s)" % " ".join(names) if names else ""
    given = " :args (%s)" % arguments if arguments else ""
    lines.append("(step s (cl %s) :rule %s%s%s)" % (conclusion, rule, cited, given))
    return "\n".join(lines).encode("ascii")


def examples():
    """Pairs of a text and a part of its report."""
    steps = TABLE + STEPS_TO_TRY + ORDER + READ_STEPS + MARKS
    pols = [("%s(pol p %s)" % (POL_GIVEN, words), "id=p rule=pol %s" % line) for words, line in POLS]
    return list(FILES) + list(POL_FILES) + [(text.encode("ascii"), line) for text, line in pols] + [(step_text(*step[:4]), "id=s rule=%s %s" % (step[0], step[4])) for step in steps]
