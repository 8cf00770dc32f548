"""Whole reports by hand: texts, each with every line that document 01 says is due for it.

A text is put together from commands, and each command is written here with what its line has. Nothing in this file
reads a text or checks a step; `reports.py` holds each report to the independent reference.
"""
from collections import namedtuple

# `opb` is the OPB text before the text, where there is one.
Vector = namedtuple("Vector", "name text report quoted opb", defaults=(None,))
# A command's text and the end of its line in the report, from ` rule=` on.
Command = namedtuple("Command", "id text line accepted")

# What an accepted step's line has: it is plain and holds; it is plain; neither. Any other step has its answer here.
HOLDS, PLAIN, ODD = "plain=yes holds=yes", "plain=yes holds=no", "plain=no holds=no"


# ---------------------------------------------------------------- putting texts and reports together

def given(name, term, holds=True):
    """An assumption: it holds where it is a statement (section 5)."""
    line = " rule=assume answer=0 %s" % (HOLDS if holds else PLAIN)
    return Command(name, "(assume %s %s)" % (name, term), line, True)


def step(name, rule, premises, clause, arguments, due):
    """A step; `due` is HOLDS, PLAIN or ODD where it is accepted, else its answer."""
    cited = " :premises (%s)" % premises if premises else ""
    listed = " :args (%s)" % arguments if arguments else ""
    text = "(step %s (cl%s) :rule %s%s%s)" % (name, " " + clause if clause else "", rule, cited, listed)
    accepted = not isinstance(due, int)
    marks = due if accepted else ODD
    return Command(name, text, " rule=%s answer=%d %s" % (rule, 0 if accepted else due, marks), accepted)


def report_of(commands, refuted=False):
    """The report that the commands' lines make (section 6)."""
    lines = ["id=%s%s\n" % (command.id, command.line) for command in commands]
    refused = sum(not command.accepted for command in commands)
    lines.append("commands=%d refused=%d refuted=%s\n" % (len(commands), refused, "yes" if refuted else "no"))
    return "".join(lines).encode("ascii")


def read(name, *commands, refuted=False, quoted=(), between="\n", ending="\n"):
    """A text that is read."""
    text = between.join(command.text for command in commands) + ending
    return Vector(name, text.encode("ascii"), report_of(commands, refuted), quoted)


def layout(name, text, *commands, quoted=()):
    """A text that is read, written out with its blanks."""
    return Vector(name, text, report_of(commands), quoted)


def refused(name, number, text, quoted=()):
    """A text that is refused at the `^` in it, which is not part of it."""
    byte = text.index(b"^")
    return Vector(name, text.replace(b"^", b"", 1), b"refused=%d byte=%d\n" % (number, byte), quoted)


class no(str):
    """A premise's term that is no statement."""


def last(name, rule, premises, clause, arguments, due, refuted=False, quoted=()):
    """A text of one step behind its premises; a premise without a term is a step with an empty clause."""
    commands = []
    for place, term in enumerate(premises):
        cited = "p%d" % place
        if term:
            commands.append(given(cited, term, not isinstance(term, no)))
        else:
            commands.append(step(cited, "cp_literal", "", "", "", 21))
    names = " ".join(command.id for command in commands)
    commands.append(step("s", rule, names, clause, arguments, due))
    return read(name, *commands, refuted=refuted, quoted=quoted)


def plus(count, summand):
    """A sum of one summand again and again."""
    return "(+%s)" % ((" " + summand) * count)


def named(count, summand="(* 1 x%d)"):
    """A sum of summands of as many names."""
    return "(+ %s)" % " ".join(summand % place for place in range(count))


# ---------------------------------------------------------------- document 01's own examples

SECTION_6 = (
    given("a1", "(>= (+ (* 2 x) (* 1 y)) 2)"),
    given("a2", "(>= (* 1 (- 1 x)) 1)"),
    step("t1", "cp_division", "a1", "(>= (+ (* 1 x) (* 1 y)) 1)", "2", HOLDS))
SECTION_6_TEXT = (
    "(assume a1 (>= (+ (* 2 x) (* 1 y)) 2))\n(assume a2 (>= (* 1 (- 1 x)) 1))\n"
    "(step t1 (cl (>= (+ (* 1 x) (* 1 y)) 1)) :rule cp_division :premises (a1) :args (2))\n")
SECTION_6_REPORT = (
    "id=a1 rule=assume answer=0 plain=yes holds=yes\nid=a2 rule=assume answer=0 plain=yes holds=yes\n"
    "id=t1 rule=cp_division answer=0 plain=yes holds=yes\ncommands=3 refused=0 refuted=no\n")
THREE_X = "(>= (* 3 x) 1)"

# "What the report can answer", rows 20 to 41: name, rule, premises, conclusion, arguments, answer, what is quoted.
ANSWERS = (
    ("20", "cp_addition", ("(>= (* 1 x) 0)",), "(>= (* 1 x) 0)", "", 20, ()),
    ("21_addition", "cp_addition", ("(>= 0 0)", "(>= 0 0)"), "", "", 21, ("(cl)",)),
    ("21_multiplication", "cp_multiplication", ("(>= 0 0)",), "", "1", 21, ("(cl)",)),
    ("21_division", "cp_division", ("(>= 0 0)",), "", "1", 21, ("(cl)",)),
    ("21_saturation", "cp_saturation", ("(>= 0 0)",), "", "", 21, ("(cl)",)),
    ("21_literal", "cp_literal", (), "", "x", 21, ("(cl)",)),
    ("21_normalize", "cp_normalize", (), "", "", 21, ("(cl)",)),
    ("21_transfer", "cp_transfer", ("(>= x 0)", "(= (>= x 0) (>= y 0))"), "", "", 21, ("(cl)",)),
    ("21_part", "cp_part", ("(and (>= x 0))",), "", "0", 21, ("(cl)",)),
    ("22", "cp_normalize", (), "(= (>= x) (>= x 0))", "", 22, ("(= (>= x) (>= x 0))",)),
    ("23", "cp_addition", ("(> (* 1 x) 0)", "(>= 0 0)"), "(>= (* 1 x) 0)", "", 23, ("(> (* 1 x) 0)",)),
    ("24", "cp_multiplication", ("(>= (* 1 x) 0)",), "(>= (* 1 x) 0)", "x", 24, ("x",)),
    ("25", "cp_addition", ("(>= 4 1)", "(>= 0 0)"), "(>= 4 1)", "", 25, ("(>= 4 1)",)),
    ("26", "cp_addition", ("(>= x 1)", "(>= 0 0)"), "(>= x 1)", "", 26, ("(>= x 1)",)),
    ("27", "cp_division", ("(>= (* 2 x) 0)",), "(>= (* -1 x) 0)", "-2", 27, ()),
    ("28", "cp_division", ("(>= (* 2 x) 0)",), "(>= (* 2 x) 0)", "0", 28, ()),
    ("29", "cp_multiplication", (THREE_X,), "(>= (* 3 x) 2)", "1", 29, (THREE_X, "(>= (* 3 x) 2)")),
    ("30", "cp_multiplication", (THREE_X,), "(>= 0 1)", "1", 30, (THREE_X, "(>= 0 1)")),
    ("31", "cp_multiplication", (THREE_X,), "(>= (* 2 x) 1)", "1", 31, (THREE_X, "(>= (* 2 x) 1)")),
    ("32", "cp_saturation", ("(>= (* -1 x) 0)",), "(>= (* -1 x) 0)", "", 32, ("(>= (* -1 x) 0)",)),
    ("33", "cp_literal", (), "(>= x 0)", "3", 33, ("3",)),
    ("34", "cp_literal", (), "(>= (* 2 x) 0)", "x", 34, ("x", "(>= (* 2 x) 0)")),
    ("35", "cp_literal", (), "(>= y 0)", "x", 35, ("x", "(>= y 0)")),
    ("36", "cp_literal", (), "(>= x 1)", "x", 36, ("x", "(>= x 1)")),
    ("37", "cp_normalize", (), "(= (+ x y) (>= x 0))", "", 37, ("(= (+ x y) (>= x 0))",)),
    ("38", "cp_normalize", (), "(= (>= x 0) (>= (* 2 3) 0))", "", 38, ("(* 2 3)",)),
    ("39", "cp_normalize", (), "(= (>= x 0) (>= y 0))", "", 39, ("(= (>= x 0) (>= y 0))",)),
    ("40_addition", "cp_addition", ("(>= %s 0)" % plus(513, "(* 1 x)"), "(>= 0 0)"), "(>= (* 513 x) 0)", "", 40, ()),
    ("40_normalize", "cp_normalize", (), "(= (>= %s 0) (>= x 0))" % plus(513, "x"), "", 40, ()),
    ("41", "cp_transfer", ("(>= x 0)", "(= (>= y 0) (>= z 0))"), "(>= z 0)", "", 41,
     ("(>= x 0)", "(= (>= y 0) (>= z 0))")),
)

# Section 7, "Proved together".
TO_TRY = (
    ("division_4", "cp_division", ("(>= (* -4 x) -4)",), "(>= (* -1 x) -1)", "2", HOLDS, ()),
    ("division_5", "cp_division", ("(>= (* -5 x) -5)",), "(>= (* -2 x) -2)", "2", HOLDS, ()),
    ("division_1", "cp_division", ("(>= (* -1 x) -1)",), "(>= (* 0 x) 0)", "2", HOLDS, ()),
    ("zero_faces_3", "cp_addition", (THREE_X, "(>= 0 0)"), "(>= (* 0 x) 1)", "", ODD,
     (THREE_X, "(>= 0 0)", "(>= (* 0 x) 1)")),
    ("negated_twice", "cp_normalize", (), "(= (>= (* -1 x) 0) (>= (* 1 (- 1 (- 1 x))) 1))", "", ODD,
     ("(= (>= (* -1 x) 0) (>= (* 1 (- 1 (- 1 x))) 1))",)),
    ("lone_minus", "cp_normalize", (), "(= (>= (- x) 0) (>= x 0))", "", ODD, ("(= (>= (- x) 0) (>= x 0))",)),
    ("times_0", "cp_multiplication", (THREE_X,), "(>= (* 0 x) 0)", "0", HOLDS, (THREE_X, "(>= (* 0 x) 0)")),
    ("times_0_to_none", "cp_multiplication", (THREE_X,), "(>= 0 0)", "0", 30, (THREE_X, "(>= 0 0)")),
    ("saturation", "cp_saturation", ("(>= (* 5 x) 3)",), "(>= (* 3 x) 3)", "", HOLDS,
     ("(>= (* 5 x) 3)", "(>= (* 3 x) 3)")),
    ("equation", "cp_normalize", (), "(= (= x 1) (and (>= x 1) (>= (- 1 x) 0)))", "", HOLDS,
     ("(= (= x 1) (and (>= x 1) (>= (- 1 x) 0)))",)),
    ("less", "cp_normalize", (), "(= (< (* 2 x) 3) (>= (* 2 (- 1 x)) 0))", "", HOLDS,
     ("(= (< (* 2 x) 3) (>= (* 2 (- 1 x)) 0))",)),
)

# Section 7, "Mistakes": what each would accept, and what it would refuse.
MISTAKES = (
    ("ceiling_of_constant", "cp_division", ("(>= (* -4 x) -4)",), "(>= (* -2 x) -2)", "2", 29, ()),
    ("ceiling_of_coefficient", "cp_division", ("(>= (* -4 x) 0)",), "(>= (* -2 x) 0)", "2", 31, ()),
    ("zero_key_dropped", "cp_division", ("(>= (* -1 x) -1)",), "(>= 0 0)", "2", 30, ()),
    ("zero_key_kept", "cp_addition", ("(>= (* 0 x) 0)", "(>= (* -1 (- 1 x)) 0)"), "(>= (* 1 x) 1)", "", HOLDS, ()),
    ("negative_slack", "cp_addition", ("(>= (* -2 x) 0)", "(>= (* 1 (- 1 x)) 0)"), "(>= (* 3 (- 1 x)) 2)", "", HOLDS, ()),
    ("slack_held_back", "cp_addition", ("(>= (* -2 x) 0)", "(>= (* 1 (- 1 x)) 0)"), "(>= (* 3 (- 1 x)) 0)", "", 29, ()),
    ("flip_too_few", "cp_normalize", (), "(= (= x 1) (and (>= x 1) (>= x 0)))", "", 39, ()),
)


def document():
    """Section 6, the examples of the table, section 7."""
    yield Vector("document_section_6", SECTION_6_TEXT.encode("ascii"), SECTION_6_REPORT.encode("ascii"),
                 (SECTION_6_TEXT, SECTION_6_REPORT))
    yield read("document_empty_file", ending="")
    for name, *parts, due, quoted in ANSWERS:
        yield last("document_answer_" + name, *parts, due, quoted=quoted)
    for name, *parts, due, quoted in TO_TRY:
        yield last("document_section_7_" + name, *parts, due, quoted=quoted)
    for name, *parts, due, _ in MISTAKES:
        yield last("document_mistake_" + name, *parts, due)
    yield refused("document_refusal_2_blanks", 2, b" " * 32768 + b"^ ")
    yield refused("document_refusal_3_byte_0", 3, b"^\0")
    yield refused("document_refusal_4_minus_0", 4, b"^-0", ("-0",))
    yield refused("document_refusal_4_zeros_first", 4, b"^007", ("007",))
    yield refused("document_refusal_5", 5, b"^;x", (";x",))
    yield refused("document_refusal_6", 6, b"(assume a^)", ("(assume a)",))
    yield refused("document_refusal_7", 7, b"(assume a%d x)" * 512 % tuple(range(512)) + b"^(assume b x)")
    yield refused("document_refusal_8", 8, b"(step t (cl) :rule ^foo)", (":rule foo",))
    yield read("document_99999999", given("a", "(>= x 99999999)"), quoted=("99999999",))
    yield refused("document_100000000", 4, b"(assume a (>= x ^100000000))", ("100000000",))


# ---------------------------------------------------------------- refusals 3 to 8, each with its byte

REFUSED = (
    # 3: the byte itself; the word before it is judged first
    ("3_byte_1", 3, b"^\x01"),
    ("3_byte_8", 3, b"\t^\x08"),
    ("3_byte_11", 3, b" ^\x0b"),
    ("3_byte_12", 3, b"\n^\x0c"),
    ("3_byte_14", 3, b"\r^\x0e"),
    ("3_byte_31", 3, b"(^\x1f"),
    ("3_byte_127", 3, b"(assume ^\x7f"),
    ("3_byte_128", 3, b"(assume a ^\x80)"),
    ("3_byte_255", 3, b"(assume a x)^\xff"),
    ("3_two_bytes_of_a_letter", 3, b"(assume a ^\xc3\xa9)"),
    ("3_in_a_name", 3, b"(assume na^\0me x)"),
    ("3_behind_the_last_command", 3, b"(assume a x)\n\n^\0"),
    ("3_before_6", 3, b"(assume a ^\0"),
    ("3_behind_a_rule", 3, b"(step t (cl) :rule cp_part^\0"),
    # 4: words that begin like a numeral
    ("4_two_zeros", 4, b"(assume a ^00)"),
    ("4_minus_two_zeros", 4, b"(assume a ^-00)"),
    ("4_minus_01", 4, b"(assume a ^-01)"),
    ("4_letter_behind", 4, b"(assume a ^1x)"),
    ("4_point_behind", 4, b"(assume a ^-1.)"),
    ("4_plus_behind", 4, b"(assume a ^1+)"),
    ("4_minus_behind", 4, b"(assume a ^1-1)"),
    ("4_hexadecimal", 4, b"(assume a ^0x10)"),
    ("4_underscore", 4, b"(assume a ^1_000)"),
    ("4_minus_100000000", 4, b"(assume a (+ 1 ^-100000000))"),
    ("4_forty_digits", 4, b"(assume a ^" + b"9" * 40 + b")"),
    ("4_2_to_the_32", 4, b"(assume a ^4294967296)"),
    ("4_2_to_the_64", 4, b"(assume a ^18446744073709551616)"),
    ("4_as_an_id", 4, b"(assume ^01 x)"),
    ("4_as_a_command", 4, b"(assume a x) ^1a"),
    ("4_as_a_rule", 4, b"(step t (cl) :rule ^-0)"),
    ("4_as_a_premise", 4, b"(assume a x)(step t (cl) :rule cp_part :premises (a ^0a))"),
    # 5: words of no kind
    ("5_plus_1", 5, b"(assume a ^+1)"),
    ("5_two_minus", 5, b"(assume a ^--1)"),
    ("5_minus_x", 5, b"(assume a ^-x)"),
    ("5_keyword_with_an_s", 5, b"(step t (cl) ^:rules cp_part)"),
    ("5_colon", 5, b"(step t (cl) ^: cp_part)"),
    ("5_colon_as_a_term", 5, b"(assume a ^:x)"),
    ("5_point_first", 5, b"(assume ^.a x)"),
    ("5_greater_twice", 5, b"(assume a (^>> x 0))"),
    ("5_equals_greater", 5, b"(assume a (^=> x 0))"),
    ("5_not_equal", 5, b"(assume a (^!= x 0))"),
    ("5_stars", 5, b"(assume a (^** x 2))"),
    ("5_minus_in_a_name", 5, b"(assume a ^x-y)"),
    ("5_quote", 5, b"(assume a ^x')"),
    ("5_bar", 5, b"(assume ^|a| x)"),
    ("5_comment", 5, b"^; a comment\n(assume a x)"),
    ("5_33_bytes", 5, b"(assume ^" + b"a" * 33 + b" x)"),
    ("5_33_bytes_of_a_variable", 5, b"(assume a (>= ^" + b"v" * 33 + b" 0))"),
    ("5_33_bytes_of_a_rule", 5, b"(step t (cl) :rule ^" + b"r" * 33 + b")"),
    ("5_33_bytes_of_a_premise", 5, b"(step t (cl) :rule cp_part :premises (^" + b"p" * 33 + b"))"),
    ("5_colon_behind_a_name", 5, b"(assume a ^x:)"),
    ("5_comma", 5, b"(assume a (+ x^, y))".replace(b"x^,", b"^x,")),
    # 6: the grammar, at the token that breaks it; at the end the text's length
    ("6_a_name", 6, b"^x"),
    ("6_closing_bracket", 6, b"^)"),
    ("6_closing_bracket_too_many", 6, b"(assume a x)^)"),
    ("6_nothing_in_a_command", 6, b"(^)"),
    ("6_another_command", 6, b"(^assert a x)"),
    ("6_two_brackets", 6, b"(^(assume a x))"),
    ("6_an_operator_as_command", 6, b"(^and x)"),
    ("6_end_behind_a_bracket", 6, b"(^"),
    ("6_end_behind_assume", 6, b"(assume^"),
    ("6_end_behind_an_id", 6, b"(assume a^"),
    ("6_end_behind_a_term", 6, b"(assume a x^"),
    ("6_end_with_blanks", 6, b"(assume a x \n\t ^"),
    ("6_end_in_a_term", 6, b"(assume a (>= x 0)\n^"),
    ("6_end_in_a_clause", 6, b"(step t (cl x^"),
    ("6_end_behind_a_rule", 6, b"(step t (cl) :rule cp_part^"),
    ("6_no_id", 6, b"(assume ^(>= x 0))"),
    ("6_two_terms", 6, b"(assume a x ^y)"),
    ("6_operator_as_a_term", 6, b"(assume a ^>=)"),
    ("6_operator_as_an_id", 6, b"(assume ^+ x)"),
    ("6_and_as_an_id", 6, b"(assume ^and x)"),
    ("6_cl_as_an_id", 6, b"(assume ^cl x)"),
    ("6_step_as_an_id", 6, b"(assume ^step x)"),
    ("6_assume_as_a_variable", 6, b"(assume a (+ x ^assume))"),
    ("6_keyword_as_a_term", 6, b"(assume a ^:rule)"),
    ("6_no_argument", 6, b"(assume a (+^))"),
    ("6_name_as_an_operator", 6, b"(assume a (^f x))"),
    ("6_numeral_as_an_operator", 6, b"(assume a (^1 x))"),
    ("6_empty_application", 6, b"(assume a (^))"),
    ("6_operator_as_an_operand", 6, b"(assume a (+ ^* x))"),
    ("6_clause_without_brackets", 6, b"(step t ^cl :rule cp_part)"),
    ("6_clause_without_cl", 6, b"(step t (^x) :rule cp_part)"),
    ("6_empty_clause_without_cl", 6, b"(step t (^) :rule cp_part)"),
    ("6_no_rule", 6, b"(step t (cl)^)"),
    ("6_rule_without_a_name", 6, b"(step t (cl) :rule^)"),
    ("6_rule_assume", 6, b"(step t (cl) :rule ^assume)"),
    ("6_premises_before_the_rule", 6, b"(step t (cl) ^:premises (a) :rule cp_part)"),
    ("6_no_premises", 6, b"(step t (cl) :rule cp_part :premises (^))"),
    ("6_no_arguments", 6, b"(step t (cl) :rule cp_part :args (^))"),
    ("6_premises_without_brackets", 6, b"(assume a x)(step t (cl) :rule cp_part :premises ^a)"),
    ("6_arguments_before_premises", 6, b"(assume a x)(step t (cl) :rule cp_part :args (0) ^:premises (a))"),
    ("6_premises_twice", 6, b"(assume a x)(step t (cl) :rule cp_part :premises (a) ^:premises (a))"),
    ("6_arguments_twice", 6, b"(step t (cl) :rule cp_part :args (0) ^:args (0))"),
    ("6_rule_twice", 6, b"(step t (cl) :rule cp_part ^:rule cp_part)"),
    ("6_a_term_as_a_premise", 6, b"(assume a x)(step t (cl) :rule cp_part :premises (a ^(+ 1)))"),
    ("6_a_numeral_as_a_premise", 6, b"(step t (cl) :rule cp_part :premises (^1))"),
    ("6_a_numeral_as_an_id", 6, b"(assume ^1 x)"),
    ("6_before_a_bad_byte", 6, b"^x\0"),
    ("6_before_a_later_4", 6, b"(assume ^) 007"),
    # 8: ids, premises, rules
    ("8_id_twice", 8, b"(assume a x)(assume ^a y)"),
    ("8_id_of_a_step_twice", 8, b"(step t (cl) :rule cp_part)(step ^t (cl) :rule cp_part)"),
    ("8_id_of_both", 8, b"(assume a x)(assume b x)(step ^b (cl) :rule cp_part)"),
    ("8_undefined", 8, b"(step t (cl) :rule cp_part :premises (^a))"),
    ("8_second_undefined", 8, b"(assume a x)(step t (cl) :rule cp_part :premises (a ^b))"),
    ("8_its_own_id", 8, b"(step t (cl) :rule cp_part :premises (^t))"),
    ("8_defined_below", 8, b"(step t (cl) :rule cp_part :premises (^a))(assume a x)"),
    ("8_a_variable_is_no_id", 8, b"(assume a x)(step t (cl) :rule cp_part :premises (^x))"),
    ("8_other_case", 8, b"(assume a x)(step t (cl) :rule cp_part :premises (^A))"),
    ("8_rule_in_part", 8, b"(step t (cl) :rule ^cp_par)"),
    ("8_rule_longer", 8, b"(step t (cl) :rule ^cp_partx)"),
    ("8_rule_of_other_case", 8, b"(step t (cl) :rule ^CP_PART)"),
    ("8_rule_without_cp", 8, b"(step t (cl) :rule ^addition)"),
    ("8_before_a_later_3", 8, b"(assume a x)(assume ^a \0)"),
    ("8_rule_and_premise", 8, b"(step t (cl) :rule ^foo :premises (b))"),
    ("8_31_bytes_of_32", 8, b"(assume " + b"n" * 32 + b" x)(step t (cl) :rule cp_part :premises (^" + b"n" * 31 + b"))"),
)


def refusals():
    """Refusals 3 to 6 and 8."""
    for name, number, text in REFUSED:
        yield refused("refusal_" + name, number, text)
    for byte in b"!\"#$%&',/:;?[\\]^`{|}~":
        yield refused("refusal_5_byte_%d" % byte, 5, b"(assume a (+ x ^%c))" % byte)
        yield refused("refusal_5_byte_%d_in_a_name" % byte, 5, b"(assume ^a%cb x)" % byte)


# ---------------------------------------------------------------- answers: each number of each rule, and accepted steps

ONE_X, TWO_X, NONE = "(>= (* 1 x) 0)", "(>= (* 2 x) 0)", "(>= 0 0)"
LONG = "(>= %s 0)" % plus(513, "(* 1 x)")
# What a rule answers to an inequality that cannot be read, as a premise or conclusion beside NONE.
UNREAD = (
    ("23_name", no("x"), 23),
    ("23_less", "(<= (* 1 x) 0)", 23),
    ("23_three", no("(>= (* 1 x) 0 0)"), 23),
    ("24_constant", "(>= 0 y)", 24),
    ("24_constant_before_25", "(>= 4 y)", 24),
    ("24_coefficient", "(>= (* y x) 0)", 24),
    ("25", "(>= 4 0)", 25),
    ("25_under_plus", "(>= (+ 4) 0)", 25),
    ("26_name", "(>= x 0)", 26),
    ("26_two_zeros", "(>= (+ 0 0) 0)", 26),
    ("26_three_factors", "(>= (* 1 x y) 0)", 26), ("40", LONG, 40))
SCALED = (("multiplication", "1"), ("division", "1"), ("saturation", ""))
STEPS = (
    # cp_addition
    ("addition_20_none", "cp_addition", (), ONE_X, "", 20),
    ("addition_20_three", "cp_addition", (NONE, NONE, NONE), NONE, "", 20),
    ("addition_21_left", "cp_addition", ("", NONE), NONE, "", 21),
    ("addition_21_right", "cp_addition", (NONE, ""), NONE, "", 21),
    ("addition_21_two_terms", "cp_addition", (NONE, NONE), "(>= 0 0) (>= 0 0)", "", 21),
    ("addition_22", "cp_addition", (NONE, NONE), NONE, "1", 22),
    ("addition_22_before_21", "cp_addition", (NONE, NONE), "", "1", 22),
    ("addition_29", "cp_addition", (ONE_X, NONE), "(>= (* 1 x) 1)", "", 29),
    ("addition_30_missing", "cp_addition", (ONE_X, NONE), NONE, "", 30),
    ("addition_30_too_many", "cp_addition", (NONE, NONE), ONE_X, "", 30),
    ("addition_31", "cp_addition", (ONE_X, ONE_X), "(>= (* 3 x) 0)", "", 31),
    ("addition_of_two", "cp_addition", ("(>= (* 1 x) 1)", "(>= (* 1 y) 1)"), "(>= (+ (* 1 x) (* 1 y)) 2)", "", HOLDS),
    ("addition_of_equal_literals", "cp_addition", ("(>= (+ (* 1 x) (* 1 x)) 1)", "(>= (* 2 x) 1)"), "(>= (* 4 x) 2)", "", HOLDS),
    ("addition_that_cancels", "cp_addition", ("(>= (* 3 x) 1)", "(>= (* 2 (- 1 x)) 1)"), "(>= (* 1 x) 0)", "", HOLDS),
    ("addition_that_cancels_all", "cp_addition", ("(>= (* 2 x) 1)", "(>= (* 2 (- 1 x)) 1)"), "(>= 0 0)", "", HOLDS),
    ("addition_of_zero_sums", "cp_addition", (NONE, "(>= (+ 0) -1)"), "(>= 0 -1)", "", HOLDS),
    # cp_multiplication
    ("multiplication_20", "cp_multiplication", (), ONE_X, "1", 20),
    ("multiplication_20_two", "cp_multiplication", (NONE, NONE), NONE, "1", 20),
    ("multiplication_21", "cp_multiplication", ("",), NONE, "1", 21),
    ("multiplication_22", "cp_multiplication", (NONE,), NONE, "", 22),
    ("multiplication_22_two", "cp_multiplication", (NONE,), NONE, "1 1", 22),
    ("multiplication_24_term", "cp_multiplication", (NONE,), NONE, "(+ 1)", 24),
    ("multiplication_27", "cp_multiplication", (NONE,), NONE, "-1", 27),
    ("multiplication_29", "cp_multiplication", ("(>= (* 1 x) 1)",), "(>= (* 2 x) 1)", "2", 29),
    ("multiplication_30", "cp_multiplication", (ONE_X,), "(>= (* 1 y) 0)", "1", 30),
    ("multiplication_31", "cp_multiplication", (ONE_X,), ONE_X, "2", 31),
    ("multiplication_by_3", "cp_multiplication", ("(>= (+ (* 1 x) (* -2 (- 1 y))) -1)",), "(>= (+ (* 3 x) (* -6 (- 1 y))) -3)", "3", HOLDS),
    ("multiplication_of_the_largest", "cp_multiplication", ("(>= (* 99999999 x) 0)",), "(>= (* 99999999 x) 0)", "1", HOLDS),
    # cp_division
    ("division_20", "cp_division", (), ONE_X, "1", 20),
    ("division_21", "cp_division", ("",), NONE, "1", 21),
    ("division_22", "cp_division", (NONE,), NONE, "", 22),
    ("division_24", "cp_division", (NONE,), NONE, "x", 24),
    ("division_27", "cp_division", (NONE,), NONE, "-1", 27),
    ("division_28", "cp_division", (NONE,), NONE, "0", 28),
    ("division_29", "cp_division", ("(>= (* 2 x) 1)",), "(>= (* 1 x) 0)", "2", 29),
    ("division_30", "cp_division", (TWO_X,), NONE, "2", 30),
    ("division_31", "cp_division", ("(>= (* 3 x) 0)",), ONE_X, "2", 31),
    ("division_rounds_up", "cp_division", ("(>= (* 3 x) 1)",), "(>= (* 2 x) 1)", "2", HOLDS),
    ("division_of_minus_4_by_3", "cp_division", ("(>= (* -4 x) -4)",), "(>= (* 0 x) 0)", "3", HOLDS),
    ("division_by_the_largest", "cp_division", ("(>= (* 2 x) 1)",), "(>= (* 1 x) 1)", "99999999", HOLDS),
    # cp_saturation
    ("saturation_20", "cp_saturation", (NONE, NONE), NONE, "", 20),
    ("saturation_22", "cp_saturation", (NONE,), NONE, "0", 22),
    ("saturation_22_before_21", "cp_saturation", ("",), NONE, "0", 22),
    ("saturation_21", "cp_saturation", ("",), NONE, "", 21),
    ("saturation_32_constant", "cp_saturation", ("(>= (* 1 x) -1)",), "(>= (* 1 x) -1)", "", 32),
    ("saturation_32_total", "cp_saturation", ("(>= (+ (* 1 x) (* -2 x)) 0)",), NONE, "", 32),
    ("saturation_no_32_for_the_total", "cp_saturation", ("(>= (+ (* 2 x) (* -1 x)) 1)",), "(>= (* 1 x) 1)", "", HOLDS),
    ("saturation_29", "cp_saturation", ("(>= (* 5 x) 3)",), "(>= (* 3 x) 2)", "", 29),
    ("saturation_30", "cp_saturation", ("(>= (* 5 x) 3)",), "(>= 0 3)", "", 30),
    ("saturation_31", "cp_saturation", ("(>= (* 5 x) 3)",), "(>= (* 5 x) 3)", "", 31),
    ("saturation_of_several", "cp_saturation", ("(>= (+ (* 5 x) (* 1 (- 1 y)) (* 2 z)) 2)",), "(>= (+ (* 2 x) (* 1 (- 1 y)) (* 2 z)) 2)", "", HOLDS),
    # cp_literal
    ("literal_21_two_terms", "cp_literal", (), "(>= x 0) (>= x 0)", "x", 21),
    ("literal_22", "cp_literal", (), "(>= x 0)", "", 22),
    ("literal_22_two", "cp_literal", (), "(>= x 0)", "x x", 22),
    ("literal_33_term", "cp_literal", (), "(>= x 0)", "(+ x)", 33),
    ("literal_33_negated_numeral", "cp_literal", (), "(>= (- 1 3) 0)", "(- 1 3)", 33),
    ("literal_33_other_minus", "cp_literal", (), "(>= (- 2 x) 0)", "(- 2 x)", 33),
    ("literal_24", "cp_literal", (), "(>= (* y x) 0)", "x", 24),
    ("literal_34_negated", "cp_literal", (), "(>= (* 0 (- 1 x)) 0)", "(- 1 x)", 34),
    ("literal_34_before_35", "cp_literal", (), "(>= (* 2 y) 0)", "x", 34),
    ("literal_35_sign", "cp_literal", (), "(>= (* 1 (- 1 x)) 0)", "x", 35),
    ("literal_36_name", "cp_literal", (), "x", "x", 36),
    ("literal_36_greater", "cp_literal", (), "(> x 0)", "x", 36),
    ("literal_plain", "cp_literal", (), "(>= x 0)", "x", HOLDS),
    ("literal_negated", "cp_literal", (), "(>= (- 1 x) 0)", "(- 1 x)", HOLDS),
    ("literal_times_1", "cp_literal", (), "(>= (* 1 x) 0)", "x", HOLDS),
    ("literal_negated_times_1", "cp_literal", (), "(>= (* 1 (- 1 x)) 0)", "(- 1 x)", HOLDS),
    # cp_normalize
    ("normalize_21_two_terms", "cp_normalize", (), "x x", "", 21),
    ("normalize_23_no_equation", "cp_normalize", (), "(>= x 0)", "", 23),
    ("normalize_23_three_sides", "cp_normalize", (), "(= (>= x 0) (>= x 0) (>= x 0))", "", 23),
    ("normalize_37_name", "cp_normalize", (), "(= x (>= x 0))", "", 37),
    ("normalize_37_and", "cp_normalize", (), "(= (and x) (>= x 0))", "", 37),
    ("normalize_22_three", "cp_normalize", (), "(= (< x y z) (>= x 0))", "", 22),
    ("normalize_23_normalized", "cp_normalize", (), "(= (>= x 0) (> x 0))", "", 23),
    ("normalize_23_no_and", "cp_normalize", (), "(= (= x 1) (>= x 1))", "", 23),
    ("normalize_23_half", "cp_normalize", (), "(= (= x 1) (and (>= x 1) (> x 0)))", "", 23),
    ("normalize_24", "cp_normalize", (), "(= (>= x 0) (>= x y))", "", 24),
    ("normalize_38_before_24", "cp_normalize", (), "(= (>= x 0) (>= (* 2 3) y))", "", 38),
    ("normalize_29", "cp_normalize", (), "(= (>= x 0) (>= x 1))", "", 29),
    ("normalize_29_second_half", "cp_normalize", (), "(= (= x 1) (and (>= x 1) (>= (- 1 x) 1)))", "", 29),
    ("normalize_39_numeral", "cp_normalize", (), "(= (>= x 0) (>= 3 0))", "", 39),
    ("normalize_39_length", "cp_normalize", (), "(= (>= x 0) (>= (+ x x) 0))", "", 39),
    ("normalize_39_coefficient", "cp_normalize", (), "(= (>= (* 2 x) 0) (>= x 0))", "", 39),
    ("normalize_39_order", "cp_normalize", (), "(= (>= (+ x y) 0) (>= (+ y x) 0))", "", 39),
    ("normalize_40_normalized", "cp_normalize", (), "(= (>= x 0) (>= %s 0))" % plus(513, "x"), "", 40),
    ("normalize_greater", "cp_normalize", (), "(= (> (+ x y) 1) (>= (+ x y) 2))", "", HOLDS),
    ("normalize_at_most", "cp_normalize", (), "(= (<= (+ x y) 1) (>= (+ (- 1 x) (- 1 y)) 1))", "", HOLDS),
    ("normalize_both_sides", "cp_normalize", (), "(= (>= (+ x 3) (+ y 2)) (>= (+ x (- 1 y)) 0))", "", HOLDS),
    ("normalize_deep", "cp_normalize", (), "(= (>= (- (+ x 2) (+ 1 y) (- z 4)) 0) (>= (+ x (- 1 y) (- 1 z)) -3))", "", HOLDS),
    ("normalize_factor_behind", "cp_normalize", (), "(= (>= (* x 2) 1) (>= (* 2 x) 1))", "", HOLDS),
    ("normalize_constant_product", "cp_normalize", (), "(= (>= (+ x (* 2 3)) 7) (>= x 1))", "", HOLDS),
    ("normalize_equation_of_two", "cp_normalize", (), "(= (= (+ x y) 1) (and (>= (+ x y) 1) (>= (+ (- 1 x) (- 1 y)) 1)))", "", HOLDS),
    # cp_transfer and cp_part
    ("transfer_20", "cp_transfer", ("(>= x 0)",), "(>= x 0)", "", 20),
    ("transfer_21_first", "cp_transfer", ("", "(= x y)"), "y", "", 21),
    ("transfer_22", "cp_transfer", ("(>= x 0)", "(= (>= x 0) (>= y 0))"), "(>= y 0)", "0", 22),
    ("transfer_41_conclusion", "cp_transfer", ("(>= x 0)", "(= (>= x 0) (>= y 0))"), "(>= x 0)", "", 41),
    ("transfer_41_exchanged", "cp_transfer", ("(>= y 0)", "(= (>= x 0) (>= y 0))"), "(>= x 0)", "", 41),
    ("transfer_41_no_equation", "cp_transfer", ("(>= x 0)", "(>= x 0)"), "(>= x 0)", "", 41),
    ("transfer", "cp_transfer", ("(>= x 0)", "(= (>= x 0) (>= y 0))"), "(>= y 0)", "", HOLDS),
    ("part_20", "cp_part", (), "(>= x 0)", "0", 20),
    ("part_21", "cp_part", ("",), "(>= x 0)", "0", 21),
    ("part_22", "cp_part", ("(and (>= x 0))",), "(>= x 0)", "", 22),
    ("part_41_no_and", "cp_part", ("(>= x 0)",), "(>= x 0)", "0", 41),
    ("part_41_too_large", "cp_part", ("(and (>= x 0))",), "(>= x 0)", "1", 41),
    ("part_41_negative", "cp_part", ("(and (>= x 0))",), "(>= x 0)", "-1", 41),
    ("part_41_name", "cp_part", ("(and (>= x 0))",), "(>= x 0)", "x", 41),
    ("part_41_other_part", "cp_part", ("(and (>= x 0) (>= y 0))",), "(>= y 0)", "0", 41),
    ("part_first", "cp_part", ("(and (>= x 0) (>= y 0))",), "(>= x 0)", "0", HOLDS),
    ("part_last", "cp_part", ("(and (>= x 0) (>= y 0) (>= z 0))",), "(>= z 0)", "2", HOLDS),
)


def answers():
    """Each number of each rule."""
    for name, *parts in STEPS:
        yield last("answer_" + name, *parts)
    for name, term, answer in UNREAD:
        yield last("answer_addition_left_" + name, "cp_addition", (term, NONE), NONE, "", answer)
        yield last("answer_addition_conclusion_" + name, "cp_addition", (NONE, NONE), term, "", answer)
        for rule, argument in SCALED:
            yield last("answer_%s_premise_%s" % (rule, name), "cp_" + rule, (term,), NONE, argument, answer)
    yield read("answer_20_to_41_in_one_file", *sum((
        [given("a%s%d" % (name, place), term) for place, term in enumerate(premises) if term]
        + [step("s" + name, rule, " ".join("a%s%d" % (name, place) for place in range(len(premises))), clause, arguments, due)]
        for name, rule, premises, clause, arguments, due, _ in ANSWERS if due != 40), []))


# ---------------------------------------------------------------- marks (section 5)

# Terms of assumptions that are statements, and terms that are not.
STATEMENTS = (
    "(>= x 0)", "(> x 0)", "(<= x 0)", "(< x 0)", "(= x 0)", "(>= 1 0)", "(= x y)", "(>= (- x) -1)", "(>= (+ x) 0)", "(>= (* x y z) 0)",
    "(>= (- (+ x (* 2 y)) 3 x) -99999999)", "(and (>= x 0))", "(and (>= x 0) (<= y 1) (= z z))", "(and (and (>= x 0)))",
    "(= (>= x 0) (>= y 0))", "(= (and (>= x 0)) (= x x))", "(= (= x x) (= y y))")
NO_STATEMENTS = (
    "x", "0", "(+ x y)", "(- x)", "(* 2 x)", "(>= x)", "(>= x 0 0)", "(= x)", "(= x x x)", "(and x)", "(and (>= x 0) y)", "(and y (>= x 0))",
    "(>= (>= x 0) 0)", "(>= x (and (>= x 0)))", "(>= (>= x 0) (>= y 0))", "(< (= x 0) (= y 0))", "(= x (>= x 0))",
    "(= (>= x 0) x)", "(= (>= x 0) (>= x 0) (>= x 0))", "(= (>= x) (>= x))",
    "(+ (>= x 0))", "(>= (+ x (and x)) 0)", "(and (and x))", "(= (and x) (>= x 0))")
CITES = {"cp_literal": ("(>= x 0)", "x"), "cp_normalize": ("(= (>= x 0) (>= x 0))", "")}
# Accepted steps that are not plain, and steps beside them that are: section 5 and its readings.
PLAINNESS = (
    ("term_for_a_name", "cp_multiplication", ("(>= (* 1 (+ x y)) 0)",), "(>= (* 1 (+ x y)) 0)", "1", ODD),
    ("zero_times_a_term", "cp_multiplication", ("(>= (* 0 (+ x y)) 1)",), "(>= 0 1)", "1", ODD),
    ("term_that_cancels", "cp_multiplication", ("(>= (+ (* 1 (- x)) (* -1 (- x))) 1)",), "(>= 0 1)", "1", ODD),
    ("term_in_the_conclusion", "cp_multiplication", ("(>= 0 1)",), "(>= (* 0 (+ x y)) 1)", "1", ODD),
    ("numeral_for_a_name", "cp_multiplication", ("(>= (* 2 3) 1)",), "(>= (* 2 3) 1)", "1", ODD),
    ("negated_numeral_for_a_name", "cp_division", ("(>= (* 2 (- 1 0)) 1)",), "(>= (* 1 (- 1 0)) 1)", "2", ODD),
    ("other_minus_for_a_name", "cp_saturation", ("(>= (* 2 (- 2 x)) 1)",), "(>= (* 1 (- 2 x)) 1)", "", ODD),
    ("total_zero_faces_3", "cp_addition", (THREE_X, NONE), "(>= (+ (* 1 x) (* -1 x)) 1)", "", ODD),
    ("zero_beside_3", "cp_addition", (THREE_X, NONE), "(>= (+ (* 0 x) (* 3 x)) 1)", "", HOLDS),
    ("zero_faces_zero", "cp_addition", ("(>= (* 1 x) 1)", "(>= (* 1 (- 1 x)) 0)"), "(>= (+ (* 0 x) (* 0 (- 1 x))) 0)", "", HOLDS),
    ("zero_faces_no_key", "cp_addition", (NONE, NONE), "(>= (* 0 x) 0)", "", HOLDS),
    ("term_left", "cp_addition", ("(>= (* 0 (+ x y)) 0)", NONE), NONE, "", ODD),
    ("term_right", "cp_addition", (NONE, "(>= (* 0 (+ x y)) 0)"), NONE, "", ODD),
    ("product_as_a_variable", "cp_normalize", (), "(= (>= (* x y) 0) (>= (* x y) 0))", "", ODD),
    ("lone_minus_right", "cp_normalize", (), "(= (>= 0 (- x)) (>= (- 1 x) 1))", "", ODD),
    ("lone_minus_of_a_numeral", "cp_normalize", (), "(= (>= x (- 2)) (>= x 2))", "", ODD),
    ("lone_minus_inside", "cp_normalize", (), "(= (>= (+ x (- y 1 (- 3))) 0) (>= (+ x y) 4))", "", ODD),
    ("term_in_the_normalized_sum", "cp_normalize", (), "(= (= x 1) (and (>= x 1) (>= (- 1 (- 1 x)) 0)))", "", ODD),
    ("term_in_the_general_sum", "cp_normalize", (), "(= (>= (* -2 (- 1 (- 1 x))) 0) (>= (* 2 (- 1 x)) 2))", "", ODD),
    ("literals", "cp_normalize", (), "(= (>= (* 2 (- 1 x)) 1) (>= (* 2 (- 1 x)) 1))", "", HOLDS),
)


def statements():
    """Which assumptions hold, and what that does to a step that only cites them."""
    yield read("marks_statements", *(given("a%d" % place, term) for place, term in enumerate(STATEMENTS)))
    yield read("marks_no_statements", *(given("a%d" % place, term, False) for place, term in enumerate(NO_STATEMENTS)))
    for place, term in enumerate(STATEMENTS):
        yield last("marks_statement_%02d" % place, "cp_literal", (term,), "(>= x 0)", "x", HOLDS)
    for place, term in enumerate(NO_STATEMENTS):
        yield last("marks_no_statement_%02d" % place, "cp_literal", (no(term),), "(>= x 0)", "x", PLAIN)
    for rule, (clause, arguments) in CITES.items():
        yield last("marks_%s_cites_nothing" % rule, rule, (), clause, arguments, HOLDS)
        yield last("marks_%s_cites_one" % rule, rule, ("(>= y 0)",), clause, arguments, HOLDS)
        yield last("marks_%s_cites_no_statement" % rule, rule, (no("y"),), clause, arguments, PLAIN)
        yield last("marks_%s_cites_one_of_each" % rule, rule, ("(>= y 0)", no("y")), clause, arguments, PLAIN)
        yield last("marks_%s_cites_a_refused_step" % rule, rule, ("",), clause, arguments, PLAIN)
    for name, *parts in PLAINNESS:
        yield last("marks_plain_" + name, *parts, refuted=parts[1] == ("(>= 0 1)",))


def premises():
    """`holds` goes through the premises, and through nothing else."""
    one, other, both = given("a", "(>= (* 1 x) 1)"), given("b", "(>= (* 1 y) 1)"), "(>= (+ (* 1 x) (* 1 y)) 2)"
    twice, four = "(>= (* 2 x) 2)", "(>= (* 4 x) 4)"
    yield read("marks_chain", one, step("t", "cp_multiplication", "a", twice, "2", HOLDS), step("u", "cp_multiplication", "t", four, "2", HOLDS),
               step("v", "cp_division", "u", "(>= (* 1 x) 1)", "4", HOLDS))
    yield read("marks_chain_behind_a_term_that_is_no_statement", given("a", "(>= (* 2 (and x)) 2)", False),
               step("t", "cp_division", "a", "(>= (* 1 (and x)) 1)", "2", ODD), step("u", "cp_saturation", "t", "(>= (* 1 (and x)) 1)", "", ODD))
    yield read("marks_chain_behind_a_refused_step", one, step("t", "cp_multiplication", "a", twice, "3", 29),
               step("u", "cp_multiplication", "t", four, "2", PLAIN), step("v", "cp_division", "u", twice, "2", PLAIN))
    yield read("marks_chain_behind_a_step_that_is_not_plain", given("a", THREE_X), given("z", NONE),
               step("t", "cp_addition", "a z", "(>= (* 0 x) 1)", "", ODD),
               step("u", "cp_multiplication", "t", "(>= (* 0 x) 2)", "2", PLAIN), step("v", "cp_multiplication", "a", "(>= (* 6 x) 2)", "2", HOLDS))
    yield read("marks_second_premise", one, other, step("t", "cp_multiplication", "b", "(>= (* 1 y) 2)", "1", 29),
               step("w", "cp_literal", "", "(>= (* 1 y) 0)", "y", HOLDS), step("u", "cp_addition", "a w", "(>= (+ (* 1 x) (* 1 y)) 1)", "", HOLDS),
               step("v", "cp_addition", "a t", "(>= (+ (* 1 x) (* 1 y)) 3)", "", PLAIN),
               step("s", "cp_addition", "t a", "(>= (+ (* 1 y) (* 1 x)) 3)", "", PLAIN))
    yield read("marks_one_premise_twice", one, step("t", "cp_addition", "a a", twice, "", HOLDS))
    yield read("marks_the_premises_order", one, other, step("t", "cp_addition", "b a", both, "", HOLDS),
               step("u", "cp_addition", "a b", both, "", HOLDS))
    yield read("marks_unmarked_lines_above_do_no_harm", given("n", "x", False), step("r", "cp_part", "", "", "", 20), one,
               step("t", "cp_multiplication", "a", twice, "2", HOLDS))
    yield read("marks_first_answer_is_not_copied", one, step("t", "cp_multiplication", "a", twice, "2", HOLDS),
               step("u", "cp_multiplication", "a", twice, "3", 29),
               step("v", "cp_multiplication", "a", "(>= (* 1 y) 1)", "1", 30), step("w", "cp_multiplication", "a", "(>= (* 2 x) 1)", "1", 31))


def links():
    """Links: accepted and plain, and held back by their premises alone."""
    yield read("marks_transfer", given("r", "(>= x 1)"), given("e", "(= (>= x 1) (>= y 1))"), step("t", "cp_transfer", "r e", "(>= y 1)", "", HOLDS))
    yield read("marks_transfer_of_no_statements", given("r", "x", False), given("e", "(= x y)"), step("t", "cp_transfer", "r e", "y", "", PLAIN))
    yield read("marks_transfer_of_mixed_terms", given("r", "(>= x 1)"), given("e", "(= (>= x 1) y)", False),
               step("t", "cp_transfer", "r e", "y", "", PLAIN))
    yield read("marks_transfer_from_a_step_that_is_not_plain", given("r", "(>= (- x) 0)"),
               step("e", "cp_normalize", "", "(= (>= (- x) 0) (>= x 0))", "", ODD), step("t", "cp_transfer", "r e", "(>= x 0)", "", PLAIN))
    yield read("marks_transfer_from_a_refused_step", given("r", "(>= x 0)"), step("e", "cp_normalize", "", "(= (>= x 0) (>= 0 1))", "", 39),
               step("t", "cp_transfer", "r e", "(>= 0 1)", "", PLAIN))
    yield read("marks_part", given("a", "(and (>= x 1) (>= y 1))"), step("t", "cp_part", "a", "(>= y 1)", "1", HOLDS))
    yield read("marks_part_of_no_statement", given("a", "(and (>= x 1) y)", False), step("t", "cp_part", "a", "(>= x 1)", "0", PLAIN),
               step("u", "cp_part", "a", "y", "1", PLAIN))
    yield read("marks_part_of_a_part", given("a", "(and (and (>= x 1) (= y z)))"), step("t", "cp_part", "a", "(and (>= x 1) (= y z))", "0", HOLDS),
               step("u", "cp_part", "t", "(= y z)", "1", HOLDS))


# Sums over names that section 2 reads, and the greatest value of each over all 0-1 assignments (document 02, No. 6).
SUMS = (
    ("nothing", "0", 0), ("sum_of_0", "(+ 0)", 0),
    ("a_literal", "(* 1 x)", 1), ("a_sum_of_a_literal", "(+ (* 1 x))", 1), ("a_negated_literal", "(* 1 (- 1 x))", 1), ("coefficient_3", "(* 3 x)", 3),
    ("coefficient_0", "(* 0 x)", 0), ("negated_coefficient_0", "(* 0 (- 1 x))", 0),
    ("coefficient_minus_1", "(* -1 x)", 0), ("negated_coefficient_minus_1", "(* -1 (- 1 x))", 0), ("coefficient_minus_7", "(* -7 x)", 0),
    ("two_names", "(+ (* 2 x) (* 1 y))", 3), ("two_names_one_negated", "(+ (* 2 x) (* 1 (- 1 y)))", 3), ("two_names_both_negated", "(+ (* 2 (- 1 x)) (* 1 (- 1 y)))", 3),
    ("two_names_one_negative", "(+ (* 2 x) (* -1 y))", 2), ("two_names_both_negative", "(+ (* -2 x) (* -1 y))", 0), ("two_names_with_a_zero", "(+ (* 2 x) (* 0 y))", 2),
    ("four_names", "(+ (* 2 x) (* -3 y) (* 4 (- 1 z)) (* -5 (- 1 w)))", 6), ("names_alike", "(+ (* 1 x) (* 1 x1) (* 1 X))", 3),
    ("forty_names", named(40), 40), ("forty_names_negative", named(40, "(* -1 x%d)"), 0),
    ("a_literal_twice", "(+ (* 1 x) (* 1 x))", 2), ("a_negated_literal_twice", "(+ (* 2 (- 1 x)) (* 3 (- 1 x)))", 5), ("a_literal_again_behind_another", "(+ (* 2 x) (* 1 y) (* 2 x))", 5),
    ("a_literal_that_cancels_itself", "(+ (* 2 x) (* -2 x))", 0), ("a_literal_with_a_negative_total", "(+ (* 2 x) (* -3 x))", 0), ("a_literal_with_a_positive_total", "(+ (* -2 x) (* 3 x))", 1),
    ("opposites_both_positive", "(+ (* 2 x) (* 3 (- 1 x)))", 3), ("opposites_equal", "(+ (* 2 x) (* 2 (- 1 x)))", 2), ("opposites_negated_first", "(+ (* 3 (- 1 x)) (* 5 x))", 5),
    ("opposites_both_negative", "(+ (* -3 x) (* -2 (- 1 x)))", -2), ("opposites_both_negative_and_equal", "(+ (* -3 x) (* -3 (- 1 x)))", -3),
    ("opposites_the_plain_one_negative", "(+ (* -3 x) (* 2 (- 1 x)))", 2), ("opposites_the_negated_one_negative", "(+ (* 3 x) (* -2 (- 1 x)))", 3),
    ("opposites_a_negative_and_a_zero", "(+ (* -3 x) (* 0 (- 1 x)))", 0), ("opposites_a_negative_and_a_total_of_zero", "(+ (* 1 (- 1 x)) (* -3 x) (* -1 (- 1 x)))", 0),
    ("opposites_by_their_totals", "(+ (* 2 x) (* 3 (- 1 x)) (* 2 x) (* -1 (- 1 x)))", 4), ("opposites_with_negative_totals", "(+ (* 2 x) (* 1 (- 1 x)) (* -5 x) (* -5 (- 1 x)))", -3),
    ("opposites_of_two_names", "(+ (* -3 x) (* 5 y) (* -2 (- 1 x)) (* 7 (- 1 y)))", 5), ("opposites_of_two_names_negative", "(+ (* -3 x) (* -5 y) (* -2 (- 1 x)) (* -7 (- 1 y)))", -7),
    ("almost_the_largest", "(* 99999998 x)", 99999998), ("almost_the_largest_of_two", "(+ (* 49999999 x) (* 49999999 (- 1 y)))", 99999998),
    ("the_smallest", "(+ (* -99999999 x) (* -99999999 (- 1 x)))", -99999999),
    ("512_summands", plus(512, "(* 1 x)"), 512), ("512_zeros", plus(512, "(* 0 x)"), 0), ("512_names", named(512), 512), ("512_negative_names", named(512, "(* -1 (- 1 x%d))"), 0),
    ("512_of_the_smallest", plus(512, "(* -99999999 x)"), 0), ("512_that_cancel", "(+%s)" % (" (* 99999999 x) (* -99999999 x)" * 256), 0))

# Assumptions that refute nothing, whatever their constants: section 2 does not read them, or some term in a variable's place is no name.
NO_SUMS = (
    ("bare_name", "(>= x 2)"), ("sum_of_a_bare_name", "(>= (+ x) 2)"), ("bare_names", "(>= (+ x y) 3)"), ("bare_negation", "(>= (- 1 x) 2)"), ("two_zeros", "(>= (+ 0 0) 1)"),
    ("numeral", "(>= 4 5)"), ("sum_of_a_numeral", "(>= (+ 4) 5)"), ("left_1", "(>= 1 2)"), ("numeral_among_summands", "(>= (+ (* 1 x) 0) 2)"), ("bare_name_among_summands", "(>= (+ (* 1 x) y) 3)"),
    ("coefficient_behind", "(>= (* x 1) 2)"), ("coefficient_that_is_a_sum", "(>= (* (+ 1) x) 2)"), ("coefficient_that_is_a_difference", "(>= (* (- 1) x) 2)"), ("three_factors", "(>= (* 1 1 x) 2)"),
    ("sum_in_a_sum", "(>= (+ (+ (* 1 x))) 2)"), ("constant_that_is_a_name", "(>= 0 x)"), ("constant_that_is_a_sum", "(>= 0 (+ 1))"), ("constant_that_is_a_difference", "(>= (* 1 x) (- 3 1))"),
    ("513_summands", "(>= %s 514)" % plus(513, "(* 1 x)")), ("513_zeros", "(>= %s 1)" % plus(513, "(* 0 x)")), ("513_names", "(>= %s 514)" % named(513)),
    ("sum_as_variable", "(>= (* 1 (+ x y)) 5)"), ("product_as_variable", "(>= (* 1 (* 1 x)) 5)"), ("numeral_as_variable", "(>= (* 2 3) 9)"), ("negated_numeral_as_variable", "(>= (* 1 (- 1 1)) 3)"),
    ("negation_of_a_negation", "(>= (* 1 (- 1 (- 1 x))) 2)"), ("difference_as_variable", "(>= (* 1 (- x)) 2)"), ("two_minus_x_as_variable", "(>= (* 1 (- 2 x)) 3)"),
    ("sum_of_a_name_as_variable", "(>= (* 1 (+ x)) 2)"), ("zero_of_no_name", "(>= (* 0 (+ x y)) 1)"), ("one_of_two_no_name", "(>= (+ (* 1 x) (* 1 (+ x y))) 9)"),
    ("greater", "(> (* 1 x) 1)"), ("greater_of_0", "(> 0 1)"), ("less", "(< (* 1 x) 0)"), ("less_turned", "(< 1 0)"), ("at_most", "(<= (* 1 x) -1)"), ("at_most_turned", "(<= 2 (* 1 x))"),
    ("equation", "(= (* 1 x) 2)"), ("equation_of_0", "(= 0 1)"), ("equation_of_statements", "(= (>= (* 1 x) 2) (>= 0 0))"),
    ("and", "(and (>= 0 1))"), ("and_of_a_literal", "(and (>= (* 1 x) 2))"), ("and_of_two", "(and (>= 0 1) (>= 0 1))"))

# Terms that are no statements: their lines do not hold, whatever section 2 reads.
UNMARKED = (
    ("three_sides", "(>= 0 1 1)"), ("three_sides_of_a_literal", "(>= (* 1 x) 2 2)"), ("one_side", "(>= 1)"),
    ("and_as_variable", "(>= (* 1 (and x)) 2)"), ("relation_as_variable", "(>= (* 1 (>= x 1)) 2)"),
    ("and_with_a_name", "(and (>= 0 1) x)"), ("and_as_constant", "(>= 0 (and x))"))


def greatest():
    """`refuted` by one assumption: its sum's greatest value is below its constant (document 02, No. 6)."""
    for name, term, value in SUMS:
        yield read("greatest_%s_is_reached" % name, given("a", "(>= %s %d)" % (term, value)))
        yield read("greatest_%s_is_exceeded" % name, given("a", "(>= %s %d)" % (term, value + 1)), refuted=True)
    for name, term, refuted in (
            ("0_largest", "(>= 0 99999999)", True), ("0_minus_1", "(>= 0 -1)", False), ("0_smallest", "(>= 0 -99999999)", False),
            ("literal_largest", "(>= (* 1 x) 99999999)", True), ("literal_smallest", "(>= (* 1 x) -99999999)", False), ("largest_of_largest", "(>= (* 99999999 x) 99999999)", False),
            ("opposites_above_the_smallest", "(>= (+ (* -99999999 x) (* -99999999 (- 1 x))) 99999999)", True),
            # sums beyond 32 bits, on both sides of every constant, and one that is 2 to the 32
            ("512_of_the_largest", "(>= %s 99999999)" % plus(512, "(* 99999999 x)"), False), ("512_names_of_the_largest", "(>= %s 99999999)" % named(512, "(* 99999999 x%d)"), False),
            ("512_of_both_smallest", "(>= (+%s) -99999999)" % (" (* -99999999 x) (* -99999999 (- 1 x))" * 256), True),
            ("512_of_the_smallest_and_the_largest", "(>= (+%s) 99999999)" % (" (* -99999999 x) (* 99999999 (- 1 x))" * 256), False),
            ("two_to_the_32", "(>= %s 1)" % plus(64, "(* 67108864 x)"), False), ("minus_two_to_the_32", "(>= (+%s) 0)" % (" (* -67108864 x) (* -67108864 (- 1 x))" * 64), True)):
        yield read("greatest_" + name, given("a", term), refuted=refuted)
    for name, term in NO_SUMS:
        yield read("refuted_no_by_an_assumption_" + name, given("a", term))
    for name, term in UNMARKED:
        yield read("refuted_no_by_no_statement_" + name, given("a", term, False))
    yield refused("greatest_largest_is_not_exceeded", 4, b"(assume a (>= (* 99999999 x) ^100000000))")


def refutations():
    """`refuted`: from lines that hold, and from no others."""
    x, not_x = given("a", "(>= (* 1 x) 1)"), given("b", "(>= (* 1 (- 1 x)) 1)")
    yield read("refuted_by_an_addition", x, not_x, step("t", "cp_addition", "a b", "(>= 0 1)", "", HOLDS), refuted=True)
    yield read("refuted_in_the_middle", x, not_x, step("t", "cp_addition", "a b", "(>= 0 1)", "", HOLDS), step("u", "cp_part", "t", "x", "0", 41),
               given("c", "(>= 0 0)"), refuted=True)
    yield read("refuted_by_the_last_of_two", given("c", "(>= 0 0)"), x, not_x, step("s", "cp_addition", "a b", "(>= 0 2)", "", 29),
               step("t", "cp_addition", "a b", "(>= 0 1)", "", HOLDS), refuted=True)
    yield read("refuted_by_a_zero_sum", x, not_x, step("t", "cp_addition", "a b", "(>= (* 0 x) 1)", "", HOLDS), refuted=True)
    yield read("refuted_no_by_two_that_are_not_added", x, not_x)
    yield read("refuted_no_by_a_refused_line", x, not_x, step("t", "cp_addition", "a b", "(>= 0 2)", "", 29))
    yield read("refuted_no_by_a_line_that_is_not_plain", given("a", "(>= (* 1 (* x y)) 1)"), given("b", "(>= (* 1 (- 1 (* x y))) 1)"),
               step("t", "cp_addition", "a b", "(>= 0 1)", "", ODD))
    yield read("refuted_no_behind_a_line_that_is_not_plain", given("a", THREE_X), given("z", NONE),
               step("t", "cp_addition", "a z", "(>= (* 0 x) 1)", "", ODD),
               step("u", "cp_multiplication", "t", "(>= 0 1)", "1", PLAIN))
    yield read("refuted_no_from_a_refused_line", x, step("b", "cp_literal", "", "(>= (* 1 (- 1 x)) 1)", "(- 1 x)", 36),
               step("t", "cp_addition", "a b", "(>= 0 1)", "", PLAIN))
    yield read("refuted_no_by_a_transfer_of_no_statement", given("r", "x", False), given("e", "(= x (>= 0 1))", False),
               step("t", "cp_transfer", "r e", "(>= 0 1)", "", PLAIN))
    yield read("refuted_no_by_a_part_of_no_statement", given("a", "(and (>= 0 1) x)", False), step("t", "cp_part", "a", "(>= 0 1)", "0", PLAIN))
    yield read("refuted_by_a_part", given("a", "(and (>= x 0) (>= 0 1))"), step("t", "cp_part", "a", "(>= 0 1)", "1", HOLDS), refuted=True)
    yield read("refuted_by_a_transfer", given("r", "(>= x 0)"), given("e", "(= (>= x 0) (>= 0 1))"),
               step("t", "cp_transfer", "r e", "(>= 0 1)", "", HOLDS), refuted=True)
    yield read("refuted_no_by_a_clause_of_two", x, not_x, step("t", "cp_addition", "a b", "(>= 0 1) (>= 0 1)", "", 21))
    general, whole = "(= (+ x y) 3)", "(and (>= (+ (* 1 x) (* 1 y)) 3) (>= (+ (* 1 (- 1 x)) (* 1 (- 1 y))) -1))"
    proof = (
        given("a", general), step("n", "cp_normalize", "", "(= %s %s)" % (general, whole), "", HOLDS),
        step("t", "cp_transfer", "a n", whole, "", HOLDS),
        step("p", "cp_part", "t", "(>= (+ (* 1 x) (* 1 y)) 3)", "0", HOLDS), step("l", "cp_literal", "", "(>= (* 1 (- 1 x)) 0)", "(- 1 x)", HOLDS),
        step("m", "cp_literal", "", "(>= (* 1 (- 1 y)) 0)", "(- 1 y)", HOLDS), step("s", "cp_addition", "p l", "(>= (* 1 y) 2)", "", HOLDS),
        step("r", "cp_addition", "s m", "(>= 0 1)", "", HOLDS))
    yield read("refuted_by_a_whole_proof", *proof, refuted=True)
    yield read("refuted_by_all_of_it_but_the_last_step", *proof[:-1], refuted=True)
    yield read("refuted_by_it_up_to_the_part", *proof[:4], refuted=True)
    yield read("refuted_no_by_it_before_the_part", *proof[:3])


def unreachable_steps():
    """`refuted` by steps that derive a sum over literals: of each rule, and where their lines do not hold."""
    two, not_x, one = given("a", "(>= (+ (* 2 x) (* 1 y)) 3)"), given("b", "(>= (* 1 (- 1 x)) 1)"), given("b", "(>= (* 1 (- 1 x)) 0)")
    three, reached = "(>= (+ (* 1 x) (* 1 y)) 3)", "(>= (+ (* 1 x) (* 1 y)) 2)"
    yield read("unreachable_by_an_addition", two, not_x, step("t", "cp_addition", "a b", three, "", HOLDS), refuted=True)
    yield read("unreachable_by_an_addition_with_zeros", two, not_x, step("t", "cp_addition", "a b", "(>= (+ (* 1 x) (* 0 z) (* 1 y) (* 0 (- 1 x))) 3)", "", HOLDS), refuted=True)
    yield read("unreachable_no_by_an_addition", two, one, step("t", "cp_addition", "a b", reached, "", HOLDS))
    yield read("unreachable_no_by_a_refused_addition", two, one, step("t", "cp_addition", "a b", three, "", 29))
    yield read("unreachable_no_by_a_conclusion_of_two_terms", two, not_x, step("t", "cp_addition", "a b", "%s %s" % (three, three), "", 21))
    yield read("unreachable_no_by_a_conclusion_of_no_terms", two, not_x, step("t", "cp_addition", "a b", "", "", 21))
    yield read("unreachable_no_by_an_addition_that_is_not_plain", given("a", "(>= (+ (* 2 x) (* 1 y)) 2)"), given("z", NONE),
               step("t", "cp_addition", "a z", "(>= (+ (* 0 x) (* 1 y)) 2)", "", ODD))
    yield read("unreachable_no_by_an_addition_behind_a_refused_step", two, step("b", "cp_literal", "", "(>= (* 1 (- 1 x)) 1)", "(- 1 x)", 36),
               step("t", "cp_addition", "a b", three, "", PLAIN))
    yield read("unreachable_no_by_an_addition_over_other_terms", given("a", "(>= (+ (* 2 x) (* 1 (+ y))) 3)"), not_x, step("t", "cp_addition", "a b", "(>= (+ (* 1 x) (* 1 (+ y))) 3)", "", ODD))
    for rule, premise, clause, arguments in (
            ("cp_multiplication", "(>= (* 1 x) 2)", "(>= (* 3 x) 6)", "3"), ("cp_division", "(>= (* 2 x) 3)", "(>= (* 1 x) 2)", "2"), ("cp_saturation", "(>= (* 1 x) 2)", "(>= (* 1 x) 2)", "")):
        # a premise that some assignment satisfies gives a conclusion that it satisfies
        yield read("unreachable_by_%s_of_such_a_premise" % rule, given("a", premise), step("t", rule, "a", clause, arguments, HOLDS), refuted=True)
        yield read("unreachable_no_by_%s_behind_a_refused_step" % rule, step("a", "cp_literal", "", premise, "x", 36), step("t", rule, "a", clause, arguments, PLAIN))
    yield read("unreachable_by_a_premise_times_0", given("a", "(>= (* 1 x) 2)"), step("t", "cp_multiplication", "a", "(>= (* 0 x) 0)", "0", HOLDS), refuted=True)
    yield read("unreachable_no_by_a_multiplication", two, step("t", "cp_multiplication", "a", "(>= (+ (* 4 x) (* 2 y)) 6)", "2", HOLDS),
               step("u", "cp_multiplication", "a", "(>= (+ (* 4 x) (* 2 y)) 7)", "2", 29))
    yield read("unreachable_no_by_a_division_that_rounds_up", given("a", "(>= (+ (* 2 x) (* 2 y)) 3)"), step("t", "cp_division", "a", reached, "2", HOLDS))
    yield read("unreachable_no_by_a_saturation", given("a", "(>= (+ (* 5 x) (* 1 y)) 2)"), step("t", "cp_saturation", "a", "(>= (+ (* 2 x) (* 1 y)) 2)", "", HOLDS))
    for name, clause, argument, due in (
            ("plain", "(>= (* 1 x) 0)", "x", HOLDS), ("negated", "(>= (* 1 (- 1 x)) 0)", "(- 1 x)", HOLDS), ("bare", "(>= x 0)", "x", HOLDS), ("with_another_constant", "(>= (* 1 x) 2)", "x", 36),
            ("with_another_coefficient", "(>= (* -1 x) 0)", "x", 34)):
        yield read("unreachable_no_by_a_literal_" + name, step("t", "cp_literal", "", clause, argument, due))
    for constant, refuted in ((2, True), (1, False)):
        general, normalized = "(>= x %d)" % constant, "(>= (* 1 x) %d)" % constant
        equation = step("n", "cp_normalize", "", "(= %s %s)" % (general, normalized), "", HOLDS)
        yield read("unreachable_no_by_a_normalization_to_%d" % constant, given("a", general), equation)
        yield read("unreachable_%sby_a_transfer_to_%d" % ("" if refuted else "no_", constant), given("a", general), equation, step("t", "cp_transfer", "a n", normalized, "", HOLDS), refuted=refuted)
        yield read("unreachable_no_by_a_transfer_to_%d_of_a_refused_step" % constant, step("a", "cp_literal", "", general, "x", 36), equation, step("t", "cp_transfer", "a n", normalized, "", PLAIN))
        yield read("unreachable_%sby_a_part_%d" % ("" if refuted else "no_", constant), given("a", "(and (>= 0 0) %s)" % normalized),
                   step("t", "cp_part", "a", normalized, "1", HOLDS), refuted=refuted)
    yield read("unreachable_no_by_a_transfer_to_what_is_not_read", given("a", "(<= 2 x)"), step("n", "cp_normalize", "", "(= (<= 2 x) (>= x 2))", "", HOLDS),
               step("t", "cp_transfer", "a n", "(>= x 2)", "", HOLDS))
    yield read("unreachable_no_by_a_part_that_is_not_taken", given("a", "(and (>= (* 1 x) 2) (>= 0 0))"),
               step("t", "cp_part", "a", "(>= 0 0)", "1", HOLDS), step("u", "cp_part", "a", "(>= (* 1 x) 2)", "1", 41))
    yield read("unreachable_no_by_a_part_of_no_statement", given("a", "(and (>= (* 1 x) 2) x)", False), step("t", "cp_part", "a", "(>= (* 1 x) 2)", "0", PLAIN))
    yield read("unreachable_by_the_first_of_many", given("a", "(>= (* 1 x) 2)"), given("b", "(>= x 2)"), step("t", "cp_part", "a", "x", "0", 41), given("c", "(>= (* 1 x) 1)"), refuted=True)
    yield read("unreachable_by_the_last_of_many", given("a", "(>= (* 1 x) 1)"), given("b", "(>= x 2)"), step("t", "cp_part", "a", "x", "0", 41), given("c", "(>= (* 1 x) 2)"), refuted=True)
    yield read("unreachable_by_one_variable_in_each_line", *(given("a%d" % place, "(>= (+ (* 1 x) (* -1 y)) %d)" % (place - 1)) for place in range(3)), given("b", "(>= (* 1 x) 2)"), refuted=True)
    yield read("unreachable_no_by_any_of_many", *(given("a%d" % place, "(>= (+ (* %d x) (* -1 y)) %d)" % (place, place)) for place in range(40)))
    yield read("the_request", given("a", "(>= (+ (* 2 x) (* 1 y)) 4)"), refuted=True)


# ---------------------------------------------------------------- words, blanks, ids

def words():
    """Layout and names that are read."""
    x = "(>= x 0)"
    for name, text in (("blanks", b"  \t\r\n \n"), ("one_blank", b" "), ("line_feed", b"\n"), ("carriage_return", b"\r"), ("tab", b"\t")):
        yield layout("layout_" + name, text)
    for name, text in (
            ("no_blanks", b"(assume a(>= x 0))"), ("many_blanks", b"\n\n ( assume\ta\r\n(  >=   x\n\t0 )  )   \n\n"),
            ("carriage_returns", b"(assume\r\na\r\n(>=\r\nx\r\n0))\r\n"),
            ("a_token_a_line", b"(\nassume\na\n(\n>=\nx\n0\n)\n)\n")):
        yield layout("layout_" + name, text, given("a", x))
    literal = step("t", "cp_literal", "a", x, "x", HOLDS)
    for name, text in (
            ("step_without_blanks", b"(assume a(>= x 0))(step t(cl(>= x 0)):rule cp_literal:premises(a):args(x))"),
            ("step_on_many_lines", b"(assume a (>= x 0))\n(step t\n (cl\n (>= x 0))\n :rule cp_literal\n :premises (\n a\n )\n :args (\n x\n )\n)")):
        if b"cp_literal:premises" in text:
            yield refused("layout_keyword_right_behind_a_rule", 5, text.replace(b"cp_literal:", b"^cp_literal:"))
            text = text.replace(b"cp_literal:", b"cp_literal :").replace(b":rule", b" :rule")
        yield layout("layout_" + name, text, given("a", x), literal)
    yield read("layout_one_line", *SECTION_6, between="", ending="")
    yield read("layout_nothing_at_the_end", *SECTION_6, ending="")
    names = ("id rule answer plain holds commands refused refuted yes no premises args Cl CL AND Assume steps assume1 and_ cl. and.x _ @ @@ __ a.b.c "
             "a..  Z9 x1 X1 _1 @1 cp_part cp_literal cp_addition foo byte true false e1 E n0 o").split()
    yield read("ids_that_look_like_words", *(given(name, x) for name in names))
    yield read("ids_that_are_cited", *(given(name, x) for name in names), *(step("t_" + name, "cp_literal", name, x, "x", HOLDS) for name in names))
    yield read("variables_that_look_like_words", *(given("a%d" % place, "(>= %s 0)" % name) for place, name in enumerate(names)))
    yield read("ids_and_variables_apart", given("x", "(>= (* 1 x) 0)"), given("y", "(>= (* 1 y) 0)"),
               step("z", "cp_addition", "x y", "(>= (+ (* 1 x) (* 1 y)) 0)", "", HOLDS))
    long = "n" * 32
    yield read("ids_of_32_bytes", given(long, x), given(long[:-1] + "m", x), given("m" + long[1:], x),
               step("t" * 32, "cp_literal", " ".join((long, long[:-1] + "m")), x, "x", HOLDS))
    yield read("ids_of_32_bytes_that_differ_at_the_end", *(given("n" * 31 + last_byte, x) for last_byte in "abcXYZ019._@"))
    yield read("ids_of_growing_length", *(given("n" * length, x) for length in range(1, 33)))
    yield read("variables_of_32_bytes", given("a", "(>= (* 1 %s) 1)" % long),
               given("b", "(>= (* 1 (- 1 %s)) 1)" % (long[:-1] + "m")), given("c", "(>= (* 1 (- 1 %s)) 1)" % long),
               step("t", "cp_addition", "a b", "(>= 0 1)", "", 29), step("u", "cp_addition", "a c", "(>= 0 1)", "", HOLDS), refuted=True)
    yield read("ids_by_case", given("a", x), given("A", x), step("t", "cp_literal", "A", x, "x", HOLDS))
    numbers = ("0", "-1", "9", "10", "-99999999", "99999999", "12345678")
    yield read("numerals", *(given("a%d" % place, "(>= %s 0)" % number) for place, number in enumerate(numbers)))


# ---------------------------------------------------------------- limits at their two sides

def limits():
    """Bytes, commands, nodes, depth, summands, leaves, and the longest report."""
    text = SECTION_6_TEXT.encode("ascii")
    yield layout("limit_bytes_32768_blanks", b" " * 32768)
    yield layout("limit_bytes_32768", text + b" " * (32768 - len(text)), *SECTION_6)
    yield refused("limit_bytes_32769", 2, text + b"\n" * (32768 - len(text)) + b"^\n")
    yield refused("limit_bytes_32769_of_byte_0", 2, b"\0" * 32768 + b"^\0")
    yield refused("limit_bytes_offence_at_the_last", 6, b" " * 32767 + b"^x")
    yield refused("limit_bytes_byte_0_at_the_last", 3, b" " * 32767 + b"^\0")
    yield refused("limit_bytes_end_at_32768", 6, b"(" + b" " * 32767 + b"^")
    yield refused("limit_bytes_word_to_the_end", 5, b"^" + b"w" * 32768)
    assumptions = [given("a%d" % place, "(>= x 0)") for place in range(512)]
    yield read("limit_commands_511", *assumptions[:511])
    yield read("limit_commands_512", *assumptions)
    yield read("limit_commands_512_steps", *(step("t%d" % place, "cp_part", "", "", "", 20) for place in range(512)))
    yield refused("limit_commands_513", 7, b"\n".join(one.text.encode("ascii") for one in assumptions) + b"\n^(assume b (>= x 0))\n")
    yield refused("limit_commands_513_of_nothing", 7, b"".join(one.text.encode("ascii") for one in assumptions) + b"^()")
    yield refused("limit_commands_word_behind_512", 6, b"".join(one.text.encode("ascii") for one in assumptions) + b" ^x")
    for place, before, behind in (("assumption", "(assume a ", ")"), ("clause", "(step a (cl ", ") :rule cp_part)"),
            ("argument", "(step a (cl) :rule cp_part :args (", "))")):
        command = given("a", "", False) if place == "assumption" else step("a", "cp_part", "", "", "", 20)
        for operator in ("+", "and"):
            opened = ("(%s " % operator) * 63
            yield layout("limit_depth_64_%s_%s" % (place, operator), (before + opened + "x" + ")" * 63 + behind).encode("ascii"), command)
            yield refused("limit_depth_65_%s_%s" % (place, operator), 7, (before + opened + "(- ^x" + ")" * 64 + behind).encode("ascii"))
    yield layout("limit_depth_64_of_the_last_operand", ("(assume a " + "(+ 1 " * 63 + "x" + ")" * 64).encode("ascii"), given("a", "", False))
    yield refused("limit_depth_65_application", 7, ("(assume a " + "(+ " * 64 + "^(+ 1)" + ")" * 65).encode("ascii"))
    yield layout("limit_nodes_4096", b"(assume a (+" + b" 1" * 4095 + b"))", given("a", "", False))
    yield refused("limit_nodes_4097", 7, b"(assume a (+" + b" 1" * 4095 + b" ^1))")
    yield refused("limit_nodes_4097_in_a_second_command", 7, b"(assume a (+" + b" 1" * 4095 + b"))(assume b ^x)")
    yield refused("limit_nodes_4097_is_an_application", 7, b"(assume a (+" + b" 1" * 4095 + b" ^(+ 1)))")
    yield layout("limit_nodes_4096_of_premises", b"(assume a x)(step t (cl) :rule cp_literal :premises (a" + b" a" * 4094 + b"))",
                 given("a", "", False), step("t", "cp_literal", "", "", "", 21))
    yield refused("limit_nodes_4097_of_premises", 7, b"(assume a x)(step t (cl) :rule cp_literal :premises (a" + b" a" * 4094 + b" ^a))")
    yield refused("limit_nodes_4097_is_an_undefined_premise", 7, b"(assume a x)(step t (cl) :rule cp_literal :premises (a" + b" a" * 4094 + b" ^b))")
    for count, due in ((512, HOLDS), (513, 40)):
        total = "(>= (* %d x) %d)" % (count, count)
        long = "(>= %s %d)" % (plus(count, "(* 1 x)"), count)
        yield last("limit_summands_%d_saturation" % count, "cp_saturation", (long,), total, "", due)
        yield last("limit_summands_%d_conclusion" % count, "cp_multiplication", (total,), long, "1", due)
        yield last("limit_summands_%d_division" % count, "cp_division", (long,), total, "1", due)
        yield last("limit_leaves_%d" % count, "cp_normalize", (), "(= (>= %s 0) (>= %s 0))" % (plus(count - 1, "x"), plus(count - 1, "x")), "", due)
        yield last("limit_leaves_%d_of_both_sides" % count, "cp_normalize", (),
                   "(= (>= %s %s) (>= %s %d))" % (plus(256, "x"), plus(count - 256, "-1"), plus(256, "x"), 256 - count), "", due)
        yield last("limit_names_%d" % count, "cp_multiplication", ("(>= %s 0)" % named(count),), "(>= %s 0)" % named(count, "(* 2 x%d)"), "2", due)
    yield last("limit_summands_300_and_300", "cp_addition",
               ("(>= %s 1)" % plus(300, "(* 1 x)"), "(>= %s 1)" % plus(300, "(* 1 y)")),
               "(>= (+ (* 300 x) (* 300 y)) 2)", "", HOLDS)
    yield last("limit_summands_512_and_512", "cp_addition",
               ("(>= %s 1)" % plus(512, "(* 1 x)"), "(>= %s 1)" % plus(512, "(* 1 y)")),
               "(>= (+ (* 512 x) (* 512 y)) 2)", "", HOLDS)
    # as many of the shortest steps with the longest line as a text has room for
    longest = [step("n%03d" % place + "n" * 28, "cp_multiplication", "", "", "", 20) for place in range(32768 // 68)]
    yield read("limit_longest_report", *longest, between="", ending="")


def vectors():
    """All of them."""
    for group in (document, refusals, answers, statements, premises, links, greatest, refutations, unreachable_steps, words, limits):
        yield from group()
