"""Pairs of an OPB text and a proof text by hand, each with the report that document 02, No. 1, says is due.

Nothing in this file reads a text or checks a step; `reports.py` holds each report to the independent reference. An
assumption that comes from a constraint always has the same line, so a pair says how many there are and what the proof
text's own commands have.
"""
from report_vectors import HOLDS, PLAIN, Command, Vector, given, report_of, step

MAX_TEXT = 32768


# ---------------------------------------------------------------- putting pairs and reports together

def assumed(count):
    """The lines of c1, c2, .. up to so many."""
    return [Command("c%d" % number, "", " rule=assume answer=0 %s" % HOLDS, True) for number in range(1, count + 1)]


def read(name, opb, count, *commands, refuted=False):
    """A pair that is read: the OPB text gives so many assumptions, and these are the proof text's commands."""
    text = "".join(command.text + "\n" for command in commands)
    return Vector(name, text.encode("ascii"), report_of(assumed(count) + list(commands), refuted), (), opb)


def refused(name, number, opb, text=b""):
    """A pair that is refused at the `^` in one of the texts, which is not part of it."""
    marked = opb if b"^" in opb else text
    report = b"refused=%d byte=%d\n" % (number, marked.index(b"^"))
    return Vector(name, text.replace(b"^", b"", 1), report, (), opb.replace(b"^", b"", 1))


def transferred(term, number=1, due=HOLDS):
    """Commands that take the assumption with this number across an equation: accepted exactly where it is this term."""
    return (
        given("e%d" % number, "(= %s (>= 0 0))" % term),
        step("t%d" % number, "cp_transfer", "c%d e%d" % (number, number), "(>= 0 0)", "", due))


def shapes(name, opb, *terms, refuted=False):
    """A pair whose OPB text becomes these assumptions."""
    commands = [command for number, term in enumerate(terms, 1) for command in transferred(term, number)]
    return read(name, opb, len(terms), *commands, refuted=refuted)


# ---------------------------------------------------------------- each word in each place

# A place of the format: its name, the bytes before it, and what may stand there, each with bytes that end the
# constraint and the number of its assumptions.
SUM = {"number": (b" x9 >= 1 ;", 1), "at_least": (b" 0 ;", 1), "equal": (b" 0 ;", 2)}
PLACES = (
    ("first", b"", dict(SUM, end=(b"", 0), star=(b"", 0))),
    ("behind_a_blank", b" ", dict(SUM, end=(b"", 0))),
    ("literal", b"2 ", {"literal": (b" >= 1 ;", 1), "negated": (b" >= 1 ;", 1)}),
    ("behind_a_summand", b"2 x1 ", SUM),
    ("constant", b"2 x1 >= ", {"number": (b" ;", 1)}),
    ("constant_of_equal", b"2 x1 = ", {"number": (b" ;", 2)}),
    ("end", b"2 x1 >= 1 ", {"semicolon": (b"", 1)}),
    ("behind_a_constraint", b"2 x1 >= 1 ; ", dict((word, (rest, count + 1)) for word, (rest, count) in dict(SUM, end=(b"", 0)).items())),
    ("next_line", b"2 x1 >= 1 ;\n", dict((word, (rest, count + 1)) for word, (rest, count) in dict(SUM, end=(b"", 0), star=(b"", 0)).items())),
)
# A word with its bytes, and the number that refuses it where it may not stand.
WORDS = (
    ("number", b"2", 51), ("literal", b"x7", 51), ("negated", b"~x7", 51), ("at_least", b">=", 51), ("equal", b"=", 51),
    ("semicolon", b";", 51), ("opening", b"(", 51), ("closing", b")", 51), ("end", b"", 51), ("min", b"min:", 50),
    ("max", b"max:", 50), ("star", b"*", 5), ("no_word", b"y7", 5), ("malformed", b"007", 4), ("bad_byte", b"\0", 3))


def words_in_places():
    """Each word in each place."""
    for place, before, allowed in PLACES:
        for word, spelled, number in WORDS:
            name = "place_%s_%s" % (place, word)
            if word in allowed:
                rest, count = allowed[word]
                yield read(name, before + spelled + rest, count)
            else:
                yield refused(name, number, before + b"^" + spelled + (b" 1 x1 >= 1 ;" if spelled else b""))


# ---------------------------------------------------------------- numbers

def numbers():
    """Each form of a number as a coefficient and as a constant."""
    for name, spelled, value in (
            ("plus_5", b"+5", 5), ("minus_5", b"-5", -5), ("5", b"5", 5), ("0", b"0", 0), ("plus_0", b"+0", 0),
            ("largest", b"99999999", 99999999), ("plus_largest", b"+99999999", 99999999), ("minus_largest", b"-99999999", -99999999)):
        yield shapes("number_%s" % name, spelled + b" x1 >= " + spelled + b" ;", "(>= (* %d x1) %d)" % (value, value))
        yield shapes(
            "number_%s_turned" % name, spelled + b" x1 = " + spelled + b" ;",
            "(>= (* %d x1) %d)" % (value, value), "(>= (* %d x1) %d)" % (-value, -value))
    for name, spelled in (
            ("minus_0", b"-0"), ("leading_zeros", b"007"), ("plus_leading_zeros", b"+007"), ("minus_leading_zeros", b"-007"), ("two_zeros", b"00"),
            ("plus_two_zeros", b"+00"), ("too_large", b"100000000"), ("plus_too_large", b"+100000000"), ("minus_too_large", b"-100000000"),
            ("2_to_32_and_1", b"4294967297"), ("2_to_64_and_1", b"18446744073709551617"), ("minus_2_to_31", b"-2147483648"), ("letter_behind", b"1x"),
            ("plus_letter_behind", b"+1x"), ("minus_letter_behind", b"-1x"), ("point", b"1."), ("exponent", b"1e5"), ("sign_behind", b"1-1"),
            ("literal_behind", b"5x1"), ("negation_behind", b"5~x1"), ("relation_behind", b"1>=")):
        yield refused("number_4_%s" % name, 4, b"^" + spelled + b" x1 >= 1 ;")
        yield refused("number_4_%s_constant" % name, 4, b"1 x1 >= ^" + spelled + b" ;")
    for name, spelled in (
            ("plus_alone", b"+"), ("minus_alone", b"-"), ("minus_minus", b"--1"), ("plus_minus", b"+-1"), ("minus_plus", b"-+1"), ("plus_plus", b"++1"),
            ("plus_literal", b"+x1"), ("minus_literal", b"-x1"), ("comma", b",1")):
        yield refused("number_5_%s" % name, 5, b"^" + spelled + b" x1 >= 1 ;")
        yield refused("number_5_%s_constant" % name, 5, b"1 x1 >= ^" + spelled + b" ;")
    yield refused("number_sign_apart", 5, b"^+ 1 x1 >= 1 ;")


# ---------------------------------------------------------------- literals, relations, other words

def literals():
    """Variables by their names, and words like them."""
    digits = b"1" * 31
    for name, spelled in (("x0", b"x0"), ("x00", b"x00"), ("leading_zeros", b"x007"), ("large", b"x99999999999"), ("32_bytes", b"x" + digits)):
        term = spelled.decode("ascii")
        yield shapes("literal_%s" % name, b"1 " + spelled + b" >= 1 ;", "(>= (* 1 %s) 1)" % term)
        yield shapes("literal_%s_negated" % name, b"1 ~" + spelled + b" >= 1 ;", "(>= (* 1 (- 1 %s)) 1)" % term)
    for name, spelled in (
            ("33_bytes", b"x" + digits + b"1"), ("33_bytes_negated", b"~x" + digits + b"1"), ("x_alone", b"x"), ("negated_x_alone", b"~x"), ("tilde_alone", b"~"),
            ("two_tildes", b"~~x1"), ("tilde_number", b"~1"), ("tilde_minus", b"~-x1"), ("capital", b"X1"), ("other_letter", b"y1"), ("letter_behind", b"x1a"),
            ("letter_between", b"xa1"), ("underscore", b"x_1"), ("point", b"x1."), ("minus_between", b"x-1"), ("tilde_behind", b"x1~"), ("two_literals", b"x1~x2"),
            ("quoted", b"|x1|"), ("quoted_digits", b"|x7|"), ("tilde_quoted", b"~|x1|"), ("quotes", b'"x1"'), ("at", b"@x1"), ("reserved", b"assume"), ("colon", b":rule"),
            ("relation_behind", b"x1>=1"), ("comment_behind", b"x1*")):
        yield refused("literal_5_%s" % name, 5, b"1 ^" + spelled + b" >= 1 ;")
    yield refused("literal_5_quoted_with_a_blank", 5, b"1 ^|x 1| >= 1 ;")
    yield refused("literal_tilde_apart", 5, b"1 ^~ x1 >= 1 ;")
    yield read(
        "literal_x7_and_x07_differ", b"1 x7 >= 1 ; 1 ~x07 >= 1 ;", 2,
        step("t1", "cp_addition", "c1 c2", "(>= (+ (* 1 x7) (* 1 (- 1 x07))) 2)", "", HOLDS),
        step("t2", "cp_addition", "c1 c2", "(>= 0 1)", "", 29))
    yield read(
        "literal_is_the_proofs_variable", b"1 x7 >= 1 ;", 1, given("a", "(>= (* 1 (- 1 x7)) 1)"),
        step("t", "cp_addition", "c1 a", "(>= 0 1)", "", HOLDS), refuted=True)


def relations():
    """Words that are nearly a relation or an objective."""
    for name, spelled in (
            ("greater", b">"), ("less", b"<"), ("at_most", b"<="), ("two_equals", b"=="), ("equal_less", b"=<"), ("equal_greater", b"=>"), ("not_equal", b"!="),
            ("three", b">=="), ("glued_constant", b">=1"), ("glued_equal", b"=1"), ("min_without_colon", b"min"), ("max_without_colon", b"max"), ("capital_min", b"MIN:"),
            ("colon_alone", b":"), ("min_glued", b"min:1"), ("minus_min", b"-min:"), ("two_colons", b"min::"), ("and", b"and")):
        yield refused("word_5_%s" % name, 5, b"1 x1 ^" + spelled + b" 1 ;")
    yield refused("word_1_x1_at_least_1_without_blanks", 5, b"1 ^x1>=1;")
    yield refused("word_50_glued_to_a_semicolon", 50, b"^min:;")
    yield refused("word_50_behind_constraints", 50, b"1 x1 >= 1 ;\n^max: 1 x1 ;\n")
    yield refused("word_50_before_a_constraint", 50, b"* an objective\n^min: +1 x1 +2 x2 ;\n1 x1 >= 1 ;\n")
    yield refused("word_50_before_a_bad_byte", 50, b"^min:\0")
    yield refused("word_5_comma_before_min", 5, b"^,min: 1 x1 ;")
    yield refused("word_colon_apart", 5, b"^min : 1 x1 ;")


# ---------------------------------------------------------------- blanks, `;`, brackets

def layouts():
    """Where blanks may be, and what ends a word."""
    yield read("layout_empty", b"", 0)
    yield read("layout_empty_with_a_proof", b"", 0, given("c1", "(>= 0 1)"), refuted=True)
    yield read("layout_blanks", b" \t\r\n\n ", 0)
    term = "(>= (+ (* 1 x1) (* -2 (- 1 x2))) -1)"
    for name, text in (
            ("usual", b"+1 x1 -2 ~x2 >= -1 ;\n"), ("no_final_line_feed", b"1 x1 -2 ~x2 >= -1 ;"), ("glued_semicolon", b"1 x1 -2 ~x2 >= -1;\n"),
            ("tabs", b"\t1\tx1\t-2\t~x2\t>=\t-1\t;\t"), ("carriage_returns", b"1\rx1\r-2\r~x2\r>=\r-1\r;\r"), ("crlf", b"1 x1 -2 ~x2 >= -1 ;\r\n"),
            ("a_word_a_line", b"1\nx1\n-2\n~x2\n>=\n-1\n;\n"), ("crlf_inside", b"1 x1\r\n-2 ~x2\r\n>= -1\r\n;\r\n"), ("many_blanks", b"  \n\n 1   x1 \t -2  ~x2\n\n>=  -1   ;   \n\n")):
        yield shapes("layout_%s" % name, text, term)
    yield shapes("layout_two_in_a_line", b"1 x1 >= 1 ; 2 x2 >= 2 ;", "(>= (* 1 x1) 1)", "(>= (* 2 x2) 2)")
    yield shapes(
        "layout_many_without_blanks", b"1 x1 >= 1;2 x2 >= 2;>= 3;= 4;",
        "(>= (* 1 x1) 1)", "(>= (* 2 x2) 2)", "(>= 0 3)", "(>= 0 4)", "(>= 0 -4)", refuted=True)
    for name, opb in (
            ("alone", b"^;"), ("behind_blanks", b" \n^;"), ("twice", b"1 x1 >= 1 ;^;"), ("twice_apart", b"1 x1 >= 1 ;\n^;\n"), ("behind_a_number", b"1^;"), ("behind_a_literal", b"1 x1^;"),
            ("behind_a_relation", b"1 x1 >=^;"), ("before_a_literal", b"1 x1 >= 1;^x1 ;")):
        yield refused("semicolon_%s" % name, 51, opb)
    for name, opb in (
            ("around_a_sum", b"^( 1 x1 ) >= 1 ;"), ("glued_behind_a_number", b"1^(x1) >= 1 ;"), ("glued_behind_a_literal", b"1 x1^) >= 1 ;"), ("closing_alone", b"^)"),
            ("a_command", b"^(assume a x)"), ("behind_the_constant", b"1 x1 >= 1^) ;"), ("behind_a_constraint", b"1 x1 >= 1 ;^()")):
        yield refused("bracket_%s" % name, 51, opb)
    for name, opb in (("no_literal", b"1 ^>= 1 ;"), ("no_coefficient", b"^x1 >= 1 ;"), ("two_coefficients", b"1 ^2 x1 >= 1 ;"), ("two_literals", b"1 x1 ^x2 >= 1 ;"),
                      ("no_constant", b"1 x1 >= ^;"), ("two_relations", b"1 x1 >= ^= 1 ;"), ("a_sum_behind", b"1 x1 >= 1 ^x2 ;"), ("two_constants", b"1 x1 >= 1 ^2 ;"),
                      ("no_relation", b"1 x1 ^;"), ("next_constraint_begins", b"1 x1 >= 1 ^1 x2 >= 1 ;")):
        yield refused("format_%s" % name, 51, opb)
    for name, opb in (("behind_a_number", b"1^"), ("behind_a_literal", b"1 x1^"), ("behind_a_relation", b"1 x1 >=^"), ("behind_the_constant", b"1 x1 >= 1^"),
                      ("with_blanks", b"1 x1 >= 1 \n \t\r\n^"), ("of_the_second", b"1 x1 >= 1 ;\n1 x2 \n^")):
        yield refused("end_%s" % name, 51, opb)
    for byte in (0, 1, 8, 11, 12, 31, 127, 128, 255):
        yield refused("bad_byte_%d" % byte, 3, b"1 x1 >= 1 ;\n^" + bytes([byte]))
        yield refused("bad_byte_%d_behind_a_word" % byte, 3, b"1 x1^" + bytes([byte]) + b" >= 1 ;")
    yield refused("bad_byte_behind_a_word_of_no_kind", 5, b"^y\0")
    yield refused("bad_byte_behind_a_malformed_number", 4, b"^007\0")
    yield refused("bad_byte_behind_a_word_out_of_place", 51, b"^x1\0")
    yield refused("byte_order_mark", 3, b"^\xef\xbb\xbf1 x1 >= 1 ;")
    yield refused("leftmost_offence", 4, b"1 x1 >= ^-0 ; y1 ( \0")


# ---------------------------------------------------------------- comments

def comments():
    """Comments in every position, and what is none."""
    term = "(>= (* 1 x1) 1)"
    for name, opb in (
            ("first_line", b"* c\n1 x1 >= 1 ;"), ("header", b"* #variable= 1 #constraint= 1\n1 x1 >= 1 ;\n"), ("empty", b"*\n1 x1 >= 1 ;"), ("between_lines", b"\n\n* c\n\n1 x1 >= 1 ;"),
            ("three_lines", b"* a\n* b\n** c\n1 x1 >= 1 ;"), ("behind", b"1 x1 >= 1 ;\n* c\n"), ("at_the_end", b"1 x1 >= 1 ;\n* c"), ("star_at_the_end", b"1 x1 >= 1 ;\n*"),
            ("glued", b"*c\n1 x1 >= 1 ;"), ("any_printable", b"* min: 007 ( ) ; -0 y >= |x| \\ \"~\n1 x1 >= 1 ;"), ("tab_and_carriage_return", b"*\tc\rc\r\n1 x1 >= 1 ;"),
            ("crlf", b"* c\r\n1 x1 >= 1 ;\r\n* d\r\n"), ("a_constraint", b"*1 x2 >= 1 ;\n1 x1 >= 1 ;"), ("a_refused_one", b"*min: 1 x1 ;\n1 x1 >= 1 ;"), ("blanks_behind", b"*   \n  1 x1 >= 1 ;")):
        yield shapes("comment_%s" % name, opb, term)
    yield shapes("comment_between_constraints", b"1 x1 >= 1 ;\n* c\n2 x2 >= 2 ;\n", term, "(>= (* 2 x2) 2)")
    yield read("comment_alone", b"* c", 0)
    yield read("comments_alone", b"* c\n*\n* d\n", 0)
    for name, opb in (
            ("behind_a_blank", b" ^* c\n1 x1 >= 1 ;"), ("behind_a_tab", b"\t^* c\n"), ("behind_a_semicolon", b"1 x1 >= 1 ;^* c\n"), ("behind_a_semicolon_and_a_blank", b"1 x1 >= 1 ; ^* c\n"),
            ("behind_a_carriage_return", b"1 x1 >= 1 ;\r^* c\n"), ("behind_a_coefficient", b"1\n^* c\nx1 >= 1 ;"), ("behind_a_literal", b"1 x1\n^* c\n>= 1 ;"),
            ("behind_a_relation", b"1 x1 >=\n^* c\n1 ;"), ("behind_the_constant", b"1 x1 >= 1\n^* c\n;"), ("glued_behind_a_literal", b"1 x1\n^*c\n>= 1 ;"), ("star_inside", b"1 x1\n^*\n>= 1 ;"),
            ("with_a_product", b"2 ^* x1 >= 1 ;"), ("behind_a_blank_line_inside", b"1 x1 >= 1\n\n^* c\n;")):
        yield refused("comment_5_%s" % name, 5, opb)
    for byte in (0, 12, 127, 128, 255):
        yield refused("comment_bad_byte_%d" % byte, 3, b"* c (;^" + bytes([byte]) + b"\n1 x1 >= 1 ;")
    yield refused("comment_bad_byte_first", 3, b"*^\0")
    yield refused("comment_bad_byte_at_the_end", 3, b"1 x1 >= 1 ;\n* c\n* d ^\0")
    yield refused("comment_bad_byte_behind_an_offence", 5, b"^y1\n* \0")
    yield refused("comment_text_behind_the_line_feed", 5, b"* c\n^c\n1 x1 >= 1 ;")


# ---------------------------------------------------------------- assumptions

def assumptions():
    """How constraints become assumptions."""
    for name, opb, terms in (
            ("none", b">= -1 ;", ("(>= 0 -1)",)),
            ("one", b"3 x1 >= 2 ;", ("(>= (* 3 x1) 2)",)),
            ("one_negated", b"3 ~x1 >= 2 ;", ("(>= (* 3 (- 1 x1)) 2)",)),
            ("two", b"3 x1 2 x2 >= 2 ;", ("(>= (+ (* 3 x1) (* 2 x2)) 2)",)),
            ("two_negated", b"3 ~x1 2 ~x2 >= 2 ;", ("(>= (+ (* 3 (- 1 x1)) (* 2 (- 1 x2))) 2)",)),
            ("same_variable_twice", b"1 x1 1 x1 >= 2 ;", ("(>= (+ (* 1 x1) (* 1 x1)) 2)",)),
            ("variable_and_its_negation", b"1 x1 1 ~x1 >= 1 ;", ("(>= (+ (* 1 x1) (* 1 (- 1 x1))) 1)",)),
            ("zero_coefficient", b"0 x1 >= 0 ;", ("(>= (* 0 x1) 0)",)),
            ("order", b"1 x3 2 x1 3 x2 >= 4 ;", ("(>= (+ (* 1 x3) (* 2 x1) (* 3 x2)) 4)",)),
            ("equal_of_none", b"= 0 ;", ("(>= 0 0)", "(>= 0 0)")),
            ("equal_of_one", b"3 x1 = 3 ;", ("(>= (* 3 x1) 3)", "(>= (* -3 x1) -3)")),
            ("equal_of_one_negated", b"-3 ~x1 = -3 ;", ("(>= (* -3 (- 1 x1)) -3)", "(>= (* 3 (- 1 x1)) 3)")),
            ("equal_of_two", b"3 x1 -2 ~x2 = 1 ;", ("(>= (+ (* 3 x1) (* -2 (- 1 x2))) 1)", "(>= (+ (* -3 x1) (* 2 (- 1 x2))) -1)")),
            ("equal_of_zeros", b"0 x1 +0 x2 = 0 ;", ("(>= (+ (* 0 x1) (* 0 x2)) 0)", "(>= (+ (* 0 x1) (* 0 x2)) 0)")),
            ("equal_between", b"1 x1 >= 0 ; 1 x2 = 1 ; 1 x3 >= 0 ;", ("(>= (* 1 x1) 0)", "(>= (* 1 x2) 1)", "(>= (* -1 x2) -1)", "(>= (* 1 x3) 0)"))):
        yield shapes("assumption_%s" % name, opb, *terms)
    for name, opb, term in (
            ("one_is_bare", b"3 x1 >= 2 ;", "(>= (+ (* 3 x1)) 2)"), ("none_is_no_sum", b">= -1 ;", "(>= (+ 0) -1)"), ("negation_is_no_minus", b"3 ~x1 >= 2 ;", "(>= (* -3 x1) -1)"),
            ("nothing_is_added_up", b"1 x1 1 x1 >= 2 ;", "(>= (* 2 x1) 2)"), ("nothing_is_sorted", b"1 x2 1 x1 >= 1 ;", "(>= (+ (* 1 x1) (* 1 x2)) 1)"),
            ("one_is_written", b"1 x1 >= 0 ;", "(>= x1 0)")):
        yield read("assumption_%s" % name, opb, 1, *transferred(term, 1, 41))


def ids():
    """c1, c2, .. and how the proof text may use them."""
    twelve = b"1 x1 >= 0 ;\n" * 11 + b"2 x2 >= 2 ;\n"
    yield read("id_c12", twelve, 12, step("t", "cp_multiplication", "c12", "(>= (* 2 x2) 2)", "1", HOLDS))
    yield read("id_c1_of_twelve", twelve, 12, step("t", "cp_multiplication", "c1", "(>= (* 1 x1) 0)", "1", HOLDS))
    yield read("id_c13_is_free", twelve, 12, given("c13", "(>= 0 0)"))
    cite = b"(step t (cl (>= 0 0)) :rule cp_literal :premises (^%s) :args (x))"
    for name, cited in (("c0", b"c0"), ("c01", b"c01"), ("c2", b"c2"), ("capital", b"C1"), ("c", b"c"), ("c1_dot", b"c1."), ("none", b"a1")):
        yield refused("id_8_%s" % name, 8, b"1 x1 >= 1 ;", cite % cited)
    yield refused("id_8_c13_of_twelve", 8, twelve, cite % b"c13")
    yield refused("id_8_c012_of_twelve", 8, twelve, cite % b"c012")
    yield refused("id_8_without_constraints", 8, b"* 1 x1 >= 1 ;\n", cite % b"c1")
    yield refused("id_8_c1_assumed_again", 8, b"1 x1 >= 1 ;", b"(assume ^c1 (>= 0 0))")
    yield refused("id_8_c1_as_a_step", 8, b"1 x1 >= 1 ;", b"(step ^c1 (cl) :rule cp_literal)")
    yield refused("id_8_second_half_again", 8, b"1 x1 = 1 ;", b"(assume a x) (assume ^c2 (>= 0 0))")
    yield read("id_behind_the_second_half", b"1 x1 = 1 ; 1 x2 >= 1 ;", 3, given("c4", "(>= 0 0)"), step("t", "cp_addition", "c3 c4", "(>= (* 1 x2) 1)", "", HOLDS))
    yield read("id_c0_and_c01_are_free", b"1 x1 >= 1 ;", 1, given("c0", "(>= 0 0)"), given("c01", "(>= 0 0)"), given("c", "(>= 0 0)"))
    yield read("id_c1_as_a_variable", b"1 x1 >= 1 ;", 1, given("a", "(>= (* 1 c1) 1)"))
    yield read("id_x1_of_a_command", b"1 x1 >= 1 ;", 1, given("x1", "(>= (* 1 x1) 0)"), step("t", "cp_addition", "c1 x1", "(>= (* 2 x1) 1)", "", HOLDS))
    yield read("id_c1_without_an_opb_text", b"", 0, given("c1", "(>= 0 0)"))


# ---------------------------------------------------------------- steps over them

MODEL = b"* x1 and x2 are both 1, and not both\n1 x1 1 x2 >= 2 ;\n-1 x1 -1 x2 >= -1 ;\n"


def steps():
    """Steps that cite assumptions of the OPB text."""
    yield read("step_addition_refutes", MODEL, 2, step("t", "cp_addition", "c1 c2", "(>= 0 1)", "", HOLDS), refuted=True)
    yield read("step_addition_29", MODEL, 2, step("t", "cp_addition", "c1 c2", "(>= 0 2)", "", 29))
    yield read(
        "step_addition_of_negations", b"2 x1 1 x2 >= 2 ; 1 ~x1 1 x3 >= 1 ;", 2,
        step("t", "cp_addition", "c1 c2", "(>= (+ (* 1 x1) (* 1 x2) (* 1 x3)) 2)", "", HOLDS))
    yield read("step_division", b"3 x1 2 ~x2 1 x3 >= 3 ;", 1, step("t", "cp_division", "c1", "(>= (+ (* 2 x1) (* 1 (- 1 x2)) (* 1 x3)) 2)", "2", HOLDS))
    yield read("step_division_31", b"3 x1 >= 2 ;", 1, step("t", "cp_division", "c1", "(>= (* 1 x1) 1)", "2", 31), step("u", "cp_addition", "t t", "(>= (* 2 x1) 2)", "", PLAIN))
    yield read("step_saturation", b"5 x1 1 ~x2 >= 3 ;", 1, step("t", "cp_saturation", "c1", "(>= (+ (* 3 x1) (* 1 (- 1 x2))) 3)", "", HOLDS))
    yield read("step_saturation_32", b"-5 x1 5 x2 >= 3 ;", 1, step("t", "cp_saturation", "c1", "(>= (+ (* -5 x1) (* 5 x2)) 3)", "", 32))
    yield read("step_multiplication", b"1 x1 -2 ~x2 >= -1 ;", 1, step("t", "cp_multiplication", "c1", "(>= (+ (* 3 x1) (* -6 (- 1 x2))) -3)", "3", HOLDS))
    yield read(
        "step_literal", b"1 x1 1 x2 >= 2 ;", 1, step("t", "cp_literal", "", "(>= (* 1 (- 1 x2)) 0)", "(- 1 x2)", HOLDS),
        step("u", "cp_addition", "c1 t", "(>= (* 1 x1) 1)", "", HOLDS))
    yield read(
        "step_normalize_of_an_assumption", b"1 x1 -2 x2 >= 0 ;", 1,
        step("n", "cp_normalize", "", "(= (>= (+ (* 1 x1) (* -2 x2)) 0) (>= (+ (* 1 x1) (* 2 (- 1 x2))) 2))", "", HOLDS),
        step("t", "cp_transfer", "c1 n", "(>= (+ (* 1 x1) (* 2 (- 1 x2))) 2)", "", HOLDS))
    yield read("step_of_both_halves", b"2 x1 2 x2 = 1 ;", 2,
               step("t", "cp_division", "c1", "(>= (+ (* 1 x1) (* 1 x2)) 1)", "2", HOLDS),
               step("u", "cp_multiplication", "t", "(>= (+ (* 2 x1) (* 2 x2)) 2)", "2", HOLDS),
               step("v", "cp_addition", "u c2", "(>= 0 1)", "", HOLDS), refuted=True)
    yield read("step_with_an_assumption_of_the_proof", b"1 x1 >= 1 ;", 1, given("a", "(>= (* 1 y) 1)"), step("t", "cp_addition", "c1 a", "(>= (+ (* 1 x1) (* 1 y)) 2)", "", HOLDS))
    yield read("step_with_no_statement", b"1 x1 >= 1 ;", 1, given("a", "x1", False), step("t", "cp_literal", "c1 a", "(>= x1 0)", "x1", PLAIN))
    yield read("step_not_plain", b"3 x1 >= 1 ; >= 0 ;", 2, step("t", "cp_addition", "c1 c2", "(>= (* 0 x1) 1)", "", "plain=no holds=no"))
    for count, due in ((512, HOLDS), (513, 40)):
        opb = b"1 x1 " * count + b">= 0 ; >= 0 ;"
        yield read("step_addition_of_%d_summands" % count, opb, 2, step("t", "cp_addition", "c1 c2", "(>= (* %d x1) 0)" % count, "", due))


def refutations():
    """What refutes without a step, and what does not."""
    for name, opb, count, refuted in (
            ("none_at_least_1", b">= 1 ;", 1, True), ("none_at_least_0", b">= 0 ;", 1, False), ("none_at_least_minus_1", b">= -1 ;", 1, False), ("none_equal_1", b"= 1 ;", 2, True),
            ("none_equal_0", b"= 0 ;", 2, False), ("none_equal_minus_1", b"= -1 ;", 2, True), ("zero_coefficient", b"0 x1 >= 1 ;", 1, True), ("zero_coefficient_at_least_0", b"0 x1 >= 0 ;", 1, False),
            ("over_the_greatest_value", b"1 x1 >= 2 ;", 1, True), ("the_greatest_value", b"1 x1 >= 1 ;", 1, False), ("negated_over_the_greatest_value", b"1 ~x1 >= 2 ;", 1, True),
            ("negative_at_least_1", b"-1 x1 >= 1 ;", 1, True), ("negative_at_least_0", b"-1 x1 >= 0 ;", 1, False), ("negative_negated_at_least_1", b"-1 ~x1 >= 1 ;", 1, True),
            ("two_over_the_greatest_value", b"2 x1 1 ~x2 >= 4 ;", 1, True), ("two_at_the_greatest_value", b"2 x1 1 ~x2 >= 3 ;", 1, False),
            ("mixed_over_the_greatest_value", b"2 x1 -5 ~x2 3 ~x3 -1 x4 >= 6 ;", 1, True), ("mixed_at_the_greatest_value", b"2 x1 -5 ~x2 3 ~x3 -1 x4 >= 5 ;", 1, False),
            ("repeated_over_the_greatest_value", b"2 x1 2 x1 -1 x1 >= 4 ;", 1, True), ("repeated_at_the_greatest_value", b"2 x1 2 x1 -1 x1 >= 3 ;", 1, False),
            ("x1_and_x01_differ", b"1 x1 1 x01 >= 2 ;", 1, False),
            ("opposites_over_the_greatest_value", b"1 x1 1 ~x1 >= 2 ;", 1, True), ("opposites_at_the_greatest_value", b"1 x1 1 ~x1 >= 1 ;", 1, False),
            ("negative_opposites_over_the_greatest_value", b"-3 x1 -2 ~x1 >= -1 ;", 1, True), ("negative_opposites_at_the_greatest_value", b"-3 x1 -2 ~x1 >= -2 ;", 1, False),
            ("first_half_over_the_greatest_value", b"1 x1 1 x2 = 3 ;", 2, True), ("both_halves_at_the_greatest_value", b"1 x1 = 1 ;", 2, False),
            ("second_half_over_the_greatest_value", b"1 x1 1 x2 = -1 ;", 2, True), ("second_half_at_the_greatest_value", b"1 x1 1 x2 = 0 ;", 2, False),
            ("second_half_of_opposites", b"1 x1 1 ~x1 = 0 ;", 2, True), ("both_halves_of_opposites_at_their_values", b"1 x1 1 ~x1 = 1 ;", 2, False),
            ("no_half_alone", b"2 x1 2 x2 = 3 ;", 2, False), ("no_constraint_alone", b"1 x1 >= 1 ; 1 ~x1 >= 1 ;", 2, False),
            ("the_first_of_three", b"1 x1 >= 2 ; 1 x1 >= 1 ; 1 x2 >= 1 ;", 3, True), ("the_last_of_three", b"1 x1 >= 1 ; 1 x2 >= 1 ; 1 x1 1 x2 >= 3 ;", 3, True),
            ("largest", b"99999998 x1 >= 99999999 ;", 1, True), ("smallest", b"-99999999 x1 -99999999 ~x1 >= -99999999 ;", 1, False),
            ("512_summands", b"1 x1 " * 512 + b">= 513 ;", 1, True), ("512_summands_at_the_greatest_value", b"1 x1 " * 512 + b">= 512 ;", 1, False),
            ("513_summands", b"1 x1 " * 513 + b">= 514 ;", 1, False),
            ("512_summands_of_the_largest", b"99999999 x1 " * 512 + b">= 99999999 ;", 1, False), ("512_summands_of_the_largest_equal", b"99999999 x1 " * 512 + b"= -99999999 ;", 2, True)):
        yield read("refuted_%s" % name, opb, count, refuted=refuted)
    yield read("refuted_without_the_proof", b"1 x1 >= 2 ;", 1, step("t", "cp_multiplication", "c1", "(>= (* 2 x1) 5)", "2", 29), refuted=True)
    yield read("refuted_by_the_proofs_own_assumption", b"1 x1 >= 1 ;", 1, given("a", "(>= (* 1 x1) 2)"), refuted=True)
    yield read("refuted_by_a_sum_of_both", b"2 x1 1 x2 >= 3 ;", 1, given("a", "(>= (* 1 (- 1 x1)) 1)"), step("t", "cp_addition", "c1 a", "(>= (+ (* 1 x1) (* 1 x2)) 3)", "", HOLDS), refuted=True)
    yield read("refuted_no_by_a_refused_sum_of_both", b"2 x1 1 x2 >= 3 ;", 1, given("a", "(>= (* 1 (- 1 x1)) 0)"), step("t", "cp_addition", "c1 a", "(>= (+ (* 1 x1) (* 1 x2)) 3)", "", 29))


# ---------------------------------------------------------------- limits

def bytes_of(opb, length, by=b" "):
    """The text, brought to this length."""
    return opb + by * (length - len(opb))


def long_texts():
    """32,768 and 32,769 bytes, of either text."""
    one = b"1 x1 >= 1 ;\n"
    yield read("limit_opb_bytes_32768", bytes_of(one, MAX_TEXT), 1)
    yield read("limit_opb_bytes_32768_comment", bytes_of(one + b"* ", MAX_TEXT, b"c"), 1)
    yield read("limit_opb_bytes_32768_end", bytes_of(b"1 x1 >= 1", MAX_TEXT - 1) + b";", 1)
    for name, start, by in (("blanks", one, b" "), ("comment", one + b"* ", b"c"), ("refused", b";", b" "), ("bad_bytes", b"", b"\0")):
        yield Vector("limit_opb_bytes_32769_%s" % name, b"", b"refused=2 byte=32768\n", (), bytes_of(start, MAX_TEXT + 1, by))
    yield Vector("limit_opb_bytes_32769_and_proof", b" " * (MAX_TEXT + 1), b"refused=2 byte=32768\n", (), b"\n" * (MAX_TEXT + 1))
    yield Vector("limit_opb_bytes_32768_and_proof", b" " * MAX_TEXT, report_of(assumed(1)), (), bytes_of(one, MAX_TEXT))
    yield Vector("limit_proof_bytes_32769", b" " * (MAX_TEXT + 1), b"refused=2 byte=32768\n", (), one)
    yield refused("limit_proof_bytes_32769_behind_51", 51, b"^;", b" " * (MAX_TEXT + 1))
    yield refused("limit_proof_bytes_32769_behind_50", 50, b"1 x1 >= 1 ;\n^min: 1 x1 ;", b"x" * (MAX_TEXT + 1))
    yield refused("limit_proof_bytes_32769_behind_3", 3, b"* ^\0", b" " * (MAX_TEXT + 1))
    yield refused("order_opb_before_proof", 51, b" ^;", b"\0")
    yield refused("order_proof_behind_opb", 6, b">= 0 ;", b"  ^x")


def many_commands():
    """512 and 513 commands of both texts together."""
    def some(count):
        return b">= 0 ;\n" * count
    yield read("limit_commands_512", some(512), 512)
    yield refused("limit_commands_513", 7, some(512) + b"^>= 0 ;\n")
    yield refused("limit_commands_513_with_a_sum", 7, some(512) + b"* c\n  ^1 x1 2 ~x2 >= 0 ;\n")
    yield refused("limit_commands_514", 7, some(512) + b"^>= 0 ;\n>= 0 ;\n")
    yield refused("limit_commands_513_cut_off", 51, some(512) + b">= 0 ^")
    yield refused("limit_commands_513_malformed", 4, some(512) + b">= ^-0 ;\n")
    yield refused("limit_commands_513_lone_semicolon", 51, some(512) + b"^;\n")
    yield refused("limit_commands_513_objective", 50, some(512) + b"^min: ;\n")
    yield read("limit_commands_512_and_a_comment", some(512) + b"* c\n", 512)
    yield read("limit_commands_510_and_equal", some(510) + b"= 0 ;\n", 512)
    yield refused("limit_commands_511_and_equal", 7, some(511) + b"^= 0 ;\n")
    yield refused("limit_commands_511_and_equal_and_more", 7, some(511) + b"^= 0 ;\n>= 0 ;")
    yield refused("limit_commands_512_and_equal", 7, some(512) + b"^= 0 ;\n")
    yield read("limit_commands_256_equal", b"= 0 ;\n" * 256, 512)
    yield refused("limit_commands_257_equal", 7, b"= 0 ;\n" * 256 + b"^= 0 ;\n")
    yield read("limit_commands_511_and_1", some(511), 511, step("t", "cp_addition", "c1 c511", "(>= 0 0)", "", HOLDS))
    yield read("limit_commands_512_and_blanks", some(512), 512)._replace(text=b" \n")
    yield refused("limit_commands_512_and_1", 7, some(512), b"^(assume a x)")
    yield refused("limit_commands_512_and_a_bracket", 7, some(512), b" ^()")
    yield refused("limit_commands_512_and_a_word", 6, some(512), b" ^x")
    yield refused("limit_commands_511_and_2", 7, some(511), b"(assume a x)\n^(assume b x)")
    yield refused("limit_commands_510_and_equal_and_1", 7, some(510) + b"= 0 ;", b"^(assume a x)")
    yield refused("limit_commands_1_and_512", 7, some(1), b"".join(b"(assume a%d 0)\n" % number for number in range(511)) + b"^(assume b 0)")


def summands(plain, negated):
    """So many summands."""
    return b"1 x1 " * plain + b"1 ~x1 " * negated


def many_nodes():
    """4,096 and 4,097 nodes of both texts together. A constraint of several summands has 3 nodes, 3 for each, and 2 for each `~`."""
    yield read("limit_nodes_4095", summands(1364, 0) + b">= 0 ;", 1)
    yield read("limit_nodes_4096", summands(1361, 2) + b">= 0 ;", 1)
    yield refused("limit_nodes_4097", 7, b"^" + summands(1363, 1) + b">= 0 ;")
    yield refused("limit_nodes_4098", 7, b"* c\n ^" + summands(1365, 0) + b">= 0 ;")
    yield refused("limit_nodes_4098_cut_off", 51, summands(1365, 0) + b">= 0 ^")
    yield refused("limit_nodes_4098_malformed", 4, summands(1365, 0) + b">= ^00 ;")
    yield read("limit_nodes_4096_by_equal", summands(680, 1) + b"= 0 ;", 2)
    yield refused("limit_nodes_4098_by_equal", 7, b"^" + summands(682, 0) + b"= 0 ;")
    yield refused("limit_nodes_second_half", 7, b"^" + summands(1364, 0) + b"= 0 ;")
    # a constraint has 3 nodes without summands, 5 with one, 7 with a negated one
    yield read("limit_nodes_4096_by_the_last", summands(1361, 1) + b">= 0 ;\n1 x1 >= 0 ;\n", 2)
    yield refused("limit_nodes_4097_by_the_last", 7, summands(1363, 0) + b">= 0 ;\n ^1 x1 >= 0 ;\n")
    yield read("limit_nodes_4095_by_the_last", summands(1363, 0) + b">= 0 ;\n>= 0 ;\n", 2)
    yield refused("limit_nodes_4099_by_the_last_negated", 7, summands(1363, 0) + b">= 0 ;\n ^1 ~x1 >= 0 ;\n")
    yield refused("limit_nodes_4098_by_none", 7, summands(1364, 0) + b">= 0 ;\n ^>= 0 ;\n")
    full, short = summands(1361, 2) + b">= 0 ;", summands(1364, 0) + b">= 0 ;"
    yield read("limit_nodes_4095_and_1", short, 1, given("a", "x", False))
    yield read("limit_nodes_4095_and_a_premise", short, 1, step("t", "cp_literal", "c1", "", "", 21))
    yield refused("limit_nodes_4096_and_1", 7, full, b"(assume a ^x)")
    yield refused("limit_nodes_4096_and_an_application", 7, full, b"(assume a ^(+ x))")
    yield refused("limit_nodes_4095_and_2", 7, short, b"(assume a (+ ^x))")
    yield refused("limit_nodes_4096_and_a_premise", 7, full, b"(step t (cl) :rule cp_literal :premises (^c1))")
    yield refused("limit_nodes_4096_and_an_unknown_premise", 7, full, b"(step t (cl) :rule cp_literal :premises (^c9))")
    yield refused("limit_nodes_4095_and_two_premises", 7, short, b"(step t (cl) :rule cp_literal :premises (c1 ^c1))")
    yield read("limit_nodes_4096_and_none", full, 1, step("t", "cp_literal", "", "", "", 21))


# ---------------------------------------------------------------- whole models

PIGEONS = b"""* #variable= 6 #constraint= 5
* three pigeons, two holes: x1 x2 are pigeon 1 in hole 1 and 2, and so on
+1 x1 +1 x2 >= 1 ;
+1 x3 +1 x4 >= 1 ;
+1 x5 +1 x6 >= 1 ;
-1 x1 -1 x3 -1 x5 >= -1 ;
-1 x2 -1 x4 -1 x6 >= -1 ;
"""


def models():
    """Whole models with proofs."""
    yield read(
        "model_pigeons", PIGEONS, 5,
        step("p12", "cp_addition", "c1 c2", "(>= (+ (* 1 x1) (* 1 x2) (* 1 x3) (* 1 x4)) 2)", "", HOLDS),
        step("p", "cp_addition", "p12 c3", "(>= (+ (* 1 x1) (* 1 x2) (* 1 x3) (* 1 x4) (* 1 x5) (* 1 x6)) 3)", "", HOLDS),
        step("h", "cp_addition", "p c4", "(>= (+ (* 1 x2) (* 1 x4) (* 1 x6)) 2)", "", HOLDS),
        step("r", "cp_addition", "h c5", "(>= 0 1)", "", HOLDS), refuted=True)
    yield read(
        "model_consequence", b"* #variable= 4 #constraint= 3\n+2 x1 +2 ~x2 +3 x3 >= 4 ;\n+1 x4 -1 x3 = 0 ;\n-1 x3 >= 0 ;\n", 4,
        step("t1", "cp_multiplication", "c4", "(>= (* -3 x3) 0)", "3", HOLDS),
        step("t2", "cp_addition", "c1 t1", "(>= (+ (* 2 x1) (* 2 (- 1 x2))) 4)", "", HOLDS),
        step("t3", "cp_division", "t2", "(>= (+ (* 1 x1) (* 1 (- 1 x2))) 2)", "2", HOLDS))
    yield read("model_without_a_proof", PIGEONS, 5)


def vectors():
    """All of them."""
    for part in (words_in_places, numbers, literals, relations, layouts, comments, assumptions, ids, steps, refutations, long_texts, many_commands, many_nodes, models):
        yield from part()
