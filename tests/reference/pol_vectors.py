"""Pol lines by hand: texts, and pairs of an OPB text and a proof text, each with the report that document 02, No. 2, says is due.

Nothing in this file reads a text or checks a step; `reports.py` holds each report to the independent reference. What a
line derives stands in no report, so it is shown by `cp_transfer`, which compares whole terms: from `p` and `(= R N)` it
concludes N only where the line `p` has the clause R.
"""
import opb_vectors
from report_vectors import HOLDS, ODD, PLAIN, Command, given, layout, named, plus, read, refused, step

MAX_TEXT = 32768
LARGEST = 99999999


# ---------------------------------------------------------------- putting texts and reports together

def pol(name, words, due=HOLDS):
    """A pol line; `due` is HOLDS or PLAIN where it succeeds, else its answer."""
    accepted = not isinstance(due, int)
    line = " rule=pol answer=%d %s" % (0 if accepted else due, due if accepted else ODD)
    return Command(name, "(pol %s %s)" % (name, words), line, accepted)


def shown(name, term, marks=HOLDS):
    """Commands that take a line across an equation: accepted exactly where its clause is this term."""
    return given("e_" + name, "(= %s (>= 0 0))" % term), step("t_" + name, "cp_transfer", "%s e_%s" % (name, name), "(>= 0 0)", "", marks)


def derives(name, words, term, *before, refuted=False):
    """A text in which a pol line behind these commands derives the term."""
    return read("pol_" + name, *before, pol("p", words), *shown("p", term), refuted=refuted)


def fails(name, words, answer, *before):
    """A text whose pol line behind these commands has the answer, and the same line behind it once more."""
    return read("pol_" + name, *before, pol("p", words, answer), pol("q", words, answer))


A = given("a", "(>= (+ (* 3 x) (* 2 (- 1 y))) 4)")
B = given("b", "(>= (* 2 (- 1 x)) 1)")
NEGATIVE = given("n", "(>= (* -1 x) -1)")
BELOW = given("m", "(>= (* 1 x) -1)")
LARGE = given("k", "(>= (* %d x) %d)" % (LARGEST, LARGEST))


def pushes(word, count):
    """A word again and again, and as many `+` as add all of them up."""
    return " ".join([word] * count + ["+"] * (count - 1))


def variables(count, start=0):
    """So many variables, added up one by one."""
    return "v%02d" % start + "".join(" v%02d +" % place for place in range(start + 1, start + count))


def variable_sum(count, coefficient=1):
    """The sum of so many variables."""
    return "(+ %s)" % " ".join("(* %d v%02d)" % (coefficient, place) for place in range(count))


# ---------------------------------------------------------------- words

def words():
    """What each word does."""
    yield derives("push_an_id", "a", "(>= (+ (* 3 x) (* 2 (- 1 y))) 4)", A)
    yield derives("push_a_literal", "x", "(>= (* 1 x) 0)")
    yield derives("push_a_negated_literal", "~x", "(>= (* 1 (- 1 x)) 0)")
    yield derives("push_a_name_that_no_other_command_has", "somewhere_else", "(>= (* 1 somewhere_else) 0)", A)
    yield derives("push_an_id_that_is_a_variable_too", "x", "(>= (* 7 y) 3)", given("x", "(>= (* 7 y) 3)"))
    yield derives("tilde_before_an_id_is_a_literal", "~a", "(>= (* 1 (- 1 a)) 0)", A)
    yield derives("own_id_is_a_literal", "p ~p 2 * +", "(>= (* 1 (- 1 p)) -1)")
    yield read("pol_id_is_known_behind_its_line", pol("q", "q"), pol("p", "q 2 *"), *shown("p", "(>= (* 2 q) 0)"))
    yield read("pol_id_of_a_later_command_is_a_literal", pol("p", "later"), given("later", "(>= (* 1 x) 1)"), *shown("p", "(>= (* 1 later) 0)"))
    yield derives("equal_literals_of_a_pushed_id_add_up", "a", "(>= (* 5 x) 1)", given("a", "(>= (+ (* 2 x) (* 3 x)) 1)"))
    yield derives("pushing_does_not_reduce", "a", "(>= (+ (* 2 x) (* 3 (- 1 x))) 1)", given("a", "(>= (+ (* 3 (- 1 x)) (* 2 x)) 1)"))
    yield derives("plus_reduces_what_was_pushed", "a y +", "(>= (+ (* 1 (- 1 x)) (* 1 y)) -1)", given("a", "(>= (+ (* 3 (- 1 x)) (* 2 x)) 1)"))
    yield derives("times_does_not_reduce", "a 2 *", "(>= (+ (* 4 x) (* 6 (- 1 x))) 2)", given("a", "(>= (+ (* 3 (- 1 x)) (* 2 x)) 1)"))
    yield derives("division_does_not_reduce", "a 2 d", "(>= (+ (* 1 x) (* 2 (- 1 x))) 1)", given("a", "(>= (+ (* 3 (- 1 x)) (* 2 x)) 1)"))
    yield derives("saturation_does_not_reduce", "a s", "(>= (+ (* 1 x) (* 1 (- 1 x))) 1)", given("a", "(>= (+ (* 3 (- 1 x)) (* 2 x)) 1)"))
    yield derives("plus", "a z +", "(>= (+ (* 3 x) (* 2 (- 1 y)) (* 1 z)) 4)", A)
    yield derives("plus_cancels", "a b +", "(>= (+ (* 1 x) (* 2 (- 1 y))) 3)", A, B)
    yield derives("plus_the_same_twice", "a a +", "(>= (+ (* 6 x) (* 4 (- 1 y))) 8)", A)
    yield derives("plus_by_a_negative_coefficient", "n x +", "(>= 0 -1)", NEGATIVE)
    yield derives("plus_slack_is_negative", "a ~x +", "(>= (* 3 (- 1 x)) 1)", given("a", "(>= (* -2 x) -1)"))
    yield derives("times_0", "a 0 *", "(>= 0 0)", A)
    yield derives("times_1", "a 1 *", "(>= (+ (* 3 x) (* 2 (- 1 y))) 4)", A)
    yield derives("times_2_of_negatives", "n 2 *", "(>= (* -2 x) -2)", NEGATIVE)
    yield derives("division_rounds_up", "a 2 d", "(>= (+ (* 2 x) (* 1 (- 1 y))) 2)", A)
    yield derives("division_by_1", "a 1 d", "(>= (+ (* 3 x) (* 2 (- 1 y))) 4)", A)
    yield derives("division_by_the_largest", "a %d d" % LARGEST, "(>= (+ (* 1 x) (* 1 (- 1 y))) 1)", A)
    yield derives("division_truncates_below_0", "a 3 d", "(>= 0 -1)", given("a", "(>= (* -4 x) -5)"))
    yield derives("division_to_a_zero", "a 3 d", "(>= (* 1 y) 1)", given("a", "(>= (+ (* -1 x) (* 3 y)) 2)"))
    yield derives("saturation", "a s", "(>= (+ (* 3 x) (* 1 y)) 3)", given("a", "(>= (+ (* 5 x) (* 1 y)) 3)"))
    yield derives("saturation_at_0", "x s", "(>= 0 0)")
    yield derives("the_top_is_worked_on", "x y 3 * + ~x 2 * +", "(>= (+ (* 1 (- 1 x)) (* 3 y)) -1)")
    yield derives("entries_wait_on_the_stack", "a b z w + + +", "(>= (+ (* 1 w) (* 1 x) (* 2 (- 1 y)) (* 1 z)) 3)", A, B)
    yield derives("the_request", "c1 c2 + 3 d x7 2 * + s", "(>= (+ (* 1 x1) (* 1 x2) (* 1 x7)) 1)",
                  given("c1", "(>= (+ (* 2 x1) (* 1 x7)) 1)"), given("c2", "(>= (+ (* 3 x2) (* 2 (- 1 x7))) 5)"))
    yield read("pol_d_and_s_as_ids", pol("d", "x"), pol("s", "y"), pol("p", "~d ~s + 2 d s"), *shown("p", "(>= 0 0)"))
    yield derives("d_and_s_as_variables", "a ~d + ~s +", "(>= (+ (* 1 d) (* 1 s)) 0)", given("a", "(>= (+ (* 2 d) (* 2 s)) 2)"))
    yield derives("names_of_the_grammar", "pol cp_part + rule + ~poll +", "(>= (+ (* 1 cp_part) (* 1 pol) (* 1 (- 1 poll)) (* 1 rule)) 0)")
    yield read("pol_pol_as_an_id", pol("pol", "x"), pol("p", "pol pol +"), *shown("p", "(>= (* 2 x) 0)"))
    yield derives("a_line_of_a_chain", "q q +", "(>= (* 4 x) 2)", given("a", "(>= (* 2 x) 1)"), pol("q", "a"))


def entries():
    """Zeros on the stack, and what stands at the end."""
    zero = given("z", "(>= (+ (* 0 x) (* 1 y)) 1)")
    yield derives("a_zero_is_left_out", "z", "(>= (* 1 y) 1)", zero)
    yield derives("a_zero_stays_on_the_stack", "z n +", "(>= (+ (* -1 x) (* 1 y)) 0)", zero, NEGATIVE)
    # -1 of ~x meets the 0 of x: the smaller is taken from both
    yield derives("a_zero_is_reduced_with", "z a +", "(>= (+ (* 1 x) (* 1 y)) 1)", zero, given("a", "(>= (* -1 (- 1 x)) -1)"))
    yield derives("without_the_zero", "z a +", "(>= (+ (* -1 (- 1 x)) (* 1 y)) 0)", given("z", "(>= (* 1 y) 1)"), given("a", "(>= (* -1 (- 1 x)) -1)"))
    yield derives("a_zero_that_cancelling_left", "x ~x + a +", "(>= (+ (* 1 x) (* 1 y)) 0)", given("a", "(>= (+ (* -1 (- 1 x)) (* 1 y)) 0)"))
    yield derives("a_zero_by_times_0", "x 0 * a +", "(>= (* 1 x) 1)", given("a", "(>= (* -1 (- 1 x)) 0)"))
    yield derives("no_literal_is_0", "x ~x +", "(>= 0 -1)")
    yield derives("one_literal_stands_bare", "x y + 0 * x +", "(>= (* 1 x) 0)")
    yield derives("byte_order", "b a + _ + @ + Z + a1 + a.b + a10 + a2 + aa +",
                  "(>= (+ (* 1 @) (* 1 Z) (* 1 _) (* 1 a) (* 1 a.b) (* 1 a1) (* 1 a10) (* 1 a2) (* 1 aa) (* 1 b)) 0)")
    yield derives("plain_before_negated", "a", "(>= (+ (* 1 x) (* 2 (- 1 x)) (* 3 y) (* 4 (- 1 y))) 1)",
                  given("a", "(>= (+ (* 4 (- 1 y)) (* 2 (- 1 x)) (* 3 y) (* 1 x)) 1)"))
    yield derives("names_before_signs", "~a b + c + ~c 2 * +", "(>= (+ (* 1 (- 1 a)) (* 1 b) (* 1 (- 1 c))) -1)")
    yield derives("a_literal_of_a_line_that_is_read_again", "q ~x +", "(>= (* 1 (- 1 x)) 0)", pol("q", "x 0 *"))


def answers():
    """Each number at each word, and which of them comes first."""
    for name, text in (("plus", "+"), ("plus_behind_one", "x +"), ("saturation", "s"), ("times", "2 *"), ("division", "2 d"), ("two_at_the_end", "x y"),
                       ("three_at_the_end", "x y x"), ("two_behind_an_addition", "x y z +")):
        yield fails("52_" + name, text, 52, A)
    yield derives("53_no_number_beyond", "k ~x %d * +" % LARGEST, "(>= 0 0)", LARGE)
    for name, text in (("sum", "k k +"), ("coefficient_by_times", "k 2 *"), ("constant_by_plus", "a a +"), ("constant_below", "b b +")):
        yield fails("53_" + name, text, 53, LARGE, given("a", "(>= (+ (* 30000000 y) (* 30000000 z)) 50000000)"), given("b", "(>= (* 1 y) -50000000)"))
    yield fails("53_pushed_total", "a", 53, given("a", "(>= (+ (* %d x) (* 1 x)) 0)" % LARGEST))
    yield fails("53_pushed_total_below", "a", 53, given("a", "(>= (+ (* -%d x) (* -1 x)) 0)" % LARGEST))
    yield derives("53_a_pushed_total_that_comes_back", "a", "(>= (* %d x) 0)" % LARGEST, given("a", "(>= (+ (* %d x) (* 1 x) (* -1 x)) 0)" % LARGEST))
    yield fails("53_times_the_largest", "a %d *" % LARGEST, 53, given("a", "(>= (* 2 x) 0)"))
    yield derives("53_the_largest_of_all", "x %d * y %d * +" % (LARGEST, LARGEST), "(>= (+ (* %d x) (* %d y)) 0)" % (LARGEST, LARGEST))
    yield derives("53_opposite_numbers_cancel_first", "a b +", "(>= 0 %d)" % LARGEST,
                  given("a", "(>= (* %d x) %d)" % (LARGEST, LARGEST)), given("b", "(>= (* %d (- 1 x)) %d)" % (LARGEST, LARGEST)), refuted=True)
    for name, term, holds in (("no_inequality", "(> (* 1 x) 0)", True), ("no_constant", "(>= (* 1 x) y)", True), ("lone_constant", "(>= 4 1)", True),
                              ("bare_variable", "(>= x 0)", True), ("coefficient_behind", "(>= (* x 2) 0)", True), ("a_sum_as_variable", "(>= (* 1 (+ x y)) 0)", True),
                              ("a_zero_of_no_name", "(>= (* 0 (+ x y)) 0)", True), ("a_numeral_as_variable", "(>= (* 2 3) 0)", True),
                              ("an_and", "(and (>= (* 1 x) 0))", True), ("a_name", "x", False), ("three_sides", "(>= (* 1 x) 0 0)", False), ("an_equation", "(= x 1)", True)):
        yield fails("54_" + name, "a", 54, given("a", term, holds))
    yield derives("54_a_lone_0_can_be_pushed", "a x +", "(>= (* 1 x) -3)", given("a", "(>= (+ 0) -3)"))
    yield fails("54_a_clause_of_two_terms", "t", 54, step("t", "cp_literal", "", "(>= x 0) (>= x 0)", "x", 21))
    yield fails("54_a_clause_of_no_terms", "t", 54, step("t", "cp_literal", "", "", "x", 21))
    for name, text in (("times_below_0", "x -1 *"), ("division_by_0", "x 0 d"), ("division_below_0", "x -2 d"), ("saturation_of_a_negative", "n s"),
                       ("saturation_of_a_negative_constant", "m s")):
        yield fails("54_" + name, text, 54, NEGATIVE, BELOW)
    yield fails("54_saturation_of_a_negative_coefficient", "h s", 54, given("h", "(>= (+ (* -1 x) (* 5 y)) 2)"))
    yield derives("54_saturation_behind_the_opposite_literal", "h ~x + s", "(>= (+ (* 2 (- 1 x)) (* 3 y)) 3)", given("h", "(>= (+ (* -1 x) (* 5 y)) 2)"))
    yield derives("54_times_0_is_no_sign", "x 0 *", "(>= 0 0)")
    full = "x " * 32
    for name, text, answer in (
            ("52_before_54_times", "-1 *", 52), ("52_before_54_division", "0 d", 52), ("52_before_54_at_a_full_stack", full + "o", 52),
            ("52_before_53_at_a_full_stack", full + "w", 52), ("54_before_53_times", "k -2 *", 54), ("54_before_53_push", "u", 54),
            ("the_first_word_decides_54", "o + +", 54), ("the_first_word_decides_53", "w o", 53), ("the_first_word_decides_52", "+ o", 52),
            ("a_word_before_the_end_decides", "x y 0 d", 54), ("54_behind_52_at_the_end", "x x", 52)):
        yield fails("order_" + name, text, answer, LARGE, given("o", "x", False), given("w", "(>= (+ (* %d x) (* 1 x)) 0)" % LARGEST),
                    given("u", "(>= (+ (* %d x) (* 1 x) (* 1 (+ x y))) 0)" % LARGEST))


# ---------------------------------------------------------------- grammar

# A place of a pol line: its name, the bytes before it, and the words that may stand there.
PLACES = (
    ("head", b"(", ("pol", "assume")),
    ("id", b"(pol ", ("name", "pol", "d", "s")),
    ("first_word", b"(pol p ", ("name", "pol", "negated", "plus", "s", "numeral", "id")),
    ("later_word", b"(pol p x ", ("name", "pol", "negated", "plus", "s", "numeral", "id", "closing")),
    ("behind_a_numeral", b"(pol p x 2 ", ("times", "d")),
)
WORDS = (
    ("pol", b"pol", 6), ("name", b"foo", 6), ("id", b"a", 6), ("negated", b"~foo", 6), ("d", b"d", 6), ("s", b"s", 6), ("plus", b"+", 6), ("times", b"*", 6),
    ("minus", b"-", 6), ("at_least", b">=", 6), ("and", b"and", 6), ("numeral", b"7", 6), ("opening", b"(", 6), ("closing", b")", 6), ("cl", b"cl", 6),
    ("assume", b"assume", 6), ("keyword", b":args", 6), ("end", b"", 6), ("bad_byte", b"\0", 3), ("malformed", b"007", 4), ("no_word", b"x;", 5),
    ("tilde", b"~", 5), ("tilde_reserved", b"~cl", 5), ("tilde_operator", b"~and", 5), ("tilde_numeral", b"~5", 5), ("two_tildes", b"~~foo", 5),
    ("tilde_33_bytes", b"~" + b"n" * 33, 5), ("tilde_sign", b"~-foo", 5), ("tilde_behind", b"foo~", 5))


def number_at(place, word, number):
    """What refuses a word that may not stand in a place: 8 for an id that is used, 5 for `~x` outside of the words."""
    if word == "negated" and place in ("head", "id"):
        return 5
    return 8 if (place, word) == ("id", "id") else number


def grammar():
    """Each word in each place: 3, 4, 5, 6 and 8."""
    for place, before, allowed in PLACES:
        for word, spelled, number in WORDS:
            if word in allowed:
                continue
            rest = b" x)" if spelled else b""
            yield refused("pol_place_%s_%s" % (place, word), number_at(place, word, number), b"(assume a (>= (* 1 x) 1))" + before + b"^" + spelled + rest)
    yield refused("pol_no_word", 6, b"(pol p^)")
    yield refused("pol_end_behind_the_id", 6, b"(pol p^")
    yield refused("pol_end_behind_a_word", 6, b"(pol p x \n^")
    yield refused("pol_end_behind_a_numeral", 6, b"(pol p x 2 ^")
    yield refused("pol_id_used_twice", 8, b"(pol p x)(pol ^p x)")
    yield refused("pol_id_of_an_assumption", 8, b"(assume p x)(pol ^p x)")
    yield refused("pol_id_used_by_an_assumption", 8, b"(pol p x)(assume ^p x)")
    yield refused("pol_as_a_rule", 8, b"(step t (cl) :rule ^pol)")
    yield refused("pol_d_is_no_id", 6, b"(pol d x)(pol p ^d)")
    yield read("pol_s_is_no_id", pol("s", "x"), pol("p", "s", 52))
    yield refused("pol_poll", 6, b"(^poll p x)")
    yield refused("pol_capital", 6, b"(^Pol p x)")
    yield refused("pol_cited_in_itself_by_a_step", 8, b"(step t (cl) :rule cp_part :premises (^p))(pol p x)")
    yield refused("pol_numeral_too_large", 4, b"(pol p x ^100000000 *)")
    yield refused("pol_tilde_elsewhere", 5, b"(assume a (>= (* 1 ^~x) 0))")
    yield refused("pol_tilde_as_a_premise", 5, b"(assume a x)(step t (cl) :rule cp_part :premises (^~a))")
    yield refused("pol_tilde_apart", 5, b"(pol p ^~ x)")
    yield refused("pol_grammar_before_answers", 6, b"(pol p + + + ^d)")
    yield layout("pol_layout", b"(pol\tp\n x\r~x+\n)(\npol q p)".replace(b"~x+", b"~x +"), pol("p", ""), pol("q", ""))
    yield layout("pol_layout_brackets_end_words", b"(pol p ~x)(pol q p)", pol("p", ""), pol("q", ""))
    yield refused("pol_layout_words_without_a_blank", 5, b"(pol p ^x+)")
    yield refused("pol_layout_a_numeral_without_a_blank", 4, b"(pol p x ^2* )")


# ---------------------------------------------------------------- limits

def limits():
    """Lines, places of the stack, literals, and what pol lines do not count in."""
    lines = [pol("p%d" % place, "x %d *" % place) for place in range(64)]
    text = b"".join(line.text.encode("ascii") for line in lines)
    yield read("pol_limit_63_lines", *lines[:63])
    yield read("pol_limit_64_lines", *lines)
    yield read("pol_limit_64_lines_and_others", *lines, given("a", "(>= (* 1 x) 1)"), step("t", "cp_addition", "p1 a", "(>= (* 2 x) 1)", "", HOLDS))
    for name, rest in (("", b"pol p x)"), ("_cut_off", b"pol"), ("_with_a_used_id", b"pol p1 x)"), ("_with_no_word", b"pol q)")):
        yield refused("pol_limit_65_lines" + name, 7, text + b"(^" + rest)
    yield refused("pol_limit_65_lines_another_word", 6, text + b"(^poll q x)")
    yield refused("pol_limit_65_lines_refused_ones_count", 7, b"".join(b"(pol p%d +)" % place for place in range(64)) + b"(^pol q x)")
    assumed = b"".join(b"(assume a%d 0)" % place for place in range(448))
    yield refused("pol_limit_commands_before_lines", 7, assumed + text + b"^(pol q x)")
    yield refused("pol_limit_513_commands", 7, assumed + b"".join(b"(assume b%d 0)" % place for place in range(64)) + b"^(pol p x)")
    yield derives("limit_32_places", pushes("x", 32), "(>= (* 32 x) 0)")
    yield fails("limit_33_places", pushes("x", 33), 52)
    yield fails("limit_33_places_negated", pushes("~x", 33), 52)
    yield fails("limit_33_places_of_an_id", pushes("a", 33), 52, A)
    yield derives("limit_32_places_of_an_id", pushes("a", 32) + " 32 d", "(>= (+ (* 3 x) (* 2 (- 1 y))) 4)", A)
    yield derives("limit_32_places_and_words_on_the_top", "x " * 32 + "2 * 2 d s " + "+ " * 31, "(>= (* 31 x) 0)")
    yield derives("limit_places_are_free_again", ("x " * 31 + "+ " * 30) * 2 + "+", "(>= (* 62 x) 0)")
    yield derives("limit_64_literals", variables(64), "(>= %s 0)" % variable_sum(64))
    yield fails("limit_65_literals", variables(65), 53)
    yield derives("limit_64_literals_pushed", "a", "(>= %s 1)" % variable_sum(64), given("a", "(>= %s 1)" % variable_sum(64)))
    yield fails("limit_65_literals_pushed", "a", 53, given("a", "(>= %s 1)" % variable_sum(65)))
    yield fails("limit_65_literals_with_a_zero", "a", 53, given("a", "(>= (+ (* 0 zero) %s 1)" % variable_sum(64)[3:]))
    yield fails("limit_65_literals_with_a_negation", variables(64) + " ~v00 +", 53)
    yield fails("limit_65_literals_zeros_of_times", variables(64) + " 0 * w +", 53)
    yield derives("limit_64_literals_then_zeros", variables(64) + " 0 * v00 +", "(>= (* 1 v00) 0)")
    yield read("pol_limit_zeros_are_gone_at_the_end", pol("q", variables(64) + " 0 *"), pol("p", "q w +"), *shown("p", "(>= (* 1 w) 0)"))
    yield derives("limit_512_summands", "a", "(>= (* 512 x) 1)", given("a", "(>= %s 1)" % plus(512, "(* 1 x)")))
    yield fails("limit_513_summands", "a", 54, given("a", "(>= %s 1)" % plus(513, "(* 1 x)")))
    yield fails("limit_512_names", "a", 53, given("a", "(>= %s 1)" % named(512)))
    name = "n" * 32
    yield derives("limit_names_of_32_bytes", "%s ~%s 2 * +" % (name, name[:-1] + "m"), "(>= (+ (* 2 (- 1 %s)) (* 1 %s)) 0)" % (name[:-1] + "m", name))
    yield read("pol_limit_ids_of_32_bytes", pol(name, "x"), pol("p", name + " 2 *"), *shown("p", "(>= (* 2 x) 0)"))
    nodes = b"(assume a (>= (* 1 x) 1))(assume b (+" + b" 1" * 4090 + b"))"
    yield layout("pol_limit_no_nodes", nodes + b"(pol p a a a a + + + 4 d y + 7 * s)(pol q p x +)",
                 given("a", ""), given("b", "", False), pol("p", ""), pol("q", ""))
    yield refused("pol_limit_no_nodes_and_one_more", 7, nodes + b"(pol p a a +)(assume c ^x)")
    start, end = b"(pol p x ", b")"
    words = b"s " * ((MAX_TEXT - len(start) - len(end)) // 2)
    yield layout("pol_limit_a_line_of_32768_bytes", start + words + b" " * (MAX_TEXT - len(start) - len(words) - len(end)) + end, pol("p", ""))
    yield layout("pol_limit_a_line_of_32768_bytes_that_fails", b"(pol p + " + words + b" " * (MAX_TEXT - len(start) - len(words) - len(end)) + end, pol("p", "", 52))


# ---------------------------------------------------------------- marks and citations

def citations():
    """Marks by the pushed ids; steps that cite pol lines, refused ones too."""
    refused_step = step("r", "cp_multiplication", "a", "(>= (* 9 x) 9)", "3", 29)
    odd_step = step("o", "cp_addition", "a a", "(>= (* 0 x) 2)", "", ODD)
    one = given("a", "(>= (* 3 x) 1)")
    yield read("pol_marks_holds", one, pol("p", "a x + s"))
    yield read("pol_marks_a_refused_step", one, refused_step, pol("p", "r", PLAIN), *shown("p", "(>= (* 9 x) 9)", PLAIN))
    yield read("pol_marks_a_refused_step_among_others", one, refused_step, pol("p", "a r + r + 0 * a +", PLAIN))
    yield read("pol_marks_a_step_that_is_not_plain", one, odd_step, pol("p", "o", PLAIN), *shown("p", "(>= 0 2)", PLAIN))
    yield read("pol_marks_through_lines", one, refused_step, pol("p", "r", PLAIN), pol("q", "p x +", PLAIN), pol("s1", "q 0 *", PLAIN),
               step("t", "cp_multiplication", "s1", "(>= 0 0)", "1", PLAIN))
    yield read("pol_marks_a_refused_line", one, pol("p", "+", 52), pol("q", "p", 54), pol("w", "a q +", 54), pol("v", "a"))
    yield read("pol_refuted", given("a", "(>= (* 2 x) 1)"), given("b", "(>= (* 2 (- 1 x)) 1)"), pol("p", "a b + "), pol("q", "a 2 d b 2 d +"), refuted=True)
    yield read("pol_refuted_by_one_line", given("a", "(>= (* 2 x) 1)"), given("b", "(>= (* 2 (- 1 x)) 1)"), pol("q", "a 2 d b 2 d +"), refuted=True)
    yield read("pol_not_refuted_by_a_line_that_does_not_hold", one, refused_step, given("b", "(>= (* 9 (- 1 x)) 1)"), pol("q", "r b +", PLAIN), *shown("q", "(>= 0 1)", PLAIN))
    yield read("pol_not_refuted_by_0", pol("p", "x 0 *"))
    yield read("pol_not_refuted_at_the_greatest_value", given("a", "(>= (* 2 x) 2)"), pol("p", "a"))
    yield read("pol_refuted_by_a_literal", given("a", "(>= (* 1 x) 2)"), pol("p", "a"), refuted=True)
    two, not_x = given("a", "(>= (+ (* 2 x) (* 1 y)) 3)"), given("b", "(>= (* 1 (- 1 x)) 1)")
    yield read("pol_refuted_by_a_sum", two, not_x, pol("p", "a b +"), refuted=True)
    yield read("pol_refuted_by_a_sum_that_is_shown", two, not_x, pol("p", "a b +"), *shown("p", "(>= (+ (* 1 x) (* 1 y)) 3)"), refuted=True)
    yield read("pol_refuted_by_a_sum_times_2", two, not_x, pol("p", "a b + 2 *"), refuted=True)
    yield read("pol_not_refuted_by_a_sum_divided", two, not_x, pol("p", "a b + 2 d"), *shown("p", "(>= (+ (* 1 x) (* 1 y)) 2)"))
    yield read("pol_refuted_by_a_negative_sum", given("a", "(>= (+ (* -1 x) (* -1 y)) 0)"), given("b", "(>= (* 1 x) 1)"), pol("p", "a b +"), *shown("p", "(>= (* -1 y) 1)"), refuted=True)
    yield read("pol_not_refuted_by_a_negative_sum", given("a", "(>= (+ (* -1 x) (* -1 y)) 0)"), given("b", "(>= (* 1 x) 0)"), pol("p", "a b +"), *shown("p", "(>= (* -1 y) 0)"))
    yield read("pol_not_refuted_by_a_sum_before_its_end", two, not_x, pol("p", "a b + 0 *"))
    yield read("pol_not_refuted_by_a_sum_with_axioms", two, pol("p", "a ~x +"), *shown("p", "(>= (+ (* 1 x) (* 1 y)) 2)"))
    yield read("pol_not_refuted_by_axioms", pol("p", "x y + ~x + ~y +"), *shown("p", "(>= 0 -2)"))
    yield read("pol_not_refuted_by_a_sum_that_does_not_hold", two, step("b", "cp_literal", "", "(>= (* 1 (- 1 x)) 1)", "(- 1 x)", 36), pol("p", "a b +", PLAIN),
               *shown("p", "(>= (+ (* 1 x) (* 1 y)) 3)", PLAIN))
    yield read("pol_not_refuted_by_a_refused_line", two, not_x, pol("p", "a b + +", 52), pol("q", "a b", 52), pol("r", "a b + 99999999 *", 53), pol("s1", "a b + 0 d", 54))
    yield read("pol_refuted_behind_a_refused_line", two, not_x, pol("p", "a b + +", 52), pol("q", "a b +"), pol("r", "q 0 d", 54), refuted=True)
    yield read("pol_refuted_by_opposites", given("a", "(>= (+ (* -3 x) (* -2 (- 1 x)) (* 1 y)) -1)"), given("b", "(>= (* 1 (- 1 y)) 1)"), pol("p", "a b +"),
               *shown("p", "(>= (* 1 (- 1 x)) 2)"), refuted=True)
    yield read("pol_refuted_by_opposites_that_are_pushed", given("a", "(>= (+ (* -3 x) (* -2 (- 1 x))) -1)"), pol("p", "a"), *shown("p", "(>= (+ (* -3 x) (* -2 (- 1 x))) -1)"), refuted=True)
    yield read("pol_not_refuted_by_opposites_that_are_pushed", given("a", "(>= (+ (* -3 x) (* -2 (- 1 x))) -2)"), pol("p", "a"), *shown("p", "(>= (+ (* -3 x) (* -2 (- 1 x))) -2)"))
    yield read("pol_refuted_by_63_literals", given("a", "(>= %s 63)" % variable_sum(63)), given("b", "(>= (* 1 (- 1 v00)) 1)"), pol("p", "a b +"), refuted=True)
    yield read("pol_refuted_by_the_largest", given("a", "(>= (* %d x) %d)" % (LARGEST, LARGEST)), given("b", "(>= (* 1 (- 1 x)) 1)"), pol("p", "a b +"),
               *shown("p", "(>= (* %d x) %d)" % (LARGEST - 1, LARGEST)), refuted=True)
    yield read("pol_not_refuted_by_what_is_not_pushed", given("a", "(>= x 2)"), pol("p", "a", 54))
    yield read("pol_refuted_with_zeros", given("a", "(>= (+ (* 0 x) (* 0 y)) 1)"), pol("p", "a"), refuted=True)
    yield read("pol_cited_by_each_rule", given("a", "(>= (+ (* 5 x) (* 2 (- 1 y))) 3)"), pol("p", "a"),
               step("t1", "cp_addition", "p a", "(>= (+ (* 10 x) (* 4 (- 1 y))) 6)", "", HOLDS),
               step("t2", "cp_addition", "a p", "(>= (+ (* 10 x) (* 4 (- 1 y))) 6)", "", HOLDS),
               step("t3", "cp_multiplication", "p", "(>= (+ (* 10 x) (* 4 (- 1 y))) 6)", "2", HOLDS),
               step("t4", "cp_division", "p", "(>= (+ (* 3 x) (* 1 (- 1 y))) 2)", "2", HOLDS),
               step("t5", "cp_saturation", "p", "(>= (+ (* 3 x) (* 2 (- 1 y))) 3)", "", HOLDS),
               step("t6", "cp_literal", "p", "(>= x 0)", "x", HOLDS),
               step("t7", "cp_part", "p", "(>= x 0)", "0", 41),
               *shown("p", "(>= (+ (* 5 x) (* 2 (- 1 y))) 3)"),
               step("t8", "cp_addition", "p p", "(>= (+ (* 10 x) (* 4 (- 1 y))) 7)", "", 29),
               step("t9", "cp_multiplication", "p", "(>= (* 5 x) 3)", "1", 30),
               step("t10", "cp_multiplication", "p", "(>= (+ (* 6 x) (* 2 (- 1 y))) 3)", "1", 31))
    yield read("pol_cited_where_it_is_refused", given("a", "(>= (* 1 x) 0)"), pol("p", "x y", 52),
               step("t1", "cp_addition", "p a", "(>= (* 1 x) 0)", "", 21), step("t2", "cp_addition", "a p", "(>= (* 1 x) 0)", "", 21),
               step("t3", "cp_multiplication", "p", "(>= 0 0)", "1", 21), step("t4", "cp_division", "p", "(>= 0 0)", "1", 21),
               step("t5", "cp_saturation", "p", "(>= 0 0)", "", 21), step("t6", "cp_literal", "p", "(>= x 0)", "x", PLAIN),
               step("t7", "cp_transfer", "p a", "(>= 0 0)", "", 21), step("t8", "cp_transfer", "a p", "(>= 0 0)", "", 21),
               step("t9", "cp_part", "p", "(>= 0 0)", "0", 21), step("t10", "cp_normalize", "p", "(= (>= x 0) (>= x 0))", "", PLAIN),
               step("t11", "cp_addition", "p", "(>= 0 0)", "", 20), pol("t12", "p", 54))
    yield read("pol_steps_are_pushed", given("a", "(>= (+ (* 2 x) (* 2 y)) 3)"), step("t", "cp_division", "a", "(>= (+ (* 1 x) (* 1 y)) 2)", "2", HOLDS),
               pol("p", "t 2 * ~x + ~y +"), *shown("p", "(>= (+ (* 1 x) (* 1 y)) 2)"))
    yield read("pol_a_pushed_line_is_read_without_its_zeros", pol("q", "x ~x + y +"), pol("p", "q a +"), *shown("p", "(>= (+ (* 1 a) (* 1 y)) -1)"))
    yield read("pol_literals_that_only_pol_lines_have", pol("p", "u w +"), pol("q", "w ~u +"), pol("r", "p q +"), *shown("r", "(>= (* 2 w) -1)"))


# ---------------------------------------------------------------- pairs

def pairs():
    """Pol lines behind OPB texts."""
    model = b"2 x1 2 x2 = 3 ;\n1 ~x1 1 x3 >= 1 ;\n"
    yield opb_vectors.read("pol_refutes_a_model", model, 3, pol("p", "c1 2 d 2 * c2 +"), *shown("p", "(>= 0 1)"), refuted=True)
    yield opb_vectors.read("pol_pushes_a_second_half", model, 3, pol("p", "c2"), *shown("p", "(>= (+ (* -2 x1) (* -2 x2)) -3)"))
    yield opb_vectors.read("pol_names_and_constraints", model, 3, pol("p", "c4 c03 + ~c1 +"), *shown("p", "(>= (+ (* 1 c03) (* 1 (- 1 c1)) (* 1 c4)) 0)"))
    yield opb_vectors.refused("pol_id_of_a_constraint", 8, model, b"(pol ^c1 x)")
    yield opb_vectors.read("pol_a_constraint_without_summands", b">= -1 ;", 1, pol("p", "c1 x1 +"), *shown("p", "(>= (* 1 x1) -1)"))
    yield opb_vectors.read("pol_pigeons", opb_vectors.PIGEONS, 5, pol("p", "c1 c2 + c3 + c4 + c5 +"), *shown("p", "(>= 0 1)"), refuted=True)
    yield opb_vectors.read("pol_64_lines_behind_a_model", model, 3, *(pol("p%d" % place, "c1") for place in range(64)))
    yield opb_vectors.refused("pol_65_lines_behind_a_model", 7, model, b"".join(b"(pol p%d c1)" % place for place in range(64)) + b"(^pol q c1)")
    yield opb_vectors.read("pol_no_nodes_behind_a_full_model", b"1 x1 >= 1 ;\n" + b"1 x1 " * 1361 + b"1 ~x1 >= 0 ;", 2, pol("p", "c1 c1 + 2 d x9 +"))
    yield opb_vectors.refused("pol_one_node_behind_a_full_model", 7, b"1 x1 >= 1 ;\n" + b"1 x1 " * 1359 + b"1 ~x1 1 ~x1 >= 0 ;", b"(pol p c1)(assume a (+ ^x x))")


def vectors():
    """All texts."""
    for group in (words, entries, answers, grammar, limits, citations):
        yield from group()
