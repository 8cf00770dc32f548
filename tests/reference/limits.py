"""Steps at both sides of the limits of document 01's rules, and numbers as large as these limits let them grow.

A vector is a name, a text and what the document says of the text's last step: its answer, and `plain` where it is
accepted. Each number is the document's for a step put together in that way; nothing here checks a step.
"""
from collections import namedtuple

import examples

MOST = 512
LARGEST = 99999999
RELATIONS = (">=", ">", "<=", "<", "=")
SCALED = (("cp_multiplication", "1"), ("cp_division", "1"), ("cp_saturation", ""))
EMPTY = "(>= 0 0)"
ACCEPTED, NOT_PLAIN = (0, "yes"), (0, "no")

Vector = namedtuple("Vector", "name text expected")


def refused(answer):
    """What a refused step's line has."""
    return answer, "no"


def plus(*summands):
    """A sum of these summands."""
    return "(+ %s)" % " ".join(summands)


def times(count, summand):
    """A sum of one summand again and again."""
    return plus(*[summand] * count)


def numbered(count, summand):
    """A sum of summands of as many names."""
    return plus(*[summand % i for i in range(count)])


def at_least(sum_term, constant=0):
    """An inequality."""
    return "(>= %s %s)" % (sum_term, constant)


def step(name, rule, premises, conclusion, arguments, expected):
    """A vector of one step."""
    return Vector(name, examples.step_text(rule, premises, conclusion, arguments), expected)


def normalize(name, relation, normalized, expected):
    """A vector of one normalization."""
    return step(name, "cp_normalize", (), "(= %s %s)" % (relation, normalized), "", expected)


# ---------------------------------------------------------------- summands (40 of sections 2 and 3)

def placed(rule, argument, place, long, short):
    """A step whose inequality at the place is the long one, where the short one says the same."""
    if rule == "cp_addition":
        premises = {"left": (long, EMPTY), "right": (EMPTY, long), "conclusion": (short, EMPTY)}[place]
    else:
        premises = (short if place == "conclusion" else long,)
    return rule, premises, long if place == "conclusion" else short, argument


def places():
    """Each rule that reads sums, with each place of an inequality."""
    for place in ("left", "right", "conclusion"):
        yield "cp_addition", "", place
    for rule, argument in SCALED:
        for place in ("premise", "conclusion"):
            yield rule, argument, place


def summands():
    """512 and 513 summands in each inequality of each rule, and what comes before and behind 40 there."""
    for rule, argument, place in places():
        name = "%s, %s: " % (rule, place)
        for count in (MOST, MOST + 1):
            expected = ACCEPTED if count <= MOST else refused(40)
            short = at_least("(* %d x)" % count, count)
            long = at_least(times(count, "(* 1 x)"), count)
            yield step(name + "%d summands" % count, *placed(rule, argument, place, long, short), expected)
            zeros = at_least(times(count, "(* 0 x)"))
            yield step(name + "%d zeros" % count, *placed(rule, argument, place, zeros, EMPTY), expected)
        names = at_least(numbered(MOST, "(* 1 x%d)"), 1)
        yield step(name + "512 names for none", *placed(rule, argument, place, names, "(>= 0 1)"), refused(30))
        for what, long, answer in (
                ("513 bare names", at_least(times(MOST + 1, "x")), 40),
                ("513 numerals", at_least(times(MOST + 1, "4")), 40),
                ("513 summands without coefficient", at_least(times(MOST + 1, "(* y x)")), 40),
                ("512 bare names", at_least(times(MOST, "x")), 26),
                ("512 numerals", at_least(times(MOST, "0")), 26),
                ("512 summands, the last bare", at_least(plus(times(MOST - 1, "(* 1 x)")[3:-1], "x")), 26),
                ("512 summands, the last without coefficient", at_least(plus(times(MOST - 1, "(* 1 x)")[3:-1], "(* y x)")), 24),
                ("513 summands and no constant", at_least(times(MOST + 1, "(* 1 x)"), "y"), 24),
                ("513 summands and no inequality", "(> %s 0)" % times(MOST + 1, "(* 1 x)"), 23),
                ("513 summands of a product", at_least("(* 2 %s)" % times(MOST + 1, "x")), 30)):
            yield step(name + what, *placed(rule, argument, place, long, EMPTY), refused(answer))


def before_and_behind():
    """40 of one inequality beside an offence of another, or of another check."""
    long = at_least(times(MOST + 1, "(* 1 x)"))
    for rule, argument in SCALED:
        for what, premise, conclusion, answer in (
                ("40 and conclusion 23", long, "x", 40), ("40 and conclusion 26", long, "(>= x 0)", 40),
                ("40 and conclusion 21", long, "", 21), ("40 in both", long, long, 40),
                ("premise 23 and 40", "x", long, 23), ("premise 24 and 40", "(>= 0 y)", long, 24),
                ("premise 25 and 40", "(>= 4 0)", long, 25), ("premise 26 and 40", "(>= x 0)", long, 26),
                ("40 and 29", "(>= 0 1)", long, 40)):
            yield step("%s, %s" % (rule, what), rule, (premise,), conclusion, argument, refused(answer))
    yield step("saturation, 40 and 32", "cp_saturation", ("(>= (* -1 x) -1)",), long, "", refused(40))
    yield step("saturation, 40 and 32 in one", "cp_saturation", (at_least(times(MOST + 1, "(* -1 x)"), -1),), EMPTY, "", refused(40))
    yield step("saturation, 22 and 40", "cp_saturation", (long,), EMPTY, "1", refused(22))
    for rule in ("cp_multiplication", "cp_division"):
        for argument, answer in (("x", 24), ("-1", 27), ("1 1", 22), ("", 22)):
            yield step("%s, %s and 40" % (rule, answer), rule, (long,), long, argument, refused(answer))
    yield step("division, 28 and 40", "cp_division", (long,), EMPTY, "0", refused(28))
    for what, premises, conclusion, answer in (
            ("left 40, right 23", (long, "x"), EMPTY, 40), ("left 40, right 24", (long, "(>= 0 y)"), EMPTY, 40),
            ("left 23, right 40", ("x", long), EMPTY, 23), ("left 26, right 40", ("(>= x 0)", long), EMPTY, 26),
            ("right 40, conclusion 23", (EMPTY, long), "x", 40), ("right 26, conclusion 40", (EMPTY, "(>= x 0)"), long, 26),
            ("left 25, conclusion 40", ("(>= 4 0)", EMPTY), long, 25), ("conclusion 40 and 29", (EMPTY, "(>= 0 1)"), long, 40),
            ("left 40, conclusion 21", (long, EMPTY), "", 21), ("left 40, right 21", (long, ""), EMPTY, 21)):
        yield step("addition, " + what, "cp_addition", premises, conclusion, "", refused(answer))


def added():
    """40 is counted for each sum by itself: the two premises of an addition have up to 1,024 summands."""
    def added_to(what, premises, conclusion, expected):
        return step("addition, " + what, "cp_addition", premises, conclusion, "", expected)
    for left, right in ((300, 300), (512, 512), (512, 1), (1, 512)):
        name = "%d and %d, " % (left, right)
        sums = (at_least(times(left, "(* 1 x)"), left), at_least(times(right, "(* 1 x)")))
        yield added_to(name + "one literal", sums, at_least("(* %d x)" % (left + right), left), ACCEPTED)
        yield added_to(name + "one literal, one less", sums, at_least("(* %d x)" % (left + right - 1), left), refused(31))
        sums = (at_least(numbered(left, "(* 1 x%d)"), left), at_least(numbered(right, "(* 1 y%d)")))
        yield added_to(name + "a literal for each", sums, at_least("(* 1 x0)", left), refused(30))
        sums = (at_least(numbered(left, "(* 1 x%d)"), left), at_least(numbered(right, "(* -1 x%d)")))
        expected = ACCEPTED if left == right else refused(30)
        yield added_to(name + "a literal for each and its opposite", sums, at_least("0", left), expected)
    for count in (300, 500):
        name = "%d and their negations" % count
        sums = (at_least(numbered(count, "(* 1 x%d)"), count), at_least(numbered(count, "(* 1 (- 1 x%d))")))
        yield added_to(name, sums, EMPTY, ACCEPTED)
        yield added_to(name + ", slack left out", sums, at_least("0", count), refused(29))
        yield added_to(name + ", slack less one", sums, at_least("0", 1), refused(29))
        yield added_to(name + ", one kept", sums, at_least("(* 1 x0)"), refused(31))
        sums = (at_least(numbered(count, "(* 1 x%d)"), count), at_least(numbered(count, "(* -1 (- 1 x%d))")))
        yield added_to(name + " below zero", sums, at_least("0", 2 * count), refused(30))
    doubled = at_least(numbered(300, "(* 2 x%d)"), 600)
    sums = (at_least(numbered(300, "(* 1 x%d)"), 300), at_least(numbered(300, "(* -1 (- 1 x%d))")))
    yield added_to("300 and their negations below zero", sums, doubled, ACCEPTED)
    # 256 and 256 literals fill a conclusion of 512
    xs, ys = (["(* %d %s%d)" % (number, name, i) for i in range(256)] for number, name in ((1, "x"), (2, "y")))
    sums = (at_least(plus(*xs), 1), at_least(plus(*ys), 2))
    for what, conclusion, expected in (
            ("512 literals", ys + xs, ACCEPTED), ("511 of 512 literals", ys + xs[:-1], refused(30)),
            ("another literal", ys + xs[:-1] + ["(* 1 x256)"], refused(30)),
            ("the last coefficient", ys + xs[:-1] + ["(* 2 x255)"], refused(31)),
            ("the first coefficient", ["(* 1 y0)"] + ys[1:] + xs, refused(31)),
            ("the last zero", ys + xs[:-1] + ["(* 0 x255)"], NOT_PLAIN)):
        yield added_to(what, sums, at_least(plus(*conclusion), 3), expected)
    zeros = at_least(numbered(256, "(* 0 y%d)"))
    yield added_to("256 zeros left out", (sums[0], zeros), sums[0], ACCEPTED)
    yield added_to("256 zeros in the conclusion", (sums[0], EMPTY), at_least(plus(*xs + [zeros[7:-4]]), 1), ACCEPTED)
    yield twice("512 literals twice", at_least(numbered(MOST, "(* 1 x%d)"), 1), at_least(numbered(MOST, "(* 2 x%d)"), 2), ACCEPTED)


def twice(name, premise, conclusion, expected):
    """A vector of a premise added to itself."""
    text = "(assume p %s)\n(step s (cl %s) :rule cp_addition :premises (p p))" % (premise, conclusion)
    return Vector(name, text.encode("ascii"), expected)


def literals():
    """512 literals in a premise and a conclusion, and a difference in the last one."""
    for rule, argument in SCALED:
        for what, last, expected in (
                ("all", "(* 1 x511)", ACCEPTED), ("another name", "(* 1 x512)", refused(30)),
                ("another sign", "(* 1 (- 1 x511))", refused(30)), ("another coefficient", "(* 2 x511)", refused(31)),
                ("a zero", "(* 0 x511)", refused(31)), ("a term", "(* 1 (+ x511))", refused(30))):
            first = ["(* 1 x%d)" % i for i in range(MOST - 1)]
            premise = at_least(plus(*first + ["(* 1 x511)"]), 5)
            conclusion = at_least(plus(*[last] + first[::-1]), 5)
            yield step("%s, 512 literals, %s" % (rule, what), rule, (premise,), conclusion, argument, expected)


# ---------------------------------------------------------------- leaves and normalized summands (40 of section 4)

def halves(first, second, constant):
    """The normalized form of `first >= constant` and `first <= constant`, the sums as they are there."""
    return "(and %s %s)" % (at_least(first, constant[0]), at_least(second, constant[1]))


def normalized(relation, left, right):
    """The normalized form of so many x on the left side and on the right."""
    straight = plus(*["x"] * left + ["(- 1 x)"] * right)
    flipped = plus(*["(- 1 x)"] * left + ["x"] * right)
    if relation == "=":
        return halves(straight, flipped, (right, left))
    more = 1 if relation in (">", "<") else 0
    return at_least(straight, right + more) if relation in (">=", ">") else at_least(flipped, left + more)


def side(count, leaf="x"):
    """A side of so many leaves."""
    return leaf if count == 1 else times(count, leaf)


def leaves():
    """512 and 513 leaves over both sides, in several ways; numerals and products of numerals are counted too."""
    for relation in RELATIONS:
        for left, right in ((511, 1), (1, 511), (256, 256), (512, 1), (1, 512), (257, 256), (256, 257), (512, 512)):
            if left + right <= MOST:
                written, expected = normalized(relation, left, right), ACCEPTED
            else:
                written, expected = ("(and (>= x 0) (>= x 0))" if relation == "=" else "(>= x 0)"), refused(40)
            sides = "(%s %s %s)" % (relation, side(left), side(right))
            yield normalize("leaves, %s, %d and %d" % (relation, left, right), sides, written, expected)
    for count in (MOST - 1, MOST, MOST + 1):
        within = count <= MOST
        expected = ACCEPTED if within else refused(40)
        name = "%d leaves, " % count
        ones = plus("x", *["1"] * (count - 2))
        yield normalize(name + "numerals", at_least(ones, 0), at_least("x", 2 - count), expected)
        ones = plus("x", *["(* 3 2)"] * (count - 2))
        yield normalize(name + "products of numerals", at_least(ones, 0), at_least("x", 6 * (2 - count)), expected)
        ones = "(- x %s)" % " ".join(["1"] * (count - 2))
        yield normalize(name + "a difference", at_least(ones, 0), at_least("x", count - 2), expected)
        inner = times(count - 300, "1")
        nested = "(+ x (- 0 %s) %s)" % (inner, " ".join(["1"] * 297))
        yield normalize(name + "nested", at_least(nested, 0), at_least("x", count - 597), expected)
        chain = "1"
        for _ in range(49):
            chain = "(- %s 1 1 1 1 1 1 1 1 1 1)" % chain
        rest = count - 2 - 491
        yield normalize(name + "deep", at_least(plus("x", chain, *["1"] * rest)), at_least("x", 489 - rest), expected)
        minus = "(- %s)" % times(count - 2, "1")
        yield normalize(name + "under a lone minus", at_least("(+ x %s)" % minus, 0), at_least("x", 2 - count),
                        NOT_PLAIN if within else refused(40))
    # a leaf is not opened: what stands in it is not counted
    for leaf in ("(* 2 %s)" % times(900, "x"), "(* x %s)" % times(900, "y"), "(and %s)" % " ".join(["x"] * 900)):
        yield normalize("one leaf of 900 terms, %s" % leaf[:6], at_least(leaf, 0), at_least(leaf, 0), NOT_PLAIN)
    # the order around it
    many = times(MOST + 1, "x")
    yield normalize("40 and 23", at_least(many, 0), "(> x 0)", refused(40))
    yield normalize("40 and 23, a name", at_least(many, 0), "x", refused(40))
    yield normalize("40 and 23 of =", "(= %s 0)" % many, "(and (>= x 0))", refused(40))
    yield normalize("40 and 38", at_least(many, 0), "(>= (* 2 3) 0)", refused(40))
    yield normalize("22 and 40", "(>= %s)" % many, "(>= x 0)", refused(22))
    yield normalize("22 of three and 40", "(>= %s x x)" % many, "(>= x 0)", refused(22))
    yield normalize("37 and 40", many, "(>= x 0)", refused(37))
    yield step("23 and 40", "cp_normalize", (), at_least(many, 0), "", refused(23))
    yield step("21 and 40", "cp_normalize", (), "(= %s x) x" % at_least(many, 0), "", refused(21))


def normalized_summands():
    """512 and 513 summands on the normalized side, and what comes before and behind 40 there."""
    for relation in RELATIONS[:-1]:
        yield normalize("513 normalized, " + relation, "(%s x 0)" % relation, at_least(times(MOST + 1, "x"), 0), refused(40))
        yield normalize("512 normalized, " + relation, "(%s x 0)" % relation, at_least(times(MOST, "x"), 0), refused(39))
    x = "(>= x 0)"
    for what, written, answer in (
            ("38", at_least(plus("(* 2 3)", *["x"] * MOST), 0), 40), ("24", at_least(times(MOST + 1, "x"), "y"), 40),
            ("23", "(> %s 0)" % times(MOST + 1, "x"), 23), ("29", at_least(times(MOST + 1, "x"), 1), 40),
            ("38 at 512", at_least(plus("(* 2 3)", *["x"] * (MOST - 1)), 0), 38),
            ("38 at 512, the last", at_least(plus(*["x"] * (MOST - 1) + ["(* 2 3)"]), 0), 38),
            ("24 at 512", at_least(times(MOST, "x"), "y"), 24),
            ("one summand of 513", at_least("(* 1 %s)" % times(MOST + 1, "x"), 0), 39)):
        yield normalize("513 normalized and %s" % what, x, written, refused(answer))
    # the two halves of an equation
    long, one = times(MOST + 1, "x"), "(= x 1)"
    for what, first, second, answer in (
            ("first", at_least(long, 1), "(>= (- 1 x) 0)", 40), ("second", "(>= x 1)", at_least(long, 0), 40),
            ("both", at_least(long, 1), at_least(long, 0), 40), ("second behind 29", "(>= x 2)", at_least(long, 0), 29),
            ("second behind 39", "(>= y 1)", at_least(long, 0), 39), ("second behind 38", "(>= (* 2 3) 1)", at_least(long, 0), 38),
            ("second behind 24", "(>= x y)", at_least(long, 0), 24), ("first and second 23", at_least(long, 1), "(> x 0)", 23),
            ("first and second 38", at_least(long, 1), "(>= (* 2 3) 0)", 40), ("second and its 38", "(>= x 1)", at_least(plus("(* 2 3)", *["x"] * MOST), 0), 40),
            ("second and its 24", "(>= x 1)", at_least(long, "y"), 40), ("512 in the second", "(>= x 1)", at_least(times(MOST, "x"), 0), 39)):
        yield normalize("513 in halves, " + what, one, "(and %s %s)" % (first, second), refused(answer))
    left, right = MOST - 1, 1
    whole = normalized("=", left, right)
    relation = "(= %s x)" % side(left)
    yield normalize("512 in halves, the last constant", relation, whole[:-len("511))")] + "510))", refused(29))
    yield normalize("512 in halves, the last entry", relation, whole.replace("x) 511))", "y) 511))"), refused(39))


# ---------------------------------------------------------------- large numbers

def products():
    """Products of numerals: too many are refused before they are added up, and as many as may be add up to 5.1e18."""
    for product, count in (("(* 9 9)", 1300), ("(* 99999999 99999999)", 1300), ("(* -99999999 99999999)", 1300),
                           ("(* 9 9)", 1360), ("(* 99999999 99999999)", 1360), ("(* 99999999 99999999)", 513)):
        for relation in (">=", "<", "="):
            sides = "(%s %s x)" % (relation, times(count, product))
            yield normalize("%d times %s, %s" % (count, product, relation), sides, "(>= x 0)", refused(40))
    large, small = "(* 99999999 99999999)", "(* -99999999 99999999)"
    for product, sign in ((large, 1), (small, -1)):
        for relation, literal in ((">=", "x"), (">", "x"), ("<=", "(- 1 x)"), ("<", "(- 1 x)")):
            sides = "(%s %s x)" % (relation, times(MOST - 1, product))
            flipped = "(- 1 x)" if literal == "x" else "x"
            yield normalize("511 times %s, %s" % (product, relation), sides, at_least(flipped, 0), refused(29))
            sides = "(%s x %s)" % (relation, times(MOST - 1, product))
            yield normalize("511 times %s on the right, %s" % (product, relation), sides, at_least(literal, sign), refused(29))
        sides = "(= x %s)" % times(MOST - 1, product)
        yield normalize("511 times %s, =" % product, sides, "(and (>= x 0) (>= (- 1 x) 0))", refused(29))
    # as many on both sides, or of both signs, leave nothing
    half = times(255, large)
    yield normalize("255 and 255 products", at_least("(+ x %s)" % half, half), at_least("x", 0), ACCEPTED)
    yield normalize("255 and 255 products, one more", at_least("(+ x %s 1)" % half, half), at_least("x", -1), ACCEPTED)
    both = plus("x", *[large, small] * 255)
    yield normalize("255 products of each sign", at_least(both, 7), at_least("x", 7), ACCEPTED)
    apart = "(- (+ x %s) %s)" % (half, half)
    yield normalize("255 products and their difference", "(< %s 7)" % apart, at_least("(- 1 x)", -5), ACCEPTED)
    first = plus("x", times(510, large)[3:-1])
    yield normalize("510 products that turn the sign", at_least(first, 0), at_least("x", -1), refused(29))
    yield normalize("=, 255 and 255 products", "(= (+ x %s) %s)" % (half, half), "(and (>= x 0) (>= (- 1 x) 1))", ACCEPTED)
    # constants that are others in 32 bits
    two_32 = "(* 65536 65536)"
    for what, relation, written in (
            ("on the right", at_least("x", two_32), at_least("x", 0)),
            ("on the left", at_least(plus("x", two_32), 7), at_least("x", 7)),
            ("negative", at_least("x", "(* -65536 65536)"), at_least("x", 0)),
            ("taken away", at_least("(- x %s)" % two_32, 3), at_least("x", 3)),
            ("<", "(< x %s)" % two_32, at_least("(- 1 x)", 2)),
            ("=", "(= x %s)" % two_32, halves("x", "(- 1 x)", (0, 1))),
            ("2^31", at_least("x", "(* 65536 32768)"), at_least("x", 0)),
            ("2^31 and one", at_least("x", plus("(* 65536 32768)", "1")), at_least("x", 1))):
        yield normalize("a constant of 2^32, " + what, relation, written, refused(29))
    yield normalize("2^32 on both sides", at_least(plus("x", two_32), two_32), at_least("x", 0), ACCEPTED)
    yield normalize("2^31 twice", at_least(plus("x", "(* 65536 32768)", "(* 32768 65536)"), two_32), at_least("x", 0), ACCEPTED)
    # coefficients that move into the constant
    many = times(MOST - 1, "(* -99999999 x)")
    yield normalize("511 coefficients flipped", at_least(many, 0), at_least(times(MOST - 1, "(* 99999999 (- 1 x))"), 0), refused(29))
    ends = plus(*["(* -99999999 x)", "(* 33333333 3)"] * 255)
    yield normalize("255 coefficients flipped, 255 products", at_least(ends, 0), at_least(times(255, "(* 99999999 (- 1 x))"), 0), ACCEPTED)


def split(total, count=MOST):
    """Coefficients, so many and each within the numerals, that add up to the total."""
    sign, size = (1, total) if total >= 0 else (-1, -total)
    low, more = divmod(size, count)
    return [sign * (low + 1)] * more + [sign * low] * (count - more)


def weighted(total, count=MOST, literal="x"):
    """A sum of so many summands of one literal that add up to the total."""
    return plus(*["(* %d %s)" % (number, literal) for number in split(total, count)])


def coefficients():
    """Coefficients and constants at the extremes, where an i64 has room and fewer bits have not."""
    top = MOST * LARGEST
    for sign in (1, -1):
        total = sign * top
        premise = at_least(weighted(total), sign * LARGEST)
        name = "a coefficient of %d, " % total
        same = at_least(weighted(total), sign * LARGEST)
        less = at_least(weighted(total - sign), sign * LARGEST)
        for rule, argument in SCALED[:2]:
            yield step(name + rule, rule, (premise,), same, argument, ACCEPTED)
            yield step(name + rule + ", one less", rule, (premise,), less, argument, refused(31))
        yield step(name + "by the largest", "cp_multiplication", (premise,), same, str(LARGEST), refused(29))
        naught = at_least(weighted(total), 0)
        yield step(name + "times the largest", "cp_multiplication", (naught,), naught, str(LARGEST), refused(31))
        yield step(name + "times zero", "cp_multiplication", (naught,), "(>= (* 0 x) 0)", "0", ACCEPTED)
        for divisor in (2, 3, 511, 512, LARGEST):
            shifted = total + divisor - 1
            quotient = abs(shifted) // divisor * (1 if shifted >= 0 else -1)
            goal = at_least(weighted(quotient), 0)
            wrong = at_least(weighted(quotient + 1), 0)
            yield step(name + "by %d" % divisor, "cp_division", (naught,), goal, str(divisor), ACCEPTED)
            yield step(name + "by %d, one more" % divisor, "cp_division", (naught,), wrong, str(divisor), refused(31))
        yield twice(name + "twice", naught, naught, refused(31))
        opposite = at_least(weighted(-total), 0)
        yield step(name + "and its opposite", "cp_addition", (naught, opposite), EMPTY, "", ACCEPTED)
    negation = "(>= (* %d (- 1 x)) 0)" % LARGEST
    rest = at_least(weighted(top - LARGEST), -LARGEST)
    yield step("the largest and a negation", "cp_addition", (at_least(weighted(top)), negation), rest, "", ACCEPTED)
    rest = at_least(weighted(top - LARGEST))
    yield step("the largest and a negation, slack left out", "cp_addition", (at_least(weighted(top)), negation), rest, "", refused(29))
    negation = "(>= (* -%d (- 1 x)) 0)" % LARGEST
    rest = at_least(weighted(top), LARGEST)
    yield step("a negation below zero", "cp_addition", (at_least(weighted(top - LARGEST)), negation), rest, "", ACCEPTED)
    half = at_least(weighted(top // 2), LARGEST // 2)
    yield twice("half the largest twice", half, at_least(weighted(top), LARGEST - 1), ACCEPTED)
    yield step("saturation of the largest", "cp_saturation", (at_least(weighted(top), LARGEST),), at_least("(* %d x)" % LARGEST, LARGEST), "", ACCEPTED)
    yield step("saturation, not", "cp_saturation", (at_least(weighted(top), LARGEST),), at_least(weighted(top), LARGEST), "", refused(31))
    yield step("saturation of the smallest", "cp_saturation", (at_least(weighted(-top), 1),), EMPTY, "", refused(32))
    # numbers that are others in 32 bits
    for bits, rest in ((2 ** 31, 0), (2 ** 32, 0), (2 ** 32, 5), (2 ** 33, -5)):
        number = bits + rest
        premise = at_least(weighted(number, 100), 3)
        for rule, argument in SCALED[:2]:
            yield step("%s, %d" % (rule, number), rule, (premise,), premise, argument, ACCEPTED)
            yield step("%s, %d for %d" % (rule, rest, number), rule, (premise,), at_least("(* %d x)" % rest, 3), argument, refused(31))
            if rest == 0:
                yield step("%s, none for %d" % (rule, number), rule, (premise,), "(>= 0 3)", argument, refused(30))
        yield step("saturation, %d" % number, "cp_saturation", (premise,), "(>= (* 3 x) 3)", "", ACCEPTED)
        yield step("saturation, -%d" % number, "cp_saturation", (at_least(weighted(-number, 100), 3),), "(>= (* 3 x) 3)", "", refused(32))
        yield step("addition, %d" % number, "cp_addition", (premise, "(>= (* 1 x) 0)"), at_least(weighted(number + 1, 100), 3), "", ACCEPTED)
        yield step("addition, %d left out" % number, "cp_addition", (premise, "(>= (* 1 x) 0)"), at_least("(* %d x)" % (rest + 1), 3), "", refused(31))
        slack = at_least(weighted(number, 100, "(- 1 x)"), 3)
        yield step("addition, a slack of %d" % number, "cp_addition", (premise, slack), at_least("0", 6 - rest), "", refused(29))
    yield step("multiplication, 2^32", "cp_multiplication", ("(>= (* 65536 x) 0)",), at_least(weighted(2 ** 32, 100)), "65536", ACCEPTED)
    yield step("multiplication, 2^32 constant", "cp_multiplication", ("(>= 0 65536)",), "(>= 0 0)", "65536", refused(29))
    constants = ("(>= 0 %d)" % LARGEST, "(>= 0 %d)" % LARGEST)
    yield step("constants beyond numerals", "cp_addition", constants, "(>= 0 %d)" % LARGEST, "", refused(29))
    slack = ("(>= (* %d x) %d)" % (LARGEST, LARGEST), "(>= (* %d (- 1 x)) %d)" % (LARGEST, LARGEST))
    yield step("constants beyond numerals and slack", "cp_addition", slack, "(>= 0 %d)" % LARGEST, "", ACCEPTED)
    slack = ("(>= (* -%d x) -%d)" % (LARGEST, LARGEST), "(>= (* -%d (- 1 x)) -%d)" % (LARGEST, LARGEST))
    yield step("constants beyond numerals and negative slack", "cp_addition", slack, "(>= 0 -%d)" % LARGEST, "", ACCEPTED)


# ---------------------------------------------------------------- deep terms, full files

def deep():
    """Terms of 64 levels in each rule that looks into them, equal or different at the end."""
    def tower(levels, last):
        return "(+ y " * levels + last + ")" * levels
    for levels in (58, 61):
        equal, other = tower(levels, "x"), tower(levels, "z")
        for last, expected in ((equal, NOT_PLAIN), (other, refused(30))):
            yield step("deep variable", "cp_saturation", (at_least("(* 2 %s)" % equal, 3),), at_least("(* 2 %s)" % last, 3), "", expected)
        yield step("deep parts", "cp_part", ("(and x %s)" % equal,), equal, "1", ACCEPTED)
        yield step("deep parts that differ", "cp_part", ("(and x %s)" % equal,), other, "1", refused(41))
        yield step("deep link", "cp_transfer", (equal, "(= %s y)" % equal), "y", "", ACCEPTED)
        yield step("deep link that differs", "cp_transfer", (other, "(= %s y)" % equal), "y", "", refused(41))
        flat = plus(*["y"] * levels + ["x"])
        yield normalize("deep sum", at_least(equal, 0), at_least(flat, 0), ACCEPTED)
        yield normalize("deep sum, the last", at_least(equal, 0), at_least(flat[:-2] + "z)", 0), refused(39))
        lone = "(- " * levels + "x" + ")" * levels
        yield normalize("deep lone minus", at_least(lone, 0), at_least("x", 0), NOT_PLAIN)
        turned = "(- 1 " * levels + "x" + ")" * levels
        entry = "(- 1 x)" if levels % 2 else "x"
        yield normalize("deep negation", at_least(turned, 0), at_least(entry, 0), ACCEPTED)
    parts = "(and %s)" % " ".join("x%d" % i for i in range(1500))
    for index, part, answer in ((0, 0, 0), (1499, 1499, 0), (750, 750, 0), (1500, 0, 41), (1498, 1499, 41), (1499, 0, 41)):
        yield step("part %d of 1,500" % index, "cp_part", (parts,), "x%d" % part, str(index), (answer, "no" if answer else "yes"))


def full_files():
    """Files of 512 commands, whose last step is told from the others by its answer."""
    lines = ["(step s%d (cl (>= %s 0)) :rule cp_literal :args (%s))" % (i, "xy"[i % 3 == 1], "x") for i in range(511)]
    for last, expected in (("x", ACCEPTED), ("y", refused(35))):
        text = "\n".join(lines + ["(step s (cl (>= %s 0)) :rule cp_literal :args (x))" % last])
        yield Vector("512 steps", text.encode("ascii"), expected)
    chain = ["(assume s0 (>= 0 1))"] + [
        "(step s%d (cl (>= 0 %d)) :rule cp_addition :premises (s%d s0))" % (i, i + 1, i - 1) for i in range(1, 400)]
    for constant, expected in ((401, ACCEPTED), (402, refused(29))):
        text = "\n".join(chain + ["(step s (cl (>= 0 %d)) :rule cp_addition :premises (s399 s0))" % constant])
        yield Vector("400 steps, each of the one above", text.encode("ascii"), expected)
    wide = "(step s (cl%s) :rule %s)"
    for rule, answer in (("cp_literal", 21), ("cp_normalize", 21), ("cp_part", 20), ("cp_transfer", 20), ("cp_addition", 20)):
        yield Vector("a clause of 4,000 terms", (wide % (" x" * 4000, rule)).encode("ascii"), refused(answer))
    # counts that are others in 8 bits
    yield step("a clause of 257 terms", "cp_literal", (), " ".join(["(>= x 0)"] * 257), "x", refused(21))
    yield step("257 arguments", "cp_literal", (), "(>= x 0)", " ".join(["x"] * 257), refused(22))
    yield step("257 premises", "cp_saturation", (EMPTY,) * 257, EMPTY, "", refused(20))
    yield step("258 premises", "cp_addition", (EMPTY,) * 258, EMPTY, "", refused(20))
    yield step("256 arguments", "cp_addition", (EMPTY, EMPTY), EMPTY, " ".join(["1"] * 256), refused(22))
    yield step("258 sides", "cp_saturation", ("(>=%s)" % (" 0" * 258),), EMPTY, "", refused(23))
    yield step("258 factors", "cp_saturation", (at_least("(* 2%s)" % (" x" * 257), 2),), "(>= (* 2 x) 2)", "", refused(26))
    cited = "(assume p (>= 0 0))\n(step s (cl (>= 0 0)) :rule %s :premises (%s) :args (%s))"
    for rule, answer in (("cp_addition", 20), ("cp_division", 20), ("cp_literal", 22), ("cp_normalize", 23)):
        text = cited % (rule, " ".join(["p"] * 2000), " ".join(["1"] * 2000))
        yield Vector("2,000 premises and arguments", text.encode("ascii"), refused(answer))


def vectors():
    """All of them."""
    for part in (summands, before_and_behind, added, literals, leaves, normalized_summands, products, coefficients, deep, full_files):
        yield from part()
