"""The report of a text as document 01 gives it, written from that document and the Rust alone, with the pol lines of
document 02, No. 2.

Nothing here was taken from the formal definitions: `compare.py` holds the two side by side. The
comments name the sections of document 01. Refusals 2 to 8 and answers 20 to 41 and 52 to 54 are exceptions that
carry the number; refusal 1 concerns buffers and has no place here.

A term is a Python integer (numeral), a string (variable) or an `Application`.
"""
import sys
from collections import namedtuple

# Limits of the table "What the report can answer".
MAX_TEXT_BYTES = 32768
MAX_NUMERAL = 99999999
MAX_NAME_BYTES = 32
MAX_NODES = 4096
MAX_DEPTH = 64
MAX_COMMANDS = 512
MAX_SUMMANDS = 512
MAX_LEAVES = 512

# Limits of pol lines (document 02, No. 2).
MAX_POL_LINES = 64
MAX_STACK = 32
MAX_LITERALS = 64

# Refusals that concern the file.
TEXT_TOO_LONG = 2
BAD_BYTE = 3
BAD_NUMERAL = 4
WORD_OF_NO_KIND = 5
GRAMMAR_BROKEN = 6
OVER_LIMIT = 7
BAD_REFERENCE = 8

# Answers that concern one step.
ACCEPTED = 0
WRONG_NUMBER_OF_PREMISES = 20
WRONG_LENGTH_OF_CLAUSE = 21
WRONG_NUMBER_OF_ARGS = 22
TERM_OF_WRONG_FORM = 23
EXPECTED_ANY_INTEGER = 24
LONE_CONSTANT_AS_SUM = 25
NEITHER_PLAIN_NOR_NEGATED = 26
EXPECTED_NONNEG_INTEGER = 27
DIVISION_BY_ZERO = 28
CONSTANTS_DIFFER = 29
LITERAL_MISSING = 30
COEFFICIENT_DIFFERS = 31
NEGATIVE_IN_SATURATION = 32
ARGUMENT_NO_LITERAL = 33
LITERAL_COEFFICIENT_NOT_1 = 34
LITERAL_DIFFERS = 35
NO_LITERAL_PATTERN = 36
NO_SUPPORTED_RELATION = 37
CONSTANT_IN_NORMALIZED_SUM = 38
LISTS_DIFFER = 39
TOO_MANY_SUMMANDS = 40
LINK_DOES_NOT_MATCH = 41

# Answers that concern a pol line.
WRONG_STACK = 52
BEYOND_RANGE = 53
NO_INEQUALITY_OR_SIGN = 54

Application = namedtuple("Application", "operator arguments")
Command = namedtuple("Command", "id rule clause premises arguments")
Token = namedtuple("Token", "kind word offset end")
Entry = namedtuple("Entry", "coefficient variable negated")
Line = namedtuple("Line", "command answer plain holds")
PolWord = namedtuple("PolWord", "kind value offset end")


class Refusal(Exception):
    """The file is refused with this number at this offset."""

    def __init__(self, number, offset):
        super().__init__(number, offset)
        self.number = number
        self.offset = offset


class Refused(Exception):
    """A step is refused with this answer."""

    def __init__(self, answer):
        super().__init__(answer)
        self.answer = answer


def check(condition, answer):
    """Refuse the step with the answer unless the condition is true."""
    if not condition:
        raise Refused(answer)


# ---------------------------------------------------------------- byte classes and words (section 1)

BLANKS = b" \t\n\r"
BRACKETS = b"()"
DIGITS = b"0123456789"
NAME_STARTS = b"ABCDEFGHIJKLMNOPQRSTUVWXYZabcdefghijklmnopqrstuvwxyz_@"
NAME_BYTES = NAME_STARTS + DIGITS + b"."
OPERATORS = (b"+", b"-", b"*", b">=", b">", b"<=", b"<", b"=", b"and")
RESERVED = (b"cl", b"assume", b"step")
KEYWORDS = (b":rule", b":premises", b":args")

# Kinds of tokens. A bracket, reserved word or keyword is its own kind.
END, BYTE, MALFORMED, UNKNOWN, NUMERAL, OPERATOR, NAME, NEGATED = (
    "end", "bad byte", "malformed numeral", "word of no kind", "numeral", "operator", "name", "negated name")
OFFENCES = {BYTE: BAD_BYTE, MALFORMED: BAD_NUMERAL, UNKNOWN: WORD_OF_NO_KIND, NEGATED: WORD_OF_NO_KIND}


def is_bad(byte):
    """Section "What the report can answer", 3: not printable ASCII and not a blank."""
    return not (32 <= byte <= 126 or byte in BLANKS)


def is_in_word(byte):
    """Section 1: blanks, brackets and bad bytes end words."""
    return not (byte in BLANKS or byte in BRACKETS or is_bad(byte))


def numeral_kind(word):
    """Section 1: optional `-`, digits, no leading zero but `0` itself, never `-0`."""
    digits = word[1:] if word.startswith(b"-") else word
    if any(byte not in DIGITS for byte in digits):
        return MALFORMED
    if digits.startswith(b"0") and word != b"0":
        return MALFORMED
    within = len(digits) <= len(str(MAX_NUMERAL)) and int(digits) <= MAX_NUMERAL
    return NUMERAL if within else MALFORMED


def word_kind(word):
    """Section 1: what a word is."""
    if word[0] in DIGITS or (word[0:1] == b"-" and len(word) > 1 and word[1] in DIGITS):
        return numeral_kind(word)
    if word in OPERATORS:
        return OPERATOR
    if word in RESERVED or word in KEYWORDS:
        return word.decode("ascii")
    if word[0:1] == b"~":
        return NEGATED if word[1:] and word_kind(word[1:]) == NAME else UNKNOWN
    well_formed = word[0] in NAME_STARTS and all(byte in NAME_BYTES for byte in word)
    return NAME if well_formed and len(word) <= MAX_NAME_BYTES else UNKNOWN


def token_at(text, position):
    """Section 1: the first token at or after the position."""
    while position < len(text) and text[position] in BLANKS:
        position += 1
    if position == len(text):
        return Token(END, "", position, position)
    if is_bad(text[position]):
        return Token(BYTE, "", position, position + 1)
    if text[position] in BRACKETS:
        bracket = chr(text[position])
        return Token(bracket, bracket, position, position + 1)
    end = position
    while end < len(text) and is_in_word(text[end]):
        end += 1
    word = text[position:end]
    return Token(word_kind(word), word.decode("ascii"), position, end)


# ---------------------------------------------------------------- grammar with refusals (section 1)

class Reader:
    """Reads a text token by token, so that the leftmost offence is met first.

    At one token 3, 4 and 5 are met in `peek`, 6 in `take`, then 7 and then 8 by the caller; only
    then is the next token looked at. Commands that stand before the text may be cited in it, and
    count in its limits.
    """

    def __init__(self, text, before=()):
        self.text = text
        self.token = token_at(text, 0)
        self.before = list(before)
        self.nodes = sum(count_nodes(term) for command in before for term in command.clause)
        self.ids = {command.id for command in before}
        self.pol_lines = 0

    def peek(self, known=()):
        """The token at hand, refused when it is a bad byte or a bad word, unless its kind is known here."""
        if self.token.kind in OFFENCES and self.token.kind not in known:
            raise Refusal(OFFENCES[self.token.kind], self.token.offset)
        return self.token

    def take(self, *kinds, known=()):
        """The token at hand, which has to be of one of the kinds; the next one is at hand then."""
        token = self.peek(known)
        if token.kind not in kinds:
            raise Refusal(GRAMMAR_BROKEN, token.offset)
        self.token = token_at(self.text, token.end)
        return token

    def count_node(self, token):
        """A numeral, variable, application or cited premise is a node."""
        self.nodes += 1
        if self.nodes > MAX_NODES:
            raise Refusal(OVER_LIMIT, token.offset)

    def file(self):
        """command*, behind those that stand before"""
        commands = list(self.before)
        while self.peek().kind != END:
            start = self.take("(")
            if len(commands) == MAX_COMMANDS:
                raise Refusal(OVER_LIMIT, start.offset)
            commands.append(self.command())
        return commands

    def command(self):
        """An assumption, a step or a pol line, after its `(`."""
        head = self.take("assume", "step", NAME)
        if head.kind == "assume":
            command = Command(self.new_id(), "assume", [self.term(1)], [], [])
            self.take(")")
        elif head.kind == "step":
            command = self.step()
        else:
            command = self.pol(head)
        self.ids.add(command.id)
        return command

    def pol(self, head):
        """ID word+) after `pol`, which is not reserved; a 65th is 7 at that word. Nothing in it is a node."""
        if head.word != "pol":
            raise Refusal(GRAMMAR_BROKEN, head.offset)
        if self.pol_lines == MAX_POL_LINES:
            raise Refusal(OVER_LIMIT, head.offset)
        self.pol_lines += 1
        name = self.new_id()
        words = [self.pol_word()]
        while self.peek((NEGATED,)).kind != ")":
            words.append(self.pol_word())
        self.take(")")
        return Command(name, "pol", [], [word.value for word in words if word.kind == PUSH], words)

    def pol_word(self):
        """One word of a pol line; `d` and `s` are always operations, and so no ids."""
        token = self.take(NUMERAL, NAME, NEGATED, OPERATOR, known=(NEGATED,))
        if token.kind == NUMERAL:
            return self.pol_factor(token)
        if token.kind == NEGATED:
            return PolWord(NEGATED_AXIOM, token.word[1:], token.offset, token.end)
        if token.word in ("+", "s"):
            return PolWord(token.word, None, token.offset, token.end)
        if token.kind == OPERATOR or token.word == "d":
            raise Refusal(GRAMMAR_BROKEN, token.offset)
        return PolWord(PUSH if token.word in self.ids else AXIOM, token.word, token.offset, token.end)

    def pol_factor(self, numeral):
        """`*` or `d` behind a numeral, else 6 at that token."""
        token = self.take(NAME, OPERATOR, known=(NEGATED,))
        if token.word not in ("*", "d"):
            raise Refusal(GRAMMAR_BROKEN, token.offset)
        return PolWord(token.word, int(numeral.word), numeral.offset, token.end)

    def step(self):
        """ID (cl term*) :rule R [:premises (ID+)] [:args (term+)]) after `step`."""
        name = self.new_id()
        self.take("(")
        self.take("cl")
        clause = self.terms_to_bracket()
        self.take(":rule")
        rule = self.rule()
        premises, arguments = [], []
        part = self.take(":premises", ":args", ")").kind
        if part == ":premises":
            premises = self.premises()
            part = self.take(":args", ")").kind
        if part == ":args":
            arguments = self.arguments()
            self.take(")")
        return Command(name, rule, clause, premises, arguments)

    def new_id(self):
        """An ID that no command above has."""
        token = self.take(NAME)
        if token.word in self.ids:
            raise Refusal(BAD_REFERENCE, token.offset)
        return token.word

    def rule(self):
        """The name of a rule."""
        token = self.take(NAME)
        if token.word not in RULES:
            raise Refusal(BAD_REFERENCE, token.offset)
        return token.word

    def premises(self):
        """(ID+), each ID of a command above."""
        self.take("(")
        cited = [self.premise()]
        while self.peek().kind != ")":
            cited.append(self.premise())
        self.take(")")
        return cited

    def premise(self):
        """One cited premise."""
        token = self.take(NAME)
        self.count_node(token)
        if token.word not in self.ids:
            raise Refusal(BAD_REFERENCE, token.offset)
        return token.word

    def arguments(self):
        """(term+)"""
        self.take("(")
        return [self.term(1)] + self.terms_to_bracket()

    def terms_to_bracket(self, level=1):
        """term* and the `)` behind it."""
        terms = []
        while self.peek().kind != ")":
            terms.append(self.term(level))
        self.take(")")
        return terms

    def term(self, level):
        """A numeral, a variable or (operator term+); the level is 1 outside of applications."""
        token = self.take(NUMERAL, NAME, "(")
        if level > MAX_DEPTH:
            raise Refusal(OVER_LIMIT, token.offset)
        self.count_node(token)
        if token.kind == NUMERAL:
            return int(token.word)
        if token.kind == NAME:
            return token.word
        operator = self.take(OPERATOR).word
        first = self.term(level + 1)
        return Application(operator, tuple([first] + self.terms_to_bracket(level + 1)))


def count_nodes(term):
    """The nodes of a term: an application is one, besides its arguments'."""
    return 1 + sum(map(count_nodes, term.arguments)) if isinstance(term, Application) else 1


def read(text, before=()):
    """The commands of a text behind the assumptions that stand before it, all in one list, or its refusal."""
    if len(text) > MAX_TEXT_BYTES:
        raise Refusal(TEXT_TOO_LONG, MAX_TEXT_BYTES)
    return Reader(text, before).file()


# ---------------------------------------------------------------- patterns (section 2, `match_term!`)

def is_integer(term):
    """The Rust's `as_integer`: a numeral."""
    return isinstance(term, int)


def is_name(term):
    """The Rust's `is_var`: a variable."""
    return isinstance(term, str)


def applies(term, *operators):
    """Whether the term is an application of one of the operators."""
    return isinstance(term, Application) and term.operator in operators


def match(term, operator, count):
    """The arguments of an application of the operator to so many arguments, else None."""
    if applies(term, operator) and len(term.arguments) == count:
        return term.arguments
    return None


def match_negation(term):
    """The v of `(- 1 v)`, else None."""
    arguments = match(term, "-", 2)
    return arguments[1] if arguments and arguments[0] == 1 else None


def integer(term):
    """The Rust's `as_integer_err`: the number of a numeral, else 24."""
    check(is_integer(term), EXPECTED_ANY_INTEGER)
    return term


# ---------------------------------------------------------------- sums (section 2)

def split_summation(term):
    """A sum's own list of children, or a list of that one term where it is no `+`."""
    return term.arguments if applies(term, "+") else (term,)


def split_limited(term):
    """The summands, at most 512 of them (40)."""
    summands = split_summation(term)
    check(len(summands) <= MAX_SUMMANDS, TOO_MANY_SUMMANDS)
    return summands


def weighted_literal(summand):
    """Coefficient and literal (variable, negated) of `(* c (- 1 v))`, else of `(* c v)`, else 26."""
    product = match(summand, "*", 2)
    check(product is not None, NEITHER_PLAIN_NOR_NEGATED)
    coefficient, factor = product
    negated = match_negation(factor)
    literal = (factor, False) if negated is None else (negated, True)
    return integer(coefficient), literal


def get_pb_hashmap(term):
    """The sum as a mapping of literals to coefficients; a zero stays as a key."""
    summands = split_limited(term)
    if len(summands) == 1 and is_integer(summands[0]):
        check(summands[0] == 0, LONE_CONSTANT_AS_SUM)
        return {}
    pbsum = {}
    for summand in summands:
        coefficient, literal = weighted_literal(summand)
        pbsum[literal] = pbsum.get(literal, 0) + coefficient
    return pbsum


def unwrap_pseudoboolean_inequality(term):
    """Sum and constant of `(>= sum constant)`: 23, constant 24, then the sum."""
    inequality = match(term, ">=", 2)
    check(inequality is not None, TERM_OF_WRONG_FORM)
    constant = integer(inequality[1])
    return get_pb_hashmap(inequality[0]), constant


def add_pbsums(left, right):
    """Both sums together, regardless of negation."""
    total = dict(left)
    for literal, coefficient in right.items():
        total[literal] = total.get(literal, 0) + coefficient
    return total


def reduce_pbsum(pbsum):
    """The sum with opposite literals cancelled, and the slack.

    Slack grows by the smaller of the two, a negative one too; the larger side keeps the difference,
    the other 0.
    """
    reduced, slack = dict(pbsum), 0
    for variable, negated in pbsum:
        if negated or (variable, True) not in pbsum:
            continue
        plain, opposite = pbsum[variable, False], pbsum[variable, True]
        smaller = min(plain, opposite)
        slack += smaller
        reduced[variable, False] = plain - smaller
        reduced[variable, True] = opposite - smaller
    return reduced, slack


def check_same_keys(left, right):
    """Every nonzero key of either side is a key of the other, else 30."""
    for one, other in ((left, right), (right, left)):
        for literal, coefficient in one.items():
            check(coefficient == 0 or literal in other, LITERAL_MISSING)


def truncated_quotient(number, divisor):
    """Integer division toward zero by a positive divisor."""
    return number // divisor if number >= 0 else -(-number // divisor)


def all_names(*pbsums):
    """Section 5: each term in a variable's place of the sums is a name."""
    return all(is_name(variable) for pbsum in pbsums for variable, _ in pbsum)


# ---------------------------------------------------------------- rules (section 3)
#
# A rule takes the clauses of its premises, its arguments and its own clause. It raises `Refused`, or
# returns the mark `plain` of the accepted step (section 5).

def only_term(clause):
    """The one term of a clause, else 21."""
    check(len(clause) == 1, WRONG_LENGTH_OF_CLAUSE)
    return clause[0]


def cp_addition(premises, arguments, conclusion):
    """20, 21 left, 21 right, 22, 21 conclusion, three inequalities, 29, 30, 31."""
    check(len(premises) == 2, WRONG_NUMBER_OF_PREMISES)
    left = only_term(premises[0])
    right = only_term(premises[1])
    check(len(arguments) == 0, WRONG_NUMBER_OF_ARGS)
    goal = only_term(conclusion)
    left_sum, left_constant = unwrap_pseudoboolean_inequality(left)
    right_sum, right_constant = unwrap_pseudoboolean_inequality(right)
    goal_sum, goal_constant = unwrap_pseudoboolean_inequality(goal)
    reduced, slack = reduce_pbsum(add_pbsums(left_sum, right_sum))
    check(left_constant + right_constant == goal_constant + slack, CONSTANTS_DIFFER)
    check_same_keys(reduced, goal_sum)
    for literal, coefficient in goal_sum.items():
        check(coefficient == 0 or reduced[literal] == coefficient, COEFFICIENT_DIFFERS)
    zero_faces_nonzero = any(
        coefficient == 0 and reduced.get(literal, 0) != 0 for literal, coefficient in goal_sum.items())
    return all_names(left_sum, right_sum, goal_sum) and not zero_faces_nonzero


def check_each_number(premise, goal, expected):
    """29, 30, 31: the goal has the expected number for each of the premise's; returns `plain`."""
    premise_sum, premise_constant = premise
    goal_sum, goal_constant = goal
    check(expected(premise_constant) == goal_constant, CONSTANTS_DIFFER)
    check_same_keys(premise_sum, goal_sum)
    for literal, coefficient in premise_sum.items():
        if literal in goal_sum:
            check(expected(coefficient) == goal_sum[literal], COEFFICIENT_DIFFERS)
    return all_names(premise_sum, goal_sum)


def premise_and_argument(premises, arguments):
    """20, 21, 22, 24: the one premise's term and the one argument's number."""
    check(len(premises) == 1, WRONG_NUMBER_OF_PREMISES)
    premise = only_term(premises[0])
    check(len(arguments) == 1, WRONG_NUMBER_OF_ARGS)
    return premise, integer(arguments[0])


def cp_multiplication(premises, arguments, conclusion):
    """20, 21, 22, 24, 27, 21, premise, conclusion; 29, 30, 31."""
    premise, scalar = premise_and_argument(premises, arguments)
    check(scalar >= 0, EXPECTED_NONNEG_INTEGER)
    goal = only_term(conclusion)
    return check_each_number(
        unwrap_pseudoboolean_inequality(premise),
        unwrap_pseudoboolean_inequality(goal),
        lambda number: scalar * number)


def cp_division(premises, arguments, conclusion):
    """20, 21, 22, 24, 27 (zero divisor 28), 21, premise, conclusion; 29, 30, 31."""
    premise, divisor = premise_and_argument(premises, arguments)
    check(divisor != 0, DIVISION_BY_ZERO)
    check(divisor > 0, EXPECTED_NONNEG_INTEGER)
    goal = only_term(conclusion)
    return check_each_number(
        unwrap_pseudoboolean_inequality(premise),
        unwrap_pseudoboolean_inequality(goal),
        lambda number: truncated_quotient(number + divisor - 1, divisor))


def cp_saturation(premises, arguments, conclusion):
    """20, 22, 21, 21, both inequalities; 32 constant, 32 coefficients; 29, 30, 31."""
    check(len(premises) == 1, WRONG_NUMBER_OF_PREMISES)
    check(len(arguments) == 0, WRONG_NUMBER_OF_ARGS)
    premise = only_term(premises[0])
    goal = only_term(conclusion)
    premise_sum, constant = unwrap_pseudoboolean_inequality(premise)
    goal_inequality = unwrap_pseudoboolean_inequality(goal)
    check(constant >= 0, NEGATIVE_IN_SATURATION)
    check(all(coefficient >= 0 for coefficient in premise_sum.values()), NEGATIVE_IN_SATURATION)
    return check_each_number(
        (premise_sum, constant), goal_inequality, lambda number: min(constant, number))


def match_literal(term):
    """Coefficient and literal of the four forms `(>= .. 0)`; a form without product has 1; else 36."""
    inequality = match(term, ">=", 2)
    check(inequality is not None and inequality[1] == 0, NO_LITERAL_PATTERN)
    product = match(inequality[0], "*", 2)
    return product if product is not None else (1, inequality[0])


def cp_literal(_premises, arguments, conclusion):
    """21, 22, 33, then 24, 34, 35 for the form that matches, else 36; premises are not counted."""
    goal = only_term(conclusion)
    check(len(arguments) == 1, WRONG_NUMBER_OF_ARGS)
    argument = arguments[0]
    negated = match_negation(argument)
    check(is_name(argument if negated is None else negated), ARGUMENT_NO_LITERAL)
    coefficient, literal = match_literal(goal)
    check(integer(coefficient) == 1, LITERAL_COEFFICIENT_NOT_1)
    check(literal == argument, LITERAL_DIFFERS)
    return True


# ---------------------------------------------------------------- normalization (section 4)

RELATIONS = ("=", ">", "<", ">=", "<=")


def match_supported_relation(term):
    """Operator and two sides of a relation: 37 for anything else, 22 for another argument count."""
    check(applies(term, *RELATIONS), NO_SUPPORTED_RELATION)
    check(len(term.arguments) == 2, WRONG_NUMBER_OF_ARGS)
    return (term.operator,) + term.arguments


def is_opened(term):
    """Flattening opens sums and differences."""
    return applies(term, "+", "-")


def count_leaves(term):
    """The terms that flattening doesn't open, numerals included."""
    return sum(map(count_leaves, term.arguments)) if is_opened(term) else 1


def meets_lone_minus(term):
    """Section 5: flattening the term meets a one-argument `-`."""
    if not is_opened(term):
        return False
    return match(term, "-", 1) is not None or any(map(meets_lone_minus, term.arguments))


def term_to_ctv(term):
    """The entry of a term, or an integer for the product of two numerals."""
    coefficient, variable = 1, term
    product = match(term, "*", 2)
    if product is not None:
        left, right = product
        if is_integer(left) and is_integer(right):
            return left * right
        if is_integer(left):
            coefficient, variable = left, right
        elif is_integer(right):
            coefficient, variable = right, left
    inner = match_negation(variable)
    return Entry(coefficient, variable, False) if inner is None else Entry(coefficient, inner, True)


def negate_sum(entries):
    """Each entry with its coefficient negated."""
    return [entry._replace(coefficient=-entry.coefficient) for entry in entries]


def accumulate_sum(terms):
    """Entries and constant of an argument list: those of each argument, one after the other."""
    entries, constant = [], 0
    for term in terms:
        more_entries, more_constant = flatten_addition_tree(term)
        entries += more_entries
        constant += more_constant
    return entries, constant


def flatten_addition_tree(term):
    """Entries and constant of a term; `-` negates all arguments but the first."""
    if applies(term, "+"):
        return accumulate_sum(term.arguments)
    if applies(term, "-"):
        kept, kept_constant = flatten_addition_tree(term.arguments[0])
        taken, taken_constant = accumulate_sum(term.arguments[1:])
        return kept + negate_sum(taken), kept_constant - taken_constant
    if is_integer(term):
        return [], term
    entry = term_to_ctv(term)
    return ([], entry) if is_integer(entry) else ([entry], 0)


def push_negation(entries, constant):
    """Negative coefficients flip the literal and move into the constant."""
    pushed = []
    for entry in entries:
        if entry.coefficient < 0:
            constant -= entry.coefficient
            entry = Entry(-entry.coefficient, entry.variable, not entry.negated)
        pushed.append(entry)
    return pushed, constant


def collect_addition_list(term):
    """The entries of a normalized sum: 40, then 38 for a product of two numerals."""
    entries = [term_to_ctv(summand) for summand in split_limited(term)]
    check(not any(map(is_integer, entries)), CONSTANT_IN_NORMALIZED_SUM)
    return entries


def entries_agree(general, other):
    """Whether an entry of the general side and one of the normalized side agree."""
    if general.coefficient != other.coefficient:
        return False
    if general.variable == other.variable:
        return general.negated == other.negated
    if general.negated:
        return match_negation(other.variable) == general.variable
    if other.negated:
        return match_negation(general.variable) == other.variable
    return False


def check_half(entries, constant, sum_term, constant_term):
    """40, 38, 24, 39, 29 for one normalized inequality; returns its entries."""
    normalized = collect_addition_list(sum_term)
    number = integer(constant_term)
    check(len(entries) == len(normalized), LISTS_DIFFER)
    check(all(map(entries_agree, entries, normalized)), LISTS_DIFFER)
    check(constant == number, CONSTANTS_DIFFER)
    return normalized


def match_halves(term):
    """The two inequalities of `(and (>= a k) (>= b l))`, else 23."""
    halves = match(term, "and", 2)
    check(halves is not None, TERM_OF_WRONG_FORM)
    inequalities = [match(half, ">=", 2) for half in halves]
    check(None not in inequalities, TERM_OF_WRONG_FORM)
    return inequalities


def check_equation(entries, constant, normalized_relation):
    """`phi = k` as `phi >= k` and `-phi >= -k`; returns the entries of both halves."""
    first, second = match_halves(normalized_relation)
    entries, constant = push_negation(entries, constant)
    first_entries = check_half(entries, constant, *first)
    entries, constant = push_negation(negate_sum(entries), -constant)
    return first_entries + check_half(entries, constant, *second)


def check_inequality(operator, entries, constant, normalized_relation):
    """One of `> < <= >=` as `>=`; returns the entries of the normalized sum."""
    inequality = match(normalized_relation, ">=", 2)
    check(inequality is not None, TERM_OF_WRONG_FORM)
    if operator in ("<", "<="):
        entries, constant = negate_sum(entries), -constant
    if operator in ("<", ">"):
        constant += 1
    entries, constant = push_negation(entries, constant)
    return check_half(entries, constant, *inequality)


def cp_normalize(_premises, _arguments, conclusion):
    """21, 23, 37 or 22, 40 for the leaves, then the normalized side."""
    equation = match(only_term(conclusion), "=", 2)
    check(equation is not None, TERM_OF_WRONG_FORM)
    operator, left, right = match_supported_relation(equation[0])
    check(count_leaves(left) + count_leaves(right) <= MAX_LEAVES, TOO_MANY_SUMMANDS)
    left_entries, left_constant = flatten_addition_tree(left)
    right_entries, right_constant = flatten_addition_tree(right)
    entries = left_entries + negate_sum(right_entries)
    constant = right_constant - left_constant
    if operator == "=":
        normalized = check_equation(entries, constant, equation[1])
    else:
        normalized = check_inequality(operator, entries, constant, equation[1])
    names_only = all(is_name(entry.variable) for entry in entries + normalized)
    return names_only and not meets_lone_minus(left) and not meets_lone_minus(right)


# ---------------------------------------------------------------- links (section 5)

def cp_transfer(premises, arguments, conclusion):
    """R and `(= R N)` give N: 20, premises 21, 22, conclusion 21, 41."""
    check(len(premises) == 2, WRONG_NUMBER_OF_PREMISES)
    relation = only_term(premises[0])
    equation = match(only_term(premises[1]), "=", 2)
    check(len(arguments) == 0, WRONG_NUMBER_OF_ARGS)
    goal = only_term(conclusion)
    check(equation == (relation, goal), LINK_DOES_NOT_MATCH)
    return True


def cp_part(premises, arguments, conclusion):
    """`(and ..)` and a numeral i from 0 give the i-th part: 20, 21, 22, conclusion 21, 41."""
    check(len(premises) == 1, WRONG_NUMBER_OF_PREMISES)
    whole = only_term(premises[0])
    check(len(arguments) == 1, WRONG_NUMBER_OF_ARGS)
    goal = only_term(conclusion)
    index = arguments[0]
    check(applies(whole, "and"), LINK_DOES_NOT_MATCH)
    check(is_integer(index) and 0 <= index < len(whole.arguments), LINK_DOES_NOT_MATCH)
    check(whole.arguments[index] == goal, LINK_DOES_NOT_MATCH)
    return True


RULES = {
    "cp_addition": cp_addition,
    "cp_multiplication": cp_multiplication,
    "cp_division": cp_division,
    "cp_saturation": cp_saturation,
    "cp_literal": cp_literal,
    "cp_normalize": cp_normalize,
    "cp_transfer": cp_transfer,
    "cp_part": cp_part,
}


# ---------------------------------------------------------------- pol lines (document 02, No. 2)
#
# An entry of the stack is a sum and a constant, as section 2 reads them. The kinds of a line's words are its operations
# `+`, `s`, `*` and `d`, the last two with their numeral, and three pushes.

PUSH, AXIOM, NEGATED_AXIOM = "push", "axiom", "negated axiom"


def pushed_inequality(clause):
    """The inequality of an id: one, over names, that section 2 reads; else 54."""
    check(len(clause) == 1, NO_INEQUALITY_OR_SIGN)
    try:
        pbsum, constant = unwrap_pseudoboolean_inequality(clause[0])
    except Refused:
        raise Refused(NO_INEQUALITY_OR_SIGN)
    check(all_names(pbsum), NO_INEQUALITY_OR_SIGN)
    return pbsum, constant


def pushed(word, clauses):
    """What a push puts on the stack: an id's inequality, or the axiom of a literal."""
    if word.kind == PUSH:
        return pushed_inequality(clauses[word.value])
    return {(word.value, word.kind == NEGATED_AXIOM): 1}, 0


def added(left, right):
    """`+`: both sums together, reduced; the slack goes from the constants."""
    reduced, slack = reduce_pbsum(add_pbsums(left[0], right[0]))
    return reduced, left[1] + right[1] - slack


def each_number(inequality, change):
    """The inequality with each number changed; zeros stay."""
    pbsum, constant = inequality
    return {literal: change(coefficient) for literal, coefficient in pbsum.items()}, change(constant)


def worked_on(word, top):
    """`*`, `d` and `s` by the rules of section 3; a sign check that fails is 54, a zero divisor too."""
    if word.kind == "*":
        check(word.value >= 0, NO_INEQUALITY_OR_SIGN)
        return each_number(top, lambda number: word.value * number)
    if word.kind == "d":
        check(word.value > 0, NO_INEQUALITY_OR_SIGN)
        return each_number(top, lambda number: truncated_quotient(number + word.value - 1, word.value))
    pbsum, constant = top
    check(constant >= 0 and all(coefficient >= 0 for coefficient in pbsum.values()), NO_INEQUALITY_OR_SIGN)
    return each_number(top, lambda number: min(constant, number))


def needed(word):
    """How many entries a word takes from the stack."""
    return 2 if word.kind == "+" else 1 if word.kind in ("s", "*", "d") else 0


def check_entry(entry):
    """53: a number beyond the numeral range, or more than 64 literals, zeros counted."""
    pbsum, constant = entry
    check(all(abs(number) <= MAX_NUMERAL for number in (constant, *pbsum.values())), BEYOND_RANGE)
    check(len(pbsum) <= MAX_LITERALS, BEYOND_RANGE)


def after_word(word, stack, clauses):
    """The stack after a word: 52, 54, 53."""
    taken = needed(word)
    check(len(stack) >= taken and (taken > 0 or len(stack) < MAX_STACK), WRONG_STACK)
    if taken == 0:
        entry = pushed(word, clauses)
    elif taken == 1:
        entry = worked_on(word, stack[-1])
    else:
        entry = added(stack[-2], stack[-1])
    check_entry(entry)
    return stack[:len(stack) - taken] + [entry]


def run_pol(words, clauses):
    """The entry that the words leave; after all of them there has to be one."""
    stack = []
    for word in words:
        stack = after_word(word, stack, clauses)
    check(len(stack) == 1, WRONG_STACK)
    return stack[0]


def product_term(coefficient, literal):
    """`(* k v)` or `(* k (- 1 v))`."""
    variable, negated = literal
    return Application("*", (coefficient, Application("-", (1, variable)) if negated else variable))


def inequality_term(entry):
    """Zeros are left out and names stand in byte order, plain before negated; none is `0`, one stands bare, several under `+`."""
    pbsum, constant = entry
    products = [product_term(pbsum[literal], literal) for literal in sorted(pbsum) if pbsum[literal] != 0]
    pbsum_term = Application("+", tuple(products)) if len(products) > 1 else products[0] if products else 0
    return Application(">=", (pbsum_term, constant))


# ---------------------------------------------------------------- marks (section 5)

def is_arithmetic(term):
    """Numerals, names, `+ - *` over arithmetic."""
    if is_integer(term) or is_name(term):
        return True
    return applies(term, "+", "-", "*") and all(map(is_arithmetic, term.arguments))


def is_statement(term):
    """A two-argument relation of arithmetic, `and` of statements, `=` of two statements."""
    if applies(term, "and"):
        return all(map(is_statement, term.arguments))
    if not applies(term, *RELATIONS) or len(term.arguments) != 2:
        return False
    if all(map(is_arithmetic, term.arguments)):
        return True
    return applies(term, "=") and all(map(is_statement, term.arguments))


def line_of(command, above):
    """Answer and marks of a command; `above` has the lines before it by their ids."""
    if command.rule == "assume":
        return Line(command, ACCEPTED, True, is_statement(command.clause[0]))
    cited = [above[name] for name in command.premises]
    if command.rule == "pol":
        return pol_line(command, cited)
    clauses = [line.command.clause for line in cited]
    try:
        plain = RULES[command.rule](clauses, command.arguments, command.clause)
    except Refused as refused:
        return Line(command, refused.answer, False, False)
    return Line(command, ACCEPTED, plain, plain and all(line.holds for line in cited))


def pol_line(command, cited):
    """Answer, marks and clause of a pol line that pushes the cited lines; a refused one has a clause of no terms."""
    clauses = {line.command.id: line.command.clause for line in cited}
    try:
        derived = inequality_term(run_pol(command.arguments, clauses))
    except Refused as refused:
        return Line(command, refused.answer, False, False)
    return Line(command._replace(clause=[derived]), ACCEPTED, True, all(line.holds for line in cited))


def greatest(pbsum):
    """No. 6: the sum's greatest value over all 0-1 assignments, for each variable the larger of its plain and its negated total, an absent one counting as 0."""
    return sum(max(pbsum.get((variable, False), 0), pbsum.get((variable, True), 0)) for variable in {variable for variable, _ in pbsum})


def named_inequality(clause):
    """Sum and constant of a clause of one term that section 2 reads as an inequality over names, else None."""
    try:
        pbsum, constant = unwrap_pseudoboolean_inequality(only_term(clause))
    except Refused:
        return None
    return (pbsum, constant) if all_names(pbsum) else None


def unreachable(clause):
    """No. 6: it is such an inequality, and its greatest value is below its constant."""
    inequality = named_inequality(clause)
    return inequality is not None and greatest(inequality[0]) < inequality[1]


# ---------------------------------------------------------------- report (section 6)

def yes_or_no(mark):
    """How a mark is written."""
    return "yes" if mark else "no"


def written(line):
    """The report's line of a command."""
    return "id=%s rule=%s answer=%d plain=%s holds=%s\n" % (
        line.command.id, line.command.rule, line.answer,
        yes_or_no(line.plain), yes_or_no(line.holds))


def lines_of(commands):
    """The lines of commands that were read, by their ids; a line's command has the clause that the line says."""
    lines = {}
    for command in commands:
        lines[command.id] = line_of(command, lines)
    return lines


def report_of(commands):
    """The report of commands that were read, all of it bytes."""
    lines = lines_of(commands)
    refused = sum(line.answer != ACCEPTED for line in lines.values())
    totals = "commands=%d refused=%d refuted=%s\n" % (
        len(lines), refused, yes_or_no(any(line.holds and unreachable(line.command.clause) for line in lines.values())))
    return ("".join(map(written, lines.values())) + totals).encode("ascii")


def refusal_line(refusal):
    """The report of a file that is refused."""
    return b"refused=%d byte=%d\n" % (refusal.number, refusal.offset)


def report(text):
    """The report of a text."""
    try:
        return report_of(read(text))
    except Refusal as refusal:
        return refusal_line(refusal)


if __name__ == "__main__":
    sys.stdout.buffer.write(report(sys.stdin.buffer.read()))
