"""The report of an OPB text and of the proof text behind it as document 02, No. 1, gives it, from that document's words alone.

As in `reference.py`, nothing here was taken from the formal definitions. An OPB text is read into constraints; these
become assumptions, which stand before the commands of the proof text; and its solutions are told from the constraints
themselves, never from the assumptions.

    opb.py FILE     prints the report of the OPB text FILE and the proof text on standard input
"""
import sys
from collections import namedtuple

import reference as ref

# Refusals that only an OPB text has.
OBJECTIVE = 50
FORMAT_BROKEN = 51

Constraint = namedtuple("Constraint", "summands relation constant")
Summand = namedtuple("Summand", "coefficient variable negated")
Token = namedtuple("Token", "kind value offset")

NUMBER, LITERAL, RELATION, SEMICOLON, END = "number", "literal", "relation", ";", "end"
SIGNS = b"+-"
OBJECTIVES = (b"min:", b"max:")
RELATIONS = (b">=", b"=")


# ---------------------------------------------------------------- words

def is_in_word(byte):
    """`;` ends a word as well."""
    return ref.is_in_word(byte) and byte != ord(";")


def is_like_number(word):
    """A digit first, or behind a sign."""
    digits = word[1:] if word[0] in SIGNS else word
    return digits[:1].isdigit()


def number(word):
    """All numbers are signed `+`, `-` or not; else they are numerals of document 01, and None is none."""
    numeral = word[1:] if word.startswith(b"+") else word
    return int(numeral) if ref.numeral_kind(numeral) == ref.NUMERAL else None


def is_variable(name):
    """`x` and digits, as long as a name may be."""
    return name[:1] == b"x" and name[1:].isdigit() and len(name) <= ref.MAX_NAME_BYTES


def judged(word):
    """Kind and value of a word, or the number that refuses it instead of a kind."""
    if is_like_number(word):
        value = number(word)
        return (ref.BAD_NUMERAL, None) if value is None else (NUMBER, value)
    if word in RELATIONS:
        return RELATION, word.decode("ascii")
    if word in OBJECTIVES:
        return OBJECTIVE, None
    negated = word.startswith(b"~")
    name = word[1:] if negated else word
    if not is_variable(name):
        return ref.WORD_OF_NO_KIND, None
    return LITERAL, (name.decode("ascii"), negated)


# ---------------------------------------------------------------- constraints

class Reader:
    """Reads an OPB text token by token, so that the leftmost offence is met first.

    Only a constraint's 7 stands further to the left: at its first token, once all of it is there.
    """

    def __init__(self, text):
        self.text = text
        self.position = 0
        self.nodes = 0
        self.constraints = []
        self.assumptions = []

    def pass_blanks(self):
        """Past blanks."""
        while self.text[self.position:self.position + 1] in (b" ", b"\t", b"\n", b"\r"):
            self.position += 1

    def pass_comments(self):
        """Past blanks and comments: lines whose first byte is `*`, to LF or the end, checked for 3 only."""
        self.pass_blanks()
        while self.text[self.position:self.position + 1] == b"*" and self.starts_line():
            while self.position < len(self.text) and self.text[self.position] != ord("\n"):
                if ref.is_bad(self.text[self.position]):
                    raise ref.Refusal(ref.BAD_BYTE, self.position)
                self.position += 1
            self.pass_blanks()

    def starts_line(self):
        """Whether the position is the first byte of a line."""
        return self.position == 0 or self.text[self.position - 1] == ord("\n")

    def token(self):
        """The token at the position, which is then behind it; refused where it is none of the format."""
        start = self.position
        if start == len(self.text):
            return Token(END, None, start)
        byte = self.text[start]
        self.position += 1
        if byte == ord(";"):
            return Token(SEMICOLON, None, start)
        if byte in ref.BRACKETS:
            raise ref.Refusal(FORMAT_BROKEN, start)
        if not is_in_word(byte):
            raise ref.Refusal(ref.BAD_BYTE, start)
        while self.position < len(self.text) and is_in_word(self.text[self.position]):
            self.position += 1
        kind, value = judged(self.text[start:self.position])
        if isinstance(kind, int):
            raise ref.Refusal(kind, start)
        return Token(kind, value, start)

    def take(self, *kinds):
        """The next token inside a constraint, which has to be of one of the kinds."""
        self.pass_blanks()
        return self.due(self.token(), *kinds)

    def due(self, token, *kinds):
        """The token, refused with 51 unless it is of one of the kinds."""
        if token.kind not in kinds:
            raise ref.Refusal(FORMAT_BROKEN, token.offset)
        return token

    def constraint(self, token):
        """(number literal)* relation number `;` from the token on."""
        summands = []
        while self.due(token, NUMBER, RELATION).kind == NUMBER:
            variable, negated = self.take(LITERAL).value
            summands.append(Summand(token.value, variable, negated))
            token = self.take(NUMBER, RELATION)
        constant = self.take(NUMBER).value
        self.take(SEMICOLON)
        return Constraint(summands, token.value, constant)

    def add(self, constraint, start):
        """Make a constraint's assumptions, all of them within the limits: else 7 where it starts."""
        made = assumptions_of(constraint, len(self.assumptions))
        self.nodes += sum(ref.count_nodes(assumption.clause[0]) for assumption in made)
        if self.nodes > ref.MAX_NODES or len(self.assumptions) + len(made) > ref.MAX_COMMANDS:
            raise ref.Refusal(ref.OVER_LIMIT, start)
        self.constraints.append(constraint)
        self.assumptions += made

    def file(self):
        """constraint*"""
        while True:
            self.pass_comments()
            first = self.token()
            if first.kind == END:
                return self
            self.add(self.constraint(first), first.offset)


# ---------------------------------------------------------------- assumptions

def literal_term(summand):
    """`~v` is written `(- 1 v)`."""
    return ref.Application("-", (1, summand.variable)) if summand.negated else summand.variable


def sum_term(summands):
    """Several summands become `(+ ..)`, one the bare `(* k v)`, none `0`."""
    products = [ref.Application("*", (summand.coefficient, literal_term(summand))) for summand in summands]
    if len(products) > 1:
        return ref.Application("+", tuple(products))
    return products[0] if products else 0


def turned(summands):
    """The summands with all signs turned."""
    return [summand._replace(coefficient=-summand.coefficient) for summand in summands]


def assumptions_of(constraint, count):
    """The assumptions that a constraint gives behind so many others: `=` gives two `>=`, the second with all signs turned."""
    halves = [(constraint.summands, constraint.constant)]
    if constraint.relation == "=":
        halves.append((turned(constraint.summands), -constraint.constant))
    return [
        ref.Command("c%d" % (count + place), "assume", [ref.Application(">=", (sum_term(summands), constant))], [], [])
        for place, (summands, constant) in enumerate(halves, 1)]


# ---------------------------------------------------------------- solutions

def is_true(constraint, assignment):
    """Whether an assignment of 0 and 1 makes a constraint true in integers, `~x7` being 1 - x7."""
    total = 0
    for coefficient, variable, negated in constraint.summands:
        total += coefficient * (1 - assignment[variable] if negated else assignment[variable])
    return total == constraint.constant if constraint.relation == "=" else total >= constraint.constant


def solves(constraints, assignment):
    """A solution makes every constraint true."""
    return all(is_true(constraint, assignment) for constraint in constraints)


def variables(constraints):
    """The variables of constraints."""
    return {summand.variable for constraint in constraints for summand in constraint.summands}


# ---------------------------------------------------------------- both texts

def read(text):
    """Constraints and assumptions of an OPB text, or its refusal."""
    if len(text) > ref.MAX_TEXT_BYTES:
        raise ref.Refusal(ref.TEXT_TOO_LONG, ref.MAX_TEXT_BYTES)
    reader = Reader(text).file()
    return reader.constraints, reader.assumptions


def read_both(opb, text):
    """The commands of both texts in one list, or the refusal of one; the OPB text is judged first."""
    _, assumptions = read(opb)
    return ref.read(text, assumptions)


def report_both(opb, text):
    """The report of both texts."""
    try:
        return ref.report_of(read_both(opb, text))
    except ref.Refusal as refusal:
        return ref.refusal_line(refusal)


def main():
    """Print the report of the OPB text that is named and the proof text on standard input."""
    if len(sys.argv) != 2:
        sys.exit(__doc__)
    with open(sys.argv[1], "rb") as file:
        opb = file.read()
    sys.stdout.buffer.write(report_both(opb, sys.stdin.buffer.read()))


if __name__ == "__main__":
    main()
