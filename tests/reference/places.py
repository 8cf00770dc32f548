"""Vectors of the reader that are too many or too long to write down: each refusal at each kind of place,
and each limit of document 01 at its two sides.

A vector is a name, a text and what the document says of it: `Refused(number, byte)`, or `Counts` of what
is read. The numbers come from the tables here, which follow sections "What the report can answer" and 1,
and from the way that a text is put together; nothing here reads a text.
"""
from collections import namedtuple

MAX_TEXT, MAX_NODES, MAX_DEPTH, MAX_COMMANDS = 32768, 4096, 64, 512

Vector = namedtuple("Vector", "name text expected")
Refused = namedtuple("Refused", "number byte")
Counts = namedtuple("Counts", "commands nodes")
# A place of the grammar: the text before it, the nodes in that, the tokens that may stand there, and a text
# that ends the command from there on, with its nodes. Where a term may stand, the ending begins with one, `x`.
Place = namedtuple("Place", "name before nodes allowed ending ending_nodes")

STEP = b"(step t (cl) :rule cp_literal "
CITE = b"(assume p x) " + STEP
TERM = {"numeral", "name", "("}

PLACES = (
    Place("a command's place", b"", 0, {"(", "end"}, b"", 0),
    Place("a command's place behind another", b"(assume p x) ", 1, {"(", "end"}, b"", 0),
    Place("a command's word", b"(", 0, {"assume", "step"}, b"assume a x)", 1),
    Place("an assumption's id", b"(assume ", 0, {"name"}, b"a x)", 1),
    Place("an assumption's term", b"(assume a ", 0, TERM, b"x)", 1),
    Place("behind an assumption's term", b"(assume a x ", 1, {")"}, b")", 0),
    Place("a step's id", b"(step ", 0, {"name"}, b"t (cl) :rule cp_part)", 0),
    Place("a clause's bracket", b"(step t ", 0, {"("}, b"(cl) :rule cp_part)", 0),
    Place("a clause's word", b"(step t (", 0, {"cl"}, b"cl) :rule cp_part)", 0),
    Place("a clause's first term", b"(step t (cl ", 0, TERM | {")"}, b"x) :rule cp_part)", 1),
    Place("a clause's later term", b"(step t (cl x ", 1, TERM | {")"}, b"x) :rule cp_part)", 1),
    Place("the rule's keyword", b"(step t (cl) ", 0, {":rule"}, b":rule cp_part)", 0),
    Place("a rule", b"(step t (cl) :rule ", 0, {"name"}, b"cp_part)", 0),
    Place("behind the rule", STEP, 0, {":premises", ":args", ")"}, b")", 0),
    Place("the premises' bracket", CITE + b":premises ", 1, {"("}, b"(p))", 1),
    Place("the first premise", CITE + b":premises (", 1, {"name"}, b"p))", 1),
    Place("a later premise", CITE + b":premises (p ", 2, {"name", ")"}, b"p))", 1),
    Place("behind the premises", CITE + b":premises (p) ", 2, {":args", ")"}, b")", 0),
    Place("the arguments' bracket", STEP + b":args ", 0, {"("}, b"(x))", 1),
    Place("the first argument", STEP + b":args (", 0, TERM, b"x))", 1),
    Place("a later argument", STEP + b":args (x ", 1, TERM | {")"}, b"x))", 1),
    Place("behind the arguments", STEP + b":args (x) ", 1, {")"}, b")", 0),
    Place("arguments behind premises", CITE + b":premises (p) :args (", 2, TERM, b"x))", 1),
    Place("an assumption's operator", b"(assume a (", 1, {"operator"}, b"+ x))", 1),
    Place("an assumption's first operand", b"(assume a (+ ", 1, TERM, b"x))", 1),
    Place("an assumption's later operand", b"(assume a (+ x ", 2, TERM | {")"}, b"x))", 1),
    Place("a clause's operator", b"(step t (cl (", 1, {"operator"}, b"+ x)) :rule cp_part)", 1),
    Place("a clause's first operand", b"(step t (cl (and ", 1, TERM, b"x)) :rule cp_part)", 1),
    Place("a clause's later operand", b"(step t (cl x (and y ", 3, TERM | {")"}, b"x)) :rule cp_part)", 1),
    Place("an argument's operator", STEP + b":args ((", 1, {"operator"}, b"+ x)))", 1),
    Place("an argument's first operand", STEP + b":args ((<= ", 1, TERM, b"x)))", 1),
    Place("an argument's later operand", STEP + b":args (1 (<= -1 ", 3, TERM | {")"}, b"x)))", 1),
    Place("behind an application", b"(assume a (+ (* 2 x) ", 4, TERM | {")"}, b"x))", 1),
)

# Tokens by their kind. A number is what the token is refused by wherever it stands.
TOKENS = (
    (3, b"\x00"), (3, b"\x1f"), (3, b"\x7f"), (3, b"\x80"), (3, b"\xff"),
    (4, b"-0"), (4, b"007"), (4, b"1x"), (4, b"100000000"), (4, b"-100000000"),
    (5, b";x"), (5, b"+1"), (5, b":foo"), (5, b"x-y"), (5, b"n" * 33),
    ("(", b"("), (")", b")"), ("cl", b"cl"), ("assume", b"assume"), ("step", b"step"),
    (":rule", b":rule"), (":premises", b":premises"), (":args", b":args"),
    ("operator", b"+"), ("operator", b">="), ("operator", b"and"),
    ("numeral", b"5"), ("numeral", b"-99999999"), ("name", b"zz"), ("name", b"n" * 32), ("end", b""),
)
# One of each number, and of each kind that no term begins with.
FEWER = (
    (3, b"\x00"), (4, b"1x"), (5, b";x"), (5, b"n" * 33), (")", b")"), ("cl", b"cl"), (":rule", b":rule"), ("operator", b"+"),
    ("numeral", b"5"), ("end", b""))
# What may follow a token: nothing, or a bad byte, which ends the word.
BEHIND = (b"", b"\x01")

# Where a name is asked for, and one that is refused by 8 there.
REFERENCES = (
    ("an assumption's id", b"(assume p x) (assume ", b"p"), ("a step's id", b"(assume p x) (step ", b"p"),
    ("a step's id, a step's", STEP + b") (step ", b"t"), ("a rule", b"(step t (cl) :rule ", b"foo"),
    ("a rule, an operator's name", b"(step t (cl) :rule ", b"cp_and"),
    ("the first premise", CITE + b":premises (", b"q"), ("a later premise", CITE + b":premises (p ", b"q"),
    ("the first premise, the step's id", CITE + b":premises (", b"t"),
    ("a later premise, the step's id", CITE + b":premises (p p ", b"t"))


def short(token):
    """A token in a vector's name."""
    return repr(token)[2:-1] or "the end"


def offence(place, kind):
    """What a token of this kind is refused by at the place, or nothing."""
    if isinstance(kind, int):
        return kind
    return None if kind in place.allowed else 6


def at_each_place():
    """Each token at each place where it may not stand, and each name that is refused by 8."""
    for place in PLACES:
        for kind, token in TOKENS:
            number = offence(place, kind)
            if number is None:
                continue
            for behind in BEHIND if token else (b"", b"\n \t"):
                text = place.before + token + behind
                byte = len(place.before) if token else len(text)
                yield Vector("%s: %s%s" % (place.name, short(token), behind and " and more"), text, Refused(number, byte))
    for name, before, token in REFERENCES:
        for behind in BEHIND:
            yield Vector("%s: %s" % (name, short(token)), before + token + behind, Refused(8, len(before)))


def every_byte():
    """Each byte alone in a command's place, and as a term: the table of byte classes."""
    for number in range(256):
        byte = bytes([number])
        if byte in b" \t\n\r":
            alone, inside = Counts(0, 0), Refused(6, 11)
        elif byte == b"(":
            alone, inside = Refused(6, 1), Refused(6, 11)
        elif byte == b")":
            alone, inside = Refused(6, 0), Refused(6, 10)
        elif not 32 < number < 127:
            alone, inside = Refused(3, 0), Refused(3, 10)
        elif byte in b"0123456789" or byte.isalpha() or byte in b"_@":
            alone, inside = Refused(6, 0), Counts(1, 1)
        elif byte in b"+-*<>=":
            alone, inside = Refused(6, 0), Refused(6, 10)
        else:
            alone, inside = Refused(5, 0), Refused(5, 10)
        yield Vector("byte %d alone" % number, byte, alone)
        yield Vector("byte %d as a term" % number, b"(assume a " + byte + b")", inside)
        goes_on = byte.isalpha() or byte in b"0123456789_@."
        ends = byte in b" \t\n\r()" or not 32 < number < 127
        if not ends:
            expected = Counts(1, 1) if goes_on else Refused(5, 10)
            yield Vector("byte %d in a name" % number, b"(assume a n" + byte + b")", expected)


def with_nodes(count):
    """An assumption of so many nodes, at least 2, on a line of its own."""
    return b"(assume f (+" + b" 1" * (count - 1) + b"))\n"


def node_limit():
    """At each place where a node begins: the 4,096th node is read, the 4,097th is refused where it begins."""
    for place in PLACES:
        cites = "premise" in place.name and "name" in place.allowed
        if not cites and not TERM <= place.allowed:
            continue
        full = with_nodes(MAX_NODES - place.nodes) + place.before
        begin = (b"p", b"q") if cites else (b"1", b"-5", b"x", b"(", b"()", b"(+ x)", b"(1x")
        for token in begin:
            yield Vector("node 4097, %s: %s" % (place.name, short(token)), full + token, Refused(7, len(full)))
        for kind, token in FEWER:
            number = offence(place, kind)
            if number is not None:
                yield Vector("node 4097, %s: %s" % (place.name, short(token)), full + token, Refused(number, len(full)))
        last = with_nodes(MAX_NODES - place.nodes - place.ending_nodes) + place.before + place.ending
        yield Vector("node 4096, %s" % place.name, last, Counts(last.count(b"(assume") + last.count(b"(step"), MAX_NODES))
    operands = b"(assume a (+" + b" 1" * MAX_NODES
    yield Vector("4,096 operands", operands + b"))", Refused(7, len(operands) - 1))
    yield Vector("4,095 operands", operands[:-2] + b"))", Counts(1, MAX_NODES))
    many = b"".join(b"(assume a%d (+ 1 2 3 4 5 6 7))" % i for i in range(512))
    yield Vector("512 commands of 8 nodes", many, Counts(512, MAX_NODES))
    yield Vector("512 commands of 8 nodes, one more", many[:-2] + b" 8))", Refused(7, len(many) - 1))
    cited = b"(assume p x)(step t (cl) :rule cp_addition :premises (" + b"p " * 4095
    yield Vector("4,095 premises", cited + b"))", Counts(2, MAX_NODES))
    yield Vector("4,096 premises", cited + b"p))", Refused(7, len(cited)))
    yield Vector("4,096 premises, the last undefined", cited + b"q))", Refused(7, len(cited)))
    yield Vector("4,096 premises, the last but one undefined", cited[:-2] + b"q p))", Refused(8, len(cited) - 2))


def depth_limit():
    """At each term's place: level 64 is read, level 65 is refused where it begins."""
    for place in PLACES:
        if not TERM <= place.allowed:
            continue
        level = 2 if "operand" in place.name or "application" in place.name else 1
        around = MAX_DEPTH - level
        deep = place.before + b"(- " * around
        commands = place.before.count(b"(assume") + place.before.count(b"(step")
        read = deep + b"x" + b")" * around + place.ending[1:]
        yield Vector("level 64, %s" % place.name, read, Counts(commands, place.nodes + around + 1))
        for token in (b"1", b"x", b"(", b"()", b"(+ 1)", b"(x"):
            text = deep + b"(- " + token
            yield Vector("level 65, %s: %s" % (place.name, short(token)), text, Refused(7, len(deep) + 3))
        later = deep + b"x (- "
        yield Vector("level 65, %s, behind an argument" % place.name, later + b"y", Refused(7, len(later)))
        for number, token in ((3, b"\x00"), (4, b"-0"), (5, b";x"), (6, b")"), (6, b"+"), (6, b"cl")):
            text = deep + b"(- " + token
            yield Vector("level 65, %s: %s" % (place.name, short(token)), text, Refused(number, len(deep) + 3))
    around = b"(and " * (MAX_DEPTH - 1)
    wide = around + b"1 2 3" + b" x)" * (MAX_DEPTH - 1)
    yield Vector("level 64 with neighbours", b"(assume a " + wide + b")", Counts(1, 2 * (MAX_DEPTH - 1) + 3))
    again = b"(assume a " + wide + b")" + b"(assume b " + wide + b")"
    yield Vector("level 64 twice", again, Counts(2, 2 * (2 * (MAX_DEPTH - 1) + 3)))
    both = with_nodes(MAX_NODES - MAX_DEPTH) + b"(assume a " + b"(- " * MAX_DEPTH
    yield Vector("level 65 and node 4097 at once", both + b"x", Refused(7, len(both)))


def command_limit():
    """512 commands are read, the 513th is refused at its bracket."""
    names = [b"c%d" % i for i in range(MAX_COMMANDS)]
    assumptions = b"".join(b"(assume " + name + b" x)\n" for name in names)
    steps = b"".join(b"(step " + name + b" (cl) :rule cp_part)\n" for name in names)
    chain = b"(assume c0 x)" + b"".join(
        b"(step c%d (cl) :rule cp_part :premises (c%d))" % (i, i - 1) for i in range(1, MAX_COMMANDS))
    yield Vector("512 assumptions", assumptions, Counts(512, 512))
    yield Vector("512 steps", steps, Counts(512, 0))
    yield Vector("512 commands, each cites the one above", chain, Counts(512, 512))
    for name, full in (("assumptions", assumptions), ("steps", steps), ("steps that cite", chain)):
        for token in (b"(", b"()", b"(assume d x)", b"(step d (cl) :rule cp_part)", b"(assume c0 x)", b"(1x", b"(\x00"):
            yield Vector("513 %s: %s" % (name, short(token)), full + token, Refused(7, len(full)))
        for number, token in ((3, b"\x00"), (4, b"1x"), (5, b";x"), (6, b")"), (6, b"x"), (6, b"5"), (6, b"assume"), (6, b":rule")):
            yield Vector("513 %s: %s" % (name, short(token)), full + token, Refused(number, len(full)))
    first = assumptions[:-len(b"(assume c511 x)\n")]
    yield Vector("the 512th command has the first one's id", first + b"(assume c0 x)", Refused(8, len(first) + 8))
    last = first + b"(step t (cl) :rule cp_part :premises ("
    yield Vector("the 512th command cites the 511th and the first", last + b"c510 c0))", Counts(512, 513))
    yield Vector("the 512th command cites itself", last + b"c510 t))", Refused(8, len(last) + 5))


def text_limit():
    """32,768 bytes are read, 32,769 are refused whatever stands in them."""
    yield Vector("32,768 blanks", b" " * MAX_TEXT, Counts(0, 0))
    command = b"(assume a x)"
    room = MAX_TEXT - len(command)
    yield Vector("a command and blanks, 32,768 bytes", command + b"\n" * room, Counts(1, 1))
    yield Vector("blanks and a command, 32,768 bytes", b"\t" * room + command, Counts(1, 1))
    yield Vector("blanks in a command, 32,768 bytes", command.replace(b" x", b" " * (room + 1) + b"x"), Counts(1, 1))
    for extra in (1, 2, 4096, 40000):
        name = "%d bytes: " % (MAX_TEXT + extra)
        tail = extra - 1
        for what, text in (
                ("blanks", b" " * MAX_TEXT), ("a bad byte first", b"\x00" + b" " * (MAX_TEXT - 1)),
                ("a broken command first", b"(assume a)" + b" " * (MAX_TEXT - 10)),
                ("a command and blanks", command + b" " * room), ("bad bytes", b"\xff" * MAX_TEXT)):
            yield Vector(name + what, text + b" " + b"\x00" * tail, Refused(2, MAX_TEXT))
    yield Vector("a bad byte at 32,767", b" " * (MAX_TEXT - 1) + b"\x00", Refused(3, MAX_TEXT - 1))
    yield Vector("a bracket at 32,767", b" " * (MAX_TEXT - 1) + b"(", Refused(6, MAX_TEXT))
    yield Vector("the end at 32,768", b"(assume a" + b" " * (MAX_TEXT - 9), Refused(6, MAX_TEXT))
    yield Vector("a name up to 32,768", b"(assume a x" + b" " * (MAX_TEXT - 11 - 32) + b"n" * 32, Refused(6, MAX_TEXT - 32))
    yield Vector("a word of 32,768 bytes", b"n" * MAX_TEXT, Refused(5, 0))
    yield Vector("a numeral of 32,758 bytes", b"(assume a " + b"9" * (MAX_TEXT - 10), Refused(4, 10))
    yield Vector("a numeral of zeros", b"(assume a " + b"0" * (MAX_TEXT - 10), Refused(4, 10))
    yield Vector("32,768 brackets", b"(" * MAX_TEXT, Refused(6, 1))
    terms = b"(assume a (+" + b" (* 1234567 variable_1)" * 1300 + b"))"
    yield Vector("1,300 summands", terms, Counts(1, 1 + 3 * 1300))
    names = b"(assume a (+" + b"".join(b" n%05d" % i for i in range(4094)) + b" n00000))"
    yield Vector("4,094 different names", names, Counts(1, 4096))
    long = b"(assume a (+" + b"".join(b" n" + b"%031d" % i for i in range(980)) + b"))"
    yield Vector("980 names of 32 bytes", long, Counts(1, 981))


def vectors():
    """All of them."""
    for part in (at_each_place, every_byte, node_limit, depth_limit, command_limit, text_limit):
        yield from part()
