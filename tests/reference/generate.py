"""Seeded texts to compare the formal definitions with the reference on.

`texts(seed, count)` gives `count` texts, each of at most 500 bytes and about six commands. Steps are
built by applying their rule, so that they are accepted; about half of them are then made into near
misses, some with several faults, so that the order of the checks shows. Other texts are damaged copies
of such files, or have a wrong token at any place.
"""
import random

from reference import (
    Application, Refused, add_pbsums, flatten_addition_tree, negate_sum, push_negation, reduce_pbsum,
    truncated_quotient, unwrap_pseudoboolean_inequality)

MAX_BYTES = 500
NAMES = ("x", "y", "z")
RELATIONS = (">=", ">", "<=", "<", "=")
OPERATORS = ("+", "-", "*", "and") + RELATIONS
# The rules, each with the numbers of premises and arguments that an accepted step has.
COUNTS = {
    "cp_addition": (2, 0), "cp_multiplication": (1, 1), "cp_division": (1, 1), "cp_saturation": (1, 0),
    "cp_literal": (0, 1), "cp_normalize": (0, 0), "cp_transfer": (2, 0), "cp_part": (1, 1)}
RULES = tuple(COUNTS)


def apply(operator, *arguments):
    """An application."""
    return Application(operator, tuple(arguments))


def negation(term):
    """`(- 1 v)`"""
    return apply("-", 1, term)


def inequality(sum_term, constant):
    """`(>= sum constant)`"""
    return apply(">=", sum_term, constant)


def tokens_of(term):
    """The words and brackets of a term."""
    if not isinstance(term, Application):
        return [str(term)]
    inner = [token for argument in term.arguments for token in tokens_of(argument)]
    return ["(", term.operator] + inner + [")"]


def bracketed(parts):
    """The words and brackets of a command with these parts."""
    return ["("] + [token for part in parts for token in part] + [")"]


class Step:
    """A command while it is being made; an assumption has the rule `assume`."""

    def __init__(self, name, rule, clause, premises=(), arguments=()):
        self.name = name
        self.rule = rule
        self.clause = list(clause)
        self.premises = list(premises)
        self.arguments = list(arguments)

    def parts(self):
        """The words and brackets of the command's parts, without the brackets around all."""
        clause = [token for term in self.clause for token in tokens_of(term)]
        if self.rule == "assume":
            return [["assume", self.name], clause]
        parts = [["step", self.name], ["(", "cl"] + clause + [")"], [":rule", self.rule]]
        if self.premises:
            parts.append([":premises", "("] + [premise.name for premise in self.premises] + [")"])
        if self.arguments:
            inner = [token for term in self.arguments for token in tokens_of(term)]
            parts.append([":args", "("] + inner + [")"])
        return parts

    def tokens(self):
        """The words and brackets of the command."""
        return bracketed(self.parts())


class Maker:
    """Makes the commands of one text."""

    def __init__(self, rng):
        self.rng = rng
        self.steps = []

    def chance(self, percent):
        """True in so many of a hundred cases."""
        return self.rng.randrange(100) < percent

    # ------------------------------------------------------------ numbers, literals, sums

    def number(self):
        """Small numbers of either sign, zero among them, now and then one at the limit."""
        if self.chance(2):
            return self.rng.choice((99999999, -99999999))
        return self.rng.choice((-7, -5, -4, -3, -2, -1, 0, 1, 1, 2, 2, 3, 3, 4, 5, 6, 7, 12))

    def odd_variable(self):
        """What a variable's place may hold although it is no name."""
        name = self.rng.choice(NAMES)
        return self.rng.choice((
            3, 0, apply("+", name, "y"), apply("-", name), negation(name), apply("*", name, "y"),
            apply("+", name), apply("and", name), inequality(name, 0), apply("-", 2, name)))

    def variable(self):
        """A name; seldom another term."""
        return self.odd_variable() if self.chance(6) else self.rng.choice(NAMES)

    def literal(self):
        """`v` or `(- 1 v)`"""
        variable = self.variable()
        return negation(variable) if self.chance(40) else variable

    def sum_of(self, summands):
        """A sum with these summands: 0 for none, one of them bare or under a `+`."""
        if not summands:
            return 0 if self.chance(90) else apply("+", 0)
        if len(summands) == 1 and self.chance(80):
            return summands[0]
        return apply("+", *summands)

    def zero_summand(self):
        """Mostly nothing, else a summand with coefficient 0, often of a term that is no name."""
        if self.chance(92):
            return []
        return [apply("*", 0, self.odd_variable() if self.chance(40) else self.literal())]

    def pbsum(self, nonnegative=False):
        """A sum as section 2 reads it; literals repeat and meet their negations."""
        count = self.rng.choice((0, 1, 1, 2, 2, 3))
        summands = []
        for _ in range(count):
            number = self.number()
            summands.append(apply("*", abs(number) if nonnegative else number, self.literal()))
        return self.sum_of(summands + self.zero_summand())

    def written_sum(self, numbers):
        """A mapping of literals to numbers as a sum, in another order, split or with zeros.

        A zero number is left out or written: both meet the rules about zero keys.
        """
        summands = []
        for (variable, negated), number in numbers.items():
            factor = negation(variable) if negated else variable
            if number == 0 and self.chance(60):
                continue
            if self.chance(6):
                summands.append(apply("*", 1, factor))
                number -= 1
            summands.append(apply("*", number, factor))
        summands += self.zero_summand()
        if self.chance(30):
            self.rng.shuffle(summands)
        return self.sum_of(summands)

    # ------------------------------------------------------------ assumptions

    def assume(self, term):
        """A new assumption."""
        return self.add("assume", [term])

    def add(self, rule, clause, premises=(), arguments=()):
        """A new command."""
        step = Step("abcdefghijklmnop"[len(self.steps)], rule, clause, premises, arguments)
        self.steps.append(step)
        return step

    def readable_premise(self, nonnegative=False):
        """A command whose clause is an inequality that section 2 reads: an earlier one or a new one.

        The earlier one may be refused, not plain or no statement, so that it does not hold.
        """
        usable = is_nonnegative if nonnegative else readable
        earlier = [step for step in self.steps if usable(step)]
        if earlier and self.chance(55):
            return self.rng.choice(earlier)
        constant = self.number()
        return self.assume(inequality(self.pbsum(nonnegative), abs(constant) if nonnegative else constant))

    def odd_inequality(self):
        """Inequalities that section 2 does not read: 23, 24, 25 and 26, and their neighbours."""
        name = self.rng.choice(NAMES)
        sum_term = self.rng.choice((
            name, 4, -1, apply("+", 0), apply("+", 4), apply("+", 0, 0), apply("*", name, 2),
            apply("*", 2, 3), apply("*", 2), apply("*", 2, name, "y"), apply("+", apply("*", 2, name), name),
            apply("+", apply("*", name, 2), name), apply("+", name, apply("*", name, 2)),
            apply("*", name, negation("y")), apply("*", 2, apply("-", name)), negation(name),
            apply("+", apply("+", apply("*", 1, name))), apply("-", apply("*", 1, name))))
        return self.rng.choice((
            inequality(sum_term, self.number()), inequality(sum_term, self.number()),
            inequality(sum_term, name), inequality(self.pbsum(), apply("-", 1)), inequality(4, "y"),
            apply(self.rng.choice(OPERATORS), self.pbsum(), 1), apply(">=", self.pbsum()),
            apply(">=", self.pbsum(), 1, 0), name, 5))

    def arithmetic(self, depth):
        """Arithmetic: numerals, names and `+ - *`, here and there with one argument."""
        if depth == 0 or self.chance(35):
            return self.rng.choice(NAMES) if self.chance(60) else self.number()
        count = self.rng.choice((1, 2, 2, 2, 3))
        return apply(self.rng.choice("+-*"), *(self.arithmetic(depth - 1) for _ in range(count)))

    def formula(self, depth):
        """Statements, and terms that are nearly so: relations of other counts, mixed equations."""
        if self.chance(8):
            return self.arithmetic(1)
        if depth == 0 or self.chance(45):
            sides = 2 if self.chance(90) else self.rng.choice((1, 3))
            return apply(self.rng.choice(RELATIONS), *(self.arithmetic(1) for _ in range(sides)))
        if self.chance(50):
            return apply("and", *(self.formula(depth - 1) for _ in range(self.rng.choice((1, 2, 2, 3)))))
        return apply("=", self.formula(depth - 1), self.formula(depth - 1))

    # ------------------------------------------------------------ accepted steps

    def cp_addition(self):
        """Two sums added and reduced; a zero of the conclusion may face a nonzero coefficient."""
        premises = [self.readable_premise(), self.readable_premise()]
        (left, left_constant), (right, right_constant) = map(read_inequality, premises)
        reduced, slack = reduce_pbsum(add_pbsums(left, right))
        if reduced and self.chance(6):
            reduced[self.rng.choice(list(reduced))] = 0
        goal = inequality(self.written_sum(reduced), left_constant + right_constant - slack)
        return self.add("cp_addition", [goal], premises)

    def scaled(self, rule, argument, result, nonnegative=False):
        """A step of one premise with `result` of each of its numbers."""
        premise = self.readable_premise(nonnegative)
        numbers, constant = read_inequality(premise)
        goal = inequality(
            self.written_sum({literal: result(number, constant) for literal, number in numbers.items()}),
            result(constant, constant))
        return self.add(rule, [goal], [premise], [] if argument is None else [argument])

    def cp_multiplication(self):
        """Every number times the scalar, zero among the scalars."""
        scalar = self.rng.choice((0, 1, 2, 3, 5))
        return self.scaled("cp_multiplication", scalar, lambda number, _: scalar * number)

    def cp_division(self):
        """Every number divided, truncated toward zero; negative numbers are frequent."""
        divisor = self.rng.choice((1, 2, 2, 3, 4, 7))
        return self.scaled(
            "cp_division", divisor,
            lambda number, _: truncated_quotient(number + divisor - 1, divisor))

    def cp_saturation(self):
        """The smaller of coefficient and constant; negative numbers (32) are seldom."""
        return self.scaled("cp_saturation", None, min, nonnegative=self.chance(88))

    def cp_literal(self):
        """The four forms of `l >= 0`; premises are not counted and now and then cited."""
        name = self.rng.choice(NAMES)
        literal = negation(name) if self.chance(50) else name
        goal = inequality(apply("*", 1, literal) if self.chance(50) else literal, 0)
        premises = [self.rng.choice(self.steps)] if self.steps and self.chance(25) else []
        return self.add("cp_literal", [goal], premises, [literal])

    def leaf(self):
        """A leaf of a general relation: names, numerals and products of every kind."""
        number, literal = self.number(), self.literal()
        if self.chance(35):
            return literal
        if self.chance(60):
            return apply("*", number, literal)
        return self.rng.choice((
            number, apply("*", literal, number), apply("*", 2, 3), apply("*", "x", "y"),
            apply("*", number, negation(negation("x"))), apply("*", number), apply("*", 2, "x", "y")))

    def tree(self, depth):
        """A side of a general relation: sums and differences over leaves."""
        if depth == 0 or self.chance(50):
            return self.leaf()
        count = self.rng.choice((2, 2, 2, 3)) if self.chance(90) else 1
        return apply(self.rng.choice("+-"), *(self.tree(depth - 1) for _ in range(count)))

    def written_entry(self, entry):
        """An entry as a summand: `(* c l)`, `(* l c)`, or `l` alone for coefficient 1."""
        factor = negation(entry.variable) if entry.negated else entry.variable
        if entry.negated and self.chance(7):
            factor = negation(negation(entry.variable))
        if entry.coefficient == 1 and self.chance(60):
            return factor
        if self.chance(15):
            return apply("*", factor, entry.coefficient)
        return apply("*", entry.coefficient, factor)

    def written_half(self, entries, constant):
        """One normalized inequality."""
        return inequality(self.sum_of([self.written_entry(entry) for entry in entries]), constant)

    def cp_normalize(self):
        """A relation of any kind between two trees, and its normalized form."""
        operator = self.rng.choice(RELATIONS)
        relation = apply(operator, self.tree(self.rng.choice((1, 2))), self.tree(1))
        halves = [self.written_half(*half) for half in normalized_halves(relation)]
        premises = [self.rng.choice(self.steps)] if self.steps and self.chance(8) else []
        return self.add("cp_normalize", [apply("=", relation, joined(halves))], premises)

    def cp_transfer(self):
        """R and `(= R N)`, the latter normalized here, an assumption or an earlier step."""
        earlier = [step for step in self.steps if equation_of(step)]
        if earlier and self.chance(50):
            equation = self.rng.choice(earlier)
        elif self.chance(50):
            equation = self.cp_normalize()
        else:
            equation = self.assume(apply("=", self.formula(1), self.formula(1)))
        left, right = equation_of(equation)
        relation = self.assume(left)
        return self.add("cp_transfer", [right], [relation, equation])

    def cp_part(self):
        """One part of an `and`."""
        earlier = [step for step in self.steps if conjunction_of(step)]
        if earlier and self.chance(60):
            whole = self.rng.choice(earlier)
        else:
            count = self.rng.choice((1, 2, 2, 3))
            whole = self.assume(apply("and", *(self.formula(1) for _ in range(count))))
        parts = conjunction_of(whole)
        index = self.rng.randrange(len(parts))
        return self.add("cp_part", [parts[index]], [whole], [index])

    def refutation(self):
        """`(>= 0 1)` from x and its negation, from refused or odd premises, or nearly so."""
        variable = self.rng.choice(("x", "x", "x", apply("-", "x"), apply("and", "x")))
        constant = self.rng.choice((1, 1, 2))
        left = self.assume(inequality(apply("*", 1, variable), constant))
        right = self.assume(inequality(apply("*", 1, negation(variable)), self.rng.choice((0, 1, 1))))
        total = constant + right.clause[0].arguments[1] - 1
        zero = self.rng.choice((0, 0, 0, 0, apply("+", 0), apply("*", 0, "x")))
        self.add("cp_addition", [inequality(zero, total)], [left, right])

    def assumed_refutation(self):
        """A sum as an assumption, with a constant on both sides of its greatest value, and terms like it."""
        if self.chance(60):
            return self.assume(self.at_the_greatest())
        return self.assume(self.rng.choice((
            inequality(0, 1), inequality(0, 7), inequality(0, 0), inequality(0, -1), inequality(apply("+", 0), 1), inequality(0, "x"), inequality("x", 2),
            apply(">", 0, 1), apply(">", apply("*", 1, "x"), 1), apply(">=", 0, 1, 1), apply("and", inequality(0, 1)), inequality(1, 2), inequality(apply("+", 0, 0), 1),
            inequality(apply("*", 1, apply("+", "x", "y")), 5))))

    def at_the_greatest(self):
        """A sum of literals that repeat and meet their opposites, at its greatest value, one above it, or one below."""
        summands, totals = [], {}
        for _ in range(self.rng.choice((1, 1, 2, 3, 4))):
            k, variable, negated = self.rng.choice((-3, -2, -1, 0, 1, 2, 3)), self.rng.choice("xxyz"), self.chance(40)
            summands.append(apply("*", k, negation(variable) if negated else variable))
            totals.setdefault(variable, [0, 0])[negated] += k
        constant = sum(map(max, totals.values())) + self.rng.choice((-1, 0, 0, 1, 1))
        return inequality(summands[0] if len(summands) == 1 else apply("+", *summands), constant)

    # ------------------------------------------------------------ near misses

    def changed_leaf(self, leaf):
        """Another numeral or name."""
        if isinstance(leaf, int):
            return self.rng.choice((leaf + 1, leaf - 1, -leaf, 0, 1, "x"))
        return self.rng.choice(("x", "y", "z", "w", negation(leaf), 3))

    def changed_arguments(self, arguments):
        """Arguments dropped, doubled, swapped, or one zero summand more."""
        arguments = list(arguments)
        place = self.rng.randrange(len(arguments))
        way = self.rng.randrange(5)
        if way == 0 and len(arguments) > 1:
            del arguments[place]
        elif way == 1:
            arguments.insert(place, arguments[place])
        elif way == 2:
            arguments.append(apply("*", self.rng.choice((0, 0, 1)), self.literal()))
        else:
            other = self.rng.randrange(len(arguments))
            arguments[place], arguments[other] = arguments[other], arguments[place]
        return arguments

    def changed(self, term):
        """A term with one change at any place: number, literal, order, key, operator or shape."""
        if not isinstance(term, Application):
            return self.changed_leaf(term)
        way = self.rng.randrange(100)
        if way < 70:
            arguments = list(term.arguments)
            place = self.rng.randrange(len(arguments))
            arguments[place] = self.changed(arguments[place])
            return apply(term.operator, *arguments)
        if way < 88:
            return apply(term.operator, *self.changed_arguments(term.arguments))
        if way < 94:
            return apply(self.rng.choice(OPERATORS), *term.arguments)
        return self.rng.choice((
            apply("+", term), apply("-", term), negation(term), apply("*", 1, term), apply("and", term)))

    def missed_sum(self, step):
        """A conclusion with another constant, coefficient or literal, a key less, a key more."""
        numbers, constant = read_inequality(step)
        key = self.rng.choice(list(numbers) or [("x", False)])
        way = self.rng.randrange(6)
        if way == 5 or self.chance(20):
            constant = self.rng.choice((constant + 1, constant - 1, -constant, "x"))
        if way in (0, 1):
            numbers[key] = self.rng.choice((numbers.get(key, 0) + 1, numbers.get(key, 0) - 1, 0))
        elif way == 2:
            numbers.pop(key, None)
        elif way == 3:
            numbers[key[0], not key[1]] = numbers.pop(key, 1)
        elif way == 4:
            numbers.setdefault((self.variable(), self.chance(50)), self.rng.choice((0, 0, 1)))
        step.clause = [inequality(self.written_sum(numbers), constant)]

    def missed_relation(self, relation):
        """A general relation of another argument count (22), or of no supported kind (37)."""
        left, right = relation.arguments
        return self.rng.choice((
            apply(relation.operator, left), apply(relation.operator, left, right, right),
            apply(self.rng.choice("+-*"), left, right), apply("and", relation), left,
            apply(self.rng.choice(RELATIONS), left, right), apply(relation.operator, right, left)))

    def missed_entries(self, entries):
        """Entries with one sign or coefficient changed, in another order, or one less."""
        if not entries:
            return entries
        entries = list(entries)
        place = self.rng.randrange(len(entries))
        way = self.rng.randrange(5)
        if way in (0, 1):
            entries[place] = entries[place]._replace(negated=not entries[place].negated)
        elif way == 2:
            entries[place] = entries[place]._replace(coefficient=entries[place].coefficient + 1)
        elif way == 3:
            self.rng.shuffle(entries)
        else:
            entries.pop()
        return entries

    def missed_half(self, entries, constant):
        """A normalized inequality with faults for 39, 38, 29 or 24, and 23, each by itself."""
        if self.chance(45):
            entries = self.missed_entries(entries)
        summands = [self.written_entry(entry) for entry in entries]
        if self.chance(20):
            summands.append(self.rng.choice((apply("*", 2, 3), apply("*", 0, 1), 3)))
        if self.chance(40):
            constant = self.rng.choice((constant + 1, constant - 1, "x", apply("-", 1)))
        operator = self.rng.choice(OPERATORS) if self.chance(12) else ">="
        return apply(operator, self.sum_of(summands), constant)

    def missed_normalization(self, step):
        """A near miss of a normalization: of its relation, of the halves, or of their order."""
        relation, normalized = step.clause[0].arguments
        halves = normalized_halves(relation)
        written_halves = [
            self.missed_half(*half) if self.chance(70) else self.written_half(*half) for half in halves]
        way = self.rng.randrange(10)
        if way < 2:
            relation = self.missed_relation(relation)
        elif way < 9:
            normalized = joined(written_halves)
        else:
            first = written_halves[0]
            normalized = joined(self.rng.choice((
                written_halves[::-1], [first, first], written_halves + [first])))
        step.clause = [apply("=", relation, normalized)]

    def missed_literal(self, step):
        """A literal with another coefficient (34, 24), another sign or name (35), of no form (36)."""
        literal = step.arguments[0]
        sum_term = self.rng.choice((
            apply("*", self.rng.choice((0, 2, -1, "x")), literal), apply("*", 1, negation(literal)),
            negation(literal), self.rng.choice(NAMES), apply("*", literal, 1), apply("*", 1, 1, literal)))
        step.clause = [apply(">=", sum_term, self.rng.choice((0, 0, 0, 0, 1)))]

    def missed_by_rule(self, step):
        """A near miss that aims at the checks of the step's own rule."""
        if step.rule == "cp_normalize":
            self.missed_normalization(step)
        elif step.rule == "cp_literal":
            self.missed_literal(step)
        elif step.rule == "cp_transfer" and self.chance(25):
            step.clause, step.premises[0].clause = step.premises[0].clause, step.clause
        elif step.rule in ("cp_transfer", "cp_part"):
            step.clause = [self.changed(step.clause[0])]
        elif step.arguments and self.chance(20):
            step.arguments = [self.rng.choice((0, -1, -2, "x", apply("-", 2)))]
        else:
            self.missed_sum(step)

    def missed_arguments(self, step):
        """An argument more or less, changed, of the wrong sign, zero, or no numeral."""
        if step.arguments and self.chance(70):
            step.arguments[0] = self.rng.choice((
                self.changed(step.arguments[0]), "x", -2, 0, 3, negation("y"), negation(3), apply("-", 2)))
        elif step.arguments and self.chance(50):
            step.arguments.pop()
        else:
            step.arguments.append(self.rng.choice((2, "x")))

    def missed_premises(self, step):
        """A premise more or less, two exchanged, or one of another shape or clause length."""
        others = [other for other in self.steps if other is not step]
        if step.premises and self.chance(30):
            step.premises.pop()
        elif len(step.premises) == 2 and self.chance(30):
            step.premises.reverse()
        elif step.premises and others and self.chance(60):
            step.premises[self.rng.randrange(len(step.premises))] = self.rng.choice(others)
        elif others:
            step.premises.append(self.rng.choice(others))

    def missed_clause(self, step):
        """A clause of another length, or of another shape."""
        step.clause = self.rng.choice(([], step.clause * 2, step.clause + ["x"], [self.odd_inequality()]))

    def missed_rule(self, step):
        """The same step under any rule."""
        step.rule = self.rng.choice(RULES)

    def missed_start(self, _step):
        """A change in the file's first command, which may be a premise."""
        first = self.steps[0]
        first.clause = [self.changed(term) for term in first.clause]

    def missed(self, step):
        """A near miss of an accepted step, with one to three faults."""
        if self.chance(65):
            self.missed_by_rule(step)
        elif self.chance(40):
            step.clause = [self.changed(step.clause[0])]
        else:
            self.missed_otherwise(step)
        while self.chance(25):
            self.missed_otherwise(step)

    def missed_otherwise(self, step):
        """A fault that any step can have."""
        self.rng.choice((
            self.missed_clause, self.missed_clause, self.missed_arguments, self.missed_arguments,
            self.missed_premises, self.missed_premises, self.missed_rule, self.missed_start))(step)

    def odd_premise(self, step):
        """A step over a premise just before it: one that section 2 does not read, or another length."""
        self.steps.pop()
        if self.chance(65):
            odd = self.assume(self.odd_inequality())
        else:
            odd = self.add(self.rng.choice(RULES), self.rng.choice(([], step.clause * 2)))
        if step.premises:
            step.premises[self.rng.randrange(len(step.premises))] = odd
        else:
            step.clause = odd.clause
        self.add(step.rule, step.clause, step.premises, step.arguments)

    # ------------------------------------------------------------ whole files

    def proof(self):
        """A file of one to three steps with what they need."""
        for _ in range(self.rng.choice((1, 2, 2, 3))):
            if len(self.steps) >= 4:
                break
            step = getattr(self, self.rng.choice(RULES))()
            if self.chance(38):
                self.missed(step)
            if self.chance(8):
                self.odd_premise(step)

    def statements(self):
        """Assumptions only: statements and non-statements, and what may refute."""
        for _ in range(self.rng.choice((1, 1, 2))):
            self.assume(self.formula(2))
        if self.chance(40):
            self.assumed_refutation()

    def count_near(self, count):
        """The count, seldom another."""
        return count if self.chance(75) else self.rng.randrange(4)

    def small_inequality(self):
        """A short inequality, about half of them with one fault or two."""
        sum_term = self.rng.choice((0, 0, apply("*", 2, "x"), apply("*", -1, "x"), "x", 4, apply("*", "x", 2)))
        operator = self.rng.choice((">=", ">=", ">=", ">=", ">=", "<"))
        return apply(operator, sum_term, self.rng.choice((0, 0, 1, 1, -1, "x")))

    def faults(self):
        """Short steps with several faults at once, so that the order of the answers 20 to 36 shows."""
        self.assume(self.small_inequality())
        self.assume(self.small_inequality())
        self.add(self.rng.choice(RULES), self.rng.choice(([], ["x", "x"])))
        for _ in range(3):
            rule = self.rng.choice(RULES)
            premises, arguments = map(self.count_near, COUNTS[rule])
            self.add(
                rule, [self.small_inequality() for _ in range(self.count_near(1))],
                [self.rng.choice((self.steps[0],) * 3 + tuple(self.steps)) for _ in range(premises)],
                [self.rng.choice((0, 1, 2, 2, -1, "x", 3)) for _ in range(arguments)])

    def tokens(self):
        """The words and brackets of the file."""
        return [token for step in self.steps for token in step.tokens()]


def normalized_halves(relation):
    """The entries and constants of a relation's normalized form, two for `=` (section 4)."""
    left, left_constant = flatten_addition_tree(relation.arguments[0])
    right, right_constant = flatten_addition_tree(relation.arguments[1])
    entries, constant = left + negate_sum(right), right_constant - left_constant
    if relation.operator in ("<", "<="):
        entries, constant = negate_sum(entries), -constant
    if relation.operator in ("<", ">"):
        constant += 1
    entries, constant = push_negation(entries, constant)
    if relation.operator != "=":
        return [(entries, constant)]
    return [(entries, constant), push_negation(negate_sum(entries), -constant)]


def joined(halves):
    """One normalized inequality, or the `and` of several."""
    return halves[0] if len(halves) == 1 else apply("and", *halves)


def readable(step):
    """Whether the step's clause is one inequality that section 2 reads."""
    if len(step.clause) != 1:
        return False
    try:
        unwrap_pseudoboolean_inequality(step.clause[0])
    except Refused:
        return False
    return True


def read_inequality(step):
    """Sum and constant of a readable step."""
    return unwrap_pseudoboolean_inequality(step.clause[0])


def is_nonnegative(step):
    """Whether the step is readable and has no negative number."""
    if not readable(step):
        return False
    numbers, constant = read_inequality(step)
    return min(constant, *numbers.values(), 0) == 0


def arguments_under(step, operator):
    """The arguments of the step's only term where it applies the operator, else nothing."""
    term = step.clause[0] if len(step.clause) == 1 else None
    return term.arguments if isinstance(term, Application) and term.operator == operator else ()


def equation_of(step):
    """The two sides of a step `(= R N)`, else nothing."""
    sides = arguments_under(step, "=")
    return sides if len(sides) == 2 else ()


def conjunction_of(step):
    """The parts of a step `(and ..)`, else nothing."""
    return arguments_under(step, "and")


# ---------------------------------------------------------------- tokens to bytes, and damage

def written(rng, tokens):
    """The tokens with blanks between words; about brackets a blank may be left out or be another."""
    text = ""
    for token in tokens:
        if token == "(" and text.endswith(")"):
            text += rng.choice(("\n", "\n", " ", "", "\r\n"))
        elif text and token != ")" and not text.endswith("("):
            text += rng.choice((" ", " ", " ", " ", " ", " ", "\t", "\n", "  "))
        elif rng.randrange(40) == 0:
            text += rng.choice((" ", "\n"))
        text += token
    return (text + rng.choice(("", "\n", "\n", " \n"))).encode("ascii")


def damaged(rng, text):
    """A byte dropped, changed or inserted, the end cut off, or two words exchanged."""
    place = rng.randrange(len(text))
    byte = bytes([rng.choice(b"()()  -01x9.:;=>+*~\x00\x0b\x7f\xff\n@_A")])
    way = rng.randrange(6)
    if way == 0:
        return text[:place] + text[place + 1:]
    if way in (1, 2):
        return text[:place] + byte + text[place + 1:]
    if way == 3:
        return text[:place] + byte + text[place:]
    if way == 4:
        return text[:place]
    words = text.split(b" ")
    one, other = rng.randrange(len(words)), rng.randrange(len(words))
    words[one], words[other] = words[other], words[one]
    return b" ".join(words)


# Tokens that offend somewhere: bad bytes (3), numerals (4), words of no kind (5), then tokens of each
# kind, which break the grammar (6) or name nothing (8) where another one has to stand.
OFFENDING = (
    b"\x00", b"\x80", b"\x7f", b"\x0b", b"x\x00", b"1\xff", b"x\x00y",
    b"-0", b"007", b"00", b"1x", b"-1.", b"-01", b"100000000", b"-100000000", b"5>=", b"99999999999999999999",
    b";x", b"+1", b"--1", b"-x", b">==", b"=>", b".x", b":rul", b":rules", b":", b"x:", b"x-y", b"!", b"~x",
    b"a" * 33, b"\"x\"",
    b"(", b")", b"()", b"+", b"and", b">=", b"cl", b"assume", b"step", b":rule", b":premises", b":args",
    b"7", b"0", b"-5", b"99999999", b"-99999999", b"foo", b"a", b"b", b"c", b"a" * 32, b"_@.9", b"cp_addition",
    b"cp_part", b"And", b"CL")


def with_offence(rng, tokens):
    """A file with a token of `OFFENDING` put in or in place of another, at any place, seldom two."""
    parts = [token.encode("ascii") for token in tokens]
    for _ in range(rng.choice((1, 1, 1, 2))):
        place = rng.randrange(len(parts) + 1)
        kept_from = place if rng.randrange(3) == 0 else place + 1
        parts[place:kept_from] = [rng.choice(OFFENDING)]
    return b" ".join(parts)


def with_dropped_token(rng, tokens):
    """A file with one to three tokens missing, or ending in the middle."""
    place = rng.randrange(len(tokens))
    count = rng.choice((1, 1, 2, 3, len(tokens)))
    return written(rng, tokens[:place] + tokens[place + count:])


def with_emptied_bracket(rng, tokens):
    """A file with nothing, or only the first word, left in one pair of brackets."""
    start = rng.choice([place for place, token in enumerate(tokens) if token == "("])
    end, depth = start, 1
    while depth:
        end += 1
        depth += {"(": 1, ")": -1}.get(tokens[end], 0)
    return written(rng, tokens[:start + rng.choice((1, 1, 2))] + tokens[end:])


def with_mixed_parts(rng, maker):
    """A file in which one command's parts are exchanged, doubled or dropped."""
    chosen = rng.choice(maker.steps)
    parts = chosen.parts()
    one, other = rng.randrange(len(parts)), rng.randrange(len(parts))
    way = rng.randrange(3)
    if way == 0:
        parts[one], parts[other] = parts[other], parts[one]
    elif way == 1:
        parts.insert(one, parts[other])
    else:
        del parts[one]
    return written(rng, [
        token for step in maker.steps
        for token in (bracketed(parts) if step is chosen else step.tokens())])


def with_bad_reference(rng, maker):
    """Refusal 8: an id used twice, a rule unknown, a premise of its own id, from below or from nowhere."""
    way = rng.randrange(4)
    steps = [step for step in maker.steps if step.rule != "assume"]
    if way == 0 or not steps:
        rng.choice(maker.steps).name = rng.choice(maker.steps).name
    elif way == 1:
        rng.choice(steps).rule = rng.choice(("foo", "cp_add", "x", "a", "resolution", "CP_ADDITION"))
    else:
        step = rng.choice(steps)
        nowhere = Step(rng.choice(("x", "q", "cp_part")), "assume", ["x"])
        cited = rng.choice(maker.steps) if way == 2 else nowhere
        step.premises.insert(rng.randrange(len(step.premises) + 1), cited)
    return written(rng, maker.tokens())


def deep(rng):
    """Refusal 7: terms of about 64 levels, as an assumption, in a clause or an argument."""
    depth = rng.choice((62, 63, 64, 65))
    term = "(+ " * depth + rng.choice(("x", "1", "()")) + ")" * depth
    return rng.choice((
        "(assume a %s)", "(step a (cl %s) :rule cp_literal)",
        "(step a (cl) :rule cp_part :args (%s))")).replace("%s", term).encode("ascii")


def one_text(rng):
    """One text, of any length."""
    way = rng.randrange(100)
    if way == 0:
        return rng.choice((b"", b" \n\t\r ", b"\n") + tuple(deep(rng) for _ in range(6)))
    maker = Maker(rng)
    if way < 4:
        maker.refutation()
    elif way < 9:
        maker.statements()
    elif way < 16:
        maker.faults()
    else:
        maker.proof()
    if way < 75:
        return written(rng, maker.tokens())
    if way < 81:
        return damaged(rng, written(rng, maker.tokens()))
    if way < 89:
        return with_offence(rng, maker.tokens())
    if way < 91:
        return with_dropped_token(rng, maker.tokens())
    if way < 93:
        return with_emptied_bracket(rng, maker.tokens())
    if way < 96:
        return with_mixed_parts(rng, maker)
    return with_bad_reference(rng, maker)


def texts(seed, count):
    """`count` texts of at most 500 bytes."""
    rng = random.Random(seed)
    found = []
    while len(found) < count:
        text = one_text(rng)
        if len(text) <= MAX_BYTES:
            found.append(text)
    return found
