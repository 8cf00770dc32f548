"""Seeded texts for the rules: several steps in each, about half of them accepted.

`texts(seed, count)` gives `count` texts, all of which are read. They are made as in `generate.py`, from steps that
follow their rule and near misses of these, with longer sums, more names, deeper trees and files of more commands.
"""
import random

import generate
from generate import COUNTS, RULES, Maker, apply, inequality, negation

LARGEST = 99999999
NAMES = ("x", "y", "z", "u", "v", "w1", "w11", "@a.b")
# how many of a hundred steps are made into near misses
MISSED = 38


class StepMaker(Maker):
    """Makes the commands of one text, each rule in its turn."""

    def add(self, rule, clause, premises=(), arguments=()):
        """A new command; there may be hundreds."""
        step = generate.Step("s%d" % len(self.steps), rule, clause, premises, arguments)
        self.steps.append(step)
        return step

    def variable(self):
        """A name out of a few in this text, so that literals repeat and meet their negations; seldom another term."""
        return self.odd_variable() if self.chance(4) else self.rng.choice(self.names)

    def pbsum(self, nonnegative=False):
        """A sum as section 2 reads it, now and then a long one."""
        count = self.rng.choice((0, 1, 1, 2, 2, 3, 4, 6, self.longest))
        summands = []
        for _ in range(count):
            number = self.number()
            summands.append(apply("*", abs(number) if nonnegative else number, self.literal()))
        return self.sum_of(summands + self.zero_summand())

    def step_of(self, rule):
        """A step of the rule, maybe a near miss."""
        if rule == "cp_normalize":
            step = self.deeper_normalize() if self.chance(50) else self.cp_normalize()
        elif rule == "cp_literal" and self.chance(15):
            step = self.odd_literal()
        else:
            step = getattr(self, rule)()
        if self.chance(MISSED):
            self.missed(step)
        elif self.chance(6):
            self.odd_premise(step)

    def deeper_normalize(self):
        """A relation between larger trees, and its normalized form."""
        relation = apply(self.rng.choice(generate.RELATIONS), self.tree(4), self.tree(3))
        halves = [self.written_half(*half) for half in generate.normalized_halves(relation)]
        return self.add("cp_normalize", [apply("=", relation, generate.joined(halves))])

    def odd_literal(self):
        """A literal's step whose argument is of any form (33), alone or with another fault."""
        argument = self.rng.choice((self.odd_variable(), negation(self.odd_variable()), self.arithmetic(2)))
        factor = self.rng.choice((1, 1, 2, "x"))
        goal = inequality(self.rng.choice((argument, apply("*", factor, argument), "x")), self.rng.choice((0, 0, 0, 1)))
        return self.add("cp_literal", [goal], [], [argument])

    def some_faults(self):
        """A short step with several faults at once; the premises are the first three commands."""
        rule = self.rng.choice(RULES)
        premises, arguments = map(self.count_near, COUNTS[rule])
        self.add(
            rule, [self.small_inequality() for _ in range(self.count_near(1))],
            [self.rng.choice((self.steps[0],) * 3 + tuple(self.steps[:3])) for _ in range(premises)],
            [self.rng.choice((0, 1, 2, 2, -1, "x", 3)) for _ in range(arguments)])

    def text(self):
        """The file: steps of five rules with what they need, or short steps with several faults."""
        self.names = self.rng.sample(NAMES, self.rng.choice((2, 3, 3, 5, 8)))
        self.longest = self.rng.choice((5, 8, 12, 30))
        if self.chance(12):
            self.assume(self.small_inequality())
            self.assume(self.small_inequality())
            self.add(self.rng.choice(RULES), self.rng.choice(([], ["x", "x"])))
            for _ in range(14):
                self.some_faults()
        else:
            for rule in self.rng.sample(RULES, 5):
                self.step_of(rule)
        return generate.written(self.rng, map(within, self.tokens()))


def within(token):
    """The token, a numeral beyond the largest put back to it."""
    digits = token.lstrip("-")
    return token[:-len(digits)] + str(LARGEST) if digits.isdigit() and int(digits) > LARGEST else token


def texts(seed, count):
    """`count` texts."""
    rng = random.Random(seed)
    for _ in range(count):
        yield StepMaker(rng).text()
