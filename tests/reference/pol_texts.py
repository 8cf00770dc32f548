"""Seeded texts of pol lines to compare the formal definitions with the reference on.

`pol_texts(seed, count)` gives `count` texts, each of at most 500 bytes: a few assumptions, pol lines whose words are chosen so that most succeed, and
steps that cite them; a transfer shows what a line derives. A third is damaged: words are dropped, doubled, or others put among them.
"""
import random

import reference as ref

MAX_BYTES = 500
NAMES = ("x", "y", "z", "a1", "d", "s")
ASSUMPTIONS = (
    "(>= (+ (* 3 x) (* 2 (- 1 y))) 4)", "(>= (* 2 (- 1 x)) 1)", "(>= (+ (* 2 x) (* 2 y) (* 1 z)) 3)", "(>= (+ (* -1 x) (* 1 z)) 0)", "(>= 0 -2)",
    "(>= (+ (* 1 x) (* 2 (- 1 x)) (* 0 y)) 1)", "(>= (* -3 (- 1 z)) -4)", "(>= (+ (* 1 d) (* 1 s)) 1)", "(>= (* 50000000 x) 50000000)", "(>= x 0)", "(> (* 1 x) 0)",
    "(>= (* 1 (+ x y)) 0)", "x")
STEPS = (
    "(step %s (cl (>= (* 1 x) 0)) :rule cp_literal :args (x))", "(step %s (cl (>= (* 2 x) 0)) :rule cp_multiplication :premises (%s) :args (2))",
    "(step %s (cl (>= 0 0)) :rule cp_transfer :premises (%s %s))", "(step %s (cl (>= 0 1)) :rule cp_addition :premises (%s %s))", "(step %s (cl) :rule cp_part)")
OTHERS = ("+", "s", "d", "*", "2", "2 d", "0 d", "-1 *", "0 *", "99999999 *", "~x", "~", "~cl", "y", "(", ")", "and", ":rule", "007", "pol")


def pushed_word(rng, ids):
    """A word that pushes an id or a literal."""
    if ids and rng.random() < 0.6:
        return rng.choice(ids)
    name = rng.choice(NAMES)
    return "~" + name if rng.random() < 0.5 or name in ("d", "s") else name


def pol_words(rng, ids):
    """The words of a line that has one entry at its end."""
    words, height = [pushed_word(rng, ids)], 1
    for _ in range(rng.randint(0, 6)):
        kind = rng.random()
        if kind < 0.45:
            words.append(pushed_word(rng, ids))
            height += 1
        elif kind < 0.7 and height > 1:
            words.append("+")
            height -= 1
        else:
            words.append(rng.choice(("2 d", "3 d", "1 d", "s", "2 *", "0 *", "3 *")))
    return words + ["+"] * (height - 1)


def damaged(rng, words):
    """The words with one change."""
    place = rng.randrange(len(words))
    change = rng.randrange(4)
    if change == 0:
        return words[:place] + words[place + 1:]
    if change == 1:
        return words[:place] + words[place:place + 1] + words[place:]
    return words[:place] + [rng.choice(OTHERS)] + words[place + (change == 2):]


def one_text(rng):
    """Assumptions, pol lines and steps."""
    commands, ids = [], []
    for number in range(rng.randint(1, 3)):
        commands.append("(assume a%d %s)" % (number, rng.choice(ASSUMPTIONS)))
        ids.append("a%d" % number)
    for number in range(rng.randint(1, 4)):
        name = rng.choice(("p%d" % number, "p%d" % number, "x", "d", "s")) if number == 0 else "p%d" % number
        if number and rng.random() < 0.3:
            step = rng.choice(STEPS)
            commands.append(step % ((name,) + tuple(rng.choice(ids) for _ in range(step.count("%s") - 1))))
        else:
            words = pol_words(rng, [one for one in ids if one not in ("d", "s")])
            if rng.random() < 0.35:
                words = damaged(rng, words)
            commands.append("(pol %s %s)" % (name, " ".join(words)))
        ids.append(name)
    return "\n".join(commands).encode("ascii")


def written(term):
    """A term as a text has it."""
    return "(%s %s)" % (term.operator, " ".join(map(written, term.arguments))) if isinstance(term, ref.Application) else str(term)


def with_transfer(rng, text):
    """The text with a step behind it that takes one of its pol lines across an equation; without it where no line succeeds."""
    try:
        lines = [line for line in ref.lines_of(ref.read(text)).values() if line.command.rule == "pol" and line.answer == 0]
    except ref.Refusal:
        return text
    if not lines:
        return text
    line = rng.choice(lines)
    return text + ("\n(assume e (= %s (>= 0 0)))\n(step t (cl (>= 0 0)) :rule cp_transfer :premises (%s e))" % (
        written(line.command.clause[0]), line.command.id)).encode("ascii")


def pol_texts(seed, count):
    """Texts of pol lines."""
    rng, found = random.Random(seed), []
    while len(found) < count:
        text = with_transfer(rng, one_text(rng))
        if len(text) <= MAX_BYTES:
            found.append(text)
    return found

