"""What `holds` and `refuted` claim, tried under every 0-1 assignment (document 01, section 5, "Truth"; document 02, No. 1 and No. 6).

What a pol line says is the inequality that the reference derives for it."""
import itertools

import opb as opb_texts
import reference

MOST_VARIABLES = 10
MOST_BYTES = 4096


def value(term, assignment):
    """The value of an arithmetic term."""
    if isinstance(term, int):
        return term
    if isinstance(term, str):
        return assignment[term]
    first, *others = [value(argument, assignment) for argument in term.arguments]
    if term.operator == "+":
        return first + sum(others)
    if term.operator == "-":
        return first - sum(others) if others else -first
    for other in others:
        first *= other
    return first


def is_true(term, assignment):
    """Whether a statement is true."""
    if term.operator == "and":
        return all(is_true(part, assignment) for part in term.arguments)
    left, right = term.arguments
    if term.operator == "=" and reference.is_statement(left):
        return is_true(left, assignment) == is_true(right, assignment)
    left, right = value(left, assignment), value(right, assignment)
    return {"=": left == right, ">=": left >= right, ">": left > right, "<=": left <= right, "<": left < right}[term.operator]


def names_of(term):
    """The variables of a term."""
    if isinstance(term, reference.Application):
        return set().union(*map(names_of, term.arguments))
    return {term} if isinstance(term, str) else set()


def assignments(names):
    """Every assignment of 0 and 1 to the names."""
    names = sorted(names)
    return (dict(zip(names, bits)) for bits in itertools.product((0, 1), repeat=len(names)))


def claims_are_true(text, report, opb=b""):
    """Whether each line that holds is a statement that is true under each solution of the OPB text that satisfies the
    proof text's own assumptions which are statements, and `refuted` is no lie. The OPB text's solutions are told from
    its constraints, not from the assumptions that they become. Where nothing is refuted, each line that holds and is a sum
    over names has to be true under some assignment, so that no such line is passed over (document 02, No. 6).

    None where there are too many variables to try all assignments, or a text is refused.
    """
    if report.startswith(b"refused"):
        return None
    constraints, assumptions = opb_texts.read(opb)
    commands = [line.command for line in reference.lines_of(reference.read(text, assumptions)).values()]
    own = commands[len(assumptions):]
    names = opb_texts.variables(constraints).union(*(names_of(term) for command in commands for term in command.clause))
    if len(names) > MOST_VARIABLES or len(opb) + len(text) > MOST_BYTES:
        return None
    lines = report.decode("ascii").splitlines()
    assumed = [command.clause[0] for command in own if command.rule == "assume" and reference.is_statement(command.clause[0])]
    held = [command.clause for command, line in zip(commands, lines) if line.endswith("holds=yes")]
    if any(len(clause) != 1 or not reference.is_statement(clause[0]) for clause in held):
        return False
    solutions = [one for one in assignments(names) if opb_texts.solves(constraints, one)]
    models = [one for one in solutions if all(is_true(term, one) for term in assumed)]
    if not all(is_true(clause[0], one) for clause in held for one in models):
        return False
    if lines[-1].endswith("refuted=yes"):
        return not models
    sums = [clause[0] for clause in held if reference.named_inequality(clause)]
    return all(any(is_true(term, one) for one in assignments(names_of(term))) for term in sums)
