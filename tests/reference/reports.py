"""Makes the vectors of tests/vectors/reports, NAME.in with NAME.out, and of tests/vectors/opb, where NAME.opb stands before NAME.in, or checks
that they are what it would make.

    reports.py             writes the vectors anew
    reports.py --check     compares the stored vectors with what would be written
    reports.py --document PATH     also holds what `report_vectors.py` quotes to the bytes of document 01

A report is written only where three accounts of it agree: the one put together by hand in `report_vectors.py`,
`opb_vectors.py` or `pol_vectors.py`; the independent reference's; and, for what `holds` and `refuted` claim, every 0-1 assignment of the
variables (section 5, "Truth"), where there are at most ten. The solutions of an OPB text are those of its constraints.
"""
import itertools
import os
import re
import sys

sys.dont_write_bytecode = True

import opb
import opb_vectors
import pol_vectors
import reference
import report_vectors
from truth import claims_are_true

VECTORS = os.path.join(os.path.dirname(os.path.abspath(__file__)), "..", "vectors")
SETS = {"reports": (report_vectors.vectors, pol_vectors.vectors), "opb": (opb_vectors.vectors, pol_vectors.pairs)}
ENDINGS = (".opb", ".in", ".out")


# ---------------------------------------------------------------- making and checking

def by_the_reference(vector):
    """The reference's report."""
    return reference.report(vector.text) if vector.opb is None else opb.report_both(vector.opb, vector.text)


def made(folder):
    """All vectors of a folder, after the accounts of each report agree; the exit status says no otherwise."""
    vectors, wrong, tried = [vector for vectors in SETS[folder] for vector in vectors()], 0, 0
    names = [vector.name.lower() for vector in vectors]
    if len(set(names)) != len(names):
        sys.exit("two vectors have one name: %s" % " ".join(sorted(name for name in set(names) if names.count(name) > 1)))
    for vector in vectors:
        found = by_the_reference(vector)
        if found != vector.report:
            wrong += 1
            pairs = itertools.zip_longest(vector.report.splitlines(), found.splitlines())
            print("%s: by hand %s, by the reference %s" % ((vector.name,) + next(pair for pair in pairs if pair[0] != pair[1])))
            continue
        claims = claims_are_true(vector.text, vector.report, vector.opb or b"")
        tried += claims is not None
        if claims is False:
            wrong += 1
            print("%s: a line that holds, or `refuted`, is false under some assignment" % vector.name)
    if wrong:
        sys.exit("%d of %d vectors are wrong" % (wrong, len(vectors)))
    print("%s: %d vectors by hand and by the reference agree, %d of them tried on all assignments" % (folder, len(vectors), tried))
    return vectors


def hold_to_document(vectors, path):
    """What the vectors quote stands in the document between backquotes, or as a block of it, and in the vector."""
    with open(path, encoding="utf-8") as file:
        document = file.read()
    count = 0
    for vector in vectors:
        for quote in vector.quoted:
            count += 1
            within = vector.text.decode("ascii") + vector.report.decode("ascii")
            spelled = "```\n%s```" % quote if "\n" in quote else quote
            stands = spelled in document if "\n" in quote else re.search(r"`[^`]*%s[^`]*`|\b%s\b" % ((re.escape(quote),) * 2), document)
            if quote not in within or not stands:
                sys.exit("%s quotes %r, which the document does not have" % (vector.name, quote))
    print("%d quotations stand in the document" % count)


def files_of(vectors):
    """The files by their names."""
    files = {}
    for vector in vectors:
        parts = (vector.opb, vector.text, vector.report)
        files.update((vector.name + ending, part) for ending, part in zip(ENDINGS, parts) if part is not None)
    return files


def stored(folder):
    """The stored files by their names."""
    files = {}
    for name in os.listdir(folder):
        if name.endswith(ENDINGS):
            with open(os.path.join(folder, name), "rb") as file:
                files[name] = file.read()
    return files


def write(folder, files):
    """Write the files that differ, and remove those that are none."""
    before = stored(folder)
    differing = [name for name in set(files) | set(before) if files.get(name) != before.get(name)]
    for name in differing:
        path = os.path.join(folder, name)
        if name in files:
            with open(path, "wb") as file:
                file.write(files[name])
        else:
            os.remove(path)
    print("%d files written or removed" % len(differing))


def check(folder, files):
    """Whether the files are stored, and no others."""
    before = stored(folder)
    differing = sorted(name for name in set(files) | set(before) if files.get(name) != before.get(name))
    for name in differing:
        print("%s is not what would be written" % name)
    return not differing


def main():
    """Make or check, and give the exit status."""
    arguments = sys.argv[1:]
    if arguments not in ([], ["--check"]) and not (len(arguments) == 2 and arguments[0] == "--document"):
        sys.exit(__doc__)
    same = True
    for name in SETS:
        vectors, folder = made(name), os.path.join(VECTORS, name)
        os.makedirs(folder, exist_ok=True)
        if arguments[:1] == ["--document"]:
            hold_to_document(vectors, arguments[1])
        if arguments == ["--check"]:
            same = check(folder, files_of(vectors)) and same
        else:
            write(folder, files_of(vectors))
    return 0 if same else 1


if __name__ == "__main__":
    sys.exit(main())
