"""compare.py [COUNT] [SEED]

Compares the formal definitions with the reference by computation, on the examples of documents 01 and 02,
COUNT generated texts and a fifth as many of pol lines. Each text becomes a theorem, `report_of text ≡ the reference's report`, proved by
computing both sides, in a temporary repository that holds copies of the crates, proved already where
their out/ has them so: rt goes by their bytes. Prints what was compared and each text that differs, or
whose computation ended without a verdict (a text of several thousand bytes can be too long for the
prover); the exit status is 0 only if all agree.
"""
import collections
import os
import re
import shutil
import subprocess
import sys
import tempfile

sys.dont_write_bytecode = True

from examples import examples
from generate import texts
from pol_texts import pol_texts
from reference import report

ROOT = os.path.join(os.path.dirname(os.path.abspath(__file__)), "..", "..")
COPIED = ("integer", "calculus")
ORDER = "integer:\ncalculus: integer\nsample: calculus integer\n"
HEAD = """use Rattle.std.specs.Prelude.{◌≡◌, [], ◌∷◌}
use mathlib.Core.Path.{refl}
use Rattle.calculus.specs.Report.{report_of}
use Rattle.calculus.proofs.Computing.{computing}
"""
THEOREM = """
text-%d : report_of %s ≡ %s
unfolding computing
text-%d = refl
"""


def list_of(text):
    """The bytes as a list of numbers."""
    return "(%s)" % " ∷ ".join([str(byte) for byte in text] + ["[]"])


def theorems(compared, reports):
    """The proof file: one theorem for each text, named by its place."""
    return HEAD + "".join(
        THEOREM % (place, list_of(text), list_of(expected), place)
        for place, (text, expected) in enumerate(zip(compared, reports)))


def write(folder, path, content):
    """A file of the repository, with the folders above it."""
    full = os.path.join(folder, path)
    os.makedirs(os.path.dirname(full), exist_ok=True)
    with open(full, "w", encoding="utf-8") as file:
        file.write(content)


def write_repository(folder, proofs):
    """A repository with copies of the crates and one crate more, which only has the theorems."""
    for crate in COPIED:
        shutil.copytree(
            os.path.join(ROOT, "crates", crate), os.path.join(folder, "crates", crate), ignore=shutil.ignore_patterns("incremental", "must-fail"))
    write(folder, "crates.txt", ORDER)
    write(folder, "crates/sample/src/lib.rt", "// No function: the theorems stand in proofs/.\n#![tactic(auto)]\n")
    write(folder, "crates/sample/specs/Lib.antt", "")
    write(folder, "crates/sample/proofs/Lib.antt", "pub mod Sample\n")
    write(folder, "crates/sample/proofs/Sample.antt", proofs)


def prove(folder):
    """Exit status and output of the prover on one core."""
    run = subprocess.run(
        ["rt", "check", "--jobs", "1"], cwd=os.path.join(folder, "crates", "sample"),
        stdout=subprocess.PIPE, stderr=subprocess.STDOUT, check=False)
    return run.returncode, run.stdout.decode("utf-8", "replace")


def print_coverage(reports):
    """How many lines of each rule and answer, refusals and refutations the reports have."""
    answers, refusals, totals = (collections.defaultdict(collections.Counter) for _ in range(3))
    for text in (one.decode("ascii") for one in reports):
        for rule, answer, plain, holds in re.findall(r"rule=(\S+) answer=(\d+) plain=(\S+) holds=(\S+)", text):
            answers[rule][int(answer)] += 1
            if answer == "0":
                totals[rule]["plain=%s holds=%s" % (plain, holds)] += 1
        for number in re.findall(r"^refused=(\d+) byte", text, re.M):
            refusals["refused"][int(number)] += 1
        for refuted in re.findall(r"refuted=(\S+)", text):
            totals["file"]["refuted=%s" % refuted] += 1
    for label, counts in list(sorted(answers.items())) + list(refusals.items()):
        print("%-18s %s" % (label, ", ".join("%d: %d" % pair for pair in sorted(counts.items()))))
    for label, counts in sorted(totals.items()):
        print("%-18s %s" % (label, ", ".join("%s %d" % pair for pair in sorted(counts.items()))))


def check_examples():
    """The reference gives for each example what the document says."""
    for text, part in examples():
        if part not in report(text).decode("ascii"):
            sys.exit("the reference is wrong on %r, which has %r" % (text, part))


def main():
    """Compare, print, and give the exit status."""
    count = int(sys.argv[1]) if len(sys.argv) > 1 else 200
    seed = int(sys.argv[2]) if len(sys.argv) > 2 else 1
    check_examples()
    given = [text for text, _ in examples()]
    compared = given + texts(seed, count) + pol_texts(seed, count // 5)
    reports = [report(text) for text in compared]
    print("%d texts, %d of them examples, seed %d" % (len(compared), len(given), seed))
    print_coverage(reports)
    with tempfile.TemporaryDirectory() as folder:
        write_repository(folder, theorems(compared, reports))
        status, output = prove(folder)
    if status == 0:
        print("all %d agree" % len(compared))
        return 0
    differing = sorted(set(map(int, re.findall(r"error: `text-(\d+)`", output))))
    for place in differing:
        print("\ntext %d:\n%r\nreference:\n%s" % (place, compared[place], reports[place].decode("ascii")))
    print("%d differ%s" % (len(differing), " or have no verdict" if re.search("no verdict|ran out of|outgrew|stopped at", output) else ""))
    if not differing:
        print(output)
    return 1


if __name__ == "__main__":
    sys.exit(main())
