#!/usr/bin/env python3
"""Prints the table of docs/SIZES.md: lines by crate, and check times from the log of a run of the gate.

    bash .ci/run > gate.log; python3 tools/sizes.py gate.log

Code is src/. A file of specs/ whose opening comment says "Definitions only" counts as definitions, the others as laws. Proofs are proofs/. Blank lines and comments count for nothing.
"""
import os
import re
import sys


def lines_of(path):
    """The lines of a file that are neither blank nor comments."""
    with open(path, encoding="utf-8") as file:
        rows = [line.strip() for line in file]
    return sum(1 for row in rows if row and not row.startswith(("--", "//")))


def is_definitions(path):
    """Whether the file's opening comment says that it has definitions only."""
    with open(path, encoding="utf-8") as file:
        for line in file:
            if not line.startswith("--"):
                return False
            if "Definitions only" in line:
                return True
    return False


def files_below(folder):
    for where, _, names in os.walk(folder):
        for name in names:
            yield os.path.join(where, name)


def cases_of(path):
    """How many functions an edit changes, each of which must be refused; one where it does not name them."""
    with open(path, encoding="utf-8") as file:
        return max(1, sum(1 for line in file if line.startswith("refused: ")))


def sizes(crate):
    folder = os.path.join("crates", crate)
    code = sum(lines_of(p) for p in files_below(os.path.join(folder, "src")))
    definitions = laws = 0
    for path in files_below(os.path.join(folder, "specs")):
        if os.path.basename(path) == "Lib.antt":
            continue
        if is_definitions(path):
            definitions += lines_of(path)
        else:
            laws += lines_of(path)
    proofs = sum(lines_of(p) for p in files_below(os.path.join(folder, "proofs")) if os.path.basename(p) != "Lib.antt")
    cases = sum(cases_of(p) for p in files_below(os.path.join(folder, "must-fail")) if p.endswith(".edit"))
    return [code, definitions, laws, proofs, cases]


def times(log):
    """Check time and time of all edits of each crate, in seconds."""
    checks, edits = {}, {}
    with open(log, encoding="utf-8") as file:
        for line in file:
            found = re.match(r"rt: (\w+) proved \((\d+) s\)", line)
            if found:
                checks[found[1]] = int(found[2])
            found = re.match(r"rt: must-fail (\w+)/\S+ refused.*?(\d+) s\)", line)
            if found:
                edits[found[1]] = edits.get(found[1], 0) + int(found[2])
    return checks, edits


def main():
    checks, edits = times(sys.argv[1])
    with open("crates.txt", encoding="utf-8") as file:
        crates = [line.split(":")[0] for line in file if ":" in line and not line.startswith("#")]
    print("| crate | code | definitions | laws | proofs | edits | check, s | edits, s |")
    print("|---|---|---|---|---|---|---|---|")
    total = [0] * 7
    for crate in crates:
        row = sizes(crate) + [checks.get(crate, 0), edits.get(crate, 0)]
        total = [a + b for a, b in zip(total, row)]
        print("| " + " | ".join([crate] + [str(n) for n in row]) + " |")
    print("| " + " | ".join(["all"] + [str(n) for n in total]) + " |")


if __name__ == "__main__":
    main()
