#!/usr/bin/env python3
"""Checks that each clause of a contract stands on one line of at most 200 columns.

    tools/ci/clauses.py    names those that are longer, and ends with status 1 where there are any

What takes more is a definition in the crate's `specs`, with a name that says an idea. KEPT has the files whose long clauses stay, how many there are, and why:
there may be fewer, and no more. Attributes, imports and the views of models are no clauses."""
import glob
import os
import re
import sys

TOP = os.path.dirname(os.path.dirname(os.path.dirname(os.path.abspath(__file__))))
WIDTH = 200
CLAUSE = re.compile(r"\s*(?:requires|ensures|invariant|decreases)\b")
KEPT = {
    "split_vector/src/cells.rt": (5, "they speak of ghost fields, which no definition can name"),
}


def long_clauses(path):
    """The numbers of the lines of a file on which such a clause begins or goes on."""
    found, inside = [], False
    with open(path, encoding="utf-8") as file:
        for number, line in enumerate(file, 1):
            line = line.rstrip("\n")
            if CLAUSE.match(line):
                inside = True
            if inside and len(line) > WIDTH:
                found.append(number)
            if line.endswith("}") or line.strip() in ("{", ""):
                inside = False
    return found


def main():
    if len(sys.argv) > 1 and sys.argv[1:] != ["--check"]:
        sys.exit(__doc__)
    faults = []
    for path in sorted(glob.glob(f"{TOP}/crates/*/src/**/*.rt", recursive=True)):
        name = os.path.relpath(path, f"{TOP}/crates")
        lines = long_clauses(path)
        most, _ = KEPT.get(name, (0, ""))
        if len(lines) > most:
            faults += [f"crates/{name}:{number}: a clause of more than {WIDTH} columns: give a part of it a name" for number in lines]
    for fault in faults:
        print(fault)
    if faults:
        sys.exit(1)
    print(f"no clause has more than {WIDTH} columns, but for {sum(most for most, _ in KEPT.values())} that may")


if __name__ == "__main__":
    main()
