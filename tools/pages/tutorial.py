#!/usr/bin/env python3
"""Checks that docs/TUTORIAL.md quotes its programs as they are:

    tools/pages/tutorial.py --check    names what differs, and ends with status 1 where anything does

Below the heading `## N. ..` each block of C is a run of lines of examples/c/tutorial/stepN.c, and each block of text a run of lines of what that
program prints, stepN.out, from the start of a line on. Each program is quoted. tests/check compiles and runs the programs. Each has most lines of
the one before: at most TAKEN of them go.
"""
import difflib
import os
import re
import sys

TOP = os.path.dirname(os.path.dirname(os.path.dirname(os.path.abspath(__file__))))
PAGE, PROGRAMS = "docs/TUTORIAL.md", "examples/c/tutorial"
STEPS = range(1, 7)
TAKEN = 15
SECTION = re.compile(r"^## (\d)\. .*?(?=^## |\Z)", re.M | re.S)
BLOCK = re.compile(r"^```(c|text)\n(.*?)^```$", re.M | re.S)


def read(path):
    with open(os.path.join(TOP, path), encoding="utf-8") as file:
        return file.read()


def faults_of(step, section):
    blocks = BLOCK.findall(section)
    if {language for language, _ in blocks} != {"c", "text"}:
        yield f"{PAGE}: step {step} has no block of C, or none of what is printed"
    for language, quoted in blocks:
        path = f"{PROGRAMS}/step{step}.{'c' if language == 'c' else 'out'}"
        if "\n" + quoted not in "\n" + read(path):
            yield f"{PAGE}: {path} does not have these lines\n{quoted}"


def faults():
    sections = {int(found[1]): found[0] for found in SECTION.finditer(read(PAGE))}
    if list(sections) != list(STEPS):
        yield f"{PAGE}: the steps are {list(sections)}"
    for step, section in sections.items():
        yield from faults_of(step, section)
    for step in STEPS[1:]:
        before, now = (read(f"{PROGRAMS}/step{it}.c").splitlines() for it in (step - 1, step))
        gone = sum(line.startswith("- ") for line in difflib.ndiff(before, now))
        if gone > TAKEN:
            yield f"{PROGRAMS}/step{step}.c lacks {gone} lines of the program before"


def main():
    if sys.argv[1:] != ["--check"]:
        sys.exit(__doc__)
    wrong = list(faults())
    print("\n".join(wrong) or f"{PAGE} quotes its programs as they are")
    sys.exit(bool(wrong))


main()
