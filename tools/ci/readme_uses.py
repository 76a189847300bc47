#!/usr/bin/env python3
"""Says for each crate's README where the lines of its *Uses* stand in code that is compiled.

Run it anywhere in the repository. The lines, three to six, stand one after the other, word for word but for indentation, in a source of
a crate that uses this one (`crates.txt` says which do): a test, a benchmark, or a caller in a crate above. Those of a crate that no other
uses stand in its own sources: tests, laws, and the head of a program's `main`, which has its command lines. Those of the library for C
stand in a program of `examples/c` or `tests/c`. It prints each README with the file and the line, and with --check only what is wrong, or a count. It
ends with status 1 where a crate has no README, a README has no such lines, or they stand nowhere.
"""
import glob
import os
import re
import sys

TOP = os.path.dirname(os.path.dirname(os.path.dirname(os.path.abspath(__file__))))
USES = re.compile(r"^## Uses\n(?:(?!## ).*\n)*?```(\w+)\n(.*?)^```$", re.M | re.S)
FEWEST, MOST = 3, 6


def read(path):
    with open(os.path.join(TOP, path), encoding="utf-8") as file:
        return file.read()


def crates():
    """Each crate with the libraries that it uses, in the order of crates.txt."""
    rows = re.findall(r"^(\w+)(?: \w+)?:(.*)$", read("crates.txt"), re.M)
    return {name: used.split() for name, used in rows}


def sources(pattern):
    return sorted(os.path.relpath(path, TOP) for path in glob.glob(os.path.join(TOP, pattern), recursive=True))


def places(crate, uses, language):
    """The files that may have the lines: of tests and benchmarks first, then of the other crates above, then of the crate itself."""
    if language == "c":
        return sources("examples/c/*.c") + sources("tests/c/*.c")
    above = [name for name, used in uses.items() if crate in used] or [crate]
    above.sort(key=lambda name: not name.endswith(("_tests", "_bench")))
    return [path for name in above for path in sources(f"crates/{name}/src/**/*.rt")]


def bare(text):
    """The lines of a text without indentation, and without the mark of a comment at a file's head."""
    return [line.strip().removeprefix("//!").strip() for line in text.splitlines()]


def line_of(wanted, text):
    """The line, counted from 1, from which on these lines stand in the text, or None."""
    lines = bare(text)
    starts = range(len(lines) - len(wanted) + 1)
    return next((at + 1 for at in starts if lines[at:at + len(wanted)] == wanted), None)


def place_of(crate, uses):
    """Where the lines of a crate's README stand, and whether that is as it should be."""
    path = f"crates/{crate}/README.md"
    if not os.path.exists(os.path.join(TOP, path)):
        return f"{path}: there is none", False
    block = USES.search(read(path))
    if not block:
        return f"{path}: no code under its Uses", False
    wanted = bare(block[2])
    if not FEWEST <= len(wanted) <= MOST:
        return f"{path}: {len(wanted)} lines under its Uses, and not {FEWEST} to {MOST}", False
    for source in places(crate, uses, block[1]):
        at = line_of(wanted, read(source))
        if at:
            return f"{path}: {source}:{at}", True
    return f"{path}: the lines of its Uses stand in no source that uses it", False


def main():
    uses = crates()
    found = [place_of(crate, uses) for crate in uses]
    check = "--check" in sys.argv[1:]
    print("\n".join(text for text, good in found if not (check and good)) or f"uses of {len(found)} crates stand in code that is compiled")
    sys.exit(not all(good for _, good in found))


main()
