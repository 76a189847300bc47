#!/usr/bin/env python3
"""Runs the worked examples by the built program, as each compiler made it, and compares what they print and how they end.

Each script is run with the files that it loads, and once more with --quiet, which leaves out the notes' lines and nothing else. The program's
own run in `rt ci` takes one of them from standard input: crates/sci_console/stdin and stdout are looked at to be that example. Run it anywhere
in the repository after `rt ci`, or after `rt run` in crates/sci_console. With --valgrind each run is under valgrind, and may have no fault and no leak.
"""
import os
import re
import subprocess
import sys

TOP = os.path.dirname(os.path.dirname(os.path.dirname(os.path.abspath(__file__))))
EXAMPLES = os.path.join(TOP, "examples", "messages")
CRATE = os.path.join(TOP, "crates", "sci_console")
UNDER = ["valgrind", "-q", "--error-exitcode=9", "--leak-check=full"] if sys.argv[1:] == ["--valgrind"] else []
# What the program's own run in `rt ci` takes from standard input.
OWN_RUN = "all_notes_of_an_insertion"


def read(*path):
    with open(os.path.join(*path), "rb") as file:
        return file.read()


def scripts():
    """The scripts, each with the files that it loads, in order."""
    names = sorted(os.listdir(EXAMPLES))
    for script in names:
        if script.endswith(".sci"):
            loaded = [it for it in names if it.startswith(script[:-4] + ".file")]
            yield script, sorted(loaded, key=lambda it: int(it.rpartition(".file")[2]))


def programs():
    """The program as each compiler made it, as far as it was built. Of one that was not, a line says so: `rt run` builds by one compiler alone."""
    built = [os.path.join(CRATE, "out", name) for name in ("sci_console", "sci_console.by-rattle")]
    for program in built:
        if not os.path.exists(program):
            print("examples: %s was not built, so it is not tried" % os.path.basename(program))
    return [it for it in built if os.path.exists(it)]


def look_at_own_run():
    """Ends with an error where the program's own run is not that of its example, from standard input."""
    if read(CRATE, "args").split() != [b"run", b"-"]:
        sys.exit("crates/sci_console/args does not run a script from standard input")
    for file, example in (("stdin", OWN_RUN + ".sci"), ("stdout", OWN_RUN + ".out")):
        if read(CRATE, file) != read(EXAMPLES, example):
            sys.exit("crates/sci_console/%s is not examples/messages/%s" % (file, example))


def is_as_written(program, flags, script, loaded):
    """Whether a program prints of a script what its example says, and ends as that wants. A failure is told."""
    printed = read(EXAMPLES, script[:-4] + ".out")
    if "--quiet" in flags:
        printed = b"".join(line for line in printed.splitlines(True) if not line.startswith(b"@"))
    status = 4 if re.search(rb"(?m)^- ", printed) else 0
    ran = subprocess.run([*UNDER, program, "run", *flags, script, *loaded], capture_output=True, cwd=EXAMPLES)
    same = (ran.stdout, ran.returncode) == (printed, status)
    if not same:
        print("FAILED  %s by %s" % (" ".join([*flags, script]), os.path.basename(program)))
    return same


def main():
    built = programs()
    if not built:
        sys.exit("sci_console was not built")
    look_at_own_run()
    runs = [is_as_written(program, flags, script, loaded)
            for script, loaded in scripts() for program in built for flags in ([], ["--quiet"])]
    print("examples: %d passed, %d failed" % (runs.count(True), runs.count(False)))
    sys.exit(0 if runs and all(runs) else 1)


main()
