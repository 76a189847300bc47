#!/usr/bin/env python3
"""Runs a command of the toolchain that proves a crate and those below it, and tells how far it is: a line for each crate that is proved.

    tools/ci/proving.py CRATE COMMAND..

It ends as the command does, and then shows what the command printed last, where that failed. What it tells is taken from what the command prints, and from
crates.txt, which says which crates there are. A crate whose proof was kept is not proved again, and has no line; it counts as left until one that stands
on it is proved.
"""
import collections
import os
import re
import shutil
import subprocess
import sys
import time

TOP = os.path.dirname(os.path.dirname(os.path.dirname(os.path.abspath(__file__))))
# How the command tells of what it has proved in a crate, and then of the crate, in two lines: which one, and how many functions.
PART = re.compile(r"(?:fn|struct|enum|trait|impl|const) (\w+)::.*: proved$")
CRATE = re.compile(r"crate (\w+): ")
PROVED = re.compile(r"logic=proved functions=(\d+)")
# What else is told: that it waits, and how it goes about it.
ASIDE = re.compile(r"rt: (?:waiting|chose|building) .*")
SHOWN = 40


def uses():
    """The libraries of each crate, by its name."""
    found = {}
    with open(os.path.join(TOP, "crates.txt"), encoding="utf-8") as rows:
        for row in rows:
            head, _, libraries = row.partition("#")[0].partition(":")
            if head.strip():
                found[head.split()[0]] = libraries.split()
    return found


def at_or_below(crate):
    """The crate, and all crates of the repository that it stands on."""
    libraries = uses()
    found, waiting = set(), [crate]
    while waiting:
        name = waiting.pop()
        if name in libraries and name not in found:
            found.add(name)
            waiting += libraries[name]
    return found


def minutes(seconds):
    return f"{seconds // 60:.0f}:{seconds % 60:02.0f}"


def tell(line):
    print(line, flush=True)


def counted(count, word):
    return f"{count} {word}{'' if count == 1 else 's'}"


def follow(lines, waited_for):
    """Tells of each crate as it is proved, and returns the last lines that were read."""
    began, last, begun, name = time.monotonic(), collections.deque(maxlen=SHOWN), set(), None
    for line in lines:
        last.append(line)
        part, found, proved = PART.match(line), CRATE.match(line), PROVED.match(line)
        name = found[1] if found else name
        if ASIDE.match(line):
            tell(line.rstrip())
        if part and part[1] in waited_for and part[1] not in begun:
            begun.add(part[1])
            tell(f"proving {part[1]}")
        if proved and name in waited_for:
            # What it stands on was proved before it, now or by an earlier run.
            waited_for -= at_or_below(name)
            after = minutes(time.monotonic() - began)
            tell(f"proved {name}, {counted(int(proved[1]), 'function')}, after {after}; {counted(len(waited_for), 'crate')} left")
    return last


def main():
    crate, command = sys.argv[1], sys.argv[2:]
    if not shutil.which(command[0]):
        return f"there is no `{command[0]}` on PATH: {crate} is proved and built by that of the toolchain"
    waited_for = at_or_below(crate)
    tell(f"{' '.join(command)} proves {crate} and the crates below it, {len(waited_for)} in all, as far as no earlier run has; this may take an hour")
    running = subprocess.Popen(command, stdout=subprocess.PIPE, stderr=subprocess.STDOUT, text=True, errors="replace")
    try:
        last = follow(running.stdout, waited_for)
    except KeyboardInterrupt:
        last = []
    status = running.wait()
    if status:
        sys.stdout.write("".join(last))
    tell(f"{crate} is {'not ' if status else ''}built")
    return status


if __name__ == "__main__":
    sys.exit(main())
