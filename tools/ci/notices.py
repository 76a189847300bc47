#!/usr/bin/env python3
"""Checks that each library of the toolchain that is compiled in has its notice, and no other one.

    tools/ci/notices.py --check     names what has none, and ends with status 1 where there is any

crates.txt says what the library for C and the program use. The notices of the first stand in LICENSE-THIRD-PARTY, those that the program has beside them in
c/packaging/LICENSE-THIRD-PARTY-PROGRAM; SECURITY.md has a row for each. The toolchain's own libraries have none: core, and what begins with std.
"""
import os
import re
import sys

TOP = os.path.dirname(os.path.dirname(os.path.dirname(os.path.abspath(__file__))))
# A name, and those that are named behind it.
NAMED = re.compile(r"^  ([a-z]\w*)(?:, with (\w+(?: and \w+)*))? \(", re.M)
OWN = re.compile(r"core$|std")
# What clap is made of.
PARTS = {"clap": {"clap_lex", "strsim"}}


def read(path):
    with open(os.path.join(TOP, path), encoding="utf-8") as file:
        return file.read()


def crates():
    """What each crate of the repository uses."""
    rows = (row.partition("#")[0].partition(":") for row in read("crates.txt").splitlines())
    return {head.split()[0]: used.split() for head, _, used in rows if head.strip()}


def compiled_in(name, uses):
    """The libraries of others below a crate."""
    below, left = set(), [name]
    while left:
        for used in uses[left.pop()]:
            if used not in below:
                below.add(used)
                left += [used] if used in uses else []
    ports = {it for it in below if it not in uses and not OWN.match(it)}
    return ports.union(*(PARTS.get(port, set()) for port in ports))


def noticed(path):
    return {name for row in NAMED.findall(read(path)) for name in (row[0], *row[1].split(" and ")) if name}


def faults():
    uses, library = crates(), noticed("LICENSE-THIRD-PARTY")
    for crate, names in (("hongpilas_c", library), ("sci_console", library | noticed("c/packaging/LICENSE-THIRD-PARTY-PROGRAM"))):
        ports = compiled_in(crate, uses)
        yield from (f"{crate} has {name} in it, which has no notice" for name in sorted(ports - names))
        yield from (f"{crate} does not have {name} in it, which has a notice" for name in sorted(names - ports))
        yield from (f"SECURITY.md does not name {name}" for name in sorted(ports) if f"`{name}`" not in read("SECURITY.md"))


def main():
    wrong = list(faults())
    print("\n".join(wrong) or "what is compiled in has its notices")
    sys.exit(bool(wrong))


main()
