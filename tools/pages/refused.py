#!/usr/bin/env python3
"""Prints which clauses refuse each mutant of the crates, from crates/*/must-fail and tools/data/mutants.txt.

    tools/pages/refused.py [CRATE..]    prints a table for each of these crates, or for all: the mutants by the function in which they stand
    tools/pages/refused.py --check      ends with status 1 where tools/data/mutants.txt names no mutant or one that was not refused, or where CI does
                                        not try a mutant of the first table of docs/WRONG_BODIES.md; a note names the mutants without a verdict there, which
                                        are tried before a release

`tools/ci/wrong_bodies --record` writes tools/data/mutants.txt, whose head says what its lines mean. A line `does: WORDS` in a mutant's block says
what it does, where its name does not: it stands behind the name."""
import importlib.machinery
import importlib.util
import os
import re
import sys

TOP = os.path.dirname(os.path.dirname(os.path.dirname(os.path.abspath(__file__))))
PAGE, FILE = "docs/WRONG_BODIES.md", "tools/data/mutants.txt"
FIRST = "The first to be asked for"
# Bodies that this table names: a crate, and names behind it; and what a block says of its body.
NAMED = re.compile(r"`(\w+)`: ((?:`\w+`(?!:)(?:[,;] )?)+)")
DOES = re.compile(r"^does: (.*)$", re.M)
# What stands for no clause by its name.
WORDS = {
    "invariant": "the type's invariant",
    "loop": "the loop's invariant",
    "uncovered": "the borrow checker, which does not cover it",
}


def read(path):
    with open(f"{TOP}/{path}", encoding="utf-8") as file:
        return file.read()


def wrong_bodies():
    """The module that tries wrong bodies: it knows how a body is read, and in which function it stands."""
    sys.dont_write_bytecode = True
    loader = importlib.machinery.SourceFileLoader("wrong_bodies", f"{TOP}/tools/ci/wrong_bodies")
    module = importlib.util.module_from_spec(importlib.util.spec_from_loader("wrong_bodies", loader))
    loader.exec_module(module)
    return module


def bodies():
    """Each wrong body, by crate and name: where it stands, what it does, and whether CI tries it."""
    module, found = wrong_bodies(), {}
    for crate in sorted(module.libraries()):
        source = module.Source(crate)
        by_gate = {it.name for it in module.bodies_of(crate, True, source)}
        told = words_of(crate, module.BLOCK)
        for body in module.bodies_of(crate, False, source):
            if body.fault:
                sys.exit(f"{crate}/{body.name}: {body.fault}")
            by_edit = os.path.exists(f"{TOP}/crates/{crate}/must-fail/{body.name}.edit")
            found[crate, body.name] = place_of(body), told.get(body.name, ""), body.name in by_gate or by_edit
    return found


def words_of(crate, block):
    """What the blocks of a crate's pages say of their bodies, by name."""
    pages = (f"crates/{crate}/must-fail/{it}.md" for it in ("rules", "more"))
    blocks = [it for page in pages if os.path.exists(f"{TOP}/{page}") for it in block.findall(read(page))]
    return {name: DOES.search(text)[1] for name, text in blocks if DOES.search(text)}


def place_of(body):
    """The functions in which a body stands, as a check names them; of one that stands in none, its files."""
    return " and ".join(f"`{it}`" for it in sorted(body.functions or {file for file, _, _ in body.swaps}))


def shown(clause):
    """A clause in words."""
    if clause in WORDS:
        return WORDS[clause]
    owner, _, name = clause.rpartition(".")
    of = {"": "", "loop": " of the loop", "invariant": " of the invariant"}.get(owner, f" of `{owner}`")
    return f"`{name}`{of}"


def table(found, tried, known):
    """A table for each crate, by function and name."""
    by_gate = sum(is_gate for _, _, is_gate in found.values())
    crates = sorted({crate for crate, _ in found})
    count = f"{len(found):,} mutants in {len(crates)} crates. CI tries {by_gate}, which are marked"
    lines = [f"{count}. What refuses one is known of {len(known.keys() & found.keys()):,}."]
    for crate in crates:
        rows = sorted((place, name, told, is_gate) for (of, name), (place, told, is_gate) in found.items() if of == crate)
        when = ", all tried at {} on {}".format(*tried[crate]) if crate in tried else ""
        lines += ["", f"### `{crate}`: {len(rows)}{when}", "", "| Name | Function | Refused by | CI |", "|---|---|---|---|"]
        for place, name, told, is_gate in rows:
            refused = ", ".join(shown(it) for it in known.get((crate, name), ()))
            cells = (f"`{name}`" + f": {told}" * bool(told), place, refused, "CI" * is_gate)
            lines.append("".join(f"| {cell} " if cell else "| " for cell in cells) + "|")
    return "\n".join(lines)


def first_bodies():
    """The bodies that the page's first table names, by crate and name."""
    section = re.search(rf"^## {FIRST}\n(.*?)^## ", read(PAGE), re.M | re.S)
    if not section:
        sys.exit(f"{PAGE} has no section {FIRST}")
    return {(crate, name) for crate, names in NAMED.findall(section[1]) for name in re.findall(r"\w+", names)}


def faults(found, known):
    by_gate = {it for it, (_, _, is_gate) in found.items() if is_gate}
    yield from (f"{PAGE}: CI does not try {'/'.join(it)}, of its first table" for it in sorted(first_bodies() - by_gate))
    yield from (f"{FILE}: there is no {'/'.join(it)}" for it in sorted(known.keys() - found.keys()))
    yield from (f"{FILE}: {'/'.join(it)} was not refused" for it, words in sorted(known.items()) if words == ["NOT", "REFUSED"])


def print_unrecorded(found, known):
    """A note: the mutants that nobody has recorded a verdict of."""
    names = ["/".join(it) for it in sorted(found.keys() - known.keys())]
    if names:
        print(f"{FILE} has no verdict yet of {len(names)} mutants (a note, and no fault): {', '.join(names)}")


def main(arguments):
    found, (tried, known) = bodies(), wrong_bodies().recorded()
    crates = {crate for crate, _ in found}
    if arguments != ["--check"]:
        if not crates.issuperset(arguments):
            sys.exit(__doc__)
        print(table({it: told for it, told in found.items() if it[0] in (arguments or crates)}, tried, known))
        return 0
    print_unrecorded(found, known)
    wrong = list(faults(found, known))
    print("\n".join(wrong) or f"{FILE} is of {len(found):,} mutants")
    return 1 if wrong else 0


if __name__ == "__main__":
    sys.exit(main(sys.argv[1:]))
