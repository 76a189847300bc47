#!/usr/bin/env python3
"""Writes docs/PROVED.md: links to the README of each crate, which says what is proved of it, in the order of the layers, the lowest first.

Run it anywhere in the repository; `tools/pages/proved.py FILE` writes another file. The order is that of the picture of docs/ARCHITECTURE.md,
from its last line up. With --check it writes nothing, and ends with status 1 where the page is not what it would write, where a README has
not the sections that each has to have, or where the picture does not have each crate once, above all crates that it uses.
"""
import os
import re
import sys

TOP = os.path.dirname(os.path.dirname(os.path.dirname(os.path.abspath(__file__))))
PAGE = "docs/PROVED.md"
PICTURE = re.compile(r"^## Layers\n.*?^```text\n(.*?)^```$", re.M | re.S)
SEES, PROVED, TESTED, TRUSTED, USES = "What a contract sees", "What is proved", "What is only tested", "What is trusted", "Uses"
SHAPES = ([SEES, PROVED, TESTED, USES], [SEES, PROVED, TESTED, TRUSTED, USES])
HEAD = """# What is proved, crate by crate

[`PROMISES.md`](PROMISES.md) has the short form; the exact statements are in these pages, from the lowest layer up:
"""


def read(path):
    with open(os.path.join(TOP, path), encoding="utf-8") as file:
        return file.read()


def crates():
    """Each crate with the libraries that it uses."""
    return {name: used.split() for name, used in re.findall(r"^(\w+)(?: \w+)?:(.*)$", read("crates.txt"), re.M)}


def lines_of_picture(uses):
    """The crates on each line of the picture that has some, the lowest line first."""
    picture = PICTURE.search(read("docs/ARCHITECTURE.md"))[1]
    named = ([word for word in re.findall(r"\w+", line) if word in uses] for line in reversed(picture.splitlines()))
    return [line for line in named if line]


def faults_of_picture(lines, uses):
    order = [name for line in lines for name in line]
    yield from (f"the picture has {name} {order.count(name)} times" for name in uses if order.count(name) != 1)
    height = {name: at for at, line in enumerate(lines) for name in line}
    for name, used in uses.items():
        yield from (f"the picture does not have {name} above {other}" for other in used if height.get(other, -1) >= height.get(name, 0))


def faults_of_shape(name):
    path = f"crates/{name}/README.md"
    if not os.path.exists(os.path.join(TOP, path)):
        yield f"{path}: there is none"
        return
    sections = re.findall(r"^## (.*)$", read(path), re.M)
    if sections not in SHAPES:
        yield f"{path} has other sections: {', '.join(sections)}"


def row(names):
    """The crates of a line of the picture, each with a link to its README."""
    return "- " + ", ".join(f"[`{name}`](../crates/{name}/README.md)" for name in names)


def main():
    words = [word for word in sys.argv[1:] if word != "--check"]
    page = words[0] if words else PAGE
    uses = crates()
    lines = lines_of_picture(uses)
    wrong = [*faults_of_picture(lines, uses), *(fault for name in uses for fault in faults_of_shape(name))]
    if wrong:
        sys.exit("\n".join(wrong))
    written = "\n".join([HEAD, *map(row, lines), ""])
    if "--check" in sys.argv[1:]:
        same = os.path.exists(os.path.join(TOP, page)) and read(page) == written
        print(f"{page} is what it should be: {len(uses)} crates" if same else f"{page}: run tools/pages/proved.py")
        sys.exit(not same)
    with open(os.path.join(TOP, page), "w", encoding="utf-8") as file:
        file.write(written)


main()
