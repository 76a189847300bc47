#!/usr/bin/env python3
"""Writes what hangs on the list of messages beside Scintilla's: scintilla_messages.py [SCINTILLA_H].

In c/scintilla_manners.h it writes the table that finds a message's way and marks by its number, from the ways above it and the definitions. Where
a Scintilla.h is named, it also writes docs/scintilla_left_out.txt, the list of Scintilla's messages that are not here.
With --check it writes nothing and needs no Scintilla.h: it fails where the table is not that of the rows and the definitions, or where the list names
a message of the definitions.
"""
import os
import re
import sys
import textwrap

import header

PAGE = "docs/scintilla_left_out.txt"
# Numbers at which groups of messages begin.
NO_MESSAGES = {"START", "OPTIONAL_START", "LEXER_START"}
HEAD = """Scintilla's messages that Hongpilas does not have, by name, without SCI_, from the Scintilla.h in Debian 12's geany-common. FROM_SCINTILLA.md says what to do
instead. Written by tools/pages/scintilla_messages.py.

"""
BY_INTERFACE = {"GETRANGEPOINTER", "GETSTATUS", "SETSTATUS"}

MANNERS = "c/scintilla_manners.h"
BEGIN = "/* Written by tools/pages/scintilla_messages.py: begin */\n"
END = "/* Written by tools/pages/scintilla_messages.py: end */\n"
WAY = re.compile(r"^  WAY_(\w+) = ", re.M)
# The marks that the interface asks for, with the names of their bits.
MARKS = {"Q": "QUERY", "E": "EDIT"}
# The query that the interface alone has.
LENT = "SCI_GETRANGEPOINTER"
# The table ends before groups of numbers that lie far behind the others.
FIRST, LAST = 2000, 2999
TABLE = f"""/* clang-format off */
/* The first entry is that of the message {FIRST}. An entry has the bits of the message's marks Q and E, and those of its way. A message behind
 * the last entry has none. */
enum {{ FIRST_MESSAGE = {FIRST} }};
static const uint16_t entries[] = {{
%s
}};
/* clang-format on */
"""


def names_here():
    return sorted(name.removeprefix("SCI_") for name, _ in header.messages())


def wrapped(names):
    return textwrap.fill(", ".join(names), 160, break_long_words=False) + "\n"


def numbers():
    """The number of each message of the definitions, and of those that the interface alone has."""
    own = re.findall(r"^#define (SCI_\w+) +(\d+)", header.read("include/hongpilas_scintilla.h"), re.M)
    return {**dict(header.messages()), **{name: int(number) for name, number in own}}


def entries(manners):
    """The words of each entry from the first on, up to the last that has any."""
    number_of, found = numbers(), {}
    for name, number, marks in (*header.rows(), (LENT, number_of[LENT], "Q")):
        found[number] = [MARKS[mark] for mark in MARKS if mark in marks]
    for name in WAY.findall(manners):
        found.setdefault(number_of["SCI_" + name], []).append("WAY_" + name)
    needed = {number: " | ".join(words) for number, words in found.items() if words}
    if not all(FIRST <= number <= LAST for number in needed):
        sys.exit(f"{MANNERS}: a message outside of {FIRST} to {LAST} has a way, or the mark Q or E: the table has to reach farther")
    return [needed.get(number, "0") for number in range(FIRST, max(needed) + 1)]


def written(manners):
    """The header with the table of its ways."""
    head, rest = manners.split(BEGIN)
    words = ", ".join(entries(head)).replace(" | ", "~") + ","  # an entry of several words stands in one line
    lines = textwrap.fill(words, 150, initial_indent="    ", subsequent_indent="    ", break_long_words=False).replace("~", " | ")
    return head + BEGIN + TABLE % lines + END + rest.split(END)[1]


def check(manners):
    told = set(re.findall(r"[A-Z]+", header.read(PAGE).removeprefix(HEAD))) & set(names_here())
    if told:
        sys.exit(f"{PAGE} has messages of the definitions: run tools/pages/scintilla_messages.py: {', '.join(sorted(told))}")
    if written(manners) != manners:
        sys.exit(f"{MANNERS}: the table is not that of its ways and of the definitions: run tools/pages/scintilla_messages.py")
    print(f"{PAGE} has no message of the definitions; the table of {MANNERS} is that of its ways")


def main():
    manners = header.read(MANNERS)
    if sys.argv[1:] == ["--check"]:
        check(manners)
        return
    if len(sys.argv) > 2:
        sys.exit(__doc__)
    changed = written(manners)
    with open(os.path.join(header.TOP, MANNERS), "w", encoding="utf-8") as file:
        file.write(changed)
    if len(sys.argv) == 1:
        return
    with open(sys.argv[1], encoding="utf-8") as file:
        theirs = set(re.findall(r"^#define SCI_(\w+) \d+$", file.read(), re.M)) - NO_MESSAGES
    missing = sorted(theirs - set(names_here()) - BY_INTERFACE)
    with open(os.path.join(header.TOP, PAGE), "w", encoding="utf-8") as file:
        file.write(HEAD + wrapped(missing))


if __name__ == "__main__":
    main()
