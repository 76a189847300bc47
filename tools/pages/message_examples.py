#!/usr/bin/env python3
"""Checks docs/MESSAGES.md: each message of the table in crates/ed_types has an entry with its name, number and marks, and the script that an entry links
sends its message. The page has the refusals of ed_types with their numbers, and names no refusal, message, notification or place in itself that is not
there.

Run it at the top of the repository or anywhere in it. It writes nothing, with or without --check, and ends with status 1 where an entry is wrong; what it
then prints also names a script that sends the message.
"""
import os
import re
import sys

import header
import message_page

TOP = message_page.TOP
EXAMPLES = os.path.join("examples", "messages")
# Words of the page in capitals that are no messages, beside the names of pages.
WORDS = {"ASCII", "EXTEND"}


def read(*path):
    with open(os.path.join(TOP, *path), encoding="utf-8") as file:
        return file.read()


def marks():
    """The letters that each name of a row's marks stands for."""
    found = re.findall(r"^(\w+) = marks (true|false) (true|false) (true|false) (true|false)$", read("crates", "ed_types", "specs", "Messages.antt"), re.M)
    return {name: " ".join(letter for letter, is_set in zip("QNER", columns) if is_set == "true") for name, *columns in found}


def table():
    """The messages of the table in the definitions: number, name and marks."""
    row = r"row_of kinds\.\w+ = row (\d+) (\w+) +-- (\w+)"
    letters = marks()
    found = re.findall(row, read("crates", "ed_types", "specs", "Messages.antt"))
    return [(int(number), name, letters[marked]) for number, marked, name in found]


def scripts():
    """For each message's number the scripts that send it, those first in which it is done."""
    found = {}
    for file in sorted(os.listdir(os.path.join(TOP, EXAMPLES))):
        if not file.endswith(".sci"):
            continue
        commands = read(EXAMPLES, file).splitlines()[1:]
        printed = [line for line in read(EXAMPLES, file[:-4] + ".out").splitlines() if not line.startswith("@")]
        for command, outcome in zip(commands, printed):
            words = command.split(" ")
            if words[0] == "send":
                found.setdefault(int(words[2]), []).append((outcome.startswith("!"), file[:-4]))
    return {number: list(dict.fromkeys(name for _, name in sorted(names))) for number, names in found.items()}


def faults():
    entries = {entry.name: entry for entry in message_page.entries()}
    rows, sent = table(), scripts()
    yield from (f"{message_page.PAGE}: there is no message {name}" for name in sorted(set(entries) - {name for _, name, _ in rows}))
    for number, name, letters in rows:
        entry = entries.get(name)
        if entry is None:
            yield f"{message_page.PAGE}: no entry of {name}, {number}"
        elif (entry.number, entry.marks) != (number, letters):
            yield f"{message_page.PAGE}: {name} is {number}, {letters}, and not {entry.number}, {entry.marks}"
        elif entry.example not in sent.get(number, []):
            yield f"{message_page.PAGE}: the example of {name} does not send it; these do: {', '.join(sent.get(number, [])) or 'none'}"


def names_faults():
    """Where the page names what is not there, in its prose, or has other refusals than the code."""
    page = read(message_page.PAGE)
    refusals = set(re.findall(r"^    (\w+) = (\d+),", read("crates", "ed_types", "src", "refusal.rt"), re.M))
    listed = {(name, number) for name, number in re.findall(r"^\| \d \| (\w+) \| (\d+) \|", page, re.M)}
    yield from (f"{message_page.PAGE}: {name} = {number} is not on both sides" for name, number in sorted(refusals ^ listed))
    known = {name for name, _ in refusals}
    refused = {name for names in re.findall(r"[Rr]efused with ([A-Z]\w+)|and with ([A-Z]\w+)", page) for name in names if name}
    yield from (f"{message_page.PAGE}: there is no refusal {name}" for name in sorted(refused - known))
    places = set(re.findall(r'<a id="(\w+)">', page)) | {re.sub(r"[^\w-]", "", it.lower().replace(" ", "-")) for it in re.findall(r"^#+ (.*)$", page, re.M)}
    yield from (f"{message_page.PAGE}: a link leads to #{place}, which is not there" for place in sorted(set(re.findall(r"\]\(#([^)]*)\)", page)) - places))
    notes = {name for name, _ in header.notes()}
    yield from (f"{message_page.PAGE}: there is no notification {name}" for name in sorted(set(re.findall(r"\bSCN_\w+", page)) - notes))
    messages = {name for _, name, _ in table()} | WORDS
    named = set(re.findall(r"(?<![\w`./-])(?:SCI_)?([A-Z]{5,})(?![\w.])", re.sub(r"`[^`]*`", "", page)))
    yield from (f"{message_page.PAGE}: there is no message {name}" for name in sorted(named - messages))


def main():
    found = [*faults(), *names_faults()]
    print("\n".join(found) or f"{message_page.PAGE} has the messages of the definitions, each with a script that sends it")
    sys.exit(bool(found))


main()
