"""Reads the entries of docs/MESSAGES.md, for the tools that write or check something by them.

An entry is an anchor, the message's line, its rule, and what Scintilla does otherwise, if anything, with an empty line between each two:

    <a id="sci_getlinevisible"></a>
    **`SCI_GETLINEVISIBLE(line line) → bool`** 2228, Q N, [example](../examples/messages/hidden_lines.sci)

    Returns whether line `line` is visible; false if there is no such line.

    *Scintilla:* true if there is no such line.

From the first entry of a section to the next heading there is nothing else. What has another form ends the program, with the line at which it stands.
"""
import os
import re
import sys
from dataclasses import dataclass

TOP = os.path.dirname(os.path.dirname(os.path.dirname(os.path.abspath(__file__))))
PAGE = "docs/MESSAGES.md"
ANCHOR = re.compile(r'<a id="sci_([a-z]+)"></a>')
LINE = re.compile(
    r"\*\*`SCI_(?P<name>[A-Z]+)(?:\((?P<parameters>[^()]+)\))?(?: → (?P<answer>[a-z, ]+))?`\*\* (?P<number>\d{4})"
    r"(?:, (?P<marks>[QNER](?: [NER])*))?, \[example\]\(\.\./examples/messages/(?P<example>\w+)\.sci\)"
)
PARAMETER = re.compile(r"(position|line|int|bool|document|const char)(?: | \*)([a-z]+[A-Za-z]*)")
TEXT = "const char"
UNUSED = "<unused>"
BESIDE = "*Scintilla:* "
ANSWERS = ("", "position", "line", "int", "bool", "document", "position, text")


@dataclass
class Entry:
    """A message as the page has it."""

    name: str  # in capitals, without SCI_
    number: int
    marks: str  # those of the definitions, as "Q N"
    parameters: dict  # the type and the name in each place: "w", "l" or "T"
    answer: str  # the type of the value, "position, text" with a text, or nothing
    example: str  # the name of a script
    rule: str
    beside: str  # what Scintilla does otherwise


def is_heading(block):
    return block.startswith("#")


def blocks(text):
    """What empty lines divide, each with the number of its first line."""
    found = []
    for at, line in enumerate(text.split("\n"), 1):
        if not line:
            found.append((at + 1, []))
        elif found:
            found[-1][1].append(line)
        else:
            found.append((at, [line]))
    return [(at, "\n".join(lines)) for at, lines in found if lines]


def fail(at, what):
    sys.exit(f"{PAGE}:{at}: {what}")


def parameters(at, listed):
    """The parameters in their places: w, l, and T for a text, which is the message's text wherever it stands."""
    found = {}
    for place, part in zip(("w", "l", "more"), listed.split(", ") if listed else []):
        if part == UNUSED:
            continue
        spelled = PARAMETER.fullmatch(part)
        if not spelled or place == "more":
            fail(at, f"no parameter of a message: {part}")
        found["T" if spelled[1] == TEXT else place] = spelled.groups()
    if len({name for _, name in found.values()}) != len(found):
        fail(at, f"two parameters have one name: {listed}")
    return found


def entry(at, head, rule, beside):
    anchor, _, line = head.partition("\n")
    spelled = LINE.fullmatch(line)
    if not ANCHOR.fullmatch(anchor) or not spelled:
        fail(at, f"no line of a message: {line or anchor}")
    if ANCHOR.fullmatch(anchor)[1] != spelled["name"].lower():
        fail(at, f"the anchor of {spelled['name']} is that of another message")
    answer, marks = spelled["answer"] or "", spelled["marks"] or ""
    if answer not in ANSWERS:
        fail(at, f"no answer of a message: {answer}")
    found = parameters(at, spelled["parameters"])
    unknown = {word for word in re.findall(r"`([a-z]+[A-Za-z]*)`", rule)} - {name for _, name in found.values()}
    if unknown:
        fail(at, f"{spelled['name']} has no parameter {', '.join(sorted(unknown))}")
    if not rule.endswith("."):
        fail(at, f"the rule of {spelled['name']} is no sentence")
    return Entry(spelled["name"], int(spelled["number"]), marks, found, answer, spelled["example"], rule, beside)


def entries():
    """All entries, in the order of the page."""
    with open(os.path.join(TOP, PAGE), encoding="utf-8") as file:
        left = blocks(file.read())
    found, inside = [], False
    while left:
        at, block = left.pop(0)
        if is_heading(block):
            inside = False
        elif block.startswith("<a ") or "**`SCI_" in block:
            inside = True
            if not left or is_heading(left[0][1]) or left[0][1].startswith(("<a ", "*")):
                fail(at, "a message without a rule")
            rule = " ".join(left.pop(0)[1].split("\n"))
            beside = " ".join(left.pop(0)[1].split("\n"))[len(BESIDE):] if left and left[0][1].startswith(BESIDE) else ""
            found.append(entry(at, block, rule, beside))
        elif inside:
            fail(at, f"neither a message nor a heading: {block.partition(chr(10))[0]}")
    names = [it.name for it in found]
    twice = {name for name in names if names.count(name) > 1}
    if twice:
        sys.exit(f"{PAGE} has several entries of {', '.join(sorted(twice))}")
    return found


def first_sentence(rule):
    """The first sentence of a rule."""
    return rule.split(". ")[0].rstrip(".") + "."
