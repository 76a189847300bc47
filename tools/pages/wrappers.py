#!/usr/bin/env python3
"""Writes the methods of all messages, the constants, Rust's declarations of the calls and the version into the wrappers for C++, Rust and Python,
and what tests of the library for C go through (the questions, and what is drawn of each message beside Scintilla, by drawn.py).

A message's name and number come from the definitions (crates/ed_types), its arguments, its answer and its rule from its entry in docs/MESSAGES.md.
Run it at the top of the repository after a message, an entry or a constant has changed. With --check it writes nothing, and fails where a wrapper is not
what it would write, where a refusal of the crates has no place in a wrapper, or where an entry has a form that it cannot read.
"""
import functools
import os
import re
import sys
import textwrap
from dataclasses import dataclass

import drawn
import header
import message_page

BEGIN = "Written by tools/pages/wrappers.py: begin"
END = "Written by tools/pages/wrappers.py: end"
CPP = "include/hongpilas.hpp"
RUST = "bindings/rust/hongpilas/src/messages.rs"
RUST_CONSTANTS = "bindings/rust/hongpilas-sys/src/constants.rs"
RUST_CALLS = "bindings/rust/hongpilas-sys/src/calls.rs"
PYTHON = "bindings/python/src/hongpilas/_messages.py"
PYTHON_CONSTANTS = "bindings/python/src/hongpilas/constants.py"
QUESTIONS = "tests/model/questions.h"
BESIDE = "tests/beside/messages.c"
# How each language spells a refusal, a flag, and that a call is refused.
SPELLED = {
    "C++": (lambda name: f"`Refusal::{name}`", "false", "Refused with"),
    "Rust": (lambda name: f"[`Refusal::{name}`]", "false", "Refused with"),
    "Python": (lambda name: f"`Refusal.{in_capitals(name)}`", "False", "Raises `Refused` with"),
}
# How entries spell the types of flags, of documents' ids and of texts.
FLAG, DOCUMENT, WITH_TEXT = "bool", "document", "position, text"
# What the value is called among the places of documents' ids, and the message that also takes none.
VALUE, TAKES_NO_DOCUMENT = "value", "SETDOCPOINTER"


def in_capitals(name):
    """A name in CamelCase as a constant: BadArgument is BAD_ARGUMENT."""
    return re.sub(r"(?<!^)(?=[A-Z])", "_", name).upper()


def in_snake_case(name):
    """A name in camelCase with an underscore between words."""
    return re.sub(r"(?<=[a-z])(?=[A-Z])|(?<=[A-Z])(?=[A-Z][a-z])", "_", name).lower()


@dataclass
class Message:
    """A message of the profile."""

    name: str  # in CamelCase, as Scintilla spells it
    spelled: str  # in capitals, as in SCI_GETLENGTH
    number: int
    changes: bool  # whether it can change something
    edits: bool  # whether it edits the text: the mark E
    arguments: list  # (place, name): w, l or T, and what it is called, in snake_case
    flags: set  # the places of flags
    documents: set  # the places of documents' ids, with VALUE among them
    answers: str  # "nothing", "number", "flag" or "text"
    rule: str  # as the page has it
    takes_length: bool  # whether w is the length of the text, which no method takes

    @property
    def snake(self):
        """The name with an underscore between words."""
        return in_snake_case(self.name.replace("EOLs", "Eols"))

    def kind(self, place):
        """How an argument is passed: as a text, a flag or a number."""
        return "text" if place == "T" else "flag" if place in self.flags else "number"

    def place(self, place):
        """The name of the argument in a place, or None."""
        return dict(self.arguments).get(place)

    def method(self, language):
        return self.name if language == "C++" else self.snake


def answer(entry):
    """What a method answers."""
    return {"": "nothing", FLAG: "flag", WITH_TEXT: "text"}.get(entry.answer, "number")


def message(entry, name):
    """The message of an entry, with its name in CamelCase."""
    takes_length = "T" in entry.parameters and "w" in entry.parameters and entry.parameters["w"][1] == "length"
    taken = {place: spelled for place, spelled in entry.parameters.items() if not (takes_length and place == "w")}
    arguments = [(place, in_snake_case(called)) for place, (_, called) in taken.items()]
    flags = {place for place, (kind, _) in taken.items() if kind == FLAG}
    documents = {place for place, kind in ((VALUE, entry.answer), *((place, kind) for place, (kind, _) in taken.items())) if kind == DOCUMENT}
    marks = entry.marks.split()
    return Message(name, entry.name, entry.number, "Q" not in marks, "E" in marks, arguments, flags, documents, answer(entry), entry.rule, takes_length)


def messages():
    """The messages of the table, by their numbers."""
    kinds = dict((spelled[4:], (name, int(number))) for spelled, name, number in
                 re.findall(r"/// `(SCI_\w+)`\n\s*(\w+) = (\d+),", header.read("crates/ed_types/src/kind.rt")))
    found = []
    for entry in message_page.entries():
        name, known = kinds.pop(entry.name)
        if known != entry.number:
            sys.exit(f"{entry.name} has several numbers: {entry.number} and {known}")
        found.append(message(entry, name.replace("Eol", "EOL")))
    if kinds:
        sys.exit(f"no entry in {message_page.PAGE}: {', '.join(kinds)}")
    for it in found:
        # A question is asked by a call that takes no text and replaces no reply; only such a call lends a text.
        if it.changes and it.answers in ("flag", "text") or not it.changes and (it.answers == "nothing" or it.place("T")):
            sys.exit(f"{it.spelled}: no wrapper has a method for such a message")
    return sorted(found, key=lambda it: it.number)


def sentences(message, methods, language):
    """A message's rule in the words of a language; `methods` has the method of each message."""
    refusal, no, refused = SPELLED[language]
    text = message.rule
    if message.takes_length:
        text = " ".join(sentence for sentence in re.split(r"(?<=\.) ", text) if "`length`" not in sentence)
    if language != "C++":
        text = re.sub(r"`([a-z]+[A-Z]\w*)`", lambda name: f"`{in_snake_case(name[1])}`", text)
    text = re.sub(r"\b[A-Z]{3,}\b", lambda word: f"`{methods[word[0]]}`" if word[0] in methods else word[0], text)
    if language == "Rust" and message.spelled == TAKES_NO_DOCUMENT:
        text = text.replace("if that is 0", "if that is `None`")
    text = re.sub(r"\b(?:BadArgument|NoSuchDocument|TooMany)\b", lambda name: refusal(name[0]), text)
    return re.sub(r"\bfalse\b", no, text).replace("Refused with", refused).replace("the value is", "the value, which `ask` returns, is")


def told(message, methods, language, width, before):
    """The comment of a method, in lines."""
    text = f"{sentences(message, methods, language)} Message: `SCI_{message.spelled}`."
    return textwrap.wrap(text, width, initial_indent=before, subsequent_indent=before, break_long_words=False, break_on_hyphens=False)


def methods_in(found, language):
    """What each message's method is called in a language."""
    return {it.spelled: it.method(language) for it in found}


CPP_TYPES = {"number": "std::int64_t", "flag": "bool", "text": "Text"}
# What a method answers, and the call that sends an edit and the one that asks a question.
CPP_ANSWERS = {
    "nothing": ("void", "as_done", None), "number": ("std::int64_t", "as_number", "ask_number"), "flag": ("bool", None, "ask_flag"),
    "text": ("std::string", None, "read_copy"),
}
CPP_COLUMNS = 160


def camel(name):
    """A name in camelCase."""
    head, *rest = name.split("_")
    return head + "".join(word.capitalize() for word in rest)


def cpp_method(message, name, kind, call, comment):
    taken = ", ".join(f"{CPP_TYPES[message.kind(place)]} {camel(called)}" for place, called in message.arguments)
    text = message.place("T")
    w = f"length_of({text})" if message.takes_length else camel(message.place("w") or "0")
    passed = [f"SCI_{message.spelled}", w, camel(message.place("l") or "0"), *([text] if text else [])]
    marks, const = ("", "") if message.changes else ("[[nodiscard]] ", " const")
    head, body = f"  {marks}Answer<{kind}> {name}({taken}){const} noexcept(nothrow) {{", f"return {call}({', '.join(passed)});"
    lines = [f"{head} {body} }}"] if len(head) + len(body) + 3 <= CPP_COLUMNS else [head, f"    {body}", "  }"]
    return [*comment, *lines]


def cpp(found):
    """The methods of BasicView."""
    lines, methods = [], methods_in(found, "C++")
    for message in found:
        kind, sent, asked = CPP_ANSWERS[message.answers]
        comment = told(message, methods, "C++", 118, "  /// ")
        lines += cpp_method(message, message.name, kind, sent if message.changes else asked, comment)
        if message.answers == "text":
            again = [f"  /// Like {message.name}, but lent, not copied: the text is valid until the next query that returns a text."]
            lines += cpp_method(message, message.name + "View", "std::string_view", "read_lent", again)
    return "".join(f"{line}\n" for line in lines)


RUST_TYPES = {"number": "i64", "flag": "bool", "text": "impl AsRef<[u8]>", "document": "DocumentId"}
# What a method answers, and the call that sends an edit and the one that asks a question.
RUST_ANSWERS = {
    "nothing": ("()", "as_done", None), "number": ("i64", "send", "ask"), "document": ("DocumentId", "as_document", "ask_document"),
    "flag": ("bool", None, "ask_flag"), "text": ("Vec<u8>", None, "read"),
}


def rust_kind(message, place):
    """The type of an argument."""
    if place not in message.documents:
        return RUST_TYPES[message.kind(place)]
    return "impl Into<Option<DocumentId>>" if message.spelled == TAKES_NO_DOCUMENT else RUST_TYPES[DOCUMENT]


def rust_number(message, place):
    """What is passed for w or l."""
    name = message.place(place)
    if place in message.documents:
        return f"{name}.into().map_or(0, i64::from)" if message.spelled == TAKES_NO_DOCUMENT else f"{name}.into()"
    return f"i64::from({name})" if place in message.flags else name or "0"


def rust_function(message, name, borrows, kind, call, comment):
    """A method with its comment."""
    taken = "".join(f", {called}: {rust_kind(message, place)}" for place, called in message.arguments)
    text = message.place("T")
    body = [f"let {text} = {text}.as_ref();"] if message.takes_length else []
    passed = [f"sys::SCI_{message.spelled}", f"length_of({text})" if message.takes_length else rust_number(message, "w"), rust_number(message, "l")]
    if message.changes:
        passed.append(text if message.takes_length else f"{text}.as_ref()" if text else "&[]")
    body += [f"self.{call}({', '.join(passed)})"]
    head = f"    pub fn {name}({borrows}{taken}) -> Result<{kind}, Refusal> {{"
    return [*comment, head, *(f"        {line}" for line in body), "    }", ""]


def rust_methods(message, methods):
    """The methods of a message: a question is asked of a View, all else is sent by a ViewMut, which lends texts, too."""
    answered = DOCUMENT if VALUE in message.documents else message.answers
    kind, sent, asked = RUST_ANSWERS[answered]
    comment = told(message, methods, "Rust", 96, "    /// ")
    yield message.changes, rust_function(message, message.snake, "&mut self" if message.changes else "&self", kind, sent if message.changes else asked, comment)
    if answered == "text":
        name = re.sub("^get_", "lend_", message.snake)
        again = [f"    /// Like [`{message.snake}`](View::{message.snake}), but lent, not copied: the text is valid until the next call."]
        yield True, rust_function(message, name, "&mut self", "&[u8]", "lend", again)


def rust(found, changes):
    """The methods of ViewMut or of View."""
    methods = methods_in(found, "Rust")
    lines = [line for message in found for is_of_mut, method in rust_methods(message, methods) if is_of_mut == changes for line in method]
    return "".join(f"{line}\n" for line in lines[:-1])


# What the comments of messages begin with, as in the header.
HEAD_OF_MESSAGES = "// Each begins with Q if the message is a query, and with the names of w and l, or of w and the text. 0 is an argument without a meaning.\n"
# How Rust spells the types of the header.
IN_RUST = {
    "uint8_t": "u8", "uint32_t": "u32", "uint64_t": "u64", "int64_t": "i64", "size_t": "usize", "bool": "bool", "void": "c_void", "char": "c_char",
}


def in_rust(place):
    """A parameter or field as Rust has it: `const uint8_t *text` is `text: *const u8`."""
    const, kind, stars, name = re.fullmatch(r"(const )?(\w+) (\**)(\w+)", place).groups()
    kind = IN_RUST.get(kind, kind)
    if stars:
        kind = "*mut " * (len(stars) - 1) + ("*const " if const else "*mut ") + kind
    return f"{name}: {kind}"


def rust_call(marks, answer, name, taken):
    """A call of the header as Rust declares it, on a line of its own where that fits."""
    places = [in_rust(place) for place in re.split(r",\s+", taken) if place != "void"]
    answered = "" if answer == "void " else f" -> {in_rust(answer + '_')[3:]}"
    line = f"    pub fn {name}({', '.join(places)}){answered};\n"
    if len(line) > 121:
        line = f"    pub fn {name}(\n" + "".join(f"        {place},\n" for place in places) + f"    ){answered};\n"
    return "    #[must_use]\n" * bool(marks) + line


def rust_struct(name, body):
    """A struct of the header, with the comments of its fields."""
    fields = re.findall(r"(?:(\w[\w ]*?) (\**)(\w+));(?: +/\* (.*?) \*/)?", body)
    lines = [f"    /// {comment[:1].upper()}{comment[1:]}.\n" * bool(comment) + f"    pub {in_rust(f'{kind} {stars}{field}')},\n" for kind, stars, field, comment in fields]
    return f"#[repr(C)]\n#[derive(Clone, Copy, Debug, PartialEq, Eq, Hash)]\npub struct {name} {{\n{''.join(lines)}}}\n"


def rust_calls():
    """What the header declares: answers, marks, structs and calls. The type of a session is written by hand: nothing is known of it."""
    text = header.read(header.HEADER)
    answers = re.findall(r"^  HONGPILAS_(\w+) = (\d+),? *(?:/\* (.*?) \*/)?$", text, re.M)
    lines = [f"pub const HONGPILAS_VERSION: u32 = {re.search(r'^#define HONGPILAS_VERSION (.*)$', text, re.M)[1]};\n\n"]
    for name, number, comment in answers:
        lines.append(f"/// {comment[:1].upper()}{comment[1:]}.\n" * bool(comment) + f"pub const HONGPILAS_{name}: hongpilas_answer = {number};\n")
    lines.append("\n")
    for name, number, comment in re.findall(r"^#define (HONGPILAS_MARK_\w) (\d)u /\* (.*?) \*/$", text, re.M):
        lines.append(f"/// The mark {name[-1]} of a message: {comment}.\npub const {name}: u32 = {number};\n")
    structs = re.findall(r"^typedef struct \w+ \{\n(.*?)^\} (\w+);", text, re.M | re.S)
    lines += ["\n" + rust_struct(name, body) for body, name in structs]
    limits = dict((name, body) for body, name in structs)["hongpilas_limits"]
    greatest = re.search(r"^#define HONGPILAS_GREATEST_LIMITS \{(.*)\}$", text, re.M)[1].split(", ")
    named = zip(re.findall(r"^  \w+ (\w+);", limits, re.M), greatest)
    lines.append("\n/// All limits at their greatest.\npub const HONGPILAS_GREATEST_LIMITS: hongpilas_limits = hongpilas_limits {\n")
    lines += [f"    {name}: {number},\n" for name, number in named]
    bare = re.sub(r"/\*.*?\*/", "", text, flags=re.S)
    calls = re.findall(r"^(HONGPILAS_MUST_USE )?((?:const )?\w+ \*?)(hongpilas_\w+)\(([^()]*)\);", bare, re.M)
    return "".join([*lines, "};\n\nextern \"C\" {\n", *(rust_call(*it) for it in calls), "}\n"])


PYTHON_TYPES = {"number": "int", "flag": "bool", "text": "Text"}
PYTHON_ANSWERS = {"nothing": ("None", "{}"), "number": ("int", "return {}"), "flag": ("bool", "return {} != 0"), "text": ("bytes", "return {}")}


def python_method(message, methods):
    taken = "".join(f", {called}: {PYTHON_TYPES[message.kind(place)]}" for place, called in message.arguments)
    kind, answered = PYTHON_ANSWERS[message.answers]
    text = message.place("T")
    w, l = (name or "0" for name in map(message.place, "wl"))
    passed = [f"constants.SCI_{message.spelled}", f"len({text})" if message.takes_length else w, l, *([text] if text else [])]
    while len(passed) > 1 and passed[-1] == "0":
        passed.pop()
    sent = "send" if message.changes else "read" if message.answers == "text" else "ask"
    body = [f"{text} = as_bytes({text})"] if message.takes_length else []
    body += [answered.format(f"self.{sent}({', '.join(passed)})")]
    comment = "\n".join(told(message, methods, "Python", 112, "        ")).lstrip()
    comment = f'"""{comment}"""' if "\n" not in comment else f'"""{comment}\n        """'
    return [f"    def {message.snake}(self{taken}) -> {kind}:", *f"        {comment}".split("\n"), *(f"        {line}" for line in body), ""]


def python(found):
    """The methods of Messages."""
    methods = methods_in(found, "Python")
    lines = [line for message in found for line in python_method(message, methods)]
    return "".join(f"{line}\n" for line in lines[:-1])


def constants(line):
    """All constants of the header, each as this line has it."""
    groups = (("Messages", header.messages()), ("Notes", header.notes()), ("Constants", header.constants()))
    return "\n".join(line(None, title, None) + "".join(line(name, None, spelled(number)) for name, number in pairs) for title, pairs in groups)


def spelled(number):
    """A constant as the header spells it: a bit or a mask in hexadecimal digits."""
    return str(number) if number < 10 or 2000 <= number < 5000 else f"0x{number:X}"


@functools.lru_cache(maxsize=None)
def told_of_constants():
    """What docs/MESSAGES.md says in one line of messages, notifications and kinds of SCN_MODIFIED, by their constants."""
    page = header.read(message_page.PAGE)
    lines = [(f"SCI_{entry.name}", header.brief(entry)) for entry in message_page.entries()]
    lines += [(name, f"Sent to {views}.") for name, views in re.findall(r"^\| \d+ \| (SCN_\w+) \| ([^|]+) \|", page, re.M)]
    lines += [(name, f"A kind of SCN_MODIFIED: {what}.") for what, name in re.findall(r"^\| ([^|]+) \| `(SC_MOD_\w+)` ", page, re.M)]
    return dict(lines)


def rust_constant(name, title, number):
    """The number of a message or a note has the type of such numbers; all else has that of arguments."""
    if title:
        return f"// {title}.\n" + HEAD_OF_MESSAGES * (title == "Messages")
    told_of = told_of_constants().get(name)
    kind = "u32" if name.startswith(("SCI_", "SCN_")) else "i64"
    return f"/// {told_of}\n" * bool(told_of) + f"pub const {name}: {kind} = {number};\n"


# The enumerations of Python: a name, its base, what it is, and the constants that it has, with a group that is the member's name.
PYTHON_ENUMS = (
    ("Notification", "OpenEnum", "The code of a notification.", r"SCN_(\w+)"),
    ("Modification", "enum.IntFlag", "The kind of a notification SCN_MODIFIED, and masks of such kinds.",
     r"SC_(?:MOD_)?((?:BEFORE|CHANGE|INSERT|DELETE|MULTI|LASTSTEP|PERFORMED_|STARTACTION|CONTAINER)\w*)"),
    ("EndOfLine", "OpenEnum", "A mode of line ends.", r"SC_EOL_(\w+)"),
    ("LineEndType", "enum.IntFlag", "Types of line ends beside CR, LF and CRLF.", r"SC_LINE_END_TYPE_(\w+)"),
    ("Find", "enum.IntFlag", "Flags of a search.", r"SCFIND_(\w+)"),
    ("FoldLevel", "enum.IntFlag", "Parts of a fold level.", r"SC_FOLDLEVEL(\w+)"),
    ("FoldAction", "OpenEnum", "What becomes of a fold.", r"SC_FOLDACTION_(\w+)"),
    ("DocumentOption", "enum.IntFlag", "Options of a new document.", r"SC_DOCUMENTOPTION_(\w+)"),
    ("UndoFlag", "enum.IntFlag", "Flags of a container's own undo step.", r"UNDO_(\w+)"),
)


def python_member(name):
    """The enumeration and the member that a constant is, or None."""
    found = ((of, re.fullmatch(pattern, name)) for of, _, _, pattern in PYTHON_ENUMS)
    return next(((of, match[1]) for of, match in found if match), None)


def python_enums():
    """The enumerations, with their members by their numbers, those of flags in hexadecimal digits."""
    members = sorted((number, *python_member(name)) for name, number in [*header.notes(), *header.constants()] if python_member(name))
    blocks = []
    for of, base, doc, _ in PYTHON_ENUMS:
        form = "0x{:X}" if base == "enum.IntFlag" else "{}"
        lines = "".join(f"    {name} = {form.format(number)}\n" for number, enumeration, name in members if enumeration == of)
        blocks.append(f'class {of}({base}):\n    """{doc}"""\n\n{lines}')
    return "\n\n".join(blocks) + "\n\n"


def python_constant(name, title, number):
    member = None if title else python_member(name)
    return f"# {title}.\n" if title else f"{name} = {'.'.join(member) if member else number}\n"


# What a trial passes: a number in each place, and a text.
PASSED = {"w": "11", "l": "12", "T": '"ab"'}


# What a question is asked of, by the names of its arguments.
ASKED_OF = {
    "line": "LINES", "display_line": "LINES", "position": "POSITIONS", "start": "POSITIONS", "end": "POSITIONS", "handle": "HANDLES",
    "number": "INDICATORS", "mask": "MASKS", "level": "LEVELS",
}


def questions(found):
    """The messages that change nothing, in two lists: those that answer a number, and those that answer a text."""
    lists = []
    for title, is_text in (("NUMBER_QUESTIONS", False), ("TEXT_QUESTIONS", True)):
        asked = [it for it in found if not it.changes and (it.answers == "text") == is_text]
        rows = (", ".join([it.spelled, *(ASKED_OF[it.place(place)] if it.place(place) else "NOTHING" for place in "wl")]) for it in asked)
        lists.append(f"#define {title}(ROW) \\\n" + " \\\n".join(f"  ROW({row})" for row in rows) + "\n")
    return "\n".join(lists)


def call(message, name, on, document="{}"):
    """A method's call in a trial, where a flag is on, with a document's id as it is spelled."""
    passed = [on if place in message.flags else (document if place in message.documents else "{}").format(PASSED[place]) for place, _ in message.arguments]
    return f"{name}({', '.join(passed)})"


def expected():
    """What a trial of all methods sends, from the entries of the page alone, by their numbers: a question is asked, or read if it returns a text."""
    for entry in sorted(message_page.entries(), key=lambda it: it.number):
        kinds = {place: kind for place, (kind, _) in entry.parameters.items()}
        w, l = ("0" if place not in kinds else "1" if kinds[place] == FLAG else PASSED[place] for place in "wl")
        w = "2" if "T" in kinds and entry.parameters.get("w") == ("position", "length") else w
        if "Q" in entry.marks.split():
            yield f"1: {'read' if entry.answer == WITH_TEXT else 'ask'} {entry.number} {w} {l}"
        else:
            yield f"""1: send {entry.number} {w} {l} {PASSED["T"] if "T" in kinds else '""'}"""
    yield "given back"


def files(found):
    """What stands between the marks of each file, by their titles."""
    yield CPP, {"": cpp(found)}
    yield RUST, {" questions": rust(found, False), " messages": rust(found, True)}
    yield RUST_CONSTANTS, {"": constants(rust_constant)}
    yield RUST_CALLS, {"": rust_calls()}
    yield PYTHON, {"": python(found)}
    yield PYTHON_CONSTANTS, {" enumerations": python_enums(), "": constants(python_constant)}
    yield QUESTIONS, {"": questions(found)}
    yield BESIDE, {"": drawn.rows(found)}
    # What a question returns is to be used.
    yield "bindings/cpp/calls.cpp", {"": "".join(f"  {'' if it.changes else 'ignore = '}view.{call(it, it.name, 'true')};\n" for it in found)}
    yield "bindings/rust/hongpilas/examples/calls.rs", {"": "".join(f"    view.{call(it, it.snake, 'true', 'DocumentId::from({})')}?;\n" for it in found)}
    yield "bindings/python/calls.py", {"": "".join(f"    view.{call(it, it.snake, 'True')}\n" for it in found)}


def written(path, texts):
    """A file with each text between its marks, which stand in comments of their own lines, with the text's title at their ends."""
    lines = header.read(path).splitlines(True)
    for title, text in texts.items():
        begin, end = (next(at for at, line in enumerate(lines) if line.endswith(f"{mark}{title}\n")) for mark in (BEGIN, END))
        lines = [*lines[: begin + 1], *text.splitlines(True), *lines[end:]]
    return "".join(lines)


def versions():
    """The files that name a version, with that of the header: its number is the major one times 1000, and the minor one."""
    major, minor = divmod(int(re.search(r"^#define HONGPILAS_VERSION (\d+)$", header.read("include/hongpilas.h"), re.M)[1]), 1000)
    full = f"{major}.{minor}.0"
    for path, line, version in (
        ("bindings/python/pyproject.toml", 'version = "%s"', full), ("bindings/python/src/hongpilas/__init__.py", '__version__ = "%s"', full),
        ("bindings/python/src/hongpilas/_library.py", "MAJOR = %s", major), ("bindings/rust/Cargo.toml", 'version = "%s"', full),
        ("bindings/rust/Cargo.lock", 'version = "%s"', full), ("bindings/rust/hongpilas/Cargo.toml", 'hongpilas-sys = { path = "../hongpilas-sys", version = "%s"', major),
    ):
        before, after = map(re.escape, line.split("%s"))
        yield path, re.sub(rf"^{before}[\d.]+{after}", line % version, header.read(path), flags=re.M)


def faults():
    """Where a hand-written part is not that of the crates: refusals without a place in a wrapper."""
    named = re.findall(r"^    (\w+) = (\d+),", header.read("crates/ed_types/src/refusal.rt"), re.M)
    for path, form in ((CPP, "  {name} = HONGPILAS_{capitals}"), ("bindings/rust/hongpilas/src/refusal.rs", "    {name} => HONGPILAS_{capitals},"),
                       ("bindings/python/src/hongpilas/_library.py", "    {capitals} = {number}\n")):
        text = header.read(path)
        for name, number in named:
            if form.format(name=name, number=number, capitals=in_capitals(name)) not in text:
                yield f"{path} has no refusal {name} = {number}"


def main():
    if "--calls" in sys.argv[1:]:
        print("\n".join(expected()))
        return
    found = messages()
    wrong = []
    for path, new in [*((path, written(path, texts)) for path, texts in files(found)), *versions()]:
        # What is as it should be is left alone, or `make` would prove the crate with the definitions again.
        if header.read(path) == new:
            continue
        if "--check" in sys.argv[1:]:
            wrong.append(f"{path}: run tools/pages/wrappers.py")
            continue
        with open(os.path.join(header.TOP, path), "w", encoding="utf-8") as file:
            file.write(new)
    wrong += faults()
    print("\n".join(wrong) or f"the wrappers for C++, Rust and Python are what they should be: {len(found)} messages")
    sys.exit(bool(wrong))


if __name__ == "__main__":
    main()
