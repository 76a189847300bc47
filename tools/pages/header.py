#!/usr/bin/env python3
"""Writes Scintilla's names and numbers into include/hongpilas.h, names and marks into c/names.c, and the count of messages into README.md, from
the definitions.

Beside each message stand its mark Q, its parameters and what docs/MESSAGES.md says of it first.

SCI_ has its numbers from the rows of crates/ed_types/specs/Messages.antt; SCN_, SC_, SCFIND_ and UNDO_ have theirs from the definitions of
crates/ed_model/specs that DEFINED names, and what no definition reads from a constant of the code. Run it at the top of the repository after a
message or a constant was added. With --check it writes nothing, and fails where

- the header is not what it would write: a number in it is not that of the definitions, or a name is missing or too many;
- the enum `Kind` of ed_types has another message or number than the definitions;
- docs/MESSAGES.md names a constant or a note that DEFINED does not have, or the other way round, or with another number, or never with its number;
- its calls and structs, with their names and types, its refusals, its version or the greatest limits are not those of the crates;
- a call that tests its arguments is declared otherwise than c/checked.c or c/names.c has it, an unchecked form has no such call, or a
  call that takes a session as const has a contract that does not say that the session stays the same;
- the header and a page do not have the same sentence on threads, or README.md has another count of messages, or none.
"""
import os
import re
import sys
import textwrap

import message_page

TOP = os.path.dirname(os.path.dirname(os.path.dirname(os.path.abspath(__file__))))
HEADER = "include/hongpilas.h"
BEGIN = "/* Written by tools/pages/header.py: begin */\n"
END = "/* Written by tools/pages/header.py: end */\n"
CONSTANT = r"(?:SC|SCFIND|INDIC|UNDO)_?[A-Z0-9_]+"
NUMBER = r"(?P<number>0x[0-9A-Fa-f]+|\d+)"
# How many columns a line has at most.
WIDTH = 160
OF_MESSAGES = """/* Messages. A comment begins with Q if the message is a query, for hongpilas_ask and hongpilas_read, and with the names of w and l, or of w
 * and the text, as docs/MESSAGES.md has them. 0 is an argument without a meaning. */
"""
# What looks like a constant on the page, of whatever kind.
NAME = r"`((?!SCI_|SCN_)[A-Z][A-Z0-9]*_[A-Z0-9_]+)`"
# How the page names a constant, each with what its number means: before it, behind it, or as a count of low bits.
NAMINGS = (
    (rf"`(?P<name>{CONSTANT})` {NUMBER}\b", lambda number: int(number, 0)),
    (rf"{NUMBER} \(`(?P<name>{CONSTANT})`\)", lambda number: int(number, 0)),
    (rf"`(?P<name>{CONSTANT})`, its low {NUMBER} bits", lambda bits: (1 << int(bits)) - 1),
)
# Where definitions have the number of a constant: the words before it, which stand once in the file.
MODEL = "crates/ed_model/specs"
DEFINED = {
    f"{MODEL}/Notes.antt": {
        "SCN_STYLENEEDED": "style_needed =",
        "SCN_SAVEPOINTREACHED": "save_point_reached =",
        "SCN_SAVEPOINTLEFT": "save_point_left =",
        "SCN_MODIFYATTEMPTRO": "modify_attempt =",
        "SCN_MODIFIED": "modified =",
        "SCN_MACRORECORD": "macro_record =",
        "SC_MOD_INSERTTEXT": "insert_text =",
        "SC_MOD_DELETETEXT": "delete_text =",
        "SC_MOD_CHANGESTYLE": "change_style =",
        "SC_MOD_CHANGEFOLD": "change_fold =",
        "SC_PERFORMED_USER": "performed_user =",
        "SC_PERFORMED_UNDO": "performed_undo =",
        "SC_PERFORMED_REDO": "performed_redo =",
        "SC_MULTISTEPUNDOREDO": "multi_step =",
        "SC_LASTSTEPINUNDOREDO": "last_step =",
        "SC_MOD_CHANGEMARKER": "change_marker =",
        "SC_MOD_BEFOREINSERT": "before_insert =",
        "SC_MOD_BEFOREDELETE": "before_delete =",
        "SC_MULTILINEUNDOREDO": "multi_line =",
        "SC_STARTACTION": "start_action =",
        "SC_MOD_CHANGEINDICATOR": "change_indicator =",
        "SC_MOD_CHANGELINESTATE": "change_line_state =",
        "SC_MOD_CONTAINER": "container =",
    },
    f"{MODEL}/Matches.antt": {
        "SCFIND_WHOLEWORD": "whole_word =",
        "SCFIND_MATCHCASE": "match_case =",
        "SCFIND_WORDSTART": "word_start =",
    },
    f"{MODEL}/LinePlans.antt": {
        "SC_EOL_CRLF": "line_end_number CrLf =",
        "SC_EOL_CR": "line_end_number Cr =",
        "SC_EOL_LF": "line_end_number Lf =",
    },
    f"{MODEL}/Rows.antt": {"SC_FOLDLEVELBASE": "base_level ="},
    f"{MODEL}/Folding.antt": {
        "SC_FOLDLEVELNUMBERMASK": "level_number level = bit_and level",
        "SC_FOLDLEVELHEADERFLAG": "is_header_level level = meets level",
    },
    # FOLDLINE takes three actions, 0 to 2: the one that is not named is to expand.
    f"{MODEL}/FoldingPlans.antt": {
        "SC_FOLDACTION_CONTRACT": "if action ==",
        "SC_FOLDACTION_TOGGLE": "(action ==",
    },
    f"{MODEL}/Session.antt": {
        "SC_MODEVENTMASKALL": "whole_mask =",
        "SC_DOCUMENTOPTION_STYLES_NONE": "keeps_no_styles d = meets d.options",
        "SC_DOCUMENTOPTION_TEXT_LARGE": "is_large d = meets d.options",
    },
    f"{MODEL}/SessionPlans.antt": {
        "SC_LINE_END_TYPE_DEFAULT": "types_number Default =",
        "SC_LINE_END_TYPE_UNICODE": "types_number Unicode =",
    },
    # Flags are from UNDO_NONE to the one that lets a step coalesce.
    f"{MODEL}/UndoPlans.antt": {
        "UNDO_NONE": "add_undo_action r = argument",
        "UNDO_MAY_COALESCE": "(flags ==",
    },
    # No definition reads the white flag; `ed_types` names it, beside the other parts of a level.
    "crates/ed_types/src/fold_level.rt": {"SC_FOLDLEVELWHITEFLAG": "pub const WHITE: u32 ="},
}
# Where the header and the pages speak of threads, all in this sentence.
ON_THREADS = (
    "Calls on one session must not overlap: use a lock, or pass the session through a channel. A background thread works on a copy "
    "(`hongpilas_copy_range`). Different sessions may be used at the same time."
)
SPEAK_OF_THREADS = (HEADER, "README.md", "docs/PROMISES.md", "docs/PROFILE.md", "docs/EMBEDDING.md")
# What Scintilla.h spells otherwise than other constants: the same words in both, so that either may be included first.
SPELLED = {
    "SCFIND_WHOLEWORD": "0x2",
    "SCFIND_MATCHCASE": "0x4",
    "SCFIND_WORDSTART": "0x00100000",
    "SC_FOLDLEVELNUMBERMASK": "0x0FFF",
    "SC_DOCUMENTOPTION_STYLES_NONE": "0x1",
    "SC_MOD_INSERTTEXT": "0x1",
    "SC_MOD_DELETETEXT": "0x2",
    "SC_MOD_CHANGESTYLE": "0x4",
    "SC_MOD_CHANGEFOLD": "0x8",
}
# How README.md counts the messages.
COUNTED = re.compile(r"\d+(?=\s+of\s+Scintilla's\s+messages)")
# The library's C, whose calls the header declares; proved calls that only this C makes; and what is written into it.
NAMES = "c/names.c"
IN_LIBRARY = ("c/checked.c", NAMES)
UNCHECKED = "c/unchecked.h"
STRUCTS = {"Handle": "hongpilas_session", "LimitsInC": "hongpilas_limits", "NoteInC": "hongpilas_note_data"}
# The clause of a contract that lets the header say const.
SAME = "ensures same { handle.new.held ≡ handle.old.held }"
# How C declares a place of each type that exports and structs of the crate have. A slice is two places, and an allocator none.
IN_C = {
    "Global": "",
    "bool": "bool {}",
    "u32": "uint32_t {}",
    "u64": "uint64_t {}",
    "i64": "int64_t {}",
    "usize": "size_t {}",
    "*mut u8": "void *{}",
    "*const u8": "const uint8_t *{}",
    "&mut u32": "uint32_t *{}",
    "&mut i64": "int64_t *{}",
    "&mut usize": "size_t *{}",
    "&mut *const u8": "const uint8_t **{}",
    "&[u8]": "const uint8_t *{}, size_t length",
    "&mut [u8]": "uint8_t *{}, size_t length",
    "Handle": "hongpilas_session {}",
    "&mut Handle": "hongpilas_session *{}",
    "&LimitsInC": "const hongpilas_limits *{}",
    "&mut NoteInC": "hongpilas_note_data *{}",
}
# What calls name otherwise on one side: both are compared under the second name.
ALIASES = {"hongpilas_answer": "uint32_t", "session": "handle", "answer": "number", "capacity": "length", "count": "length"}


def read(path):
    with open(os.path.join(TOP, path), encoding="utf-8") as file:
        return file.read()


def rows():
    """The messages of the profile with their marks, in the order of their numbers, as their rows define them."""
    text = read("crates/ed_types/specs/Messages.antt")
    marks = re.findall(r"^(\w+) = marks (true|false) (true|false) (true|false) (true|false)$", text, re.M)
    bits = {name: "".join(letter for letter, is_set in zip("QNER", set_) if is_set == "true") for name, *set_ in marks}
    found = re.findall(r"^row_of kinds\.\w+ = row (\d+) (\w+) +-- (\w+)$", text, re.M)
    return sorted((("SCI_" + name, int(number), bits[mark]) for number, mark, name in found), key=lambda row: row[1])


def messages():
    """The messages of the profile, in the order of their numbers."""
    return [(name, number) for name, number, _ in rows()]


def kinds():
    """The messages as the code has them."""
    found = re.findall(r"/// `(SCI_\w+)`\n\s*\w+ = (\d+),", read("crates/ed_types/src/kind.rt"))
    return [(name, int(number)) for name, number in found]


def defined_behind(words, text, path):
    """The number behind words that stand once."""
    found = re.findall(rf"(?<![\w.]){re.escape(words)} {NUMBER}(?!\w)", text)
    if len(found) != 1:
        sys.exit(f"{path}: `{words}` and a number stand {len(found)} times, and should once")
    return int(found[0], 0)


def expanding():
    """The action of FOLDLINE that is neither to contract nor to toggle."""
    path = f"{MODEL}/FoldingPlans.antt"
    text, last = read(path), defined_behind("fold_line r = argument 0", read(path), path)
    (left,) = {*range(last + 1)} - {defined_behind(words, text, path) for words in DEFINED[path].values()}
    return left


def defined():
    """All constants, each with the number that the definitions have."""
    found = {name: defined_behind(words, read(path), path) for path, names in DEFINED.items() for name, words in names.items()}
    return {**found, "SC_FOLDACTION_EXPAND": expanding()}


def notes():
    return sorted((pair for pair in defined().items() if pair[0].startswith("SCN_")), key=lambda pair: pair[1])


def constants():
    return sorted(pair for pair in defined().items() if not pair[0].startswith("SCN_"))


def notes_of_page(table):
    return [(name, int(code)) for code, name in re.findall(r"^\| (\d+) \| (SCN_\w+) \|", table, re.M)]


def named(table):
    """The constants that the page names, each with its number, as often as it does, in one line or two."""
    for pattern, meaning in NAMINGS:
        yield from ((it["name"], meaning(it["number"])) for it in re.finditer(pattern, " ".join(table.split())))


def spelled(name, number):
    return SPELLED.get(name) or (str(number) if number < 10 else f"0x{number:X}")


def plain(name, number):
    return str(number)


def lines_of(pairs, spelled):
    widest = max(len(name) for name, _ in pairs)
    return "".join(f"#define {name.ljust(widest)} {spelled(name, number)}\n" for name, number in pairs)


def brief(entry):
    """A message's mark Q, the names of w, l and the text, with 0 for an unused w, and what the page says first: the first sentence of its rule."""
    places = [place for place in ("w", "l", "T") if place in entry.parameters or place == "w" and entry.parameters]
    names = ", ".join(entry.parameters[place][1] if place in entry.parameters else "0" for place in places)
    head = " ".join(["Q"] * ("Q" in entry.marks.split()) + [f"({names})"] * bool(names))
    return ": ".join(filter(None, (head, message_page.first_sentence(entry.rule))))


def commented(line, words):
    """A line with a comment behind it, which goes on below itself where it is long."""
    before = f"{line} /* "
    return "\n".join(textwrap.wrap(f"{words} */", WIDTH, initial_indent=before, subsequent_indent=" " * len(before), break_long_words=False)) + "\n"


def lines_of_messages():
    """The messages, each with what the page says first of it."""
    told = {entry.name: brief(entry) for entry in message_page.entries()}
    lines = lines_of(messages(), plain).splitlines()
    return "".join(commented(line, told[name[4:]]) for line, (name, _) in zip(lines, messages()))


def generated():
    return "\n".join([
        OF_MESSAGES + "/* clang-format off */\n" + lines_of_messages() + "/* clang-format on */\n",
        "/* Notifications. */\n" + lines_of(notes(), plain),
        "/* Constants. */\n" + lines_of(constants(), spelled),
    ])


def rows_of(name, rows):
    """A table of names.c."""
    return f"static const named {name}[] = {{\n" + "".join(f'    {{{number}, {marks}, "{spelled}"}},\n' for spelled, number, marks in rows) + "};\n"


def tables():
    marked = [(name, number, " | ".join(f"HONGPILAS_MARK_{letter}" for letter in marks) or "0") for name, number, marks in rows()]
    return "/* clang-format off */\n" + rows_of("messages", marked) + "\n" + rows_of("notes", [(name, number, "0") for name, number in notes()]) + "/* clang-format on */\n"


def between(text, lines):
    """The text with these lines in the place of those that were written before."""
    head, rest = text.split(BEGIN)
    return head + BEGIN + lines + END + rest.split(END)[1]


def written(header):
    return between(header, generated())


def declared(name, kind):
    """How C declares what has this name and type in the crate."""
    return IN_C.get(kind, f"no type in C for {kind}: {{}}").format(name)


def all_declared(places, between):
    """Parameters or fields of the crate, as `view: u32`, as C declares them; without those that take no place."""
    return between.join(filter(None, (declared(*place.split(": ", 1)) for place in places)))


def spaced(declaration):
    return " ".join(declaration.split())


def as_compared(call):
    """A declared call under the names of both sides."""
    return re.sub(r"\w+", lambda word: ALIASES.get(word[0], word[0]), spaced(call))


def calls_of_crate(sources):
    for name, taken, answered in re.findall(r'extern "C" fn (\w+)\(([^()]*)\)(?: -> (.*))?', sources):
        places = all_declared(re.findall(r"\w+: [^,]+", taken), ", ")
        call = f"{name}({places or 'void'})"
        yield as_compared(declared(call, answered) if answered else f"void {call}")


def structs_of_crate(sources):
    for name, tag in STRUCTS.items():
        body = re.search(rf"^#\[repr\(C\)\]\n(?:#\[.*\]\n)*pub struct {name} \{{\n((?:.*\n)*?)\}}", sources, re.M)
        fields = re.findall(r"^    (?!//)(?!pub ghost )(?:pub(?:\(crate\))? )?(.*),$", body[1] if body else "", re.M)
        yield f"typedef struct {tag} {{ {all_declared(fields, '; ')}; }} {tag}"


def declarations(header):
    """The calls and structs that a header declares."""
    bare = re.sub(r"/\*.*?\*/|\bHONGPILAS_MUST_USE\b", "", header, flags=re.S)
    yield from map(as_compared, re.findall(r"^ *(\w[\w *]*\bhongpilas_\w+\([^()]*\));", bare, re.M))
    yield from map(spaced, re.findall(r"^(typedef struct \w+ \{[^{}]*\} \w+);", bare, re.M))
    yield from (f"typedef {spaced(struct)} {name}" for struct, name in re.findall(r"^(struct (\w+) \{[^{}]*\});", bare, re.M))


def is_of_crate(declared):
    """Whether a call is proved, or what is declared is a struct."""
    return "(" not in declared or "_unchecked(" in declared or "hongpilas_version(" in declared


def without_const(call):
    return call.replace("const hongpilas_session *", "hongpilas_session *")


def calls_in_c():
    """What the library's C has for others to call."""
    sources = "".join(map(read, IN_LIBRARY))
    return {as_compared(call) for call in re.findall(r"^(?!static )(\w[\w *]*\bhongpilas_\w+\([^()]*\)) \{", sources, re.M)}


def names_of(calls):
    return {re.search(r"\bhongpilas_(\w+)\(", call)[1] for call in calls if "(" in call}


def checked_faults(found):
    """Where the calls that test their arguments are not those of the library's C, or an unchecked form has no such call."""
    ours, theirs = calls_in_c(), {call for call in found if not is_of_crate(call)}
    yield from (f"the library's C has, and the header has not: {it}" for it in sorted(ours - theirs))
    yield from (f"the header has, and the library's C has not: {it}" for it in sorted(theirs - ours))
    for name in sorted(names_of(found)):
        if name.endswith("_unchecked") and name.removesuffix("_unchecked") not in names_of(theirs):
            yield f"no call tests the arguments of hongpilas_{name}"


def const_faults(found, sources):
    """Where the header says const of a session, and the contract of the proved call says nothing of it, or only for some results."""
    for call in found:
        name = re.search(r"\b(hongpilas_\w+_unchecked)\(const hongpilas_session \*", call)
        if name and SAME not in re.search(rf"fn {name[1]}\((?:[^{{]|{{[^\n]*}})*", sources)[0]:
            yield f"{name[1]} takes a const session, and its contract does not say: {SAME}"


def page_faults():
    """Where docs/MESSAGES.md has other names or numbers than the definitions."""
    table = read("docs/MESSAGES.md")
    ours, theirs = {*notes(), *constants()}, {*notes_of_page(table), *named(table)}
    yield from (f"the definitions have, and docs/MESSAGES.md has not: {name} = {number:#x}" for name, number in sorted(ours - theirs))
    yield from (f"docs/MESSAGES.md has, and the definitions have not: {name} = {number:#x}" for name, number in sorted(theirs - ours))
    yield from (f"{name} has no number on the page" for name in nameless(table))
    yield from (f"the definitions and `Kind` do not agree on {name} = {number}" for name, number in sorted({*messages()} ^ {*kinds()}))


def threads_faults():
    for path in SPEAK_OF_THREADS:
        if ON_THREADS not in " ".join(re.sub(r"^ \* ?", "", read(path), flags=re.M).split()):
            yield f"{path} does not have the sentence on threads: {ON_THREADS}"


def counted(page):
    """README.md with the number of messages."""
    return COUNTED.sub(f"{len(messages())}", page)


def count_faults():
    page = read("README.md")
    if counted(page) != page or not COUNTED.search(page):
        yield "the count of messages in README.md: run tools/pages/header.py"


def refusals():
    """The header's names of what is answered, each with its number."""
    found = re.findall(r"^    (\w+) = (\d+),", read("crates/ed_types/src/refusal.rt"), re.M)
    return {("HONGPILAS_" + re.sub(r"(?<!^)(?=[A-Z])", "_", name).upper(), number) for name, number in [("Done", "0"), *found]}


def nameless(table):
    """What the page names as a constant, and never with its number."""
    return sorted(set(re.findall(NAME, table)) - {name for name, _ in named(table)})


def greatest_limits():
    """The greatest limits of the definitions, as `views = 1024; depth = 2 ^ 8 - 1`, by their names."""
    defined = re.search(r"^greatest_limits = record \{ (.*) \}$", read("crates/ed_model/specs/Session.antt"), re.M)[1]
    found = re.findall(r"(\w+) = (2 \^ )?(\d+)( - 1)?(?:;|$)", defined)
    return {name: (2 ** int(number) if power else int(number)) - bool(less) for name, power, number, less in found}


def has_greatest_limits(header):
    """Whether the header has them, in the comments of its struct, and in its macro in the same order."""
    told = re.findall(r"^  uint64_t (\w+); +/\* .*: (\w+) \*/$", header, re.M)
    numbers = [int(number, 0) for _, number in told]
    spelled = re.search(r"^#define HONGPILAS_GREATEST_LIMITS \{(.*)\}$", header, re.M)[1].split(", ")
    return dict(zip((name for name, _ in told), numbers)) == greatest_limits() and [int(number, 0) for number in spelled] == numbers


def faults(header):
    """Where the header's hand-written part is not that of the crates."""
    folder = "crates/hongpilas_c/src"
    sources = "".join(read(f"{folder}/{file}") for file in sorted(os.listdir(os.path.join(TOP, folder))))
    found = set(declarations(header))
    ours, theirs = {*calls_of_crate(sources), *structs_of_crate(sources)}, {without_const(it) for it in found if is_of_crate(it)}
    theirs |= set(declarations(read(UNCHECKED)))
    yield from (f"the crate has, and the header has not: {it}" for it in sorted(ours - theirs))
    yield from (f"the header has, and the crate has not: {it}" for it in sorted(theirs - ours))
    if "typedef uint32_t hongpilas_answer;\n" not in header:
        yield "an answer is not the number of the crate's refusal, a uint32_t"
    wrong = refusals() ^ set(re.findall(r"^  (HONGPILAS_\w+) = (\w+)", header, re.M))
    yield from (f"{name} = {number} is not on both sides" for name, number in sorted(wrong))
    yield from checked_faults(found)
    yield from const_faults(found, sources)
    yield from page_faults()
    yield from threads_faults()
    yield from count_faults()
    if not has_greatest_limits(header):
        yield f"the greatest limits are not those of the definitions: {greatest_limits()}"
    version = re.search(r"const VERSION: u32 = (\d+);", sources)[1]
    if f"#define HONGPILAS_VERSION {version}\n" not in header:
        yield f"the version is not {version}"


def main():
    header = read(HEADER)
    new, names = written(header), between(read(NAMES), tables())
    if "--check" in sys.argv[1:]:
        wrong = list(faults(header)) + ["constants: run tools/pages/header.py"] * (new != header or names != read(NAMES))
        print("\n".join(wrong) or f"{HEADER} is what it should be: {len(messages())} messages")
        sys.exit(bool(wrong))
    for path, text in ((HEADER, new), (NAMES, names), ("README.md", counted(read("README.md")))):
        with open(os.path.join(TOP, path), "w", encoding="utf-8") as file:
            file.write(text)


if __name__ == "__main__":
    main()
