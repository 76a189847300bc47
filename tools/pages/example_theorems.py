#!/usr/bin/env python3
"""Writes each example of examples/ as a theorem of the crate ed_model: its script, read and run by the definitions, prints its output.

Run it anywhere in the repository after an example was added or changed; CI proves what it writes, which is laid out as `rt fmt` leaves
it. With --check it writes nothing, and ends with status 1 where a file of the crate is not what it would write: so no script or output is
changed without its theorem.
"""
import os
import sys

TOP = os.path.dirname(os.path.dirname(os.path.dirname(os.path.abspath(__file__))))
MODEL = os.path.join(TOP, "crates", "ed_model")

GROUPS = {
    "text": ["expects", "hello", "refusals", "line_queries", "mixed_line_ends", "new_view", "load_files", "script_spelling",
             "expect_at_the_start", "expects_of_every_command", "text_length_and_appending"],
    "undo": ["all_notes_of_an_insertion", "container_steps", "read_only_notes", "save_point_amid_typing", "save_point_in_a_group",
             "save_point_on_a_dropped_branch", "undo_collection", "which_deletions_join",
             "container_step_first", "container_steps_alone", "container_steps_join", "groups_and_seals", "undo_queries",
             "collection_off_ends_groups"],
    "markers": ["deletion_joins_crlf", "deletion_joins_markers", "insertion_splits_crlf", "marker_and_level_queries",
                "undo_brings_no_marker_back", "convert_line_ends_keeps_markers",
                "line_states", "markers_meet_and_part", "markers_on_a_line_start"],
    "styles": ["end_styled", "indicator_grows_at_0", "indicator_grows_at_1", "indicator_grows_at_2", "indicator_grows_at_3",
               "indicator_grows_at_4", "styles_and_indicators", "indicator_current_and_value", "styled_text"],
    "selection": ["character_cuts", "clear_over_crlf", "clipboard", "cut_of_nothing", "newline_and_delete_back", "paste_as_it_is",
                  "paste_converts_line_ends", "search_backwards_empty_missing", "search_case_and_replace", "search_whole_word",
                  "caret_keys", "line_end_mode", "search_without_case", "selection_queries", "target_queries",
                  "adding_nothing", "copying_nothing", "cut_when_read_only", "deletion_inside_a_character", "paste_of_nothing"],
    "documents": ["document_references", "order_of_attaching", "read_only_tells_each_view", "read_only_undo", "two_views_move_and_hear",
                  "undo_of_a_group_to_two_views", "document_options", "unicode_line_ends",
                  "masks", "options_and_line_end_types", "own_document_again"],
    "folding": ["folding", "hidden_lines", "hidden_lines_in_range", "fold_structure", "folding_of_two_views"],
    "recording": ["a_long_walk", "a_long_walk_with_gotopos", "macro_recording", "recording_when_read_only", "recording_keys"],
}


def type_name(name):
    return "".join(word.capitalize() for word in name.split("_"))


def quoted(line):
    if any(byte < 0x20 or byte > 0x7E for byte in line):
        sys.exit("only printable lines can be written as a text: %r" % line)
    return 'codes "%s"' % line.decode().replace("\\", "\\\\").replace('"', '\\"')


def lines_of(data):
    if data == b"":
        return "[]"
    if not data.endswith(b"\n"):
        sys.exit("an example's last line has no end")
    return "".join("    " + quoted(line) + " ∷\n" for line in data[:-1].split(b"\n")) + "    []"


def read(path):
    with open(path, "rb") as f:
        return f.read()


def theorem(name):
    base = os.path.join(TOP, "examples", "messages", name)
    files = []
    while os.path.exists("%s.file%d" % (base, len(files) + 1)):
        files.append(read("%s.file%d" % (base, len(files) + 1)))
    given = "".join("(" + quoted(f) + ") ∷ " for f in files) + "[]"
    return "abbrev pub %s : Type 0\n%s = Prints (%s)\n    (joined_lines (\n%s))\n    (joined_lines (\n%s))\n" % (
        type_name(name), type_name(name), given, lines_of(read(base + ".sci")), lines_of(read(base + ".out")))


def pages():
    """The files that it writes, by their places in the crate."""
    found = {}
    rust = ["//! Each example of `examples/messages`, as a theorem: what its script prints is computed from the definitions.", ""]
    for group, names in GROUPS.items():
        module = type_name(group) + "Examples"
        found["specs/%s.antt" % module] = (
            "-- Worked examples, written by tools/pages/example_theorems.py from examples/messages.\n"
            "use Rattle.std.specs.Prelude.{[], ◌∷◌, codes}\nuse Rattle.ed_model.specs.Prints.{Prints, joined_lines}\n\n"
            + "\n".join(theorem(name) for name in names))
        rust.append("ghost use Rattle.ed_model.specs.%s.{%s};" % (module, ", ".join(type_name(n) for n in names)))
    for group, names in GROUPS.items():
        rust += ["", "pub fn examples_of_%s()" % group]
        rust += ["    ensures %s { %s }" % (name, type_name(name)) for name in names]
        rust += ["{}"]
    found["src/examples.rt"] = "\n".join(rust) + "\n"
    return found


def is_written(place, text):
    """Whether a file of the crate is there, with this text."""
    path = os.path.join(MODEL, place)
    return os.path.exists(path) and read(path) == text.encode()


def main(arguments):
    if arguments not in ([], ["--check"]):
        sys.exit(__doc__)
    known = {f[:-4] for f in os.listdir(os.path.join(TOP, "examples", "messages")) if f.endswith(".sci")}
    listed = {name for names in GROUPS.values() for name in names}
    if known != listed:
        sys.exit("examples and groups differ: %s" % sorted(known ^ listed))
    if arguments:
        differing = [place for place, text in pages().items() if not is_written(place, text)]
        for place in differing:
            print("crates/ed_model/%s is not what tools/pages/example_theorems.py writes" % place)
        sys.exit(1 if differing else 0)
    for place, text in pages().items():
        with open(os.path.join(MODEL, place), "w", encoding="utf-8") as f:
            f.write(text)


main(sys.argv[1:])
