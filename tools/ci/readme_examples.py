#!/usr/bin/env python3
"""Cuts the examples out of README.md, as programs that compile: readme_examples.py FOLDER

The page has one block of C and one of Rust, of at most ten lines each, with a comment behind each line that prints: what it prints. Into
FOLDER, which is made where it is not there, go `readme.c` and what it prints, `readme.c.out`, and for cargo `Cargo.toml`, `src/main.rs`
and `readme.rs.out`. `tests/check` and `bindings/check` build and run them, and compare. Ends with status 1 where the page has no such
block, or one that prints nothing, or where its first block of text is not twelve rows that follow one another on a screen of
tests/editor/edit.screens, which `tests/check` compares with the editor's; what is in reverse there is not marked on the page.
The block of C of docs/FROM_SCINTILLA.md becomes `from_scintilla.c`, with a notify function that counts; `from_scintilla.out` has the count.
With --check in place of FOLDER it writes nothing.
"""
import os
import re
import sys

TOP = os.path.dirname(os.path.dirname(os.path.dirname(os.path.abspath(__file__))))
MOST = 10
ROWS = 12
SCREENS = "tests/editor/edit.screens"
IN_C = """#include <hongpilas.h>
#include <stdio.h>

int main(void) {{
{}  return 0;
}}
"""
IN_RUST = """fn main() -> Result<(), hongpilas::Refusal> {{
{}    Ok(())
}}
"""
# A block over the Scintilla-compatible interface: an ADDTEXT into a new document notifies of the insertion before and after it, and of the save point.
FROM_SCINTILLA = "docs/FROM_SCINTILLA.md"
OVER_SCINTILLA = """#include <hongpilas_scintilla.h>
#include <stdio.h>

static int count;
static void on_notify(SCNotification *notification, void *data) {{ count += notification != NULL && data == NULL; }}

int main(void) {{
{}  printf("%d\\n", count);
  return 0;
}}
"""
COUNTED = "3\n"
PACKAGE = f"""[package]
name = "readme"
version = "0.0.0"
edition = "2021"

[dependencies]
hongpilas = {{ path = "{TOP}/bindings/rust/hongpilas" }}
"""


def read(path):
    with open(os.path.join(TOP, path), encoding="utf-8") as file:
        return file.read()


def blocks(language, page="README.md"):
    return re.findall(rf"^```{language}\n(.*?)^```$", read(page), re.M | re.S)


def look_at_screen():
    """Ends the program unless the page has rows of a screen."""
    shown = blocks("text")[0].splitlines()
    screens = re.findall(r"^screen\n((?:\|.*\n)+)", read(SCREENS), re.M)
    rows = [[re.sub("[«»]", "", row[1:]) for row in screen.splitlines()] for screen in screens]
    if len(shown) != ROWS or not any(shown == screen[first:first + ROWS] for screen in rows for first in range(len(screen))):
        sys.exit(f"README.md: its first block of text is not {ROWS} rows of a screen of {SCREENS}")


def block(language):
    """The lines of the page's block in a language, and what they print, by their comments."""
    found = blocks(language)
    if len(found) != 1:
        sys.exit(f"README.md has {len(found)} blocks in {language}, and not one")
    lines = found[0].splitlines()
    printed = re.findall(r"  // (.*)$", found[0], re.M)
    if len(lines) > MOST or not printed:
        sys.exit(f"README.md: the block in {language} has {len(lines)} lines, of which {len(printed)} print")
    return lines, printed


def text_of(lines, indent=""):
    return "".join(f"{indent}{line}\n" for line in lines)


def write(folder, name, text):
    path = os.path.join(folder, name)
    os.makedirs(os.path.dirname(path), exist_ok=True)
    with open(path, "w", encoding="utf-8") as file:
        file.write(text)


def main():
    if len(sys.argv) != 2:
        sys.exit("readme_examples.py FOLDER")
    folder = sys.argv[1]
    look_at_screen()
    if folder == "--check":
        print(f"README.md has {len(block('c')[0])} lines of C, {len(block('rust')[0])} of Rust, and rows of a screen")
        return
    lines, printed = block("c")
    write(folder, "readme.c", IN_C.format(text_of(lines, "  ")))
    write(folder, "readme.c.out", text_of(printed))
    lines, printed = block("rust")
    write(folder, "src/main.rs", IN_RUST.format(text_of(lines, "    ")))
    write(folder, "readme.rs.out", text_of(printed))
    write(folder, "Cargo.toml", PACKAGE)
    write(folder, "from_scintilla.c", OVER_SCINTILLA.format(text_of(blocks("c", FROM_SCINTILLA)[0].splitlines(), "  ")))
    write(folder, "from_scintilla.out", COUNTED)


main()
