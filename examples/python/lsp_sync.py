#!/usr/bin/env python3
"""Keeps a language server's copy of a text equal to the editor's: the text synchronization of the Language Server Protocol, with columns in UTF-16.

The rule: a message can take several steps (an undo of a group, CONVERTEOLS, a replacement), and its notifications are read when all are done. The
positions of each are those of the text just after its own step. So a program that needs more than the notification tells, such as a line and a column,
keeps a copy, applies the steps to it in their order, and asks the copy as it is then, never the session, which is further on.

It runs over the package `hongpilas`. `lsp_sync.py --random COUNT SEED` makes random edits by two views of a document, and compares after each.
"""
from __future__ import annotations

import bisect
import json
import random
import re
import sys
from typing import Callable, Dict, Iterable, Iterator, NamedTuple

from hongpilas import EndOfLine, Modification, Notification, Session, View

LINE_END = re.compile(rb"\r\n|\n|\r")
#: A place as LSP has it: a "line", and a "character", which is a column in UTF-16.
Position = Dict[str, int]


class Change(NamedTuple):
    """A change of LSP: what lies between two places becomes a text."""

    start: Position
    end: Position
    text: str

    def as_lsp(self) -> dict[str, object]:
        """A TextDocumentContentChangeEvent."""
        return {"range": {"start": self.start, "end": self.end}, "text": self.text}

    def __str__(self) -> str:
        places = (f"{place['line']}:{place['character']}" for place in (self.start, self.end))
        return f"  {' to '.join(places)} becomes {self.text!r}"


def utf16_length(text: bytes | bytearray) -> int:
    """How many code units of UTF-16 a text in UTF-8 has."""
    return len(text.decode().encode("utf-16-le")) // 2


class Copy:
    """A copy of a document's text, with the starts of its lines as LSP has them: behind each LF, CR and CRLF."""

    def __init__(self, text: bytes = b""):
        self.text, self.starts = bytearray(text), [0]
        self.starts += [match.end() for match in LINE_END.finditer(text)]

    def position(self, offset: int) -> Position:
        """A place as LSP has it. It must not lie amid a CRLF, where LSP has no place."""
        line = bisect.bisect_right(self.starts, offset) - 1
        return {"line": line, "character": utf16_length(self.text[self.starts[line] : offset])}

    def is_amid_crlf(self, offset: int) -> bool:
        return 0 < offset and self.text[offset - 1 : offset + 1] == b"\r\n"

    def change(self, start: int, end: int, text: bytes) -> Change:
        """Puts a text in the place of what lies from start to end, and returns that as a change of LSP."""
        # What ends amid a CRLF takes the other half along.
        if self.is_amid_crlf(start):
            start, text = start - 1, b"\r" + text
        if self.is_amid_crlf(end):
            end, text = end + 1, text + b"\n"
        told = Change(self.position(start), self.position(end), text.decode())
        self.text[start:end] = text
        self.find_starts(start, end, start + len(text))
        return told

    def find_starts(self, start: int, old_end: int, new_end: int) -> None:
        """Finds the lines anew from a change on as far as it reaches, and moves those behind it. A CR before it, or a LF behind it, is a neighbour."""
        first, last = bisect.bisect_left(self.starts, start), bisect.bisect_right(self.starts, old_end + 1)
        found = (match.end() for match in LINE_END.finditer(self.text, max(start - 1, 0), new_end + 2))
        inside = [place for place in found if start <= place <= new_end + 1]
        moved = [place + new_end - old_end for place in self.starts[last:]]
        self.starts[first:] = [0] * (first == 0) + inside + moved


class Synchronizer:
    """Makes changes for a server of the notifications of one view of a document. Other views of the document tell the same: their notifications are skipped."""

    def __init__(self, view: View):
        self.view, self.copy = view, Copy(view.get_text())

    def changes(self) -> Iterator[Change]:
        """The changes of the last reply, in the order in which a server applies them: `contentChanges` of textDocument/didChange."""
        for note in self.view.notes():
            if note.code == Notification.MODIFIED and note.kind & Modification.INSERTTEXT:
                yield self.copy.change(note.position, note.position, note.text)
            elif note.code == Notification.MODIFIED and note.kind & Modification.DELETETEXT:
                yield self.copy.change(note.position, note.position + note.length, b"")


class Server:
    """A server's side, as the protocol describes it: a text in Unicode, to which changes are applied."""

    def __init__(self, text: str):
        self.text = text

    def offset(self, position: Position) -> int:
        """The index in the text of a line and a column in UTF-16."""
        lines = re.split(r"(?<=\n)|(?<=\r)(?!\n)", self.text)
        line = lines[position["line"]].encode("utf-16-le")[: 2 * position["character"]]
        return len("".join(lines[: position["line"]])) + len(line.decode("utf-16-le"))

    def apply(self, changes: Iterable[Change]) -> None:
        for change in changes:
            start, end = self.offset(change.start), self.offset(change.end)
            self.text = self.text[:start] + change.text + self.text[end:]


class Pair:
    """A document with two views, and a server's copy of it."""

    def __init__(self, session: Session, text: str):
        self.views = session.new_view(), session.new_view()
        self.views[1].set_doc_pointer(self.views[0].get_doc_pointer())
        self.views[0].set_text(text)
        self.sync, self.server = Synchronizer(self.views[0]), Server(text)

    def told(self) -> list[Change]:
        """The changes of the last reply, once the server has them, too."""
        changes = list(self.sync.changes())
        self.server.apply(changes)
        if self.server.text.encode() != self.views[0].get_text():
            sys.exit(f"the server has {self.server.text!r}, and the editor {self.views[0].get_text()!r}")
        return changes


def tour() -> None:
    """Edits of one step and of several, with what a server is told."""
    with Session() as session:
        pair = Pair(session, "größer 😀 one\r\ntwo 😀 one\n")
        view, other = pair.views

        def show(what: str) -> list[Change]:
            changes = pair.told()
            print(what, *changes, sep="\n")
            return changes

        other.insert_text(len("größer 😀".encode()), "!")
        inserted = show("an insertion behind a smile, by the other view")
        print("  as the protocol has it:", json.dumps([change.as_lsp() for change in inserted]))
        replaced: list[Change] = []
        with view.undo_group():
            view.target_whole_document()
            while view.search_in_target("one") >= 0:
                view.replace_target("three")
                replaced += pair.told()
                view.set_target_range(view.get_target_end(), view.get_length())
        print("all of a word replaced, in a group", *replaced, sep="\n")
        other.undo()
        show("the group undone, in one message")
        view.convert_eols(EndOfLine.LF)
        show("line ends converted")
        print(repr(pair.server.text))


# Characters of one to four bytes, of one and of two units of UTF-16, and line ends.
ALPHABET = ("a", "é", "€", "😀", "\r", "\n", "\r\n")


def random_text(draw: random.Random) -> str:
    return "".join(draw.choices(ALPHABET, k=draw.randrange(6)))


def random_place(draw: random.Random, view: View) -> int:
    """A place between two characters. It can lie amid a CRLF."""
    place = draw.randint(0, view.get_length())
    while place < view.get_length() and 0x80 <= view.get_char_at(place) < 0xC0:
        place += 1
    return place


def insert(draw: random.Random, view: View) -> None:
    view.insert_text(random_place(draw, view), random_text(draw))


def delete(draw: random.Random, view: View) -> None:
    start, end = sorted(random_place(draw, view) for _ in range(2))
    view.delete_range(start, end - start)


def replace_selection(draw: random.Random, view: View) -> None:
    view.set_sel(random_place(draw, view), random_place(draw, view))
    view.replace_sel(random_text(draw))


def paste(draw: random.Random, view: View) -> None:
    view.copy_text(random_text(draw))
    view.paste()


def set_text(draw: random.Random, view: View) -> None:
    view.set_text("".join(random_text(draw) for _ in range(4)))


def replace_all(draw: random.Random, view: View) -> Iterator[None]:
    """Replaces a character everywhere, in one group. The caller takes what each message tells."""
    word, other = draw.choice(ALPHABET), random_text(draw)
    with view.undo_group():
        view.target_whole_document()
        while view.search_in_target(word) >= 0:
            view.replace_target(other)
            yield
            view.set_target_range(view.get_target_end(), view.get_length())


#: An edit of random arguments. One of several messages stops after each.
Edit = Callable[[random.Random, View], "Iterator[None] | None"]
EDITS: tuple[Edit, ...] = (
    insert, insert, insert, delete, replace_selection, paste, set_text, replace_all,
    lambda draw, view: view.undo(), lambda draw, view: view.undo(), lambda draw, view: view.redo(),
    lambda draw, view: view.convert_eols(draw.randrange(3)), lambda draw, view: view.delete_back(), lambda draw, view: view.new_line(),
    lambda draw, view: view.begin_undo_action(), lambda draw, view: view.end_undo_action(),
)  # fmt: skip


def try_random(count: int, seed: int) -> None:
    """Makes random edits, and compares the server's copy after each message."""
    draw, changes = random.Random(seed), 0
    with Session() as session:
        pair = Pair(session, "")
        for _ in range(count):
            view = draw.choice(pair.views)
            for _ in draw.choice(EDITS)(draw, view) or ():
                changes += len(pair.told())
            changes += len(pair.told())
            if view.get_length() > 400:
                view.clear_all()
                changes += len(pair.told())
        assert pair.sync.copy.text == pair.views[0].get_text() and pair.sync.copy.starts == Copy(pair.views[0].get_text()).starts
    print(f"{count} edits with {changes} changes, seed {seed}: the server's copy is equal after each")


if __name__ == "__main__":
    if sys.argv[1:2] == ["--random"]:
        try_random(int(sys.argv[2]), int(sys.argv[3]))
    else:
        tour()
