#!/usr/bin/env python3
"""Hongpilas in Python, by ctypes over the shared object: out/libhongpilas.so at the top of the repository, or the one that HONGPILAS names."""
from __future__ import annotations

import ctypes
import os
import re
from typing import Any, Callable, Union

TOP = os.path.dirname(os.path.dirname(os.path.dirname(os.path.abspath(__file__))))


class Note(ctypes.Structure):
    """A notification; hongpilas_note_data of the header. `bytes` is valid until the next message that is done; `text` is a copy."""

    _fields_ = [
        *((name, ctypes.c_uint32) for name in ("view", "code", "kind", "message")),
        *((name, ctypes.c_int64) for name in ("position", "length", "lines", "line", "now", "prev", "token", "w", "l")),
        ("bytes", ctypes.c_void_p),
        ("byte_count", ctypes.c_size_t),
    ]

    text = b""
    code: int
    kind: int
    position: int
    lines: int
    bytes: int
    byte_count: int


class Refused(Exception):
    """A call was refused, and has changed nothing."""


def lent(address: int | None, length: int) -> bytes:
    """A copy of borrowed bytes."""
    return ctypes.string_at(address, length) if length and address else b""


def whole(kind: Any, number: int) -> int:
    """The number, which a call takes as this kind. Raises OverflowError where ctypes would cut it."""
    if kind(number).value != number:
        raise OverflowError(f"{number} is out of range")
    return number


def constants() -> dict[str, int]:
    """Scintilla's names and numbers, as the header has them."""
    with open(os.path.join(TOP, "include", "hongpilas.h"), encoding="utf-8") as header:
        found = re.findall(r"^#define ((?:SC|UNDO)\w+) +(0x[0-9A-F]+|\d+)\b", header.read(), re.M)
    return {name: int(number, 0) for name, number in found}


def library() -> Any:
    """The shared object, with the types of its calls."""
    lib = ctypes.CDLL(os.environ.get("HONGPILAS", os.path.join(TOP, "out", "libhongpilas.so")))
    word, size, number = ctypes.c_void_p, ctypes.c_size_t, ctypes.c_int64
    address, view, length = ctypes.POINTER(ctypes.c_void_p), ctypes.c_uint32, ctypes.POINTER(ctypes.c_size_t)
    types: dict[str, tuple[Any, list[Any]]] = {
        "new": (view, [address]),
        "free": (None, [word]),
        "new_view": (view, [word, ctypes.POINTER(view)]),
        "close_view": (view, [word, view]),
        "send": (view, [word, view, view, number, number, ctypes.c_char_p, size, ctypes.POINTER(number)]),
        "text": (view, [word, address, length]),
        "note": (view, [word, size, ctypes.POINTER(Note), size]),
        "lend_range": (view, [word, view, size, size, address]),
        "answer_name": (ctypes.c_char_p, [view]),
        "note_name": (ctypes.c_char_p, [view]),
    }
    for name, (result, arguments) in types.items():
        function = getattr(lib, "hongpilas_" + name)
        function.restype, function.argtypes = result, arguments
    return lib


class Session:
    """A session with one view, freed at the end of `with`.

    Messages are methods by their names in lower case: session.gettextrange(3, 8). A text among the arguments is the message's text;
    ADDTEXT and the like have its length as their first number. The result is the text that the message returns, or else its value.
    """

    lib = library()
    numbers = {name[4:].lower(): number for name, number in constants().items() if name.startswith("SCI_")}
    return_texts = {"getline", "getcurline", "gettext", "gettextrange", "getseltext", "getstyledtext", "gettargettext"}

    def __init__(self) -> None:
        self.handle, self.view = ctypes.c_void_p(), ctypes.c_uint32()
        self.check(self.lib.hongpilas_new(self.handle))
        try:
            self.check(self.lib.hongpilas_new_view(self.handle, self.view))
        except Refused:
            self.close()
            raise

    def __enter__(self) -> Session:
        return self

    def __exit__(self, *_: object) -> None:
        self.close()

    def close(self) -> None:
        """Frees the session, once. It has no handle then, so that later use raises AttributeError."""
        if "handle" in self.__dict__:
            self.lib.hongpilas_free(self.__dict__.pop("handle"))

    def check(self, answer: int) -> None:
        """Raises what a refusal's number stands for."""
        if answer:
            raise Refused(self.lib.hongpilas_answer_name(answer).decode())

    def send(self, number: int, w: int = 0, l: int = 0, text: bytes = b"") -> int:
        """Sends a message, and returns its value."""
        value = ctypes.c_int64()
        number, w, l = whole(ctypes.c_uint32, number), whole(ctypes.c_int64, w), whole(ctypes.c_int64, l)
        self.check(self.lib.hongpilas_send(self.handle, self.view, number, w, l, text, len(text), value))
        return value.value

    def text(self) -> bytes:
        """The text that the last message returned."""
        where, length = ctypes.c_void_p(), ctypes.c_size_t()
        self.check(self.lib.hongpilas_text(self.handle, where, length))
        return lent(where.value, length.value)

    def notes(self) -> list[Note]:
        """The notifications of the last message."""
        notes: list[Note] = []
        note = Note()
        while not self.lib.hongpilas_note(self.handle, len(notes), note, ctypes.sizeof(note)):
            note.text = lent(note.bytes, note.byte_count)
            notes.append(note)
            note = Note()
        return notes

    def byte_range(self, start: int, end: int) -> bytes:
        """Bytes of the document, without a message."""
        where = ctypes.c_void_p()
        start, count = whole(ctypes.c_size_t, start), whole(ctypes.c_size_t, end - start)
        self.check(self.lib.hongpilas_lend_range(self.handle, self.view, start, count, where))
        return lent(where.value, count)

    def __getattr__(self, name: str) -> Callable[..., Any]:
        if name not in self.numbers:
            raise AttributeError(name)

        def message(*arguments: Union[int, bytes, str]) -> int | bytes:
            texts = [argument.encode() if isinstance(argument, str) else argument for argument in arguments]
            w, l = ([argument for argument in texts if isinstance(argument, int)] + [0, 0])[:2]
            text = b"".join(argument for argument in texts if isinstance(argument, bytes))
            value = self.send(self.numbers[name], w, l, text)
            return self.text() if name in self.return_texts else value

        return message


def main() -> None:
    with Session() as session:
        session.inserttext(0, "hello,\nworld\n")
        for note in session.notes():
            print(f"{session.lib.hongpilas_note_name(note.code).decode()}: kind {note.kind:#x}, position {note.position}, lines {note.lines}, {note.text!r}")
        print(session.getlength(), "bytes,", session.getlinecount(), "lines")
        print(session.getline(1), session.gettextrange(3, 8), session.byte_range(0, 5))
        session.appendtext(8, "größer")
        print("appended:", session.gettext().decode(errors="replace"))
        session.undo()
        print("undone:", session.gettext(), "redo:", session.canredo())
        session.redo()
        session.settargetrange(0, session.getlength())
        print("found at", session.searchintarget(3, "wor"), "to", session.gettargetend())
        faults: list[Callable[[], object]] = [
            lambda: session.gettextrange(5, 99), lambda: session.send(9999), lambda: session.byte_range(0, 99),
            lambda: session.gotopos(1 << 63), lambda: session.send(2006 + (1 << 32)), lambda: session.byte_range(-1, 2),
        ]  # fmt: skip
        for fault in faults:
            try:
                fault()
            except Refused as refused:
                print("refused:", refused)
            except OverflowError as overflow:
                print("not sent:", overflow)
        session.close()
    session.close()
    try:
        session.getlength()
    except AttributeError:
        print("given back")


if __name__ == "__main__":
    main()
