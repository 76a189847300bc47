"""Scripts of commands, as docs/SCRIPTS.md has them: reading them, and running them in a session."""
from __future__ import annotations

import re
from typing import Iterator, NamedTuple, Sequence

from ._library import Refusal
from ._session import Note, Refused, Session

SCRIPT_BYTES = 16 * 1024 * 1024
LINE_BYTES = 65_536
FILE_BYTES = 0x7FFFFFFF
#: The commands of a version, each with the kinds of its fields.
COMMANDS = {"open": "", "close": "n", "load": "nn", "send": "nniit", "expect": "i"}
SINCE_VERSION_2 = ("expect",)
# One byte of a text between its quotes, as it is spelled.
SPELLED = re.compile(rb'\\\\|\\"|\\x[0-9a-f]{2}|[ !#-\[\]-~]')


class ScriptFault(Exception):
    """Bytes that are no script. `cause` and `line` say why and where; for a script that is too long, `line` is None."""

    def __init__(self, cause: str, line: int | None = None):
        super().__init__(cause if line is None else f"line {line}: {cause}")
        self.cause, self.line = cause, line

    def shown(self) -> str:
        """The fault as the program tells it, in one line."""
        return "script too long" if self.line is None else str(self)


def printable(byte: int) -> str:
    return chr(byte) if 0x20 <= byte < 0x7F else f"\\x{byte:02x}"


class Command(NamedTuple):
    """A command: its verb, and what its fields stand for."""

    verb: str
    fields: tuple[int | bytes, ...]


def number(word: bytes, signed: bool) -> int:
    """The number that a word spells."""
    if not re.fullmatch(rb"0|-?[1-9][0-9]*" if signed else rb"0|[1-9][0-9]*", word):
        raise ScriptFault("BadNumber")
    value = int(word)
    if not (-(2**63) <= value < 2**63 if signed else value < 2**32):
        raise ScriptFault("BadNumber")
    return value


def text_field(rest: bytes) -> tuple[bytes, bytes]:
    """A text between quotes at the front, and what follows it."""
    at, found = 1, bytearray()
    while rest[at : at + 1] != b'"':
        match = SPELLED.match(rest, at)
        byte = one_byte(match[0]) if match else None
        if match is None or byte is None:
            raise ScriptFault("BadText")
        found.append(byte)
        at = match.end()
    return bytes(found), rest[at + 1 :]


def one_byte(spelled: bytes) -> int | None:
    """The byte that is spelled so; None where it has another spelling."""
    if not spelled.startswith(b"\\x"):
        return spelled[-1]
    byte = int(spelled[2:], 16)
    return None if 0x20 <= byte < 0x7F else byte


def field(kind: str, rest: bytes) -> tuple[int | bytes, bytes]:
    """A field behind one space, and what follows it."""
    if not rest.startswith(b" "):
        raise ScriptFault("BadShape")
    rest = rest[1:]
    if kind == "t":
        if not rest.startswith(b'"'):
            raise ScriptFault("BadShape")
        return text_field(rest)
    word = rest.split(b" ", 1)[0]
    if not word:
        raise ScriptFault("BadShape")
    return number(word, kind == "i"), rest[len(word) :]


def command(line: bytes, version: int) -> Command:
    """The command of a line."""
    verb = line.split(b" ", 1)[0].decode("latin-1")
    if verb not in COMMANDS or (version < 2 and verb in SINCE_VERSION_2):
        raise ScriptFault("UnknownCommand")
    rest, fields = line[len(verb) :], []
    for kind in COMMANDS[verb]:
        value, rest = field(kind, rest)
        fields.append(value)
    if rest:
        raise ScriptFault("BadShape")
    return Command(verb, tuple(fields))


def assemble(script: bytes) -> list[Command]:
    """The commands of a script. Raises ScriptFault."""
    if len(script) > SCRIPT_BYTES:
        raise ScriptFault("TooLong")
    lines = script.split(b"\n")
    version, commands = 0, []
    # What stands behind the last LF is a line only where it has bytes, or is the first.
    for at, line in enumerate(lines if lines[-1] or len(lines) == 1 else lines[:-1]):
        try:
            if len(line) > LINE_BYTES:
                raise ScriptFault("LineTooLong")
            if at == len(lines) - 1:
                raise ScriptFault("NoLineEnd")
            if at == 0:
                version = version_of(line)
            else:
                commands.append(command(line, version))
        except ScriptFault as fault:
            raise ScriptFault(fault.cause, at + 1) from None
    return commands


def version_of(line: bytes) -> int:
    if line not in (b"sci 1", b"sci 2"):
        raise ScriptFault("BadVersion")
    return int(line[4:])


def spelled(text: bytes) -> str:
    """A text as scripts spell it, with its quotes."""
    found = (f"\\{chr(byte)}" if byte in b'"\\' else printable(byte) for byte in text)
    return f'"{"".join(found)}"'


def printed_note(note: Note) -> str:
    first = (note.view, note.code, note.kind, note.position, note.length, note.lines, note.line)
    rest = (note.now, note.prev, note.token, note.message, note.w, note.l)
    return f"@ {' '.join(str(int(number)) for number in first + rest)} {spelled(note.text)}"


class Runner:
    """Runs commands in a session, and remembers what an expect is compared with."""

    def __init__(self, session: Session, files: Sequence[bytes]):
        self.session, self.files = session, files
        self.last: int | None = None
        self.is_met = True

    def run(self, commands: Sequence[Command]) -> Iterator[str]:
        """What comes of each command, as lines. Raises Refused where memory runs out."""
        for it in commands:
            yield from self.expect(*it.fields) if it.verb == "expect" else self.act(it)

    def expect(self, value: int | bytes) -> Iterator[str]:
        met = self.last == value
        self.is_met = self.is_met and met
        yield f"{'+' if met else '-'} {value!r}"

    def act(self, it: Command) -> Iterator[str]:
        try:
            self.last, text, notes = getattr(self, it.verb)(*it.fields)
        except Refused as refused:
            if refused.refusal == Refusal.OUT_OF_MEMORY:
                raise
            self.last = None
            yield f"! {int(refused.refusal)}"
            return
        yield f"= {self.last} {spelled(text)}"
        yield from map(printed_note, notes)

    def open(self) -> tuple[int, bytes, list[Note]]:
        return self.session.new_view().id, b"", []

    def close(self, view: int) -> tuple[int, bytes, list[Note]]:
        self.session.view(view).close()
        return 0, b"", []

    def load(self, view: int, file: int) -> tuple[int, bytes, list[Note]]:
        here = self.session.view(view)
        here.read_range(0, 0)  # no such view is found before no such file
        if not 1 <= file <= len(self.files):
            raise Refused(Refusal.BAD_ARGUMENT)
        here.set_text(self.files[file - 1])
        return self.reply()

    def send(self, view: int, number: int, w: int, l: int, text: bytes) -> tuple[int, bytes, list[Note]]:
        self.session.view(view).send(number, w, l, text)
        return self.reply()

    def reply(self) -> tuple[int, bytes, list[Note]]:
        return self.session.value(), self.session.text(), self.session.notes()
