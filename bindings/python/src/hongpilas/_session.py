"""Sessions and views."""
from __future__ import annotations

import ctypes
import threading
import warnings
import weakref
from contextlib import contextmanager, suppress
from dataclasses import astuple, dataclass
from types import TracebackType
from typing import Any, Iterator, NoReturn

from . import constants
from ._library import LIB, LimitsInC, NoteInC, Refusal, as_int64, as_uint32, as_uint64, name_of
from ._messages import Messages, Text, as_bytes


class Refused(Exception):
    """A call was refused, and has changed nothing. `refusal` says why."""

    def __init__(self, refusal: Refusal):
        super().__init__(refusal)
        self.refusal = refusal

    def __str__(self) -> str:
        return name_of(self.refusal)


@dataclass(frozen=True)
class Limits:
    """Limits of a session. Each is at least 1, and at most what it is by default."""

    doc_bytes: int = 0x7FFFFFFF
    large_bytes: int = 0x10000000000
    handles: int = 0x7FFFFFFF
    ids: int = 0x7FFFFFFF
    refs: int = 0x7FFFFFFF
    views: int = 1024
    depth: int = 255


def note_name(code: int) -> str | None:
    """The name of a notification's code: "SCN_MODIFIED" for 2008; None if no notification has it."""
    name: bytes | None = LIB.hongpilas_note_name(as_uint32(code))
    return None if name is None else name.decode()


@dataclass(frozen=True)
class Note:
    """A notification of a view. Fields that its code does not use are 0.

    `note_name(note.code)` is the notification's name, and `session.view(note.view)` the view. Of a message of several steps, such as the undo of a
    group, positions are those of the text just after each step: apply the changes in their order to a copy.
    """

    view: int
    code: constants.Notification
    kind: constants.Modification
    message: int
    position: int
    length: int
    lines: int
    line: int
    now: int
    prev: int
    token: int
    w: int
    l: int
    text: bytes


class View(Messages):
    """A view of a session, by its id. Messages are its methods; a View does not close its view when it ends.

    Queries change nothing. All other messages, once done, replace the session's one reply, whichever view they were sent to.
    """

    def __init__(self, session: Session, id: int):
        self.session, self.id = session, id

    def send(self, number: int, w: int = 0, l: int = 0, text: Text = b"") -> int:
        """Sends any message, and returns its value. The message table says what w, l and the text mean."""
        return self.session._send(self.id, number, w, l, text)

    def ask(self, number: int, w: int = 0, l: int = 0) -> int:
        """Sends any query, and returns its value. The last reply stays. Raises Refused, with Refusal.UNKNOWN_MESSAGE, if the message is no query."""
        return self.session._ask(self.id, number, w, l)

    def read(self, number: int, w: int = 0, l: int = 0) -> bytes:
        """Sends any query that returns a text, and returns that. The last reply stays."""
        return self.session._read(self.id, number, w, l)

    def lines(self) -> Iterator[bytes]:
        """The lines of the document, each with its line end; the last one has none."""
        line = 0
        while line < self.get_line_count():
            yield self.get_line(line)
            line += 1

    @contextmanager
    def undo_group(self) -> Iterator[View]:
        """A context whose edits are one undo step: `with view.undo_group():`. Its end is a message, which replaces the last reply.

        An exception that leaves it is raised as it is, even where the end is refused, since the view or the session was closed inside.
        """
        self.begin_undo_action()
        try:
            yield self
        except BaseException:
            with suppress(Refused, ValueError):
                self.end_undo_action()
            raise
        self.end_undo_action()

    def text(self) -> bytes:
        """The text of the session's last reply."""
        return self.session.text()

    def value(self) -> int:
        """The value of the session's last reply."""
        return self.session.value()

    def notes(self) -> list[Note]:
        """This view's notifications in the session's last reply, whichever view that came from. `session.notes()` has those of all views."""
        return [note for note in self.session.notes() if note.view == self.id]

    def read_range(self, start: int, count: int) -> bytes:
        """The `count` bytes of the document from `start` on. Raises Refused, with Refusal.BAD_ARGUMENT, if the range does not lie in the text."""
        return self.session._read_range(self.id, start, count)

    def close(self) -> None:
        """Closes the view. A document to which no other view is attached, and which the caller does not hold, is freed with it."""
        self.session._close_view(self.id)

    def __eq__(self, other: object) -> bool:
        return isinstance(other, View) and (self.session is other.session and self.id == other.id)

    def __hash__(self) -> int:
        return hash((id(self.session), self.id))

    def __repr__(self) -> str:
        return f"<View {self.id}>"


def free_dropped(session: int) -> None:
    """Frees a session that nobody closed."""
    warnings.warn("a hongpilas.Session was not closed", ResourceWarning, stacklevel=2)
    LIB.hongpilas_free(session)


class Session:
    """A session: its documents and the views on them, freed at the end of `with`, or by close().

    It opens without views: new_view() opens one, and messages are sent to that. Threads may share a session: its calls are made one at a time.
    One that is dropped without being closed is freed, too, with a ResourceWarning.
    """

    def __init__(self, limits: Limits = Limits()):
        self._lock: Any = threading.RLock()
        self._session: int | None = None
        session, given = ctypes.c_void_p(), LimitsInC(*map(as_uint64, astuple(limits)))
        check(LIB.hongpilas_new_with_limits(session, given, ctypes.sizeof(given)))
        assert session.value is not None
        self._session = session.value
        self._dropped = weakref.finalize(self, free_dropped, session.value)

    def __enter__(self) -> Session:
        self._open()
        return self

    def __exit__(self, kind: type[BaseException] | None, fault: BaseException | None, trace: TracebackType | None) -> None:
        self.close()

    def close(self) -> None:
        """Frees the session, once. What uses it later raises ValueError."""
        with self._turn():
            session, self._session = self._session, None
            if session is not None:
                self._dropped.detach()
                LIB.hongpilas_free(session)

    @property
    def closed(self) -> bool:
        """Whether the session was closed."""
        return self._session is None

    def new_view(self) -> View:
        """Opens a view on a new document. Views have the ids 1, 2, 3 and so on, in the order in which they are opened."""
        id = ctypes.c_uint32()
        with self._turn():
            check(LIB.hongpilas_new_view(self._open(), id))
        return View(self, id.value)

    def view(self, id: int) -> View:
        """The view with this id, as a notification names it. Messages to one that is not open are refused, as Refusal.NO_SUCH_VIEW."""
        return View(self, id)

    def value(self) -> int:
        """The value of the last reply: that of the last message that was done and is no query. 0 before the first one."""
        value = ctypes.c_int64()
        with self._turn():
            check(LIB.hongpilas_value(self._open(), value))
        return value.value

    def text(self) -> bytes:
        """The text of the last reply, which is that of a query that was sent as a message."""
        where, length = ctypes.c_void_p(), ctypes.c_size_t()
        with self._turn():
            check(LIB.hongpilas_text(self._open(), where, length))
            return copied(where, length.value)

    def notes(self) -> list[Note]:
        """The notifications of the last reply, of all views, as copies."""
        count, note = ctypes.c_size_t(), NoteInC()
        with self._turn():
            session = self._open()
            check(LIB.hongpilas_note_count(session, count))
            found = []
            for index in range(count.value):
                check(LIB.hongpilas_note(session, index, note, ctypes.sizeof(note)))
                found.append(note_of(note))
        return found

    def _turn(self) -> Any:
        """The lock under which a call is made: a second thread waits for it. Raises RuntimeError amid a call of the same thread, as in a signal handler or
        a finalizer.
        """
        # The lock itself says whose it is. No flag of ours could do so at each moment at which a signal comes, and `with` gives the lock back whatever is
        # raised. A call that a handler makes before the lock is taken is done as a whole.
        if self._lock._is_owned():
            raise RuntimeError("a session is used by one call at a time")
        return self._lock

    def _open(self) -> int:
        if self._session is None:
            raise ValueError("the session is closed")
        return self._session

    def _send(self, view: int, number: int, w: int, l: int, text: Text) -> int:
        value, sent = ctypes.c_int64(), as_bytes(text)
        view, number, w, l = as_uint32(view), as_uint32(number), as_int64(w), as_int64(l)
        with self._turn():
            check(LIB.hongpilas_send(self._open(), view, number, w, l, sent, len(sent), value))
        return value.value

    def _ask(self, view: int, number: int, w: int, l: int) -> int:
        value = ctypes.c_int64()
        view, number, w, l = as_uint32(view), as_uint32(number), as_int64(w), as_int64(l)
        with self._turn():
            check(LIB.hongpilas_ask(self._open(), view, number, w, l, value))
        return value.value

    def _read(self, view: int, number: int, w: int, l: int) -> bytes:
        where, length = ctypes.c_void_p(), ctypes.c_size_t()
        view, number, w, l = as_uint32(view), as_uint32(number), as_int64(w), as_int64(l)
        with self._turn():
            check(LIB.hongpilas_read(self._open(), view, number, w, l, where, length, None))
            return copied(where, length.value)

    def _read_range(self, view: int, start: int, count: int) -> bytes:
        where = ctypes.c_void_p()
        try:
            start, count = as_uint64(start), as_uint64(count)
        except OverflowError:
            raise Refused(Refusal.BAD_ARGUMENT) from None
        view = as_uint32(view)
        with self._turn():
            check(LIB.hongpilas_lend_range(self._open(), view, start, count, where))
            return copied(where, count)

    def _close_view(self, view: int) -> None:
        view = as_uint32(view)
        with self._turn():
            check(LIB.hongpilas_close_view(self._open(), view))

    def __reduce__(self) -> NoReturn:
        raise TypeError("a session cannot be copied or pickled")


def check(answer: int) -> None:
    """Raises what a refusal's number stands for."""
    if answer:
        raise Refused(Refusal(answer))


def copied(where: ctypes.c_void_p, length: int) -> bytes:
    """A copy of bytes that were lent. If there are none, their address means nothing."""
    return ctypes.string_at(where, length) if length else b""


def note_of(note: Any) -> Note:
    """A notification with a copy of its text."""
    text = ctypes.string_at(note.text, note.text_length) if note.text_length else b""
    return Note(
        note.view, constants.Notification(note.code), constants.Modification(note.kind), note.message, note.position, note.length, note.lines,
        note.line, note.now, note.prev, note.token, note.w, note.l, text,
    )  # fmt: skip
