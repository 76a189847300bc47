"""Two views of one document: a text goes in and out, each view is notified, refusals say why, and a macro is replayed."""
from typing import Callable

from hongpilas import Limits, Refused, Session, constants, note_name


def print_notes(session: Session) -> None:
    """Prints the notifications of the last reply."""
    for note in session.notes():
        print(f"view {note.view}: {note_name(note.code)}, kind {note.kind:#x}, position {note.position}, lines {note.lines}, {note.text!r}")


def edit(session: Session) -> None:
    """Inserts a text by one view, and reads it by another."""
    writer, reader = session.new_view(), session.new_view()
    reader.set_doc_pointer(writer.get_doc_pointer())
    writer.insert_text(0, "hello,\nworld\n")
    print_notes(session)
    print(reader.get_length(), "bytes,", reader.get_line_count(), "lines")
    print(reader.get_line(1), reader.get_text_range(3, 8), reader.read_range(0, 5))
    reader.set_target_range(0, reader.get_length())
    print("found at", reader.search_in_target("wor"), "to", reader.get_target_end())
    reader.undo()
    print("undone:", writer.get_text(), "redo:", writer.can_redo())


def replay(session: Session) -> None:
    """Records what is typed in a view, and sends it to another."""
    origin, copy = session.new_view(), session.new_view()
    origin.start_record()
    origin.add_text("größer")
    for note in session.notes():
        if note.code == constants.SCN_MACRORECORD:
            copy.send(note.message, note.w, note.l, note.text)
    print("replayed:", copy.get_text().decode())


def attempt(what: str, call: Callable[[], object]) -> None:
    """Prints what a call raises."""
    try:
        call()
    except (Refused, OverflowError, RuntimeError, TypeError, ValueError) as fault:
        print(f"{what}: {type(fault).__name__}, {fault}")


def main() -> None:
    with Session() as session:
        edit(session)
        replay(session)
        view, closed = session.view(1), session.new_view()
        attempt("a range past the end", lambda: view.get_text_range(5, 99))
        attempt("no such message", lambda: view.send(9999))
        attempt("a number that is too great", lambda: view.goto_pos(1 << 63))
        attempt("a range before the text", lambda: view.read_range(-1, 2))
        attempt("a number as a text", lambda: view.append_text(3))  # type: ignore[arg-type]
        closed.close()
        attempt("a view that was closed", closed.get_length)
    attempt("a session that was closed", view.get_length)
    with Session(Limits(doc_bytes=10)) as session:
        view = session.new_view()
        attempt("eleven bytes where ten may be", lambda: view.set_text("hello world"))
        view.set_text("hello")
        print(view.get_text())


if __name__ == "__main__":
    main()
