"""Opens a file, replaces a word everywhere as one undo step, prints the notifications, and has a thread read a copy of the text.

    python bindings/python/replace_all.py examples/c/tutorial/sample.txt side n
"""
import sys
from concurrent.futures import ThreadPoolExecutor
from pathlib import Path

from hongpilas import Find, Modification, Notification, Session, View, note_name


def print_notes(session: Session) -> None:
    """Prints the notifications of the last reply: the next message replaces them. The view's mask lets SCN_MODIFIED through for insertions and
    deletions alone."""
    for note in session.notes():
        where = ""
        if note.code == Notification.MODIFIED:
            where = f": {note.length} bytes {'inserted' if note.kind & Modification.INSERTTEXT else 'deleted'} at {note.position}"
        print(f"  {note_name(note.code)}{where}")


def open_file(session: Session, view: View, name: str) -> None:
    """Appends a file to the text. Undo is not collected meanwhile: nobody can undo the opening."""
    view.set_undo_collection(False)
    view.append_text(Path(name).read_bytes())
    print_notes(session)
    view.set_undo_collection(True)
    view.set_save_point()
    print_notes(session)


def replace_all(session: Session, view: View, word: str, other: str) -> None:
    """Replaces a word everywhere. What is done inside `with` is one undo step."""
    with view.undo_group():
        view.set_search_flags(Find.MATCHCASE | Find.WHOLEWORD)
        view.target_whole_document()
        while view.search_in_target(word) >= 0:
            view.replace_target(other)
            print_notes(session)
            view.set_target_range(view.get_target_end(), view.get_length())


def count_words(copy: bytes) -> int:
    """Counts the words of a copy, which is the thread's own."""
    return len(copy.split())


def main(name: str, word: str, other: str) -> None:
    with Session() as session, ThreadPoolExecutor() as threads:
        view = session.new_view()
        view.set_mod_event_mask(Modification.INSERTTEXT | Modification.DELETETEXT)
        print("open")
        open_file(session, view, name)
        counted = threads.submit(count_words, view.get_text())
        print("replace")
        replace_all(session, view, word, other)
        print(view.get_text().decode(), end="")
        print("undo")
        view.undo()
        print_notes(session)
        print(counted.result(), "words in the copy")


if __name__ == "__main__":
    if len(sys.argv) != 4 or not sys.argv[2]:
        sys.exit("replace_all.py FILE WORD OTHER")
    main(*sys.argv[1:])
