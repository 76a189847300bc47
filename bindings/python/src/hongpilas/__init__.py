"""Hongpilas: an editing component with the messages of Scintilla.

    from hongpilas import Session

    with Session() as session:
        view = session.new_view()
        view.insert_text(0, "hello, world")
        print(session.notes(), view.get_text_range(0, 5))

Messages are methods of a View, by their names in snake case. What is refused raises Refused, and has changed nothing. Texts are bytes; a str that
is sent is sent as UTF-8.
"""
from . import constants
from ._library import Refusal
from ._messages import Messages, Text
from ._session import Limits, Note, Refused, Session, View, note_name
from .constants import DocumentOption, EndOfLine, Find, FoldAction, FoldLevel, LineEndType, Modification, Notification, UndoFlag

__version__ = "2.0.0"
__all__ = [
    "DocumentOption", "EndOfLine", "Find", "FoldAction", "FoldLevel", "Limits", "LineEndType", "Messages", "Modification", "Note", "Notification",
    "Refusal", "Refused", "Session", "Text", "UndoFlag", "View", "constants", "note_name",
]  # fmt: skip
