"""The messages of the profile, as methods."""
from __future__ import annotations

from typing import Union

from . import constants

#: What a message takes as its text: a bytes-like object, such as these, or a str, which is sent as UTF-8.
Text = Union[bytes, bytearray, memoryview, str]


def as_bytes(text: Text) -> bytes:
    """The bytes of a text that is sent. A bytes object goes as it is, and so does a view of the whole of one. All else is copied: a call lets other threads
    run, and one of them could change it meanwhile. Raises TypeError if it is no text: bytes() would make NULs of a number, and bytes of a list.
    """
    # No subclass: one could have another length.
    if type(text) is bytes:
        return text
    if isinstance(text, str):
        return str.encode(text)
    try:
        view = memoryview(text)
    except TypeError:
        raise TypeError(f"a text is a str or a bytes-like object, and not {type(text).__name__}") from None
    whole = view.obj
    return whole if type(whole) is bytes and view.c_contiguous and view.nbytes == len(whole) else view.tobytes()


class Messages:
    """The messages of the profile. Positions and lengths are in bytes, lines are whole numbers, and all count from 0.

    An argument outside the range that a docstring states raises Refused, with Refusal.BAD_ARGUMENT, and changes nothing.
    """

    def send(self, number: int, w: int = 0, l: int = 0, text: Text = b"") -> int:
        """Sends any message, and returns its value. The message table says what w, l and the text mean."""
        raise NotImplementedError

    def ask(self, number: int, w: int = 0, l: int = 0) -> int:
        """Sends any query, and returns its value."""
        raise NotImplementedError

    def read(self, number: int, w: int = 0, l: int = 0) -> bytes:
        """Sends any query that returns a text, and returns that."""
        raise NotImplementedError

    # Written by tools/pages/wrappers.py: begin
    def add_text(self, text: Text) -> None:
        """Inserts `text` at the caret, and moves anchor and caret to the end of the inserted text. An empty `text`
        moves the anchor to the caret. Message: `SCI_ADDTEXT`.
        """
        text = as_bytes(text)
        self.send(constants.SCI_ADDTEXT, len(text), 0, text)

    def insert_text(self, position: int, text: Text) -> None:
        """Inserts `text` at `position`, or at the caret if `position` is -1. Raises `Refused` with
        `Refusal.BAD_ARGUMENT` unless `position` is -1 to the text's length. Message: `SCI_INSERTTEXT`.
        """
        self.send(constants.SCI_INSERTTEXT, position, 0, text)

    def clear_all(self) -> None:
        """Deletes the whole text. Message: `SCI_CLEARALL`."""
        self.send(constants.SCI_CLEARALL)

    def get_length(self) -> int:
        """Returns the length of the text. Message: `SCI_GETLENGTH`."""
        return self.ask(constants.SCI_GETLENGTH)

    def get_char_at(self, position: int) -> int:
        """Returns the byte at `position`, 0 to 255, or 0 if there is none. Message: `SCI_GETCHARAT`."""
        return self.ask(constants.SCI_GETCHARAT, position)

    def get_current_pos(self) -> int:
        """Returns the position of the caret. Message: `SCI_GETCURRENTPOS`."""
        return self.ask(constants.SCI_GETCURRENTPOS)

    def get_anchor(self) -> int:
        """Returns the position of the anchor. Message: `SCI_GETANCHOR`."""
        return self.ask(constants.SCI_GETANCHOR)

    def get_style_at(self, position: int) -> int:
        """Returns the style of the byte at `position`, or 0 if there is none. Message: `SCI_GETSTYLEAT`."""
        return self.ask(constants.SCI_GETSTYLEAT, position)

    def redo(self) -> None:
        """Performs again the transaction that was undone last; does nothing while a group is open, or if there is
        no transaction to redo. Message: `SCI_REDO`.
        """
        self.send(constants.SCI_REDO)

    def set_undo_collection(self, on: bool) -> None:
        """Sets whether undo is collected. Off, even if it was off, forgets the history and closes all groups, and
        keeps whether the document counts as modified. On while undo is collected changes nothing. Message:
        `SCI_SETUNDOCOLLECTION`.
        """
        self.send(constants.SCI_SETUNDOCOLLECTION, on)

    def select_all(self) -> None:
        """Moves the anchor to 0 and the caret to the end of the text. Message: `SCI_SELECTALL`."""
        self.send(constants.SCI_SELECTALL)

    def set_save_point(self) -> None:
        """Makes the current state the save point, and always sends SCN_SAVEPOINTREACHED. Message:
        `SCI_SETSAVEPOINT`.
        """
        self.send(constants.SCI_SETSAVEPOINT)

    def get_styled_text(self, start: int, end: int) -> bytes:
        """Returns each byte from `start` to `end`, followed by its style; the value, which `ask` returns, is the
        number of bytes returned. Raises `Refused` with `Refusal.BAD_ARGUMENT` unless `start` and `end` are a
        range of the text; an `end` of -1 is its end. Message: `SCI_GETSTYLEDTEXT`.
        """
        return self.read(constants.SCI_GETSTYLEDTEXT, start, end)

    def can_redo(self) -> bool:
        """Returns whether `redo` would change something: no group is open, the document is not read-only, and
        there is a transaction to redo. Message: `SCI_CANREDO`.
        """
        return self.ask(constants.SCI_CANREDO) != 0

    def marker_line_from_handle(self, handle: int) -> int:
        """Returns the line of the marker with `handle`, or -1 if there is none. Message:
        `SCI_MARKERLINEFROMHANDLE`.
        """
        return self.ask(constants.SCI_MARKERLINEFROMHANDLE, handle)

    def marker_delete_handle(self, handle: int) -> None:
        """Removes the marker with `handle`. If there is one, sends SCN_MODIFIED (`SC_MOD_CHANGEMARKER`). Message:
        `SCI_MARKERDELETEHANDLE`.
        """
        self.send(constants.SCI_MARKERDELETEHANDLE, handle)

    def get_undo_collection(self) -> bool:
        """Returns whether undo is collected. Message: `SCI_GETUNDOCOLLECTION`."""
        return self.ask(constants.SCI_GETUNDOCOLLECTION) != 0

    def goto_line(self, line: int) -> None:
        """Moves anchor and caret to the start of line `line`; a negative number stands for the first line, one
        that is too great for the last. Message: `SCI_GOTOLINE`.
        """
        self.send(constants.SCI_GOTOLINE, line)

    def goto_pos(self, position: int) -> None:
        """Moves anchor and caret to `position` (clamped to the text). Message: `SCI_GOTOPOS`."""
        self.send(constants.SCI_GOTOPOS, position)

    def set_anchor(self, position: int) -> None:
        """Moves the anchor to `position` (clamped to the text); the caret stays. Message: `SCI_SETANCHOR`."""
        self.send(constants.SCI_SETANCHOR, position)

    def get_cur_line(self) -> bytes:
        """Returns the caret's line with its line end; the value, which `ask` returns, is the caret's distance from
        the line's start, in bytes. Message: `SCI_GETCURLINE`.
        """
        return self.read(constants.SCI_GETCURLINE)

    def get_end_styled(self) -> int:
        """Returns end styled: the position up to which the document is styled. Message: `SCI_GETENDSTYLED`."""
        return self.ask(constants.SCI_GETENDSTYLED)

    def convert_eols(self, mode: int) -> None:
        """Turns each CRLF, CR and LF of the text into one line end: `SC_EOL_CRLF` 0, `SC_EOL_CR` 1 or `SC_EOL_LF`
        2. Unicode line ends stay, and so does the document's line end. Raises `Refused` with
        `Refusal.BAD_ARGUMENT` unless `mode` is 0 to 2. Message: `SCI_CONVERTEOLS`.
        """
        self.send(constants.SCI_CONVERTEOLS, mode)

    def get_eol_mode(self) -> int:
        """Returns the document's line end: `SC_EOL_CRLF`, `SC_EOL_CR` or `SC_EOL_LF`. Message: `SCI_GETEOLMODE`."""
        return self.ask(constants.SCI_GETEOLMODE)

    def set_eol_mode(self, mode: int) -> None:
        """Sets the document's line end: `SC_EOL_CRLF` 0, `SC_EOL_CR` 1 or `SC_EOL_LF` 2. Raises `Refused` with
        `Refusal.BAD_ARGUMENT` unless `mode` is 0 to 2. Message: `SCI_SETEOLMODE`.
        """
        self.send(constants.SCI_SETEOLMODE, mode)

    def start_styling(self, position: int) -> None:
        """Moves end styled to `position`. Raises `Refused` with `Refusal.BAD_ARGUMENT` unless `position` is 0 to
        the text's length. Message: `SCI_STARTSTYLING`.
        """
        self.send(constants.SCI_STARTSTYLING, position)

    def set_styling(self, length: int, style: int) -> None:
        """Gives `style` to the `length` bytes from end styled on, and moves end styled after them. If a style
        changed, sends SCN_MODIFIED (`SC_MOD_CHANGESTYLE`). Raises `Refused` with `Refusal.BAD_ARGUMENT` unless
        `style` is 0 to 255, and `length` 0 to the number of bytes from end styled on. Message:
        `SCI_SETSTYLING`.
        """
        self.send(constants.SCI_SETSTYLING, length, style)

    def marker_add(self, line: int, number: int) -> int:
        """Adds a marker with `number` to line `line`, after those that it has, and returns its handle; -1 if there
        is no such line. If it added one, sends SCN_MODIFIED (`SC_MOD_CHANGEMARKER`). Raises `Refused` with
        `Refusal.BAD_ARGUMENT` unless `number` is 0 to 31, and with `Refusal.TOO_MANY` if marker handles are
        used up. Message: `SCI_MARKERADD`.
        """
        return self.send(constants.SCI_MARKERADD, line, number)

    def marker_delete(self, line: int, number: int) -> None:
        """Removes from line `line`, if there is such a line, the first marker with `number`, or all markers if
        that is -1. If it removed one, sends SCN_MODIFIED (`SC_MOD_CHANGEMARKER`). Raises `Refused` with
        `Refusal.BAD_ARGUMENT` unless `number` is -1 to 31. Message: `SCI_MARKERDELETE`.
        """
        self.send(constants.SCI_MARKERDELETE, line, number)

    def marker_delete_all(self, number: int) -> None:
        """Removes all markers with `number` from the document, or all markers if that is -1. If it removed one,
        sends one SCN_MODIFIED (`SC_MOD_CHANGEMARKER`) with line -1. Raises `Refused` with
        `Refusal.BAD_ARGUMENT` unless `number` is -1 to 31. Message: `SCI_MARKERDELETEALL`.
        """
        self.send(constants.SCI_MARKERDELETEALL, number)

    def marker_get(self, line: int) -> int:
        """Returns the mask of the markers of line `line`: bit k is set if it has one with number k; 0 if there is
        no such line. Message: `SCI_MARKERGET`.
        """
        return self.ask(constants.SCI_MARKERGET, line)

    def marker_next(self, line: int, mask: int) -> int:
        """Returns the first line from `line` on that has a marker whose bit is set in the low 32 bits of `mask`,
        or -1. Message: `SCI_MARKERNEXT`.
        """
        return self.ask(constants.SCI_MARKERNEXT, line, mask)

    def marker_previous(self, line: int, mask: int) -> int:
        """Returns the last line up to `line` that has a marker whose bit is set in the low 32 bits of `mask`, or
        -1. Message: `SCI_MARKERPREVIOUS`.
        """
        return self.ask(constants.SCI_MARKERPREVIOUS, line, mask)

    def set_styling_ex(self, styles: Text) -> None:
        """Gives each byte from end styled on the style that `styles` has for it, and moves end styled after the
        last one. If a style changed, sends SCN_MODIFIED (`SC_MOD_CHANGESTYLE`). Raises `Refused` with
        `Refusal.BAD_ARGUMENT` if `styles` has more bytes than there are from end styled on. Message:
        `SCI_SETSTYLINGEX`.
        """
        styles = as_bytes(styles)
        self.send(constants.SCI_SETSTYLINGEX, len(styles), 0, styles)

    def begin_undo_action(self) -> None:
        """Opens an undo group, inside those that are open. Raises `Refused` with `Refusal.TOO_MANY` at the limit
        of their depth. Message: `SCI_BEGINUNDOACTION`.
        """
        self.send(constants.SCI_BEGINUNDOACTION)

    def end_undo_action(self) -> None:
        """Closes the undo group that was opened last. Does nothing if none is open. Message: `SCI_ENDUNDOACTION`."""
        self.send(constants.SCI_ENDUNDOACTION)

    def set_line_state(self, line: int, state: int) -> None:
        """Sets the state of line `line`, if there is such a line. If the state changed, sends SCN_MODIFIED
        (`SC_MOD_CHANGELINESTATE`). Raises `Refused` with `Refusal.BAD_ARGUMENT` unless `state` is -2^31 to
        2^31-1. Message: `SCI_SETLINESTATE`.
        """
        self.send(constants.SCI_SETLINESTATE, line, state)

    def get_line_state(self, line: int) -> int:
        """Returns the state of line `line`, or 0 if there is no such line. Message: `SCI_GETLINESTATE`."""
        return self.ask(constants.SCI_GETLINESTATE, line)

    def get_line_end_position(self, line: int) -> int:
        """Returns where the line end of line `line` begins; the text's length for the last line and past it; -1 if
        `line` is negative. Message: `SCI_GETLINEENDPOSITION`.
        """
        return self.ask(constants.SCI_GETLINEENDPOSITION, line)

    def get_read_only(self) -> bool:
        """Returns whether the document is read-only. Message: `SCI_GETREADONLY`."""
        return self.ask(constants.SCI_GETREADONLY) != 0

    def set_current_pos(self, position: int) -> None:
        """Moves the caret to `position` (clamped to the text); the anchor stays. Message: `SCI_SETCURRENTPOS`."""
        self.send(constants.SCI_SETCURRENTPOS, position)

    def set_selection_start(self, position: int) -> None:
        """Moves the anchor to `position` (clamped to the text); if the caret is before it, moves the caret there
        too. Message: `SCI_SETSELECTIONSTART`.
        """
        self.send(constants.SCI_SETSELECTIONSTART, position)

    def get_selection_start(self) -> int:
        """Returns the selection's start: the lesser of anchor and caret. Message: `SCI_GETSELECTIONSTART`."""
        return self.ask(constants.SCI_GETSELECTIONSTART)

    def set_selection_end(self, position: int) -> None:
        """Moves the caret to `position` (clamped to the text); if the anchor is after it, moves the anchor there
        too. Message: `SCI_SETSELECTIONEND`.
        """
        self.send(constants.SCI_SETSELECTIONEND, position)

    def get_selection_end(self) -> int:
        """Returns the selection's end: the greater of anchor and caret. Message: `SCI_GETSELECTIONEND`."""
        return self.ask(constants.SCI_GETSELECTIONEND)

    def get_line(self, line: int) -> bytes:
        """Returns line `line` with its line end; the value, which `ask` returns, is its length. If there is no
        such line, the text is empty and the value 0. Message: `SCI_GETLINE`.
        """
        return self.read(constants.SCI_GETLINE, line)

    def get_line_count(self) -> int:
        """Returns the number of lines, which is at least 1. Message: `SCI_GETLINECOUNT`."""
        return self.ask(constants.SCI_GETLINECOUNT)

    def get_modify(self) -> bool:
        """Returns whether the document is modified, that is, not at its save point. Message: `SCI_GETMODIFY`."""
        return self.ask(constants.SCI_GETMODIFY) != 0

    def set_sel(self, anchor: int, caret: int) -> None:
        """Moves the anchor to `anchor` and the caret to `caret` (both clamped to the text). A negative `caret`
        stands for the end of the text, and a negative `anchor` for where the caret then is. Message:
        `SCI_SETSEL`.
        """
        self.send(constants.SCI_SETSEL, anchor, caret)

    def get_sel_text(self) -> bytes:
        """Returns the selected text; the value, which `ask` returns, is its length. Message: `SCI_GETSELTEXT`."""
        return self.read(constants.SCI_GETSELTEXT)

    def get_text_range(self, start: int, end: int) -> bytes:
        """Returns the text from `start` to `end`; the value, which `ask` returns, is its length. Raises `Refused`
        with `Refusal.BAD_ARGUMENT` unless `start` and `end` are a range of the text; an `end` of -1 is its end.
        Message: `SCI_GETTEXTRANGE`.
        """
        return self.read(constants.SCI_GETTEXTRANGE, start, end)

    def line_from_position(self, position: int) -> int:
        """Returns the line that contains `position` (clamped to the text). Message: `SCI_LINEFROMPOSITION`."""
        return self.ask(constants.SCI_LINEFROMPOSITION, position)

    def position_from_line(self, line: int) -> int:
        """Returns the start of line `line`. A negative number stands for the line of the selection's start; the
        number of lines gives the text's length, and a greater number -1. Message: `SCI_POSITIONFROMLINE`.
        """
        return self.ask(constants.SCI_POSITIONFROMLINE, line)

    def replace_sel(self, text: Text) -> None:
        """Replaces the selection by `text`, and moves anchor and caret to the end of the inserted text. Message:
        `SCI_REPLACESEL`.
        """
        self.send(constants.SCI_REPLACESEL, 0, 0, text)

    def set_read_only(self, on: bool) -> None:
        """Makes the document read-only, or writable if `on` is False. Message: `SCI_SETREADONLY`."""
        self.send(constants.SCI_SETREADONLY, on)

    def can_paste(self) -> bool:
        """Returns whether text can be pasted: whether the document is not read-only. Message: `SCI_CANPASTE`."""
        return self.ask(constants.SCI_CANPASTE) != 0

    def can_undo(self) -> bool:
        """Returns whether `undo` would change something: no group is open, the document is not read-only, and
        there is a transaction to undo. Message: `SCI_CANUNDO`.
        """
        return self.ask(constants.SCI_CANUNDO) != 0

    def empty_undo_buffer(self) -> None:
        """Forgets the history, closes all groups, and makes the current state the save point. No view is notified.
        Message: `SCI_EMPTYUNDOBUFFER`.
        """
        self.send(constants.SCI_EMPTYUNDOBUFFER)

    def undo(self) -> None:
        """Takes back the last transaction; does nothing while a group is open, or if there is no transaction to
        undo. Message: `SCI_UNDO`.
        """
        self.send(constants.SCI_UNDO)

    def cut(self) -> None:
        """Copies the selection to the clipboard and deletes it. Does nothing if the selection is empty; on a
        read-only document the clipboard stays as it is. Message: `SCI_CUT`.
        """
        self.send(constants.SCI_CUT)

    def copy(self) -> None:
        """Copies the selection to the clipboard. Does nothing if the selection is empty. Message: `SCI_COPY`."""
        self.send(constants.SCI_COPY)

    def paste(self) -> None:
        """Replaces the selection by the clipboard, and moves anchor and caret to the end of the inserted text. If
        the view converts pastes, each CRLF, CR and LF is inserted as the document's line end. Does nothing if
        the clipboard is empty. Message: `SCI_PASTE`.
        """
        self.send(constants.SCI_PASTE)

    def clear(self) -> None:
        """Deletes the selection, or, if that is empty, the bytes from the caret to the next character boundary.
        Message: `SCI_CLEAR`.
        """
        self.send(constants.SCI_CLEAR)

    def set_text(self, text: Text) -> None:
        """Replaces the whole text by `text`. Message: `SCI_SETTEXT`."""
        self.send(constants.SCI_SETTEXT, 0, 0, text)

    def get_text(self) -> bytes:
        """Returns the whole text; the value, which `ask` returns, is its length. Message: `SCI_GETTEXT`."""
        return self.read(constants.SCI_GETTEXT)

    def get_text_length(self) -> int:
        """Returns the length of the text. Message: `SCI_GETTEXTLENGTH`."""
        return self.ask(constants.SCI_GETTEXTLENGTH)

    def set_target_start(self, position: int) -> None:
        """Sets the target's start to `position` (clamped to the text). Message: `SCI_SETTARGETSTART`."""
        self.send(constants.SCI_SETTARGETSTART, position)

    def get_target_start(self) -> int:
        """Returns the target's start. Message: `SCI_GETTARGETSTART`."""
        return self.ask(constants.SCI_GETTARGETSTART)

    def set_target_end(self, position: int) -> None:
        """Sets the target's end to `position` (clamped to the text). Message: `SCI_SETTARGETEND`."""
        self.send(constants.SCI_SETTARGETEND, position)

    def get_target_end(self) -> int:
        """Returns the target's end. Message: `SCI_GETTARGETEND`."""
        return self.ask(constants.SCI_GETTARGETEND)

    def replace_target(self, text: Text) -> int:
        """Replaces the text between the target's ends by `text`, makes the inserted text the target, and returns
        its length. On a read-only document it returns 0, and the target stays. Message: `SCI_REPLACETARGET`.
        """
        text = as_bytes(text)
        return self.send(constants.SCI_REPLACETARGET, len(text), 0, text)

    def search_in_target(self, text: Text) -> int:
        """Searches the target for `text` by the view's search flags. Finds the first match, or the last one if the
        target's start is greater than its end; sets the target's start and end to those of the match, and
        returns its start. Without a match it returns -1, and the target stays. Message: `SCI_SEARCHINTARGET`.
        """
        text = as_bytes(text)
        return self.send(constants.SCI_SEARCHINTARGET, len(text), 0, text)

    def set_search_flags(self, flags: int) -> None:
        """Sets the view's search flags to `flags`: 0, or made of `SCFIND_WHOLEWORD` 0x2, `SCFIND_MATCHCASE` 0x4
        and `SCFIND_WORDSTART` 0x100000. Raises `Refused` with `Refusal.BAD_ARGUMENT` if `flags` has other bits.
        Message: `SCI_SETSEARCHFLAGS`.
        """
        self.send(constants.SCI_SETSEARCHFLAGS, flags)

    def get_search_flags(self) -> int:
        """Returns the view's search flags. Message: `SCI_GETSEARCHFLAGS`."""
        return self.ask(constants.SCI_GETSEARCHFLAGS)

    def visible_from_doc_line(self, line: int) -> int:
        """Returns the display line of line `line`; for a hidden line that of the last visible line before it; -1
        if there is no such line. Message: `SCI_VISIBLEFROMDOCLINE`.
        """
        return self.ask(constants.SCI_VISIBLEFROMDOCLINE, line)

    def doc_line_from_visible(self, display_line: int) -> int:
        """Returns the line at display line `display_line`; 0 if that is negative, and the number of lines if it is
        past the last. Message: `SCI_DOCLINEFROMVISIBLE`.
        """
        return self.ask(constants.SCI_DOCLINEFROMVISIBLE, display_line)

    def set_fold_level(self, line: int, level: int) -> None:
        """Sets the fold level of line `line`, if there is such a line. If the level changed, sends SCN_MODIFIED
        (`SC_MOD_CHANGEFOLD`). Raises `Refused` with `Refusal.BAD_ARGUMENT` unless `level` is 0 to 2^31-1.
        Message: `SCI_SETFOLDLEVEL`.
        """
        self.send(constants.SCI_SETFOLDLEVEL, line, level)

    def get_fold_level(self, line: int) -> int:
        """Returns the fold level of line `line`, or 1024 (`SC_FOLDLEVELBASE`) if there is no such line. Message:
        `SCI_GETFOLDLEVEL`.
        """
        return self.ask(constants.SCI_GETFOLDLEVEL, line)

    def get_last_child(self, line: int, level: int) -> int:
        """Returns the last child of line `line`, or -1 if there is no such line. That child is the line before the
        next one whose level number is at most that of `level` (that of line `line` if `level` is -1), or the
        last line of the document if there is no such next line. Raises `Refused` with `Refusal.BAD_ARGUMENT`
        unless `level` is -1 to 2^31-1. Message: `SCI_GETLASTCHILD`.
        """
        return self.ask(constants.SCI_GETLASTCHILD, line, level)

    def get_fold_parent(self, line: int) -> int:
        """Returns the fold parent of line `line`: the nearest earlier header with a smaller level number; -1 if
        there is none, or no such line. Message: `SCI_GETFOLDPARENT`.
        """
        return self.ask(constants.SCI_GETFOLDPARENT, line)

    def show_lines(self, first: int, last: int) -> None:
        """Makes the lines from `first` to `last` visible, as far as they exist. Message: `SCI_SHOWLINES`."""
        self.send(constants.SCI_SHOWLINES, first, last)

    def hide_lines(self, first: int, last: int) -> None:
        """Hides the lines from `first` to `last`, as far as they exist, except line 0. Message: `SCI_HIDELINES`."""
        self.send(constants.SCI_HIDELINES, first, last)

    def get_line_visible(self, line: int) -> bool:
        """Returns whether line `line` is visible; False if there is no such line. Message: `SCI_GETLINEVISIBLE`."""
        return self.ask(constants.SCI_GETLINEVISIBLE, line) != 0

    def set_fold_expanded(self, line: int, on: bool) -> None:
        """Sets whether line `line` is expanded, if there is such a line; shows and hides nothing. Message:
        `SCI_SETFOLDEXPANDED`.
        """
        self.send(constants.SCI_SETFOLDEXPANDED, line, on)

    def get_fold_expanded(self, line: int) -> bool:
        """Returns whether line `line` is expanded; False if there is no such line. Message: `SCI_GETFOLDEXPANDED`."""
        return self.ask(constants.SCI_GETFOLDEXPANDED, line) != 0

    def toggle_fold(self, line: int) -> None:
        """Contracts line `line` if it is an expanded header, and expands it if it is a contracted one; if it is no
        header, does the same to its fold parent, if it has one. Message: `SCI_TOGGLEFOLD`.
        """
        self.send(constants.SCI_TOGGLEFOLD, line)

    def ensure_visible(self, line: int) -> None:
        """Makes a hidden line `line` visible; before that, makes each of its fold parents visible, and expands
        those that are contracted, the outermost first. Does nothing for a visible line, or if there is no such
        line. Message: `SCI_ENSUREVISIBLE`.
        """
        self.send(constants.SCI_ENSUREVISIBLE, line)

    def get_all_lines_visible(self) -> bool:
        """Returns whether all lines are visible. Message: `SCI_GETALLLINESVISIBLE`."""
        return self.ask(constants.SCI_GETALLLINESVISIBLE) != 0

    def fold_line(self, line: int, action: int) -> None:
        """Contracts, expands or toggles line `line` if it is a header, else its fold parent, if it has one.
        `action` is `SC_FOLDACTION_CONTRACT` 0, `SC_FOLDACTION_EXPAND` 1 or `SC_FOLDACTION_TOGGLE` 2; all else
        is refused with `Refusal.BAD_ARGUMENT`. Message: `SCI_FOLDLINE`.
        """
        self.send(constants.SCI_FOLDLINE, line, action)

    def append_text(self, text: Text) -> None:
        """Inserts `text` at the end of the document. Message: `SCI_APPENDTEXT`."""
        text = as_bytes(text)
        self.send(constants.SCI_APPENDTEXT, len(text), 0, text)

    def target_from_selection(self) -> None:
        """Sets the target's start and end to those of the selection, the lesser first. Message:
        `SCI_TARGETFROMSELECTION`.
        """
        self.send(constants.SCI_TARGETFROMSELECTION)

    def char_left(self) -> None:
        """Moves anchor and caret to the selection's start, or, if it is empty, to the character boundary before
        the caret. Message: `SCI_CHARLEFT`.
        """
        self.send(constants.SCI_CHARLEFT)

    def char_left_extend(self) -> None:
        """Moves the caret to the character boundary before it; the anchor stays. Message: `SCI_CHARLEFTEXTEND`."""
        self.send(constants.SCI_CHARLEFTEXTEND)

    def char_right(self) -> None:
        """Moves anchor and caret to the selection's end, or, if it is empty, to the character boundary after the
        caret. Message: `SCI_CHARRIGHT`.
        """
        self.send(constants.SCI_CHARRIGHT)

    def char_right_extend(self) -> None:
        """Moves the caret to the character boundary after it; the anchor stays. Message: `SCI_CHARRIGHTEXTEND`."""
        self.send(constants.SCI_CHARRIGHTEXTEND)

    def home(self) -> None:
        """Moves anchor and caret to the start of the caret's line. Message: `SCI_HOME`."""
        self.send(constants.SCI_HOME)

    def home_extend(self) -> None:
        """Moves the caret to the start of its line; the anchor stays. Message: `SCI_HOMEEXTEND`."""
        self.send(constants.SCI_HOMEEXTEND)

    def line_end(self) -> None:
        """Moves anchor and caret to where the line end of the caret's line begins. Message: `SCI_LINEEND`."""
        self.send(constants.SCI_LINEEND)

    def line_end_extend(self) -> None:
        """Moves the caret to where the line end of its line begins; the anchor stays. Message:
        `SCI_LINEENDEXTEND`.
        """
        self.send(constants.SCI_LINEENDEXTEND)

    def document_start(self) -> None:
        """Moves anchor and caret to 0. Message: `SCI_DOCUMENTSTART`."""
        self.send(constants.SCI_DOCUMENTSTART)

    def document_start_extend(self) -> None:
        """Moves the caret to 0; the anchor stays. Message: `SCI_DOCUMENTSTARTEXTEND`."""
        self.send(constants.SCI_DOCUMENTSTARTEXTEND)

    def document_end(self) -> None:
        """Moves anchor and caret to the end of the text. Message: `SCI_DOCUMENTEND`."""
        self.send(constants.SCI_DOCUMENTEND)

    def document_end_extend(self) -> None:
        """Moves the caret to the end of the text; the anchor stays. Message: `SCI_DOCUMENTENDEXTEND`."""
        self.send(constants.SCI_DOCUMENTENDEXTEND)

    def delete_back(self) -> None:
        """Deletes the selection, or, if that is empty, the bytes from the character boundary before the caret to
        the caret. Message: `SCI_DELETEBACK`.
        """
        self.send(constants.SCI_DELETEBACK)

    def new_line(self) -> None:
        """Replaces the selection by the document's line end, and moves anchor and caret to the end of the inserted
        text. Message: `SCI_NEWLINE`.
        """
        self.send(constants.SCI_NEWLINE)

    def line_length(self, line: int) -> int:
        """Returns the length of line `line` with its line end, or 0 if there is no such line. Message:
        `SCI_LINELENGTH`.
        """
        return self.ask(constants.SCI_LINELENGTH, line)

    def get_doc_pointer(self) -> int:
        """Returns the id of the view's document. Message: `SCI_GETDOCPOINTER`."""
        return self.ask(constants.SCI_GETDOCPOINTER)

    def set_doc_pointer(self, document: int) -> None:
        """Attaches the view to `document`, or to a new document if that is 0. That document gains a reference, and
        then the old one loses one; the view is attached last, with anchor, caret and target 0, and with all
        lines visible and expanded. The view's other settings stay. The same holds for the view's own document.
        Raises `Refused` with `Refusal.NO_SUCH_DOCUMENT` if there is no such document; with `Refusal.TOO_MANY`
        at the limit of its references, or if ids for a new one are used up. Message: `SCI_SETDOCPOINTER`.
        """
        self.send(constants.SCI_SETDOCPOINTER, 0, document)

    def set_mod_event_mask(self, mask: int) -> None:
        """Sets the view's mask: the kinds of SCN_MODIFIED that it is subscribed to, a bit for each. Raises
        `Refused` with `Refusal.BAD_ARGUMENT` unless `mask` is 0 to 0x7FFFFF (`SC_MODEVENTMASKALL`). Message:
        `SCI_SETMODEVENTMASK`.
        """
        self.send(constants.SCI_SETMODEVENTMASK, mask)

    def create_document(self, bytes: int, options: int) -> int:
        """Creates a document, held once by the caller, and returns its id; `bytes` is not used. `options` is 0, or
        made of `SC_DOCUMENTOPTION_STYLES_NONE` 1 and `SC_DOCUMENTOPTION_TEXT_LARGE` 256. Raises `Refused` with
        `Refusal.BAD_ARGUMENT` if `bytes` is negative or `options` has other bits, and with `Refusal.TOO_MANY`
        if ids are used up. Message: `SCI_CREATEDOCUMENT`.
        """
        return self.send(constants.SCI_CREATEDOCUMENT, bytes, options)

    def add_ref_document(self, document: int) -> None:
        """Adds a reference to `document` that the caller holds. Raises `Refused` with `Refusal.NO_SUCH_DOCUMENT`
        if there is no such document, and with `Refusal.TOO_MANY` at the limit of its references. Message:
        `SCI_ADDREFDOCUMENT`.
        """
        self.send(constants.SCI_ADDREFDOCUMENT, 0, document)

    def release_document(self, document: int) -> None:
        """Gives back a reference to `document` that a caller holds. Raises `Refused` with
        `Refusal.NO_SUCH_DOCUMENT` if there is no such document, or if no caller holds it. Message:
        `SCI_RELEASEDOCUMENT`.
        """
        self.send(constants.SCI_RELEASEDOCUMENT, 0, document)

    def get_mod_event_mask(self) -> int:
        """Returns the view's mask: the kinds of SCN_MODIFIED that it is subscribed to. Message:
        `SCI_GETMODEVENTMASK`.
        """
        return self.ask(constants.SCI_GETMODEVENTMASK)

    def get_document_options(self) -> int:
        """Returns the options of the view's document: 0, or made of `SC_DOCUMENTOPTION_STYLES_NONE` and
        `SC_DOCUMENTOPTION_TEXT_LARGE`. Message: `SCI_GETDOCUMENTOPTIONS`.
        """
        return self.ask(constants.SCI_GETDOCUMENTOPTIONS)

    def position_before(self, position: int) -> int:
        """Returns the last character boundary before `position` (clamped to the text), or 0. Message:
        `SCI_POSITIONBEFORE`.
        """
        return self.ask(constants.SCI_POSITIONBEFORE, position)

    def position_after(self, position: int) -> int:
        """Returns the first character boundary after `position` (clamped to the text), or the text's length.
        Message: `SCI_POSITIONAFTER`.
        """
        return self.ask(constants.SCI_POSITIONAFTER, position)

    def copy_range(self, start: int, end: int) -> None:
        """Makes the text from `start` to `end` the clipboard, even if that is empty. Raises `Refused` with
        `Refusal.BAD_ARGUMENT` unless `start` and `end` are a range of the text; an `end` of -1 is its end.
        Message: `SCI_COPYRANGE`.
        """
        self.send(constants.SCI_COPYRANGE, start, end)

    def copy_text(self, text: Text) -> None:
        """Makes `text` the clipboard, even if it is empty. Message: `SCI_COPYTEXT`."""
        text = as_bytes(text)
        self.send(constants.SCI_COPYTEXT, len(text), 0, text)

    def marker_add_set(self, line: int, mask: int) -> None:
        """Adds to line `line`, if there is such a line, a marker for each bit that is set in `mask`, in rising
        order. If it added one, sends one SCN_MODIFIED (`SC_MOD_CHANGEMARKER`). Raises `Refused` with
        `Refusal.BAD_ARGUMENT` unless `mask` is 0 to 2^32-1, and with `Refusal.TOO_MANY` if there are not enough
        marker handles for all. Message: `SCI_MARKERADDSET`.
        """
        self.send(constants.SCI_MARKERADDSET, line, mask)

    def set_paste_convert_endings(self, on: bool) -> None:
        """Sets whether this view converts line ends in what it pastes. Message: `SCI_SETPASTECONVERTENDINGS`."""
        self.send(constants.SCI_SETPASTECONVERTENDINGS, on)

    def get_paste_convert_endings(self) -> bool:
        """Returns whether this view converts line ends in what it pastes. Message: `SCI_GETPASTECONVERTENDINGS`."""
        return self.ask(constants.SCI_GETPASTECONVERTENDINGS) != 0

    def set_indicator_current(self, number: int) -> None:
        """Sets the view's current indicator. Raises `Refused` with `Refusal.BAD_ARGUMENT` unless `number` is 0 to
        31. Message: `SCI_SETINDICATORCURRENT`.
        """
        self.send(constants.SCI_SETINDICATORCURRENT, number)

    def get_indicator_current(self) -> int:
        """Returns the view's current indicator. Message: `SCI_GETINDICATORCURRENT`."""
        return self.ask(constants.SCI_GETINDICATORCURRENT)

    def set_indicator_value(self, value: int) -> None:
        """Sets the value that this view's `indicator_fill_range` writes; 0 counts as 1. Raises `Refused` with
        `Refusal.BAD_ARGUMENT` unless `value` is 0 to 2^31-1. Message: `SCI_SETINDICATORVALUE`.
        """
        self.send(constants.SCI_SETINDICATORVALUE, value)

    def get_indicator_value(self) -> int:
        """Returns the value that this view's `indicator_fill_range` writes. Message: `SCI_GETINDICATORVALUE`."""
        return self.ask(constants.SCI_GETINDICATORVALUE)

    def indicator_fill_range(self, start: int, length: int) -> None:
        """Gives the view's current indicator the view's value over the `length` bytes from `start` on. If a value
        changed, sends SCN_MODIFIED (`SC_MOD_CHANGEINDICATOR`). Raises `Refused` with `Refusal.BAD_ARGUMENT`
        unless these are a range of the text. Message: `SCI_INDICATORFILLRANGE`.
        """
        self.send(constants.SCI_INDICATORFILLRANGE, start, length)

    def indicator_clear_range(self, start: int, length: int) -> None:
        """Gives the view's current indicator the value 0 over the `length` bytes from `start` on. If a value
        changed, sends SCN_MODIFIED (`SC_MOD_CHANGEINDICATOR`). Raises `Refused` with `Refusal.BAD_ARGUMENT`
        unless these are a range of the text. Message: `SCI_INDICATORCLEARRANGE`.
        """
        self.send(constants.SCI_INDICATORCLEARRANGE, start, length)

    def indicator_all_on_for(self, position: int) -> int:
        """Returns a mask in which bit k is set if indicator k is not 0 at the byte at `position`; 0 if there is no
        such byte. Message: `SCI_INDICATORALLONFOR`.
        """
        return self.ask(constants.SCI_INDICATORALLONFOR, position)

    def indicator_value_at(self, number: int, position: int) -> int:
        """Returns the value of indicator `number` at the byte at `position`, or 0 if there is no such byte. Raises
        `Refused` with `Refusal.BAD_ARGUMENT` unless `number` is 0 to 31. Message: `SCI_INDICATORVALUEAT`.
        """
        return self.ask(constants.SCI_INDICATORVALUEAT, number, position)

    def indicator_start(self, number: int, position: int) -> int:
        """Returns the start of the longest run of one value of indicator `number` around the byte at `position`; 0
        if there is no such byte. Raises `Refused` with `Refusal.BAD_ARGUMENT` unless `number` is 0 to 31.
        Message: `SCI_INDICATORSTART`.
        """
        return self.ask(constants.SCI_INDICATORSTART, number, position)

    def indicator_end(self, number: int, position: int) -> int:
        """Returns the end of the longest run of one value of indicator `number` around the byte at `position`: the
        place after its last byte; 0 if there is no such byte. Raises `Refused` with `Refusal.BAD_ARGUMENT`
        unless `number` is 0 to 31. Message: `SCI_INDICATOREND`.
        """
        return self.ask(constants.SCI_INDICATOREND, number, position)

    def set_empty_selection(self, position: int) -> None:
        """Moves anchor and caret to `position` (clamped to the text). Message: `SCI_SETEMPTYSELECTION`."""
        self.send(constants.SCI_SETEMPTYSELECTION, position)

    def add_undo_action(self, token: int, flags: int) -> None:
        """Appends a container action with `token` to the history, also on a read-only document. `flags` is
        `UNDO_NONE` 0, or `UNDO_MAY_COALESCE` 1 for an action that may join the last transaction. Sends
        SCN_SAVEPOINTLEFT if the document was at its save point. Does nothing while undo is not collected.
        Raises `Refused` with `Refusal.BAD_ARGUMENT` unless `flags` is 0 or 1. Message: `SCI_ADDUNDOACTION`.
        """
        self.send(constants.SCI_ADDUNDOACTION, token, flags)

    def delete_range(self, start: int, length: int) -> None:
        """Deletes the `length` bytes from `start` on. Raises `Refused` with `Refusal.BAD_ARGUMENT` unless these
        are a range of the text. Message: `SCI_DELETERANGE`.
        """
        self.send(constants.SCI_DELETERANGE, start, length)

    def get_selection_empty(self) -> bool:
        """Returns whether the selection is empty. Message: `SCI_GETSELECTIONEMPTY`."""
        return self.ask(constants.SCI_GETSELECTIONEMPTY) != 0

    def set_line_end_types_allowed(self, types: int) -> None:
        """Sets which line ends the document allows, also if it is read-only: `SC_LINE_END_TYPE_DEFAULT` 0, or
        `SC_LINE_END_TYPE_UNICODE` 1 for those of Unicode too. Line data (markers, fold levels, line states) and
        the line flags of each view go to the lines that contain their starts. Raises `Refused` with
        `Refusal.BAD_ARGUMENT` unless `types` is 0 or 1. Message: `SCI_SETLINEENDTYPESALLOWED`.
        """
        self.send(constants.SCI_SETLINEENDTYPESALLOWED, types)

    def get_line_end_types_allowed(self) -> int:
        """Returns which line ends the document allows: `SC_LINE_END_TYPE_DEFAULT` or `SC_LINE_END_TYPE_UNICODE`.
        Message: `SCI_GETLINEENDTYPESALLOWED`.
        """
        return self.ask(constants.SCI_GETLINEENDTYPESALLOWED)

    def get_line_end_types_active(self) -> int:
        """Returns which line ends divide the text: those that the document allows, `SC_LINE_END_TYPE_DEFAULT` or
        `SC_LINE_END_TYPE_UNICODE`. Message: `SCI_GETLINEENDTYPESACTIVE`.
        """
        return self.ask(constants.SCI_GETLINEENDTYPESACTIVE)

    def set_target_range(self, start: int, end: int) -> None:
        """Sets the target's start to `start` and its end to `end` (both clamped to the text). Message:
        `SCI_SETTARGETRANGE`.
        """
        self.send(constants.SCI_SETTARGETRANGE, start, end)

    def get_target_text(self) -> bytes:
        """Returns the text between the target's ends, whichever is the lesser; the value, which `ask` returns, is
        its length. Message: `SCI_GETTARGETTEXT`.
        """
        return self.read(constants.SCI_GETTARGETTEXT)

    def target_whole_document(self) -> None:
        """Sets the target's start to 0 and its end to the end of the text. Message: `SCI_TARGETWHOLEDOCUMENT`."""
        self.send(constants.SCI_TARGETWHOLEDOCUMENT)

    def start_record(self) -> None:
        """Starts recording in this view: it is notified by SCN_MACRORECORD of each message marked R, before all
        else. Message: `SCI_STARTRECORD`.
        """
        self.send(constants.SCI_STARTRECORD)

    def stop_record(self) -> None:
        """Stops recording in this view. Message: `SCI_STOPRECORD`."""
        self.send(constants.SCI_STOPRECORD)

    def colourise(self, start: int, end: int) -> None:
        """Asks for styles up to `end`: if end styled is after `start`, moves it back to `start`; then sends the
        view SCN_STYLENEEDED with the position `end`, even for an empty range. Raises `Refused` with
        `Refusal.BAD_ARGUMENT` unless `start` and `end` are a range of the text; an `end` of -1 is its end.
        Message: `SCI_COLOURISE`.
        """
        self.send(constants.SCI_COLOURISE, start, end)
    # Written by tools/pages/wrappers.py: end
