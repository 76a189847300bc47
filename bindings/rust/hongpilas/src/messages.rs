//! The messages of the profile, as methods of a view.

use crate::{DocumentId, Refusal, View, ViewMut};
use hongpilas_sys as sys;

/// The length of a text, as an argument. No text is longer than `i64::MAX`.
fn length_of(text: &[u8]) -> i64 {
    text.len() as i64
}

/// Queries, which change nothing. Positions, lengths and lines are in bytes and lines, and count from 0. An argument outside the range that a sentence
/// states is refused as [`Refusal::BadArgument`].
impl View<'_> {
    // Written by tools/pages/wrappers.py: begin questions
    /// Returns the length of the text. Message: `SCI_GETLENGTH`.
    pub fn get_length(&self) -> Result<i64, Refusal> {
        self.ask(sys::SCI_GETLENGTH, 0, 0)
    }

    /// Returns the byte at `position`, 0 to 255, or 0 if there is none. Message:
    /// `SCI_GETCHARAT`.
    pub fn get_char_at(&self, position: i64) -> Result<i64, Refusal> {
        self.ask(sys::SCI_GETCHARAT, position, 0)
    }

    /// Returns the position of the caret. Message: `SCI_GETCURRENTPOS`.
    pub fn get_current_pos(&self) -> Result<i64, Refusal> {
        self.ask(sys::SCI_GETCURRENTPOS, 0, 0)
    }

    /// Returns the position of the anchor. Message: `SCI_GETANCHOR`.
    pub fn get_anchor(&self) -> Result<i64, Refusal> {
        self.ask(sys::SCI_GETANCHOR, 0, 0)
    }

    /// Returns the style of the byte at `position`, or 0 if there is none. Message:
    /// `SCI_GETSTYLEAT`.
    pub fn get_style_at(&self, position: i64) -> Result<i64, Refusal> {
        self.ask(sys::SCI_GETSTYLEAT, position, 0)
    }

    /// Returns each byte from `start` to `end`, followed by its style; the value, which `ask`
    /// returns, is the number of bytes returned. Refused with [`Refusal::BadArgument`] unless
    /// `start` and `end` are a range of the text; an `end` of -1 is its end. Message:
    /// `SCI_GETSTYLEDTEXT`.
    pub fn get_styled_text(&self, start: i64, end: i64) -> Result<Vec<u8>, Refusal> {
        self.read(sys::SCI_GETSTYLEDTEXT, start, end)
    }

    /// Returns whether `redo` would change something: no group is open, the document is not
    /// read-only, and there is a transaction to redo. Message: `SCI_CANREDO`.
    pub fn can_redo(&self) -> Result<bool, Refusal> {
        self.ask_flag(sys::SCI_CANREDO, 0, 0)
    }

    /// Returns the line of the marker with `handle`, or -1 if there is none. Message:
    /// `SCI_MARKERLINEFROMHANDLE`.
    pub fn marker_line_from_handle(&self, handle: i64) -> Result<i64, Refusal> {
        self.ask(sys::SCI_MARKERLINEFROMHANDLE, handle, 0)
    }

    /// Returns whether undo is collected. Message: `SCI_GETUNDOCOLLECTION`.
    pub fn get_undo_collection(&self) -> Result<bool, Refusal> {
        self.ask_flag(sys::SCI_GETUNDOCOLLECTION, 0, 0)
    }

    /// Returns the caret's line with its line end; the value, which `ask` returns, is the
    /// caret's distance from the line's start, in bytes. Message: `SCI_GETCURLINE`.
    pub fn get_cur_line(&self) -> Result<Vec<u8>, Refusal> {
        self.read(sys::SCI_GETCURLINE, 0, 0)
    }

    /// Returns end styled: the position up to which the document is styled. Message:
    /// `SCI_GETENDSTYLED`.
    pub fn get_end_styled(&self) -> Result<i64, Refusal> {
        self.ask(sys::SCI_GETENDSTYLED, 0, 0)
    }

    /// Returns the document's line end: `SC_EOL_CRLF`, `SC_EOL_CR` or `SC_EOL_LF`. Message:
    /// `SCI_GETEOLMODE`.
    pub fn get_eol_mode(&self) -> Result<i64, Refusal> {
        self.ask(sys::SCI_GETEOLMODE, 0, 0)
    }

    /// Returns the mask of the markers of line `line`: bit k is set if it has one with number
    /// k; 0 if there is no such line. Message: `SCI_MARKERGET`.
    pub fn marker_get(&self, line: i64) -> Result<i64, Refusal> {
        self.ask(sys::SCI_MARKERGET, line, 0)
    }

    /// Returns the first line from `line` on that has a marker whose bit is set in the low 32
    /// bits of `mask`, or -1. Message: `SCI_MARKERNEXT`.
    pub fn marker_next(&self, line: i64, mask: i64) -> Result<i64, Refusal> {
        self.ask(sys::SCI_MARKERNEXT, line, mask)
    }

    /// Returns the last line up to `line` that has a marker whose bit is set in the low 32 bits
    /// of `mask`, or -1. Message: `SCI_MARKERPREVIOUS`.
    pub fn marker_previous(&self, line: i64, mask: i64) -> Result<i64, Refusal> {
        self.ask(sys::SCI_MARKERPREVIOUS, line, mask)
    }

    /// Returns the state of line `line`, or 0 if there is no such line. Message:
    /// `SCI_GETLINESTATE`.
    pub fn get_line_state(&self, line: i64) -> Result<i64, Refusal> {
        self.ask(sys::SCI_GETLINESTATE, line, 0)
    }

    /// Returns where the line end of line `line` begins; the text's length for the last line
    /// and past it; -1 if `line` is negative. Message: `SCI_GETLINEENDPOSITION`.
    pub fn get_line_end_position(&self, line: i64) -> Result<i64, Refusal> {
        self.ask(sys::SCI_GETLINEENDPOSITION, line, 0)
    }

    /// Returns whether the document is read-only. Message: `SCI_GETREADONLY`.
    pub fn get_read_only(&self) -> Result<bool, Refusal> {
        self.ask_flag(sys::SCI_GETREADONLY, 0, 0)
    }

    /// Returns the selection's start: the lesser of anchor and caret. Message:
    /// `SCI_GETSELECTIONSTART`.
    pub fn get_selection_start(&self) -> Result<i64, Refusal> {
        self.ask(sys::SCI_GETSELECTIONSTART, 0, 0)
    }

    /// Returns the selection's end: the greater of anchor and caret. Message:
    /// `SCI_GETSELECTIONEND`.
    pub fn get_selection_end(&self) -> Result<i64, Refusal> {
        self.ask(sys::SCI_GETSELECTIONEND, 0, 0)
    }

    /// Returns line `line` with its line end; the value, which `ask` returns, is its length. If
    /// there is no such line, the text is empty and the value 0. Message: `SCI_GETLINE`.
    pub fn get_line(&self, line: i64) -> Result<Vec<u8>, Refusal> {
        self.read(sys::SCI_GETLINE, line, 0)
    }

    /// Returns the number of lines, which is at least 1. Message: `SCI_GETLINECOUNT`.
    pub fn get_line_count(&self) -> Result<i64, Refusal> {
        self.ask(sys::SCI_GETLINECOUNT, 0, 0)
    }

    /// Returns whether the document is modified, that is, not at its save point. Message:
    /// `SCI_GETMODIFY`.
    pub fn get_modify(&self) -> Result<bool, Refusal> {
        self.ask_flag(sys::SCI_GETMODIFY, 0, 0)
    }

    /// Returns the selected text; the value, which `ask` returns, is its length. Message:
    /// `SCI_GETSELTEXT`.
    pub fn get_sel_text(&self) -> Result<Vec<u8>, Refusal> {
        self.read(sys::SCI_GETSELTEXT, 0, 0)
    }

    /// Returns the text from `start` to `end`; the value, which `ask` returns, is its length.
    /// Refused with [`Refusal::BadArgument`] unless `start` and `end` are a range of the text;
    /// an `end` of -1 is its end. Message: `SCI_GETTEXTRANGE`.
    pub fn get_text_range(&self, start: i64, end: i64) -> Result<Vec<u8>, Refusal> {
        self.read(sys::SCI_GETTEXTRANGE, start, end)
    }

    /// Returns the line that contains `position` (clamped to the text). Message:
    /// `SCI_LINEFROMPOSITION`.
    pub fn line_from_position(&self, position: i64) -> Result<i64, Refusal> {
        self.ask(sys::SCI_LINEFROMPOSITION, position, 0)
    }

    /// Returns the start of line `line`. A negative number stands for the line of the
    /// selection's start; the number of lines gives the text's length, and a greater number -1.
    /// Message: `SCI_POSITIONFROMLINE`.
    pub fn position_from_line(&self, line: i64) -> Result<i64, Refusal> {
        self.ask(sys::SCI_POSITIONFROMLINE, line, 0)
    }

    /// Returns whether text can be pasted: whether the document is not read-only. Message:
    /// `SCI_CANPASTE`.
    pub fn can_paste(&self) -> Result<bool, Refusal> {
        self.ask_flag(sys::SCI_CANPASTE, 0, 0)
    }

    /// Returns whether `undo` would change something: no group is open, the document is not
    /// read-only, and there is a transaction to undo. Message: `SCI_CANUNDO`.
    pub fn can_undo(&self) -> Result<bool, Refusal> {
        self.ask_flag(sys::SCI_CANUNDO, 0, 0)
    }

    /// Returns the whole text; the value, which `ask` returns, is its length. Message:
    /// `SCI_GETTEXT`.
    pub fn get_text(&self) -> Result<Vec<u8>, Refusal> {
        self.read(sys::SCI_GETTEXT, 0, 0)
    }

    /// Returns the length of the text. Message: `SCI_GETTEXTLENGTH`.
    pub fn get_text_length(&self) -> Result<i64, Refusal> {
        self.ask(sys::SCI_GETTEXTLENGTH, 0, 0)
    }

    /// Returns the target's start. Message: `SCI_GETTARGETSTART`.
    pub fn get_target_start(&self) -> Result<i64, Refusal> {
        self.ask(sys::SCI_GETTARGETSTART, 0, 0)
    }

    /// Returns the target's end. Message: `SCI_GETTARGETEND`.
    pub fn get_target_end(&self) -> Result<i64, Refusal> {
        self.ask(sys::SCI_GETTARGETEND, 0, 0)
    }

    /// Returns the view's search flags. Message: `SCI_GETSEARCHFLAGS`.
    pub fn get_search_flags(&self) -> Result<i64, Refusal> {
        self.ask(sys::SCI_GETSEARCHFLAGS, 0, 0)
    }

    /// Returns the display line of line `line`; for a hidden line that of the last visible line
    /// before it; -1 if there is no such line. Message: `SCI_VISIBLEFROMDOCLINE`.
    pub fn visible_from_doc_line(&self, line: i64) -> Result<i64, Refusal> {
        self.ask(sys::SCI_VISIBLEFROMDOCLINE, line, 0)
    }

    /// Returns the line at display line `display_line`; 0 if that is negative, and the number
    /// of lines if it is past the last. Message: `SCI_DOCLINEFROMVISIBLE`.
    pub fn doc_line_from_visible(&self, display_line: i64) -> Result<i64, Refusal> {
        self.ask(sys::SCI_DOCLINEFROMVISIBLE, display_line, 0)
    }

    /// Returns the fold level of line `line`, or 1024 (`SC_FOLDLEVELBASE`) if there is no such
    /// line. Message: `SCI_GETFOLDLEVEL`.
    pub fn get_fold_level(&self, line: i64) -> Result<i64, Refusal> {
        self.ask(sys::SCI_GETFOLDLEVEL, line, 0)
    }

    /// Returns the last child of line `line`, or -1 if there is no such line. That child is the
    /// line before the next one whose level number is at most that of `level` (that of line
    /// `line` if `level` is -1), or the last line of the document if there is no such next
    /// line. Refused with [`Refusal::BadArgument`] unless `level` is -1 to 2^31-1. Message:
    /// `SCI_GETLASTCHILD`.
    pub fn get_last_child(&self, line: i64, level: i64) -> Result<i64, Refusal> {
        self.ask(sys::SCI_GETLASTCHILD, line, level)
    }

    /// Returns the fold parent of line `line`: the nearest earlier header with a smaller level
    /// number; -1 if there is none, or no such line. Message: `SCI_GETFOLDPARENT`.
    pub fn get_fold_parent(&self, line: i64) -> Result<i64, Refusal> {
        self.ask(sys::SCI_GETFOLDPARENT, line, 0)
    }

    /// Returns whether line `line` is visible; false if there is no such line. Message:
    /// `SCI_GETLINEVISIBLE`.
    pub fn get_line_visible(&self, line: i64) -> Result<bool, Refusal> {
        self.ask_flag(sys::SCI_GETLINEVISIBLE, line, 0)
    }

    /// Returns whether line `line` is expanded; false if there is no such line. Message:
    /// `SCI_GETFOLDEXPANDED`.
    pub fn get_fold_expanded(&self, line: i64) -> Result<bool, Refusal> {
        self.ask_flag(sys::SCI_GETFOLDEXPANDED, line, 0)
    }

    /// Returns whether all lines are visible. Message: `SCI_GETALLLINESVISIBLE`.
    pub fn get_all_lines_visible(&self) -> Result<bool, Refusal> {
        self.ask_flag(sys::SCI_GETALLLINESVISIBLE, 0, 0)
    }

    /// Returns the length of line `line` with its line end, or 0 if there is no such line.
    /// Message: `SCI_LINELENGTH`.
    pub fn line_length(&self, line: i64) -> Result<i64, Refusal> {
        self.ask(sys::SCI_LINELENGTH, line, 0)
    }

    /// Returns the id of the view's document. Message: `SCI_GETDOCPOINTER`.
    pub fn get_doc_pointer(&self) -> Result<DocumentId, Refusal> {
        self.ask_document(sys::SCI_GETDOCPOINTER, 0, 0)
    }

    /// Returns the view's mask: the kinds of SCN_MODIFIED that it is subscribed to. Message:
    /// `SCI_GETMODEVENTMASK`.
    pub fn get_mod_event_mask(&self) -> Result<i64, Refusal> {
        self.ask(sys::SCI_GETMODEVENTMASK, 0, 0)
    }

    /// Returns the options of the view's document: 0, or made of
    /// `SC_DOCUMENTOPTION_STYLES_NONE` and `SC_DOCUMENTOPTION_TEXT_LARGE`. Message:
    /// `SCI_GETDOCUMENTOPTIONS`.
    pub fn get_document_options(&self) -> Result<i64, Refusal> {
        self.ask(sys::SCI_GETDOCUMENTOPTIONS, 0, 0)
    }

    /// Returns the last character boundary before `position` (clamped to the text), or 0.
    /// Message: `SCI_POSITIONBEFORE`.
    pub fn position_before(&self, position: i64) -> Result<i64, Refusal> {
        self.ask(sys::SCI_POSITIONBEFORE, position, 0)
    }

    /// Returns the first character boundary after `position` (clamped to the text), or the
    /// text's length. Message: `SCI_POSITIONAFTER`.
    pub fn position_after(&self, position: i64) -> Result<i64, Refusal> {
        self.ask(sys::SCI_POSITIONAFTER, position, 0)
    }

    /// Returns whether this view converts line ends in what it pastes. Message:
    /// `SCI_GETPASTECONVERTENDINGS`.
    pub fn get_paste_convert_endings(&self) -> Result<bool, Refusal> {
        self.ask_flag(sys::SCI_GETPASTECONVERTENDINGS, 0, 0)
    }

    /// Returns the view's current indicator. Message: `SCI_GETINDICATORCURRENT`.
    pub fn get_indicator_current(&self) -> Result<i64, Refusal> {
        self.ask(sys::SCI_GETINDICATORCURRENT, 0, 0)
    }

    /// Returns the value that this view's `indicator_fill_range` writes. Message:
    /// `SCI_GETINDICATORVALUE`.
    pub fn get_indicator_value(&self) -> Result<i64, Refusal> {
        self.ask(sys::SCI_GETINDICATORVALUE, 0, 0)
    }

    /// Returns a mask in which bit k is set if indicator k is not 0 at the byte at `position`;
    /// 0 if there is no such byte. Message: `SCI_INDICATORALLONFOR`.
    pub fn indicator_all_on_for(&self, position: i64) -> Result<i64, Refusal> {
        self.ask(sys::SCI_INDICATORALLONFOR, position, 0)
    }

    /// Returns the value of indicator `number` at the byte at `position`, or 0 if there is no
    /// such byte. Refused with [`Refusal::BadArgument`] unless `number` is 0 to 31. Message:
    /// `SCI_INDICATORVALUEAT`.
    pub fn indicator_value_at(&self, number: i64, position: i64) -> Result<i64, Refusal> {
        self.ask(sys::SCI_INDICATORVALUEAT, number, position)
    }

    /// Returns the start of the longest run of one value of indicator `number` around the byte
    /// at `position`; 0 if there is no such byte. Refused with [`Refusal::BadArgument`] unless
    /// `number` is 0 to 31. Message: `SCI_INDICATORSTART`.
    pub fn indicator_start(&self, number: i64, position: i64) -> Result<i64, Refusal> {
        self.ask(sys::SCI_INDICATORSTART, number, position)
    }

    /// Returns the end of the longest run of one value of indicator `number` around the byte at
    /// `position`: the place after its last byte; 0 if there is no such byte. Refused with
    /// [`Refusal::BadArgument`] unless `number` is 0 to 31. Message: `SCI_INDICATOREND`.
    pub fn indicator_end(&self, number: i64, position: i64) -> Result<i64, Refusal> {
        self.ask(sys::SCI_INDICATOREND, number, position)
    }

    /// Returns whether the selection is empty. Message: `SCI_GETSELECTIONEMPTY`.
    pub fn get_selection_empty(&self) -> Result<bool, Refusal> {
        self.ask_flag(sys::SCI_GETSELECTIONEMPTY, 0, 0)
    }

    /// Returns which line ends the document allows: `SC_LINE_END_TYPE_DEFAULT` or
    /// `SC_LINE_END_TYPE_UNICODE`. Message: `SCI_GETLINEENDTYPESALLOWED`.
    pub fn get_line_end_types_allowed(&self) -> Result<i64, Refusal> {
        self.ask(sys::SCI_GETLINEENDTYPESALLOWED, 0, 0)
    }

    /// Returns which line ends divide the text: those that the document allows,
    /// `SC_LINE_END_TYPE_DEFAULT` or `SC_LINE_END_TYPE_UNICODE`. Message:
    /// `SCI_GETLINEENDTYPESACTIVE`.
    pub fn get_line_end_types_active(&self) -> Result<i64, Refusal> {
        self.ask(sys::SCI_GETLINEENDTYPESACTIVE, 0, 0)
    }

    /// Returns the text between the target's ends, whichever is the lesser; the value, which
    /// `ask` returns, is its length. Message: `SCI_GETTARGETTEXT`.
    pub fn get_target_text(&self) -> Result<Vec<u8>, Refusal> {
        self.read(sys::SCI_GETTARGETTEXT, 0, 0)
    }
    // Written by tools/pages/wrappers.py: end questions
}

/// All other messages, and the texts of queries without a copy.
impl ViewMut<'_> {
    // Written by tools/pages/wrappers.py: begin messages
    /// Inserts `text` at the caret, and moves anchor and caret to the end of the inserted text.
    /// An empty `text` moves the anchor to the caret. Message: `SCI_ADDTEXT`.
    pub fn add_text(&mut self, text: impl AsRef<[u8]>) -> Result<(), Refusal> {
        let text = text.as_ref();
        self.as_done(sys::SCI_ADDTEXT, length_of(text), 0, text)
    }

    /// Inserts `text` at `position`, or at the caret if `position` is -1. Refused with
    /// [`Refusal::BadArgument`] unless `position` is -1 to the text's length. Message:
    /// `SCI_INSERTTEXT`.
    pub fn insert_text(&mut self, position: i64, text: impl AsRef<[u8]>) -> Result<(), Refusal> {
        self.as_done(sys::SCI_INSERTTEXT, position, 0, text.as_ref())
    }

    /// Deletes the whole text. Message: `SCI_CLEARALL`.
    pub fn clear_all(&mut self) -> Result<(), Refusal> {
        self.as_done(sys::SCI_CLEARALL, 0, 0, &[])
    }

    /// Performs again the transaction that was undone last; does nothing while a group is open,
    /// or if there is no transaction to redo. Message: `SCI_REDO`.
    pub fn redo(&mut self) -> Result<(), Refusal> {
        self.as_done(sys::SCI_REDO, 0, 0, &[])
    }

    /// Sets whether undo is collected. Off, even if it was off, forgets the history and closes
    /// all groups, and keeps whether the document counts as modified. On while undo is
    /// collected changes nothing. Message: `SCI_SETUNDOCOLLECTION`.
    pub fn set_undo_collection(&mut self, on: bool) -> Result<(), Refusal> {
        self.as_done(sys::SCI_SETUNDOCOLLECTION, i64::from(on), 0, &[])
    }

    /// Moves the anchor to 0 and the caret to the end of the text. Message: `SCI_SELECTALL`.
    pub fn select_all(&mut self) -> Result<(), Refusal> {
        self.as_done(sys::SCI_SELECTALL, 0, 0, &[])
    }

    /// Makes the current state the save point, and always sends SCN_SAVEPOINTREACHED. Message:
    /// `SCI_SETSAVEPOINT`.
    pub fn set_save_point(&mut self) -> Result<(), Refusal> {
        self.as_done(sys::SCI_SETSAVEPOINT, 0, 0, &[])
    }

    /// Like [`get_styled_text`](View::get_styled_text), but lent, not copied: the text is valid until the next call.
    pub fn lend_styled_text(&mut self, start: i64, end: i64) -> Result<&[u8], Refusal> {
        self.lend(sys::SCI_GETSTYLEDTEXT, start, end)
    }

    /// Removes the marker with `handle`. If there is one, sends SCN_MODIFIED
    /// (`SC_MOD_CHANGEMARKER`). Message: `SCI_MARKERDELETEHANDLE`.
    pub fn marker_delete_handle(&mut self, handle: i64) -> Result<(), Refusal> {
        self.as_done(sys::SCI_MARKERDELETEHANDLE, handle, 0, &[])
    }

    /// Moves anchor and caret to the start of line `line`; a negative number stands for the
    /// first line, one that is too great for the last. Message: `SCI_GOTOLINE`.
    pub fn goto_line(&mut self, line: i64) -> Result<(), Refusal> {
        self.as_done(sys::SCI_GOTOLINE, line, 0, &[])
    }

    /// Moves anchor and caret to `position` (clamped to the text). Message: `SCI_GOTOPOS`.
    pub fn goto_pos(&mut self, position: i64) -> Result<(), Refusal> {
        self.as_done(sys::SCI_GOTOPOS, position, 0, &[])
    }

    /// Moves the anchor to `position` (clamped to the text); the caret stays. Message:
    /// `SCI_SETANCHOR`.
    pub fn set_anchor(&mut self, position: i64) -> Result<(), Refusal> {
        self.as_done(sys::SCI_SETANCHOR, position, 0, &[])
    }

    /// Like [`get_cur_line`](View::get_cur_line), but lent, not copied: the text is valid until the next call.
    pub fn lend_cur_line(&mut self) -> Result<&[u8], Refusal> {
        self.lend(sys::SCI_GETCURLINE, 0, 0)
    }

    /// Turns each CRLF, CR and LF of the text into one line end: `SC_EOL_CRLF` 0, `SC_EOL_CR` 1
    /// or `SC_EOL_LF` 2. Unicode line ends stay, and so does the document's line end. Refused
    /// with [`Refusal::BadArgument`] unless `mode` is 0 to 2. Message: `SCI_CONVERTEOLS`.
    pub fn convert_eols(&mut self, mode: i64) -> Result<(), Refusal> {
        self.as_done(sys::SCI_CONVERTEOLS, mode, 0, &[])
    }

    /// Sets the document's line end: `SC_EOL_CRLF` 0, `SC_EOL_CR` 1 or `SC_EOL_LF` 2. Refused
    /// with [`Refusal::BadArgument`] unless `mode` is 0 to 2. Message: `SCI_SETEOLMODE`.
    pub fn set_eol_mode(&mut self, mode: i64) -> Result<(), Refusal> {
        self.as_done(sys::SCI_SETEOLMODE, mode, 0, &[])
    }

    /// Moves end styled to `position`. Refused with [`Refusal::BadArgument`] unless `position`
    /// is 0 to the text's length. Message: `SCI_STARTSTYLING`.
    pub fn start_styling(&mut self, position: i64) -> Result<(), Refusal> {
        self.as_done(sys::SCI_STARTSTYLING, position, 0, &[])
    }

    /// Gives `style` to the `length` bytes from end styled on, and moves end styled after them.
    /// If a style changed, sends SCN_MODIFIED (`SC_MOD_CHANGESTYLE`). Refused with
    /// [`Refusal::BadArgument`] unless `style` is 0 to 255, and `length` 0 to the number of
    /// bytes from end styled on. Message: `SCI_SETSTYLING`.
    pub fn set_styling(&mut self, length: i64, style: i64) -> Result<(), Refusal> {
        self.as_done(sys::SCI_SETSTYLING, length, style, &[])
    }

    /// Adds a marker with `number` to line `line`, after those that it has, and returns its
    /// handle; -1 if there is no such line. If it added one, sends SCN_MODIFIED
    /// (`SC_MOD_CHANGEMARKER`). Refused with [`Refusal::BadArgument`] unless `number` is 0 to
    /// 31, and with [`Refusal::TooMany`] if marker handles are used up. Message:
    /// `SCI_MARKERADD`.
    pub fn marker_add(&mut self, line: i64, number: i64) -> Result<i64, Refusal> {
        self.send(sys::SCI_MARKERADD, line, number, &[])
    }

    /// Removes from line `line`, if there is such a line, the first marker with `number`, or
    /// all markers if that is -1. If it removed one, sends SCN_MODIFIED
    /// (`SC_MOD_CHANGEMARKER`). Refused with [`Refusal::BadArgument`] unless `number` is -1 to
    /// 31. Message: `SCI_MARKERDELETE`.
    pub fn marker_delete(&mut self, line: i64, number: i64) -> Result<(), Refusal> {
        self.as_done(sys::SCI_MARKERDELETE, line, number, &[])
    }

    /// Removes all markers with `number` from the document, or all markers if that is -1. If it
    /// removed one, sends one SCN_MODIFIED (`SC_MOD_CHANGEMARKER`) with line -1. Refused with
    /// [`Refusal::BadArgument`] unless `number` is -1 to 31. Message: `SCI_MARKERDELETEALL`.
    pub fn marker_delete_all(&mut self, number: i64) -> Result<(), Refusal> {
        self.as_done(sys::SCI_MARKERDELETEALL, number, 0, &[])
    }

    /// Gives each byte from end styled on the style that `styles` has for it, and moves end
    /// styled after the last one. If a style changed, sends SCN_MODIFIED
    /// (`SC_MOD_CHANGESTYLE`). Refused with [`Refusal::BadArgument`] if `styles` has more bytes
    /// than there are from end styled on. Message: `SCI_SETSTYLINGEX`.
    pub fn set_styling_ex(&mut self, styles: impl AsRef<[u8]>) -> Result<(), Refusal> {
        let styles = styles.as_ref();
        self.as_done(sys::SCI_SETSTYLINGEX, length_of(styles), 0, styles)
    }

    /// Opens an undo group, inside those that are open. Refused with [`Refusal::TooMany`] at
    /// the limit of their depth. Message: `SCI_BEGINUNDOACTION`.
    pub fn begin_undo_action(&mut self) -> Result<(), Refusal> {
        self.as_done(sys::SCI_BEGINUNDOACTION, 0, 0, &[])
    }

    /// Closes the undo group that was opened last. Does nothing if none is open. Message:
    /// `SCI_ENDUNDOACTION`.
    pub fn end_undo_action(&mut self) -> Result<(), Refusal> {
        self.as_done(sys::SCI_ENDUNDOACTION, 0, 0, &[])
    }

    /// Sets the state of line `line`, if there is such a line. If the state changed, sends
    /// SCN_MODIFIED (`SC_MOD_CHANGELINESTATE`). Refused with [`Refusal::BadArgument`] unless
    /// `state` is -2^31 to 2^31-1. Message: `SCI_SETLINESTATE`.
    pub fn set_line_state(&mut self, line: i64, state: i64) -> Result<(), Refusal> {
        self.as_done(sys::SCI_SETLINESTATE, line, state, &[])
    }

    /// Moves the caret to `position` (clamped to the text); the anchor stays. Message:
    /// `SCI_SETCURRENTPOS`.
    pub fn set_current_pos(&mut self, position: i64) -> Result<(), Refusal> {
        self.as_done(sys::SCI_SETCURRENTPOS, position, 0, &[])
    }

    /// Moves the anchor to `position` (clamped to the text); if the caret is before it, moves
    /// the caret there too. Message: `SCI_SETSELECTIONSTART`.
    pub fn set_selection_start(&mut self, position: i64) -> Result<(), Refusal> {
        self.as_done(sys::SCI_SETSELECTIONSTART, position, 0, &[])
    }

    /// Moves the caret to `position` (clamped to the text); if the anchor is after it, moves
    /// the anchor there too. Message: `SCI_SETSELECTIONEND`.
    pub fn set_selection_end(&mut self, position: i64) -> Result<(), Refusal> {
        self.as_done(sys::SCI_SETSELECTIONEND, position, 0, &[])
    }

    /// Like [`get_line`](View::get_line), but lent, not copied: the text is valid until the next call.
    pub fn lend_line(&mut self, line: i64) -> Result<&[u8], Refusal> {
        self.lend(sys::SCI_GETLINE, line, 0)
    }

    /// Moves the anchor to `anchor` and the caret to `caret` (both clamped to the text). A
    /// negative `caret` stands for the end of the text, and a negative `anchor` for where the
    /// caret then is. Message: `SCI_SETSEL`.
    pub fn set_sel(&mut self, anchor: i64, caret: i64) -> Result<(), Refusal> {
        self.as_done(sys::SCI_SETSEL, anchor, caret, &[])
    }

    /// Like [`get_sel_text`](View::get_sel_text), but lent, not copied: the text is valid until the next call.
    pub fn lend_sel_text(&mut self) -> Result<&[u8], Refusal> {
        self.lend(sys::SCI_GETSELTEXT, 0, 0)
    }

    /// Like [`get_text_range`](View::get_text_range), but lent, not copied: the text is valid until the next call.
    pub fn lend_text_range(&mut self, start: i64, end: i64) -> Result<&[u8], Refusal> {
        self.lend(sys::SCI_GETTEXTRANGE, start, end)
    }

    /// Replaces the selection by `text`, and moves anchor and caret to the end of the inserted
    /// text. Message: `SCI_REPLACESEL`.
    pub fn replace_sel(&mut self, text: impl AsRef<[u8]>) -> Result<(), Refusal> {
        self.as_done(sys::SCI_REPLACESEL, 0, 0, text.as_ref())
    }

    /// Makes the document read-only, or writable if `on` is false. Message: `SCI_SETREADONLY`.
    pub fn set_read_only(&mut self, on: bool) -> Result<(), Refusal> {
        self.as_done(sys::SCI_SETREADONLY, i64::from(on), 0, &[])
    }

    /// Forgets the history, closes all groups, and makes the current state the save point. No
    /// view is notified. Message: `SCI_EMPTYUNDOBUFFER`.
    pub fn empty_undo_buffer(&mut self) -> Result<(), Refusal> {
        self.as_done(sys::SCI_EMPTYUNDOBUFFER, 0, 0, &[])
    }

    /// Takes back the last transaction; does nothing while a group is open, or if there is no
    /// transaction to undo. Message: `SCI_UNDO`.
    pub fn undo(&mut self) -> Result<(), Refusal> {
        self.as_done(sys::SCI_UNDO, 0, 0, &[])
    }

    /// Copies the selection to the clipboard and deletes it. Does nothing if the selection is
    /// empty; on a read-only document the clipboard stays as it is. Message: `SCI_CUT`.
    pub fn cut(&mut self) -> Result<(), Refusal> {
        self.as_done(sys::SCI_CUT, 0, 0, &[])
    }

    /// Copies the selection to the clipboard. Does nothing if the selection is empty. Message:
    /// `SCI_COPY`.
    pub fn copy(&mut self) -> Result<(), Refusal> {
        self.as_done(sys::SCI_COPY, 0, 0, &[])
    }

    /// Replaces the selection by the clipboard, and moves anchor and caret to the end of the
    /// inserted text. If the view converts pastes, each CRLF, CR and LF is inserted as the
    /// document's line end. Does nothing if the clipboard is empty. Message: `SCI_PASTE`.
    pub fn paste(&mut self) -> Result<(), Refusal> {
        self.as_done(sys::SCI_PASTE, 0, 0, &[])
    }

    /// Deletes the selection, or, if that is empty, the bytes from the caret to the next
    /// character boundary. Message: `SCI_CLEAR`.
    pub fn clear(&mut self) -> Result<(), Refusal> {
        self.as_done(sys::SCI_CLEAR, 0, 0, &[])
    }

    /// Replaces the whole text by `text`. Message: `SCI_SETTEXT`.
    pub fn set_text(&mut self, text: impl AsRef<[u8]>) -> Result<(), Refusal> {
        self.as_done(sys::SCI_SETTEXT, 0, 0, text.as_ref())
    }

    /// Like [`get_text`](View::get_text), but lent, not copied: the text is valid until the next call.
    pub fn lend_text(&mut self) -> Result<&[u8], Refusal> {
        self.lend(sys::SCI_GETTEXT, 0, 0)
    }

    /// Sets the target's start to `position` (clamped to the text). Message:
    /// `SCI_SETTARGETSTART`.
    pub fn set_target_start(&mut self, position: i64) -> Result<(), Refusal> {
        self.as_done(sys::SCI_SETTARGETSTART, position, 0, &[])
    }

    /// Sets the target's end to `position` (clamped to the text). Message: `SCI_SETTARGETEND`.
    pub fn set_target_end(&mut self, position: i64) -> Result<(), Refusal> {
        self.as_done(sys::SCI_SETTARGETEND, position, 0, &[])
    }

    /// Replaces the text between the target's ends by `text`, makes the inserted text the
    /// target, and returns its length. On a read-only document it returns 0, and the target
    /// stays. Message: `SCI_REPLACETARGET`.
    pub fn replace_target(&mut self, text: impl AsRef<[u8]>) -> Result<i64, Refusal> {
        let text = text.as_ref();
        self.send(sys::SCI_REPLACETARGET, length_of(text), 0, text)
    }

    /// Searches the target for `text` by the view's search flags. Finds the first match, or the
    /// last one if the target's start is greater than its end; sets the target's start and end
    /// to those of the match, and returns its start. Without a match it returns -1, and the
    /// target stays. Message: `SCI_SEARCHINTARGET`.
    pub fn search_in_target(&mut self, text: impl AsRef<[u8]>) -> Result<i64, Refusal> {
        let text = text.as_ref();
        self.send(sys::SCI_SEARCHINTARGET, length_of(text), 0, text)
    }

    /// Sets the view's search flags to `flags`: 0, or made of `SCFIND_WHOLEWORD` 0x2,
    /// `SCFIND_MATCHCASE` 0x4 and `SCFIND_WORDSTART` 0x100000. Refused with
    /// [`Refusal::BadArgument`] if `flags` has other bits. Message: `SCI_SETSEARCHFLAGS`.
    pub fn set_search_flags(&mut self, flags: i64) -> Result<(), Refusal> {
        self.as_done(sys::SCI_SETSEARCHFLAGS, flags, 0, &[])
    }

    /// Sets the fold level of line `line`, if there is such a line. If the level changed, sends
    /// SCN_MODIFIED (`SC_MOD_CHANGEFOLD`). Refused with [`Refusal::BadArgument`] unless `level`
    /// is 0 to 2^31-1. Message: `SCI_SETFOLDLEVEL`.
    pub fn set_fold_level(&mut self, line: i64, level: i64) -> Result<(), Refusal> {
        self.as_done(sys::SCI_SETFOLDLEVEL, line, level, &[])
    }

    /// Makes the lines from `first` to `last` visible, as far as they exist. Message:
    /// `SCI_SHOWLINES`.
    pub fn show_lines(&mut self, first: i64, last: i64) -> Result<(), Refusal> {
        self.as_done(sys::SCI_SHOWLINES, first, last, &[])
    }

    /// Hides the lines from `first` to `last`, as far as they exist, except line 0. Message:
    /// `SCI_HIDELINES`.
    pub fn hide_lines(&mut self, first: i64, last: i64) -> Result<(), Refusal> {
        self.as_done(sys::SCI_HIDELINES, first, last, &[])
    }

    /// Sets whether line `line` is expanded, if there is such a line; shows and hides nothing.
    /// Message: `SCI_SETFOLDEXPANDED`.
    pub fn set_fold_expanded(&mut self, line: i64, on: bool) -> Result<(), Refusal> {
        self.as_done(sys::SCI_SETFOLDEXPANDED, line, i64::from(on), &[])
    }

    /// Contracts line `line` if it is an expanded header, and expands it if it is a contracted
    /// one; if it is no header, does the same to its fold parent, if it has one. Message:
    /// `SCI_TOGGLEFOLD`.
    pub fn toggle_fold(&mut self, line: i64) -> Result<(), Refusal> {
        self.as_done(sys::SCI_TOGGLEFOLD, line, 0, &[])
    }

    /// Makes a hidden line `line` visible; before that, makes each of its fold parents visible,
    /// and expands those that are contracted, the outermost first. Does nothing for a visible
    /// line, or if there is no such line. Message: `SCI_ENSUREVISIBLE`.
    pub fn ensure_visible(&mut self, line: i64) -> Result<(), Refusal> {
        self.as_done(sys::SCI_ENSUREVISIBLE, line, 0, &[])
    }

    /// Contracts, expands or toggles line `line` if it is a header, else its fold parent, if it
    /// has one. `action` is `SC_FOLDACTION_CONTRACT` 0, `SC_FOLDACTION_EXPAND` 1 or
    /// `SC_FOLDACTION_TOGGLE` 2; all else is refused with [`Refusal::BadArgument`]. Message:
    /// `SCI_FOLDLINE`.
    pub fn fold_line(&mut self, line: i64, action: i64) -> Result<(), Refusal> {
        self.as_done(sys::SCI_FOLDLINE, line, action, &[])
    }

    /// Inserts `text` at the end of the document. Message: `SCI_APPENDTEXT`.
    pub fn append_text(&mut self, text: impl AsRef<[u8]>) -> Result<(), Refusal> {
        let text = text.as_ref();
        self.as_done(sys::SCI_APPENDTEXT, length_of(text), 0, text)
    }

    /// Sets the target's start and end to those of the selection, the lesser first. Message:
    /// `SCI_TARGETFROMSELECTION`.
    pub fn target_from_selection(&mut self) -> Result<(), Refusal> {
        self.as_done(sys::SCI_TARGETFROMSELECTION, 0, 0, &[])
    }

    /// Moves anchor and caret to the selection's start, or, if it is empty, to the character
    /// boundary before the caret. Message: `SCI_CHARLEFT`.
    pub fn char_left(&mut self) -> Result<(), Refusal> {
        self.as_done(sys::SCI_CHARLEFT, 0, 0, &[])
    }

    /// Moves the caret to the character boundary before it; the anchor stays. Message:
    /// `SCI_CHARLEFTEXTEND`.
    pub fn char_left_extend(&mut self) -> Result<(), Refusal> {
        self.as_done(sys::SCI_CHARLEFTEXTEND, 0, 0, &[])
    }

    /// Moves anchor and caret to the selection's end, or, if it is empty, to the character
    /// boundary after the caret. Message: `SCI_CHARRIGHT`.
    pub fn char_right(&mut self) -> Result<(), Refusal> {
        self.as_done(sys::SCI_CHARRIGHT, 0, 0, &[])
    }

    /// Moves the caret to the character boundary after it; the anchor stays. Message:
    /// `SCI_CHARRIGHTEXTEND`.
    pub fn char_right_extend(&mut self) -> Result<(), Refusal> {
        self.as_done(sys::SCI_CHARRIGHTEXTEND, 0, 0, &[])
    }

    /// Moves anchor and caret to the start of the caret's line. Message: `SCI_HOME`.
    pub fn home(&mut self) -> Result<(), Refusal> {
        self.as_done(sys::SCI_HOME, 0, 0, &[])
    }

    /// Moves the caret to the start of its line; the anchor stays. Message: `SCI_HOMEEXTEND`.
    pub fn home_extend(&mut self) -> Result<(), Refusal> {
        self.as_done(sys::SCI_HOMEEXTEND, 0, 0, &[])
    }

    /// Moves anchor and caret to where the line end of the caret's line begins. Message:
    /// `SCI_LINEEND`.
    pub fn line_end(&mut self) -> Result<(), Refusal> {
        self.as_done(sys::SCI_LINEEND, 0, 0, &[])
    }

    /// Moves the caret to where the line end of its line begins; the anchor stays. Message:
    /// `SCI_LINEENDEXTEND`.
    pub fn line_end_extend(&mut self) -> Result<(), Refusal> {
        self.as_done(sys::SCI_LINEENDEXTEND, 0, 0, &[])
    }

    /// Moves anchor and caret to 0. Message: `SCI_DOCUMENTSTART`.
    pub fn document_start(&mut self) -> Result<(), Refusal> {
        self.as_done(sys::SCI_DOCUMENTSTART, 0, 0, &[])
    }

    /// Moves the caret to 0; the anchor stays. Message: `SCI_DOCUMENTSTARTEXTEND`.
    pub fn document_start_extend(&mut self) -> Result<(), Refusal> {
        self.as_done(sys::SCI_DOCUMENTSTARTEXTEND, 0, 0, &[])
    }

    /// Moves anchor and caret to the end of the text. Message: `SCI_DOCUMENTEND`.
    pub fn document_end(&mut self) -> Result<(), Refusal> {
        self.as_done(sys::SCI_DOCUMENTEND, 0, 0, &[])
    }

    /// Moves the caret to the end of the text; the anchor stays. Message:
    /// `SCI_DOCUMENTENDEXTEND`.
    pub fn document_end_extend(&mut self) -> Result<(), Refusal> {
        self.as_done(sys::SCI_DOCUMENTENDEXTEND, 0, 0, &[])
    }

    /// Deletes the selection, or, if that is empty, the bytes from the character boundary
    /// before the caret to the caret. Message: `SCI_DELETEBACK`.
    pub fn delete_back(&mut self) -> Result<(), Refusal> {
        self.as_done(sys::SCI_DELETEBACK, 0, 0, &[])
    }

    /// Replaces the selection by the document's line end, and moves anchor and caret to the end
    /// of the inserted text. Message: `SCI_NEWLINE`.
    pub fn new_line(&mut self) -> Result<(), Refusal> {
        self.as_done(sys::SCI_NEWLINE, 0, 0, &[])
    }

    /// Attaches the view to `document`, or to a new document if that is `None`. That document
    /// gains a reference, and then the old one loses one; the view is attached last, with
    /// anchor, caret and target 0, and with all lines visible and expanded. The view's other
    /// settings stay. The same holds for the view's own document. Refused with
    /// [`Refusal::NoSuchDocument`] if there is no such document; with [`Refusal::TooMany`] at
    /// the limit of its references, or if ids for a new one are used up. Message:
    /// `SCI_SETDOCPOINTER`.
    pub fn set_doc_pointer(&mut self, document: impl Into<Option<DocumentId>>) -> Result<(), Refusal> {
        self.as_done(sys::SCI_SETDOCPOINTER, 0, document.into().map_or(0, i64::from), &[])
    }

    /// Sets the view's mask: the kinds of SCN_MODIFIED that it is subscribed to, a bit for
    /// each. Refused with [`Refusal::BadArgument`] unless `mask` is 0 to 0x7FFFFF
    /// (`SC_MODEVENTMASKALL`). Message: `SCI_SETMODEVENTMASK`.
    pub fn set_mod_event_mask(&mut self, mask: i64) -> Result<(), Refusal> {
        self.as_done(sys::SCI_SETMODEVENTMASK, mask, 0, &[])
    }

    /// Creates a document, held once by the caller, and returns its id; `bytes` is not used.
    /// `options` is 0, or made of `SC_DOCUMENTOPTION_STYLES_NONE` 1 and
    /// `SC_DOCUMENTOPTION_TEXT_LARGE` 256. Refused with [`Refusal::BadArgument`] if `bytes` is
    /// negative or `options` has other bits, and with [`Refusal::TooMany`] if ids are used up.
    /// Message: `SCI_CREATEDOCUMENT`.
    pub fn create_document(&mut self, bytes: i64, options: i64) -> Result<DocumentId, Refusal> {
        self.as_document(sys::SCI_CREATEDOCUMENT, bytes, options, &[])
    }

    /// Adds a reference to `document` that the caller holds. Refused with
    /// [`Refusal::NoSuchDocument`] if there is no such document, and with [`Refusal::TooMany`]
    /// at the limit of its references. Message: `SCI_ADDREFDOCUMENT`.
    pub fn add_ref_document(&mut self, document: DocumentId) -> Result<(), Refusal> {
        self.as_done(sys::SCI_ADDREFDOCUMENT, 0, document.into(), &[])
    }

    /// Gives back a reference to `document` that a caller holds. Refused with
    /// [`Refusal::NoSuchDocument`] if there is no such document, or if no caller holds it.
    /// Message: `SCI_RELEASEDOCUMENT`.
    pub fn release_document(&mut self, document: DocumentId) -> Result<(), Refusal> {
        self.as_done(sys::SCI_RELEASEDOCUMENT, 0, document.into(), &[])
    }

    /// Makes the text from `start` to `end` the clipboard, even if that is empty. Refused with
    /// [`Refusal::BadArgument`] unless `start` and `end` are a range of the text; an `end` of
    /// -1 is its end. Message: `SCI_COPYRANGE`.
    pub fn copy_range(&mut self, start: i64, end: i64) -> Result<(), Refusal> {
        self.as_done(sys::SCI_COPYRANGE, start, end, &[])
    }

    /// Makes `text` the clipboard, even if it is empty. Message: `SCI_COPYTEXT`.
    pub fn copy_text(&mut self, text: impl AsRef<[u8]>) -> Result<(), Refusal> {
        let text = text.as_ref();
        self.as_done(sys::SCI_COPYTEXT, length_of(text), 0, text)
    }

    /// Adds to line `line`, if there is such a line, a marker for each bit that is set in
    /// `mask`, in rising order. If it added one, sends one SCN_MODIFIED
    /// (`SC_MOD_CHANGEMARKER`). Refused with [`Refusal::BadArgument`] unless `mask` is 0 to
    /// 2^32-1, and with [`Refusal::TooMany`] if there are not enough marker handles for all.
    /// Message: `SCI_MARKERADDSET`.
    pub fn marker_add_set(&mut self, line: i64, mask: i64) -> Result<(), Refusal> {
        self.as_done(sys::SCI_MARKERADDSET, line, mask, &[])
    }

    /// Sets whether this view converts line ends in what it pastes. Message:
    /// `SCI_SETPASTECONVERTENDINGS`.
    pub fn set_paste_convert_endings(&mut self, on: bool) -> Result<(), Refusal> {
        self.as_done(sys::SCI_SETPASTECONVERTENDINGS, i64::from(on), 0, &[])
    }

    /// Sets the view's current indicator. Refused with [`Refusal::BadArgument`] unless `number`
    /// is 0 to 31. Message: `SCI_SETINDICATORCURRENT`.
    pub fn set_indicator_current(&mut self, number: i64) -> Result<(), Refusal> {
        self.as_done(sys::SCI_SETINDICATORCURRENT, number, 0, &[])
    }

    /// Sets the value that this view's `indicator_fill_range` writes; 0 counts as 1. Refused
    /// with [`Refusal::BadArgument`] unless `value` is 0 to 2^31-1. Message:
    /// `SCI_SETINDICATORVALUE`.
    pub fn set_indicator_value(&mut self, value: i64) -> Result<(), Refusal> {
        self.as_done(sys::SCI_SETINDICATORVALUE, value, 0, &[])
    }

    /// Gives the view's current indicator the view's value over the `length` bytes from `start`
    /// on. If a value changed, sends SCN_MODIFIED (`SC_MOD_CHANGEINDICATOR`). Refused with
    /// [`Refusal::BadArgument`] unless these are a range of the text. Message:
    /// `SCI_INDICATORFILLRANGE`.
    pub fn indicator_fill_range(&mut self, start: i64, length: i64) -> Result<(), Refusal> {
        self.as_done(sys::SCI_INDICATORFILLRANGE, start, length, &[])
    }

    /// Gives the view's current indicator the value 0 over the `length` bytes from `start` on.
    /// If a value changed, sends SCN_MODIFIED (`SC_MOD_CHANGEINDICATOR`). Refused with
    /// [`Refusal::BadArgument`] unless these are a range of the text. Message:
    /// `SCI_INDICATORCLEARRANGE`.
    pub fn indicator_clear_range(&mut self, start: i64, length: i64) -> Result<(), Refusal> {
        self.as_done(sys::SCI_INDICATORCLEARRANGE, start, length, &[])
    }

    /// Moves anchor and caret to `position` (clamped to the text). Message:
    /// `SCI_SETEMPTYSELECTION`.
    pub fn set_empty_selection(&mut self, position: i64) -> Result<(), Refusal> {
        self.as_done(sys::SCI_SETEMPTYSELECTION, position, 0, &[])
    }

    /// Appends a container action with `token` to the history, also on a read-only document.
    /// `flags` is `UNDO_NONE` 0, or `UNDO_MAY_COALESCE` 1 for an action that may join the last
    /// transaction. Sends SCN_SAVEPOINTLEFT if the document was at its save point. Does nothing
    /// while undo is not collected. Refused with [`Refusal::BadArgument`] unless `flags` is 0
    /// or 1. Message: `SCI_ADDUNDOACTION`.
    pub fn add_undo_action(&mut self, token: i64, flags: i64) -> Result<(), Refusal> {
        self.as_done(sys::SCI_ADDUNDOACTION, token, flags, &[])
    }

    /// Deletes the `length` bytes from `start` on. Refused with [`Refusal::BadArgument`] unless
    /// these are a range of the text. Message: `SCI_DELETERANGE`.
    pub fn delete_range(&mut self, start: i64, length: i64) -> Result<(), Refusal> {
        self.as_done(sys::SCI_DELETERANGE, start, length, &[])
    }

    /// Sets which line ends the document allows, also if it is read-only:
    /// `SC_LINE_END_TYPE_DEFAULT` 0, or `SC_LINE_END_TYPE_UNICODE` 1 for those of Unicode too.
    /// Line data (markers, fold levels, line states) and the line flags of each view go to the
    /// lines that contain their starts. Refused with [`Refusal::BadArgument`] unless `types` is
    /// 0 or 1. Message: `SCI_SETLINEENDTYPESALLOWED`.
    pub fn set_line_end_types_allowed(&mut self, types: i64) -> Result<(), Refusal> {
        self.as_done(sys::SCI_SETLINEENDTYPESALLOWED, types, 0, &[])
    }

    /// Sets the target's start to `start` and its end to `end` (both clamped to the text).
    /// Message: `SCI_SETTARGETRANGE`.
    pub fn set_target_range(&mut self, start: i64, end: i64) -> Result<(), Refusal> {
        self.as_done(sys::SCI_SETTARGETRANGE, start, end, &[])
    }

    /// Like [`get_target_text`](View::get_target_text), but lent, not copied: the text is valid until the next call.
    pub fn lend_target_text(&mut self) -> Result<&[u8], Refusal> {
        self.lend(sys::SCI_GETTARGETTEXT, 0, 0)
    }

    /// Sets the target's start to 0 and its end to the end of the text. Message:
    /// `SCI_TARGETWHOLEDOCUMENT`.
    pub fn target_whole_document(&mut self) -> Result<(), Refusal> {
        self.as_done(sys::SCI_TARGETWHOLEDOCUMENT, 0, 0, &[])
    }

    /// Starts recording in this view: it is notified by SCN_MACRORECORD of each message marked
    /// R, before all else. Message: `SCI_STARTRECORD`.
    pub fn start_record(&mut self) -> Result<(), Refusal> {
        self.as_done(sys::SCI_STARTRECORD, 0, 0, &[])
    }

    /// Stops recording in this view. Message: `SCI_STOPRECORD`.
    pub fn stop_record(&mut self) -> Result<(), Refusal> {
        self.as_done(sys::SCI_STOPRECORD, 0, 0, &[])
    }

    /// Asks for styles up to `end`: if end styled is after `start`, moves it back to `start`;
    /// then sends the view SCN_STYLENEEDED with the position `end`, even for an empty range.
    /// Refused with [`Refusal::BadArgument`] unless `start` and `end` are a range of the text;
    /// an `end` of -1 is its end. Message: `SCI_COLOURISE`.
    pub fn colourise(&mut self, start: i64, end: i64) -> Result<(), Refusal> {
        self.as_done(sys::SCI_COLOURISE, start, end, &[])
    }
    // Written by tools/pages/wrappers.py: end messages
}
