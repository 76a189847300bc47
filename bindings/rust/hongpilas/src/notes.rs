//! The notifications of the last reply.

use crate::{lent, Refusal, Session, ViewId};
use hongpilas_sys as sys;
use std::ffi::CStr;
use std::iter::FusedIterator;
use std::mem::{size_of, MaybeUninit};
use std::ops::Range;

/// A notification of a view. Fields that its code does not use are 0.
///
/// A later version may have more of them, so a pattern leaves the others open:
///
/// ```
/// fn is_of(note: hongpilas::Note, wanted: hongpilas::ViewId) -> bool {
///     let hongpilas::Note { view, .. } = note;
///     view == wanted
/// }
/// ```
///
/// ```compile_fail,E0638
/// fn position_of(note: hongpilas::Note) -> i64 {
///     let hongpilas::Note {
///         view: _, code: _, kind: _, message: _, position, length: _, lines: _, line: _, now: _, prev: _, token: _, w: _, l: _, text: _
///     } = note;
///     position
/// }
/// ```
#[derive(Clone, Copy, Debug, PartialEq, Eq, Hash)]
#[non_exhaustive]
pub struct Note<'a> {
    /// The view that is notified.
    pub view: ViewId,
    /// Which notification, such as [`SCN_MODIFIED`](crate::SCN_MODIFIED).
    pub code: u32,
    /// Scintilla's `modificationType`, of the type of its `SC_MOD_` constants.
    pub kind: i64,
    /// The number of a recorded message.
    pub message: u32,
    /// A position, in bytes, in the text just after this step.
    pub position: i64,
    /// A length, in bytes.
    pub length: i64,
    /// Scintilla's `linesAdded`.
    pub lines: i64,
    /// A line, from 0; -1 for all lines.
    pub line: i64,
    /// A fold level after a change: `foldLevelNow`.
    pub now: i64,
    /// A fold level before it: `foldLevelPrev`.
    pub prev: i64,
    /// The token of a container's own undo step.
    pub token: i64,
    /// The first argument of a recorded message.
    pub w: i64,
    /// Its second argument.
    pub l: i64,
    /// The notification's text.
    pub text: &'a [u8],
}

impl Note<'_> {
    /// The name of the notification's code, such as `SCN_MODIFIED`.
    pub fn name(&self) -> Option<&'static str> {
        note_name(self.code)
    }
}

/// The name of a notification's code: `SCN_MODIFIED` for 2008.
///
/// ```
/// assert_eq!(hongpilas::note_name(2008), Some("SCN_MODIFIED"));
/// assert_eq!(hongpilas::note_name(1), None);
/// ```
pub fn note_name(code: u32) -> Option<&'static str> {
    // SAFETY: a name is a string that is never freed.
    unsafe {
        let name = sys::hongpilas_note_name(code);
        if name.is_null() {
            return None;
        }
        CStr::from_ptr(name).to_str().ok()
    }
}

/// The notifications of the last reply, for all views or for one, in their order. They borrow the session, and not for good: queries may be
/// asked in a loop over them.
#[derive(Clone, Debug)]
pub struct Notes<'a> {
    session: &'a Session,
    view: Option<ViewId>,
    indices: Range<usize>,
    left: usize,
}

impl<'a> Notes<'a> {
    pub(crate) fn of(session: &'a Session, view: Option<ViewId>) -> Notes<'a> {
        let mut count = 0;
        // SAFETY: the session is open, and the place is this function's own.
        let answer = unsafe { sys::hongpilas_note_count(session.as_ptr(), &mut count) };
        debug_assert_eq!(answer, sys::HONGPILAS_DONE);
        let mut notes = Notes { session, view, indices: 0..count, left: count };
        if view.is_some() {
            notes.left = (0..count).filter(|index| notes.at(*index).is_some()).count();
        }
        notes
    }

    /// The notification with this index, if it is for the view that is asked for.
    fn at(&self, index: usize) -> Option<Note<'a>> {
        let mut note = MaybeUninit::<sys::hongpilas_note_data>::uninit();
        // SAFETY: the place is this function's own. A note is written unless it is refused. Its text is valid as long as the reply, which stays as
        // long as the session is borrowed: what replaces it borrows the session as mutable.
        let (note, text) = unsafe {
            let size = size_of::<sys::hongpilas_note_data>();
            Refusal::check(sys::hongpilas_note(self.session.as_ptr(), index, note.as_mut_ptr(), size)).ok()?;
            let note = note.assume_init();
            (note, lent(note.text, note.text_length))
        };
        let view = ViewId::from(note.view);
        if self.view.is_some_and(|wanted| wanted != view) {
            return None;
        }
        Some(Note {
            view,
            code: note.code,
            kind: i64::from(note.kind),
            message: note.message,
            position: note.position,
            length: note.length,
            lines: note.lines,
            line: note.line,
            now: note.now,
            prev: note.prev,
            token: note.token,
            w: note.w,
            l: note.l,
            text,
        })
    }

    /// The next notification in one direction, of `left` that are there.
    fn take(&mut self, mut step: impl FnMut(&mut Range<usize>) -> Option<usize>) -> Option<Note<'a>> {
        while self.left > 0 {
            let index = step(&mut self.indices)?;
            if let Some(note) = self.at(index) {
                self.left -= 1;
                return Some(note);
            }
        }
        None
    }
}

impl<'a> Iterator for Notes<'a> {
    type Item = Note<'a>;

    fn next(&mut self) -> Option<Note<'a>> {
        self.take(Range::next)
    }

    fn size_hint(&self) -> (usize, Option<usize>) {
        (self.left, Some(self.left))
    }
}

impl DoubleEndedIterator for Notes<'_> {
    fn next_back(&mut self) -> Option<Self::Item> {
        self.take(Range::next_back)
    }
}

impl ExactSizeIterator for Notes<'_> {}
impl FusedIterator for Notes<'_> {}
