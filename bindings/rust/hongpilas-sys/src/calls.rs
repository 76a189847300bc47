//! The calls, structs and answers of `hongpilas.h`.

use crate::{hongpilas_answer, hongpilas_session};
use core::ffi::{c_char, c_void};

// Written by tools/pages/wrappers.py: begin
pub const HONGPILAS_VERSION: u32 = 2000;

pub const HONGPILAS_DONE: hongpilas_answer = 0;
/// An allocation failed.
pub const HONGPILAS_OUT_OF_MEMORY: hongpilas_answer = 1;
/// No view has this id, or the session is null.
pub const HONGPILAS_NO_SUCH_VIEW: hongpilas_answer = 2;
/// The profile has no such message.
pub const HONGPILAS_UNKNOWN_MESSAGE: hongpilas_answer = 3;
/// No document has this id, or the caller holds no reference to it.
pub const HONGPILAS_NO_SUCH_DOCUMENT: hongpilas_answer = 4;
/// The text would exceed its limit after some step.
pub const HONGPILAS_TOO_LONG: hongpilas_answer = 5;
/// An argument is outside the range that the message states.
pub const HONGPILAS_BAD_ARGUMENT: hongpilas_answer = 6;
/// Handles, ids, references, the depth of groups or open views are used up.
pub const HONGPILAS_TOO_MANY: hongpilas_answer = 7;

/// The mark Q of a message: a query: it changes nothing.
pub const HONGPILAS_MARK_Q: u32 = 1;
/// The mark N of a message: it allocates nothing (but may, while the view records).
pub const HONGPILAS_MARK_N: u32 = 2;
/// The mark E of a message: it edits the text.
pub const HONGPILAS_MARK_E: u32 = 4;
/// The mark R of a message: a view that records is notified of it.
pub const HONGPILAS_MARK_R: u32 = 8;

#[repr(C)]
#[derive(Clone, Copy, Debug, PartialEq, Eq, Hash)]
pub struct hongpilas_limits {
    /// Bytes of a document: 0x7FFFFFFF.
    pub doc_bytes: u64,
    /// Bytes of a document for large texts: 0x10000000000.
    pub large_bytes: u64,
    /// Marker handles of one document, ever: 0x7FFFFFFF.
    pub handles: u64,
    /// Document ids, ever; and view ids, ever: 0x7FFFFFFF.
    pub ids: u64,
    /// References to one document: 0x7FFFFFFF.
    pub refs: u64,
    /// Open views: 1024.
    pub views: u64,
    /// Depth of undo groups: 255.
    pub depth: u64,
}

#[repr(C)]
#[derive(Clone, Copy, Debug, PartialEq, Eq, Hash)]
pub struct hongpilas_note_data {
    /// The view that is notified.
    pub view: u32,
    /// Which notification, such as SCN_MODIFIED.
    pub code: u32,
    /// Scintilla's modificationType.
    pub kind: u32,
    /// The number of a recorded message.
    pub message: u32,
    /// A position, in bytes.
    pub position: i64,
    /// A length, in bytes.
    pub length: i64,
    /// Scintilla's linesAdded.
    pub lines: i64,
    /// A line, from 0; -1 for all lines.
    pub line: i64,
    /// A fold level after a change: foldLevelNow.
    pub now: i64,
    /// A fold level before it: foldLevelPrev.
    pub prev: i64,
    /// The token of a container's own undo step.
    pub token: i64,
    /// The arguments of a recorded message.
    pub w: i64,
    pub l: i64,
    /// The notification's text, valid as long as the reply is.
    pub text: *const u8,
    /// Its length, in bytes.
    pub text_length: usize,
}

/// All limits at their greatest.
pub const HONGPILAS_GREATEST_LIMITS: hongpilas_limits = hongpilas_limits {
    doc_bytes: 0x7FFFFFFF,
    large_bytes: 0x10000000000,
    handles: 0x7FFFFFFF,
    ids: 0x7FFFFFFF,
    refs: 0x7FFFFFFF,
    views: 1024,
    depth: 255,
};

extern "C" {
    pub fn hongpilas_version() -> u32;
    pub fn hongpilas_answer_name(answer: hongpilas_answer) -> *const c_char;
    pub fn hongpilas_message_name(number: u32) -> *const c_char;
    pub fn hongpilas_note_name(code: u32) -> *const c_char;
    pub fn hongpilas_message_marks(number: u32) -> u32;
    #[must_use]
    pub fn hongpilas_new(session: *mut *mut hongpilas_session) -> hongpilas_answer;
    #[must_use]
    pub fn hongpilas_new_with_limits(
        session: *mut *mut hongpilas_session,
        limits: *const hongpilas_limits,
        size: usize,
    ) -> hongpilas_answer;
    pub fn hongpilas_free(session: *mut hongpilas_session);
    #[must_use]
    pub fn hongpilas_new_view(session: *mut hongpilas_session, view: *mut u32) -> hongpilas_answer;
    #[must_use]
    pub fn hongpilas_close_view(session: *mut hongpilas_session, view: u32) -> hongpilas_answer;
    #[must_use]
    pub fn hongpilas_send(
        session: *mut hongpilas_session,
        view: u32,
        number: u32,
        w: i64,
        l: i64,
        text: *const c_void,
        length: usize,
        value: *mut i64,
    ) -> hongpilas_answer;
    #[must_use]
    pub fn hongpilas_ask(
        session: *const hongpilas_session,
        view: u32,
        number: u32,
        w: i64,
        l: i64,
        value: *mut i64,
    ) -> hongpilas_answer;
    #[must_use]
    pub fn hongpilas_read(
        session: *mut hongpilas_session,
        view: u32,
        number: u32,
        w: i64,
        l: i64,
        text: *mut *const u8,
        length: *mut usize,
        value: *mut i64,
    ) -> hongpilas_answer;
    #[must_use]
    pub fn hongpilas_value(session: *const hongpilas_session, value: *mut i64) -> hongpilas_answer;
    #[must_use]
    pub fn hongpilas_text(
        session: *const hongpilas_session,
        text: *mut *const u8,
        length: *mut usize,
    ) -> hongpilas_answer;
    #[must_use]
    pub fn hongpilas_copy_text(
        session: *const hongpilas_session,
        start: usize,
        into: *mut c_void,
        capacity: usize,
        count: *mut usize,
    ) -> hongpilas_answer;
    #[must_use]
    pub fn hongpilas_note_count(session: *const hongpilas_session, count: *mut usize) -> hongpilas_answer;
    #[must_use]
    pub fn hongpilas_note(
        session: *const hongpilas_session,
        index: usize,
        note: *mut hongpilas_note_data,
        size: usize,
    ) -> hongpilas_answer;
    #[must_use]
    pub fn hongpilas_copy_note_text(
        session: *const hongpilas_session,
        index: usize,
        start: usize,
        into: *mut c_void,
        capacity: usize,
        count: *mut usize,
    ) -> hongpilas_answer;
    #[must_use]
    pub fn hongpilas_lend_range(
        session: *mut hongpilas_session,
        view: u32,
        start: usize,
        count: usize,
        bytes: *mut *const u8,
    ) -> hongpilas_answer;
    #[must_use]
    pub fn hongpilas_copy_range(
        session: *mut hongpilas_session,
        view: u32,
        start: usize,
        into: *mut c_void,
        count: usize,
    ) -> hongpilas_answer;
    #[must_use]
    pub fn hongpilas_new_view_unchecked(session: *mut hongpilas_session, view: *mut u32) -> hongpilas_answer;
    #[must_use]
    pub fn hongpilas_close_view_unchecked(session: *mut hongpilas_session, view: u32) -> hongpilas_answer;
    #[must_use]
    pub fn hongpilas_send_unchecked(
        session: *mut hongpilas_session,
        view: u32,
        number: u32,
        w: i64,
        l: i64,
        text: *const u8,
        length: usize,
        value: *mut i64,
    ) -> hongpilas_answer;
    #[must_use]
    pub fn hongpilas_ask_unchecked(
        session: *const hongpilas_session,
        view: u32,
        number: u32,
        w: i64,
        l: i64,
        value: *mut i64,
    ) -> hongpilas_answer;
    #[must_use]
    pub fn hongpilas_read_unchecked(
        session: *mut hongpilas_session,
        view: u32,
        number: u32,
        w: i64,
        l: i64,
        text: *mut *const u8,
        length: *mut usize,
        value: *mut i64,
    ) -> hongpilas_answer;
    pub fn hongpilas_value_unchecked(session: *const hongpilas_session) -> i64;
    pub fn hongpilas_text_unchecked(session: *const hongpilas_session, text: *mut *const u8) -> usize;
    pub fn hongpilas_copy_text_unchecked(
        session: *const hongpilas_session,
        start: usize,
        into: *mut u8,
        capacity: usize,
    ) -> usize;
    pub fn hongpilas_note_count_unchecked(session: *const hongpilas_session) -> usize;
    pub fn hongpilas_note_unchecked(
        session: *const hongpilas_session,
        index: usize,
        note: *mut hongpilas_note_data,
    ) -> bool;
    pub fn hongpilas_copy_note_text_unchecked(
        session: *const hongpilas_session,
        index: usize,
        start: usize,
        into: *mut u8,
        capacity: usize,
    ) -> usize;
    #[must_use]
    pub fn hongpilas_lend_range_unchecked(
        session: *mut hongpilas_session,
        view: u32,
        start: usize,
        count: usize,
        bytes: *mut *const u8,
    ) -> hongpilas_answer;
    #[must_use]
    pub fn hongpilas_copy_range_unchecked(
        session: *mut hongpilas_session,
        view: u32,
        start: usize,
        into: *mut u8,
        count: usize,
    ) -> hongpilas_answer;
}
// Written by tools/pages/wrappers.py: end
