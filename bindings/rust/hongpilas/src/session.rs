//! A session, which owns the documents and the views on them.

use crate::{lent, Limits, Notes, Refusal, View, ViewId, ViewMut};
use hongpilas_sys as sys;
use std::fmt;
use std::mem::size_of;
use std::ptr::{self, NonNull};

/// A session: its documents and the views on them. It is freed with all that it owns when it is dropped.
///
/// It may be sent to another thread, and is used by one at a time:
///
/// ```
/// let mut session = hongpilas::Session::new()?;
/// let view = session.new_view()?;
/// let session = std::thread::spawn(move || {
///     session.view_mut(view).insert_text(0, "from another thread")?;
///     Ok::<_, hongpilas::Refusal>(session)
/// });
/// let session = session.join().unwrap()?;
/// assert_eq!(session.view(view).get_length()?, 19);
/// # Ok::<(), hongpilas::Refusal>(())
/// ```
///
/// ```compile_fail,E0277
/// let session = hongpilas::Session::new()?;
/// std::thread::scope(|scope| {
///     scope.spawn(|| session.value());
/// });
/// # Ok::<(), hongpilas::Refusal>(())
/// ```
pub struct Session {
    // Not Sync, and by itself not Send either.
    session: NonNull<sys::hongpilas_session>,
}

// SAFETY: the library has no state outside its sessions, and a session is used by one call at a time, on whatever thread: a value that is sent is used
// by nobody else. It is not Sync: two threads may not even ask at once.
unsafe impl Send for Session {}

impl Session {
    /// Opens a session without documents and views, with the greatest limits.
    ///
    /// # Errors
    /// [`Refusal::OutOfMemory`].
    pub fn new() -> Result<Session, Refusal> {
        Session::with_limits(Limits::GREATEST)
    }

    /// Opens a session without documents and views.
    ///
    /// ```
    /// use hongpilas::{Limits, Refusal, Session};
    ///
    /// let mut limits = Limits::default();
    /// limits.doc_bytes = 10;
    /// let mut session = Session::with_limits(limits)?;
    /// let view = session.new_view()?;
    /// assert_eq!(session.view_mut(view).insert_text(0, "eleven bytes"), Err(Refusal::TooLong));
    /// limits.doc_bytes = 0;
    /// assert_eq!(Session::with_limits(limits).err(), Some(Refusal::BadArgument));
    /// # Ok::<(), Refusal>(())
    /// ```
    ///
    /// # Errors
    /// [`Refusal::BadArgument`] if a limit is 0 or above the greatest; [`Refusal::OutOfMemory`].
    pub fn with_limits(limits: Limits) -> Result<Session, Refusal> {
        let mut session = ptr::null_mut();
        let limits = sys::hongpilas_limits::from(limits);
        // SAFETY: both places are this function's own, and the size is that of the limits.
        let answer =
            unsafe { sys::hongpilas_new_with_limits(&mut session, &limits, size_of::<sys::hongpilas_limits>()) };
        Refusal::check(answer)?;
        NonNull::new(session).map(|session| Session { session }).ok_or(Refusal::OutOfMemory)
    }

    /// Opens a view on a new document.
    ///
    /// # Errors
    /// [`Refusal::TooMany`], [`Refusal::OutOfMemory`].
    pub fn new_view(&mut self) -> Result<ViewId, Refusal> {
        let mut id = 0;
        // SAFETY: the session is open, and the place is this function's own.
        Refusal::check(unsafe { sys::hongpilas_new_view(self.as_ptr(), &mut id) })?;
        Ok(ViewId::from(id))
    }

    /// Closes a view. A document to which no other view is attached, and which the caller does not hold, is freed with it.
    ///
    /// # Errors
    /// [`Refusal::NoSuchView`].
    pub fn close_view(&mut self, view: ViewId) -> Result<(), Refusal> {
        // SAFETY: the session is open, and is borrowed as mutable.
        Refusal::check(unsafe { sys::hongpilas_close_view(self.as_ptr(), view.into()) })
    }

    /// A view, to send queries to it: the session is borrowed as shared, and so there may be several at once. Queries to one that is not open are refused
    /// as [`Refusal::NoSuchView`].
    ///
    /// ```
    /// let mut session = hongpilas::Session::new()?;
    /// let (first, second) = (session.new_view()?, session.new_view()?);
    /// session.view_mut(first).insert_text(0, "one")?;
    /// session.view_mut(second).insert_text(0, "three")?;
    /// let (one, other) = (session.view(first), session.view(second));
    /// assert!(one.get_length()? < other.get_length()?);
    /// # Ok::<(), hongpilas::Refusal>(())
    /// ```
    pub fn view(&self, id: ViewId) -> View<'_> {
        View::of(self, id)
    }

    /// A view, to send messages to it: the session is borrowed as mutable. Messages to one that is not open are refused as [`Refusal::NoSuchView`].
    pub fn view_mut(&mut self, id: ViewId) -> ViewMut<'_> {
        ViewMut::of(self, id)
    }

    /// The value of the last reply: that of the last message that was done, to whichever view, and is no query. 0 before the first one.
    pub fn value(&self) -> i64 {
        let mut value = 0;
        // SAFETY: the session is open, and the place is this function's own.
        let answer = unsafe { sys::hongpilas_value(self.as_ptr(), &mut value) };
        debug_assert_eq!(answer, sys::HONGPILAS_DONE);
        value
    }

    /// The text of the last reply, which is that of a query that was sent as a message.
    pub fn text(&self) -> &[u8] {
        let (mut bytes, mut length) = (ptr::null(), 0);
        // SAFETY: the session is open, and the places are this function's own. The bytes are valid as long as the reply, which stays as long as the
        // session is borrowed: what replaces it borrows the session as mutable.
        unsafe {
            let answer = sys::hongpilas_text(self.as_ptr(), &mut bytes, &mut length);
            debug_assert_eq!(answer, sys::HONGPILAS_DONE);
            lent(bytes, length)
        }
    }

    /// The notifications of the last reply, for all views; [`View::notes`] has those for one. Queries may be sent in a loop over them:
    ///
    /// ```
    /// use hongpilas::{Session, SCN_MODIFIED, SC_MOD_INSERTTEXT};
    ///
    /// let mut session = Session::new()?;
    /// let view = session.new_view()?;
    /// session.view_mut(view).insert_text(0, "hello,\nworld")?;
    /// for note in session.notes() {
    ///     if note.code == SCN_MODIFIED && note.kind & SC_MOD_INSERTTEXT != 0 {
    ///         assert_eq!(note.text, b"hello,\nworld");
    ///         assert_eq!(session.view(note.view).get_line_count()?, 2);
    ///     }
    /// }
    /// # Ok::<(), hongpilas::Refusal>(())
    /// ```
    ///
    /// Of a message that takes several steps, such as the undo of a group, positions are those of the text just after each step: apply the changes in
    /// their order to a copy.
    ///
    /// A message replaces the reply, so that none may be sent as long as a notification is used:
    ///
    /// ```compile_fail,E0502
    /// let mut session = hongpilas::Session::new()?;
    /// let view = session.new_view()?;
    /// session.view_mut(view).insert_text(0, "hello")?;
    /// for note in session.notes() {
    ///     session.view_mut(note.view).undo()?;
    /// }
    /// # Ok::<(), hongpilas::Refusal>(())
    /// ```
    pub fn notes(&self) -> Notes<'_> {
        Notes::of(self, None)
    }

    /// The session for calls of [`sys`]. It stays this value's: it is not freed by them.
    pub fn as_ptr(&self) -> *mut sys::hongpilas_session {
        self.session.as_ptr()
    }
}

impl Drop for Session {
    fn drop(&mut self) {
        // SAFETY: the session is open, and nothing uses it after this.
        unsafe { sys::hongpilas_free(self.as_ptr()) }
    }
}

impl fmt::Debug for Session {
    fn fmt(&self, formatter: &mut fmt::Formatter<'_>) -> fmt::Result {
        formatter.debug_struct("Session").finish_non_exhaustive()
    }
}
