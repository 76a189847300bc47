//! Views: messages are their methods.

use crate::{lent, DocumentId, Lines, Notes, Refusal, Session, ViewId};
use hongpilas_sys as sys;
use std::marker::PhantomData;
use std::ops::{Deref, DerefMut};
use std::ptr;

/// A position or a length of a range, which is not negative.
fn size_of_range(number: i64) -> Result<usize, Refusal> {
    usize::try_from(number).map_err(|_| Refusal::BadArgument)
}

/// A view of a session, to send queries to it. [`Session::view`] makes one.
///
/// A query changes nothing, the last reply neither, and so it borrows the session as shared. A text that it returns is a copy.
///
/// ```
/// let mut session = hongpilas::Session::new()?;
/// let view = session.new_view()?;
/// session.view_mut(view).insert_text(0, "one\ntwo")?;
/// let view = session.view(view);
/// assert_eq!((view.get_line(0)?, view.get_line(1)?), (b"one\n".to_vec(), b"two".to_vec()));
/// # Ok::<(), hongpilas::Refusal>(())
/// ```
// It is no Copy: a ViewMut lends one, which may not outlive its next message.
#[derive(Debug)]
pub struct View<'s> {
    session: &'s Session,
    id: ViewId,
}

/// A view of a session, to send messages to it. [`Session::view_mut`] makes one.
///
/// It borrows the session as mutable. All queries of a [`View`] are its methods, too; a query may stand among the arguments of a message:
///
/// ```
/// let mut session = hongpilas::Session::new()?;
/// let view = session.new_view()?;
/// let mut view = session.view_mut(view);
/// view.insert_text(0, "one\ntwo")?;
/// view.set_target_range(view.get_target_end()?, view.get_length()?)?;
/// assert_eq!(view.get_line(view.get_line_count()? - 1)?, b"two");
/// # Ok::<(), hongpilas::Refusal>(())
/// ```
///
/// The methods whose names begin with `lend` return borrowed bytes, without a copy. They are valid until the next call, and what uses them later does not
/// compile:
///
/// ```compile_fail,E0499
/// let mut session = hongpilas::Session::new()?;
/// let view = session.new_view()?;
/// let mut view = session.view_mut(view);
/// let first = view.lend_line(0)?;
/// let second = view.lend_line(1)?;
/// assert_ne!(first, second);
/// # Ok::<(), hongpilas::Refusal>(())
/// ```
///
/// ```compile_fail,E0502
/// let mut session = hongpilas::Session::new()?;
/// let view = session.new_view()?;
/// let mut view = session.view_mut(view);
/// let bytes = view.lend_range(0, 0)?;
/// view.get_length()?;
/// assert_eq!(bytes, b"");
/// # Ok::<(), hongpilas::Refusal>(())
/// ```
#[derive(Debug)]
pub struct ViewMut<'s> {
    view: View<'s>,
    alone: PhantomData<&'s mut Session>,
}

impl<'s> View<'s> {
    pub(crate) fn of(session: &'s Session, id: ViewId) -> View<'s> {
        View { session, id }
    }

    /// The view's id.
    pub fn id(&self) -> ViewId {
        self.id
    }

    /// The session, for its last reply and its other views.
    pub fn session(&self) -> &Session {
        self.session
    }

    /// The notifications of this view in the last reply, whichever view that came from; [`Session::notes`] has those of all views.
    ///
    /// ```
    /// let mut session = hongpilas::Session::new()?;
    /// let (first, second) = (session.new_view()?, session.new_view()?);
    /// let document = session.view(first).get_doc_pointer()?;
    /// session.view_mut(second).set_doc_pointer(document)?;
    /// session.view_mut(first).insert_text(0, "hello")?;
    /// assert_eq!(session.notes().len(), 6);
    /// assert_eq!(session.view(second).notes().len(), 3);
    /// assert!(session.view(second).notes().all(|note| note.view == second));
    /// # Ok::<(), hongpilas::Refusal>(())
    /// ```
    pub fn notes(&self) -> Notes<'_> {
        Notes::of(self.session, Some(self.id))
    }

    /// Sends any query, and returns its value. The message table says what `w` and `l` mean.
    ///
    /// # Errors
    /// [`Refusal::UnknownMessage`] if the message is no query; else the refusals that the message table states.
    pub fn ask(&self, number: u32, w: i64, l: i64) -> Result<i64, Refusal> {
        let mut value = 0;
        // SAFETY: the session is open, and no other call is made on it at once, since it is not Sync. The place is this function's own.
        let answer = unsafe { sys::hongpilas_ask(self.session.as_ptr(), self.id.into(), number, w, l, &mut value) };
        Refusal::check(answer).map(|()| value)
    }

    /// Sends any query that returns a text, and returns a copy of that.
    ///
    /// # Errors
    /// Those of [`ask`](View::ask), and [`Refusal::OutOfMemory`].
    pub fn read(&self, number: u32, w: i64, l: i64) -> Result<Vec<u8>, Refusal> {
        // SAFETY: the bytes are copied before the next call. None that were lent so are in use: what lends them borrows the session as mutable.
        let bytes = unsafe { self.lent_by(number, w, l)? };
        let mut copy = Vec::new();
        copy.try_reserve_exact(bytes.len()).map_err(|_| Refusal::OutOfMemory)?;
        copy.extend_from_slice(bytes);
        Ok(copy)
    }

    /// Copies the bytes of the view's document from `start` on, as many as `into` has.
    ///
    /// ```
    /// let mut session = hongpilas::Session::new()?;
    /// let view = session.new_view()?;
    /// session.view_mut(view).insert_text(0, "hello, world")?;
    /// let mut bytes = [0; 5];
    /// session.view(view).read_range(7, &mut bytes)?;
    /// assert_eq!(&bytes, b"world");
    /// assert!(session.view(view).read_range(8, &mut bytes).is_err());
    /// # Ok::<(), hongpilas::Refusal>(())
    /// ```
    ///
    /// # Errors
    /// [`Refusal::BadArgument`] if the range does not lie in the text; [`Refusal::NoSuchView`].
    pub fn read_range(&self, start: i64, into: &mut [u8]) -> Result<(), Refusal> {
        let start = size_of_range(start)?;
        // SAFETY: the session is open. No bytes of a document are lent: what lends them borrows the session as mutable. So nobody minds that this may
        // move them.
        Refusal::check(unsafe {
            sys::hongpilas_copy_range(
                self.session.as_ptr(),
                self.id.into(),
                start,
                into.as_mut_ptr().cast(),
                into.len(),
            )
        })
    }

    /// The lines of the view's document, each with its line end.
    ///
    /// ```
    /// let mut session = hongpilas::Session::new()?;
    /// let view = session.new_view()?;
    /// session.view_mut(view).insert_text(0, "one\r\ntwo\n")?;
    /// let lines = session.view(view).lines()?.collect::<Result<Vec<_>, _>>()?;
    /// assert_eq!(lines, [&b"one\r\n"[..], b"two\n", b""]);
    /// # Ok::<(), hongpilas::Refusal>(())
    /// ```
    ///
    /// # Errors
    /// [`Refusal::NoSuchView`].
    pub fn lines(&self) -> Result<Lines<'_>, Refusal> {
        let count = self.get_line_count()?;
        Ok(Lines::of(View::of(self.session, self.id), count))
    }

    pub(crate) fn ask_flag(&self, number: u32, w: i64, l: i64) -> Result<bool, Refusal> {
        self.ask(number, w, l).map(|value| value != 0)
    }

    pub(crate) fn ask_document(&self, number: u32, w: i64, l: i64) -> Result<DocumentId, Refusal> {
        self.ask(number, w, l).map(DocumentId::from)
    }

    /// The text of a query, lent until the next call of this, or the session's end.
    ///
    /// # Safety
    /// This is called no more as long as the bytes are used, nor is the session dropped.
    unsafe fn lent_by<'a>(&self, number: u32, w: i64, l: i64) -> Result<&'a [u8], Refusal> {
        let (mut bytes, mut length) = (ptr::null(), 0);
        let (session, view) = (self.session.as_ptr(), self.id.into());
        let answer = sys::hongpilas_read(session, view, number, w, l, &mut bytes, &mut length, ptr::null_mut());
        Refusal::check(answer)?;
        Ok(lent(bytes, length))
    }
}

impl<'s> ViewMut<'s> {
    pub(crate) fn of(session: &'s mut Session, id: ViewId) -> ViewMut<'s> {
        ViewMut { view: View::of(session, id), alone: PhantomData }
    }

    /// Sends any message, and returns its value. The message table says what `w`, `l` and the text mean. The reply, with its text and its notifications,
    /// replaces the session's last one.
    ///
    /// # Errors
    /// The refusals that the message table states, and then nothing has changed.
    pub fn send(&mut self, number: u32, w: i64, l: i64, text: &[u8]) -> Result<i64, Refusal> {
        let mut value = 0;
        // SAFETY: the session is open, and is borrowed as mutable, so that none of its bytes are lent: neither do others use what this replaces, nor has the
        // text any of them. The place is this function's own.
        let answer = unsafe {
            sys::hongpilas_send(
                self.session.as_ptr(),
                self.id.into(),
                number,
                w,
                l,
                text.as_ptr().cast(),
                text.len(),
                &mut value,
            )
        };
        Refusal::check(answer).map(|()| value)
    }

    /// Sends any query that returns a text, and lends that, without a copy. The last reply stays.
    ///
    /// # Errors
    /// Those of [`ask`](View::ask), and [`Refusal::OutOfMemory`].
    pub fn lend(&mut self, number: u32, w: i64, l: i64) -> Result<&[u8], Refusal> {
        // SAFETY: the session is borrowed as mutable as long as the bytes are used.
        unsafe { self.lent_by(number, w, l) }
    }

    /// Lends the `count` bytes of the view's document from `start` on, without a copy.
    ///
    /// ```
    /// let mut session = hongpilas::Session::new()?;
    /// let view = session.new_view()?;
    /// let mut view = session.view_mut(view);
    /// view.insert_text(0, "hello, world")?;
    /// assert_eq!(view.lend_range(7, 5)?, b"world");
    /// assert!(view.lend_range(7, 6).is_err());
    /// # Ok::<(), hongpilas::Refusal>(())
    /// ```
    ///
    /// # Errors
    /// [`Refusal::BadArgument`] if the range does not lie in the text; [`Refusal::NoSuchView`].
    pub fn lend_range(&mut self, start: i64, count: i64) -> Result<&[u8], Refusal> {
        let (start, count) = (size_of_range(start)?, size_of_range(count)?);
        let mut bytes = ptr::null();
        // SAFETY: the session is open, and is borrowed as mutable as long as the bytes are used.
        unsafe {
            let (session, view) = (self.session.as_ptr(), self.id.into());
            Refusal::check(sys::hongpilas_lend_range(session, view, start, count, &mut bytes))?;
            Ok(lent(bytes, count))
        }
    }

    /// Begins an undo group, which ends when the guard is dropped. The guard is the view, by which what belongs to the group is sent.
    ///
    /// ```
    /// let mut session = hongpilas::Session::new()?;
    /// let view = session.new_view()?;
    /// let mut view = session.view_mut(view);
    /// {
    ///     let mut group = view.undo_group()?;
    ///     group.insert_text(0, "one")?;
    ///     group.append_text("two")?;
    /// }
    /// view.undo()?;
    /// assert_eq!(view.get_text()?, b"");
    /// # Ok::<(), hongpilas::Refusal>(())
    /// ```
    ///
    /// # Errors
    /// [`Refusal::TooMany`] at the limit of the depth of groups; [`Refusal::NoSuchView`].
    pub fn undo_group(&mut self) -> Result<UndoGroup<'_>, Refusal> {
        self.begin_undo_action()?;
        let View { session, id } = self.view;
        Ok(UndoGroup { view: ViewMut { view: View::of(session, id), alone: PhantomData } })
    }

    pub(crate) fn as_done(&mut self, number: u32, w: i64, l: i64, text: &[u8]) -> Result<(), Refusal> {
        self.send(number, w, l, text).map(drop)
    }

    pub(crate) fn as_document(&mut self, number: u32, w: i64, l: i64, text: &[u8]) -> Result<DocumentId, Refusal> {
        self.send(number, w, l, text).map(DocumentId::from)
    }
}

impl<'s> Deref for ViewMut<'s> {
    type Target = View<'s>;

    fn deref(&self) -> &View<'s> {
        &self.view
    }
}

/// An open undo group of a view, which it borrows: what is sent by it is undone at once. [`ViewMut::undo_group`] begins one.
///
/// When it is dropped it sends ENDUNDOACTION, which replaces the last reply: read notifications before. Groups may lie in groups.
#[derive(Debug)]
pub struct UndoGroup<'v> {
    view: ViewMut<'v>,
}

impl<'v> Deref for UndoGroup<'v> {
    type Target = ViewMut<'v>;

    fn deref(&self) -> &ViewMut<'v> {
        &self.view
    }
}

impl DerefMut for UndoGroup<'_> {
    fn deref_mut(&mut self) -> &mut Self::Target {
        &mut self.view
    }
}

impl Drop for UndoGroup<'_> {
    fn drop(&mut self) {
        // It is refused if there is no such view, and then there is no group of it either.
        let _ = self.view.end_undo_action();
    }
}
