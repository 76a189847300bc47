//! What the examples do not show: which types cross threads, what a refused message leaves, and that ids and sizes meet the library's.

use hongpilas::{
    note_name, DocumentId, Limits, Note, Notes, Refusal, Session, View, ViewId, ViewMut, HONGPILAS_VERSION,
    SCI_GETLINE, SCI_UNDO, SCN_MODIFIED,
};
use std::collections::HashSet;
use std::iter::FusedIterator;
use std::thread;

/// `is_not` names one function where `T` is not `Send`, and one of two where it is: then a call of it does not compile.
trait SentOrNot<Which> {
    fn is_not() {}
}
impl<T: ?Sized> SentOrNot<()> for T {}
impl<T: ?Sized + Send> SentOrNot<u8> for T {}

trait SharedOrNot<Which> {
    fn is_not() {}
}
impl<T: ?Sized> SharedOrNot<()> for T {}
impl<T: ?Sized + Sync> SharedOrNot<u8> for T {}

fn is_sent<T: Send>() {}

#[test]
fn a_session_goes_from_thread_to_thread_and_is_shared_by_none() {
    is_sent::<Session>();
    <Session as SharedOrNot<_>>::is_not();
    <View<'_> as SentOrNot<_>>::is_not();
    <View<'_> as SharedOrNot<_>>::is_not();
    <ViewMut<'_> as SharedOrNot<_>>::is_not();
    <Notes<'_> as SentOrNot<_>>::is_not();
}

#[test]
fn sessions_are_handed_from_thread_to_thread() -> Result<(), Refusal> {
    let mut session = Session::new()?;
    let view = session.new_view()?;
    for round in 0..20 {
        session = thread::spawn(move || {
            session.view_mut(view).append_text("line\n")?;
            assert_eq!(session.view(view).get_line_count()?, round + 2);
            Ok::<_, Refusal>(session)
        })
        .join()
        .unwrap()?;
    }
    session.view_mut(view).undo()?;
    assert_eq!(session.view(view).get_length()?, 0);
    Ok(())
}

#[test]
fn a_refusal_leaves_the_last_reply() -> Result<(), Refusal> {
    let mut session = Session::new()?;
    let view = session.new_view()?;
    session.view_mut(view).insert_text(0, "one\ntwo")?;
    assert_eq!(session.view_mut(view).send(SCI_GETLINE, 1, 0, b"")?, 3);
    assert_eq!(session.view(view).get_text_range(3, 2), Err(Refusal::BadArgument));
    assert_eq!(session.view_mut(view).send(9999, 0, 0, b""), Err(Refusal::UnknownMessage));
    assert_eq!((session.value(), session.text(), session.notes().len()), (3, &b"two"[..], 0));
    Ok(())
}

#[test]
fn questions_leave_the_last_reply() -> Result<(), Refusal> {
    let mut session = Session::new()?;
    let view = session.new_view()?;
    session.view_mut(view).insert_text(0, "one\ntwo")?;
    let mut codes = Vec::new();
    for note in session.notes() {
        assert_eq!(session.view(note.view).get_length()?, 7);
        assert_eq!(session.view(note.view).get_line(1)?, b"two");
        codes.push(note.code);
    }
    assert_eq!(codes, [2008, 2003, 2008]);
    assert_eq!(session.view_mut(view).lend_line(0)?, b"one\n");
    assert_eq!(session.view_mut(view).lend_range(4, 3)?, b"two");
    for (start, count) in [(-1, 2), (5, -3), (5, 3), (8, 0)] {
        assert_eq!(session.view_mut(view).lend_range(start, count), Err(Refusal::BadArgument));
    }
    assert_eq!(session.view(view).ask(SCI_UNDO, 0, 0), Err(Refusal::UnknownMessage));
    assert_eq!(session.notes().len(), 3);
    Ok(())
}

#[test]
fn two_views_are_held_at_once() -> Result<(), Refusal> {
    let mut session = Session::new()?;
    let (first, second) = (session.new_view()?, session.new_view()?);
    session.view_mut(first).set_text("one")?;
    session.view_mut(second).set_text("other")?;
    let (one, other) = (session.view(first), session.view(second));
    assert_eq!((one.get_text()?, other.get_text()?), (b"one".to_vec(), b"other".to_vec()));
    assert_eq!((one.id(), other.id(), other.session().view(first).get_length()?), (first, second, 3));
    Ok(())
}

#[test]
fn texts_have_any_bytes_and_none() -> Result<(), Refusal> {
    let mut session = Session::new()?;
    let view = session.new_view()?;
    let mut view = session.view_mut(view);
    view.set_text([0, 0xFF, b'\r', b'\n'])?;
    assert_eq!(view.get_text()?, [0, 0xFF, b'\r', b'\n']);
    assert_eq!(view.lend_styled_text(0, 2)?, [0, 0, 0xFF, 0]);
    view.set_text("")?;
    assert_eq!(view.lend_text()?, b"");
    assert_eq!((view.get_text()?, view.lend_range(0, 0)?), (vec![], &b""[..]));
    view.read_range(0, &mut [])
}

#[test]
fn a_length_is_counted_in_bytes() -> Result<(), Refusal> {
    let mut session = Session::new()?;
    let view = session.new_view()?;
    let mut view = session.view_mut(view);
    view.append_text("größer")?;
    view.target_whole_document()?;
    assert_eq!((view.get_length()?, view.search_in_target("ß")?, view.get_target_end()?), (8, 4, 6));
    assert_eq!(view.replace_target("ss")?, 2);
    assert_eq!(view.get_text()?, "grösser".as_bytes());
    Ok(())
}

/// Once it has ended, it stays so.
fn fused<I: FusedIterator>(iterator: I) -> I {
    iterator
}

#[test]
fn notes_are_read_from_both_ends() -> Result<(), Refusal> {
    let mut session = Session::new()?;
    let view = session.new_view()?;
    session.view_mut(view).add_text("ab")?;
    let last: Option<Note<'_>> = session.notes().next_back();
    assert_eq!(
        last.map(|note| (note.view, note.code, note.name(), note.kind, note.text)),
        Some((view, SCN_MODIFIED, Some("SCN_MODIFIED"), 0x2011, &b"ab"[..]))
    );
    let mut notes = fused(session.notes());
    assert_eq!(notes.len(), 3);
    assert_eq!(notes.next().map(|note| note.code), Some(2008));
    assert_eq!(notes.next_back().map(|note| note.code), Some(2008));
    assert_eq!((notes.len(), notes.next().map(|note| note.code)), (1, Some(2003)));
    assert_eq!((notes.len(), notes.next(), notes.next_back()), (0, None, None));
    assert_eq!(session.notes().map(|note| note.text).collect::<HashSet<_>>().len(), 2);
    assert_eq!(session.notes().collect::<HashSet<_>>().len(), 3);
    Ok(())
}

#[test]
fn a_view_has_its_own_notes() -> Result<(), Refusal> {
    let mut session = Session::new()?;
    let (first, second) = (session.new_view()?, session.new_view()?);
    let document = session.view(first).get_doc_pointer()?;
    session.view_mut(second).set_doc_pointer(document)?;
    session.view_mut(first).add_text("ab")?;
    let views = [first, second, first, second, first, second];
    assert_eq!(session.notes().map(|note| note.view).collect::<Vec<_>>(), views);
    assert_eq!(session.notes().rev().map(|note| note.view).collect::<Vec<_>>(), [second, first].repeat(3));
    for id in [first, second] {
        let view = session.view(id);
        let mut notes = view.notes();
        assert_eq!((notes.len(), notes.next().map(|note| note.view), notes.len()), (3, Some(id), 2));
        assert_eq!(notes.rev().map(|note| (note.view, note.code)).collect::<Vec<_>>(), [(id, 2008), (id, 2003)]);
    }
    assert_eq!(session.view(ViewId::from(3)).notes().count(), 0);
    assert!(session.notes().all(|note| note_name(note.code).is_some()));
    Ok(())
}

#[test]
fn lines_are_those_of_the_component() -> Result<(), Refusal> {
    let mut session = Session::new()?;
    let view = session.new_view()?;
    assert_eq!(session.view(view).lines()?.collect::<Vec<_>>(), [Ok(vec![])]);
    session.view_mut(view).set_text("one\r\ntwo\rthree\n\nfive")?;
    let lines = [&b"one\r\n"[..], b"two\r", b"three\n", b"\n", b"five"].map(|line| Ok(line.to_vec()));
    let view = session.view(view);
    assert_eq!(view.lines()?.collect::<Vec<_>>(), lines);
    assert_eq!(view.lines()?.rev().collect::<Vec<_>>(), lines.iter().rev().cloned().collect::<Vec<_>>());
    let mut some = fused(view.lines()?);
    assert_eq!((some.len(), some.nth(1), some.len()), (5, Some(lines[1].clone()), 3));
    assert_eq!((some.next_back(), some.len()), (Some(lines[4].clone()), 2));
    assert_eq!(session.view(ViewId::from(7)).lines().err(), Some(Refusal::NoSuchView));
    Ok(())
}

#[test]
fn an_undo_group_ends_where_a_refusal_leaves_it() -> Result<(), Refusal> {
    fn insert_twice(view: &mut ViewMut<'_>) -> Result<(), Refusal> {
        let mut group = view.undo_group()?;
        group.insert_text(0, "one ")?;
        group.insert_text(99, "two ")
    }
    let mut session = Session::new()?;
    let id = session.new_view()?;
    let mut view = session.view_mut(id);
    assert_eq!(insert_twice(&mut view), Err(Refusal::BadArgument));
    view.append_text("three")?;
    view.undo()?;
    assert_eq!(view.get_text()?, b"one ");
    {
        let mut outer = view.undo_group()?;
        outer.append_text("four ")?;
        let mut inner = outer.undo_group()?;
        inner.append_text("five ")?;
    }
    view.undo()?;
    assert_eq!(view.get_text()?, b"one ");
    Ok(())
}

#[test]
fn documents_have_ids() -> Result<(), Refusal> {
    let mut session = Session::new()?;
    let view = session.new_view()?;
    let mut view = session.view_mut(view);
    let document = view.create_document(0, 0)?;
    view.set_doc_pointer(document)?;
    assert_eq!(view.get_doc_pointer()?, document);
    view.set_doc_pointer(None)?;
    assert!(view.get_doc_pointer()? > document);
    view.release_document(document)?;
    assert_eq!(view.set_doc_pointer(document), Err(Refusal::NoSuchDocument));
    assert_eq!(view.add_ref_document(DocumentId::from(99)), Err(Refusal::NoSuchDocument));
    assert_eq!((i64::from(document), document.to_string()), (2, "2".to_string()));
    Ok(())
}

#[test]
fn views_close_and_are_used_up() -> Result<(), Refusal> {
    let mut limits = Limits::default();
    limits.views = 1;
    let mut session = Session::with_limits(limits)?;
    let view = session.new_view()?;
    assert_eq!(session.new_view(), Err(Refusal::TooMany));
    session.close_view(view)?;
    assert_eq!(session.close_view(view), Err(Refusal::NoSuchView));
    assert_eq!(session.view(view).get_length(), Err(Refusal::NoSuchView));
    assert_eq!(session.new_view().map(u32::from), Ok(2));
    assert_ne!(limits, Limits::GREATEST);
    assert_eq!(Limits::default(), Limits::GREATEST);
    Ok(())
}

#[test]
fn refusals_have_names_and_numbers() {
    assert_eq!(Refusal::TooLong.to_string(), "text too long");
    assert_eq!(Refusal::OutOfMemory.name(), "out of memory");
    assert_eq!(Refusal::TooMany.number(), 7);
    assert!((1..8).all(|number| Refusal::from_number(number).map(Refusal::number) == Some(number)));
    let later = Refusal::from_number(77).expect("77 is no success");
    assert_eq!((later.number(), later.name()), (77, "unknown refusal"));
    assert!(Refusal::OutOfMemory < Refusal::TooMany);
    // SAFETY: a call without arguments.
    assert_eq!(unsafe { hongpilas::sys::hongpilas_version() } / 1000, HONGPILAS_VERSION / 1000);
}
