//! Two views of one document: a text goes in and out, each view is notified, a word is replaced everywhere as one undo step, refusals say why, a macro is
//! replayed, and another thread reads a copy.

use hongpilas::{Refusal, Session, ViewId, SCN_MACRORECORD, SCN_MODIFIED, SC_MOD_INSERTTEXT};
use std::borrow::Cow;
use std::thread;

fn shown(text: &[u8]) -> Cow<'_, str> {
    String::from_utf8_lossy(text)
}

/// Prints the notifications of an insertion. The queries of the loop leave them as they are.
fn print_notes(session: &Session) -> Result<(), Refusal> {
    for note in session.notes() {
        if note.code == SCN_MODIFIED && note.kind & SC_MOD_INSERTTEXT != 0 {
            println!(
                "view {} is notified of {:?} at {}, {} lines more, now {}",
                note.view,
                shown(note.text),
                note.position,
                note.lines,
                session.view(note.view).get_line_count()?
            );
        }
    }
    Ok(())
}

/// Inserts a text by one view, and reads it by another.
fn edit(session: &mut Session) -> Result<(), Refusal> {
    let (writer, reader) = (session.new_view()?, session.new_view()?);
    let document = session.view(writer).get_doc_pointer()?;
    session.view_mut(reader).set_doc_pointer(document)?;
    session.view_mut(writer).insert_text(0, "hello,\nworld, hello")?;
    print_notes(session)?;

    let view = session.view(reader);
    println!("{} bytes, {} lines", view.get_length()?, view.get_line_count()?);
    for line in view.lines()? {
        println!("a line: {:?}", shown(&line?));
    }
    println!("lent: {:?}", shown(session.view_mut(reader).lend_range(0, 5)?));

    replace_all(session, writer, "hello", "good morning")?;
    println!("replaced: {:?}", shown(&session.view(reader).get_text()?));
    session.view_mut(reader).undo()?;
    let view = session.view(writer);
    println!("undone: {:?}, redo: {}", shown(&view.get_text()?), view.can_redo()?);
    Ok(())
}

/// Replaces a word everywhere, as one undo step.
fn replace_all(session: &mut Session, view: ViewId, word: &str, other: &str) -> Result<(), Refusal> {
    let mut view = session.view_mut(view);
    let mut group = view.undo_group()?;
    let view = &mut *group;
    view.target_whole_document()?;
    while view.search_in_target(word)? >= 0 {
        view.replace_target(other)?;
        view.set_target_range(view.get_target_end()?, view.get_length()?)?;
    }
    Ok(())
}

/// Records what is typed in a view, and sends it to another.
fn replay(session: &mut Session) -> Result<(), Refusal> {
    let (from, to) = (session.new_view()?, session.new_view()?);
    session.view_mut(from).start_record()?;
    session.view_mut(from).add_text("größer")?;
    let recorded: Vec<_> = session
        .notes()
        .filter(|note| note.code == SCN_MACRORECORD)
        .map(|note| (note.message, note.w, note.l, note.text.to_vec()))
        .collect();
    session.view_mut(from).stop_record()?;
    for (message, w, l, text) in &recorded {
        session.view_mut(to).send(*message, *w, *l, text)?;
    }
    println!("replayed: {:?}", shown(&session.view(to).get_text()?));
    Ok(())
}

/// Counts the words of a view's text on a thread of its own, which has a copy.
fn count_words(session: &Session, view: ViewId) -> Result<usize, Refusal> {
    let text = session.view(view).get_text()?;
    let counting = thread::spawn(move || text.split(u8::is_ascii_whitespace).filter(|word| !word.is_empty()).count());
    Ok(counting.join().unwrap_or(0))
}

fn main() -> Result<(), Refusal> {
    let mut session = Session::new()?;
    edit(&mut session)?;
    replay(&mut session)?;
    let first = ViewId::from(1);
    println!("{} words", count_words(&session, first)?);
    for refused in [
        session.view(first).get_text_range(5, 99).err(),
        session.view_mut(first).send(9999, 0, 0, b"").err(),
        session.view_mut(ViewId::from(9)).undo().err(),
    ] {
        println!("refused: {}", refused.map_or("not", Refusal::name));
    }
    session.close_view(first)
}
