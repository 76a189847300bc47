//! Opens a file, replaces a word everywhere as one undo step, prints the notifications, and has a thread read a copy of the text.
//!
//!     cargo run --example replace_all -- ../../examples/c/tutorial/sample.txt side n

use hongpilas::{
    Refusal, Session, ViewId, SCFIND_MATCHCASE, SCFIND_WHOLEWORD, SCN_MODIFIED, SC_MOD_DELETETEXT, SC_MOD_INSERTTEXT,
};
use std::error::Error;
use std::io::{self, Write};
use std::{env, fs, thread};

/// Prints the notifications of the last reply: the next message replaces them. The view's mask lets `SCN_MODIFIED` through for insertions and
/// deletions alone.
fn print_notes(session: &Session) {
    for note in session.notes() {
        print!("  {}", note.name().unwrap_or("?"));
        if note.code == SCN_MODIFIED {
            let done = if note.kind & SC_MOD_INSERTTEXT != 0 { "inserted" } else { "deleted" };
            print!(": {} bytes {done} at {}", note.length, note.position);
        }
        println!();
    }
}

/// Appends a file to the text. Undo is not collected meanwhile: nobody can undo the opening.
fn open_file(session: &mut Session, view: ViewId, name: &str) -> Result<(), Box<dyn Error>> {
    let mut view = session.view_mut(view);
    view.set_undo_collection(false)?;
    view.append_text(fs::read(name)?)?;
    print_notes(view.session());
    view.set_undo_collection(true)?;
    view.set_save_point()?;
    print_notes(view.session());
    Ok(())
}

/// Replaces a word everywhere. What is done while the group lives is one undo step.
fn replace_all(session: &mut Session, view: ViewId, word: &str, other: &str) -> Result<(), Refusal> {
    let mut view = session.view_mut(view);
    let mut group = view.undo_group()?;
    let view = &mut *group;
    view.set_search_flags(SCFIND_MATCHCASE | SCFIND_WHOLEWORD)?;
    view.target_whole_document()?;
    while view.search_in_target(word)? >= 0 {
        view.replace_target(other)?;
        print_notes(view.session());
        view.set_target_range(view.get_target_end()?, view.get_length()?)?;
    }
    Ok(())
}

/// Counts the words of a copy, which is the thread's own.
fn count_words(copy: &[u8]) -> usize {
    copy.split(u8::is_ascii_whitespace).filter(|word| !word.is_empty()).count()
}

fn main() -> Result<(), Box<dyn Error>> {
    let arguments: Vec<String> = env::args().collect();
    let [_, name, word, other] = arguments.as_slice() else { return Err("replace_all FILE WORD OTHER".into()) };
    if word.is_empty() {
        return Err("the word is empty".into());
    }
    let mut session = Session::new()?;
    let view = session.new_view()?;
    session.view_mut(view).set_mod_event_mask(SC_MOD_INSERTTEXT | SC_MOD_DELETETEXT)?;
    println!("open");
    open_file(&mut session, view, name)?;
    let copy = session.view(view).get_text()?;
    let counting = thread::spawn(move || count_words(&copy));
    println!("replace");
    replace_all(&mut session, view, word, other)?;
    io::stdout().write_all(&session.view(view).get_text()?)?;
    println!("undo");
    session.view_mut(view).undo()?;
    print_notes(&session);
    println!("{} words in the copy", counting.join().map_err(|_| "the thread panicked")?);
    Ok(())
}
